//! The sample start-up of docs/start-up.md: both mirrors are held to its tables,
//! which were worked out without either.

use std::fs;

use second::mirror::Mirror;

use crate::tables::{cells, read_packet, read_register, read_talking, tables, Line};
use crate::worked::{is_checksum, Row, Worked};

pub fn compare(path: &str, exchange: &[String]) -> Result<String, String> {
    let text = fs::read_to_string(path).map_err(|error| format!("{path}: {error}"))?;
    let in_file = |fault| format!("{path}: {fault}");
    let rows = read_rows(&text).map_err(in_file)?;
    let steps = rows.len().saturating_sub(1);
    let packets = rows.iter().map(|row| row.packet);
    let closings = packets.filter(|packet| is_checksum(*packet)).count();
    if steps == 0 {
        return Err(in_file("has no start-up of at least two rows".to_string()));
    }
    let worked = Worked::new(&[rows], &[]);
    worked.hold(exchange).map_err(in_file)?;
    Ok(format!(
        "start-up: a reset, {steps} steps, the run of them and the {closings} closing checksums \
         are as {path} has them, and the {steps} packets may be sent"
    ))
}

/// The rows of all tables in the text: each goes on where the one before it ends.
fn read_rows(text: &str) -> Result<Vec<Row>, String> {
    let tables = tables(text);
    let rows: Result<Vec<Vec<Row>>, String> =
        tables.iter().map(|table| table.rows(read_row)).collect();
    rows.map(|rows| rows.concat())
}

fn read_row(line: &Line) -> Option<Row> {
    let [packet, _, register, talking] = cells(line.text)?;
    Some(Row {
        line: line.number,
        packet: read_packet(packet)?,
        after: Mirror {
            register: read_register(register)?,
            talking: read_talking(talking)?,
        },
    })
}

#[cfg(test)]
mod tests {
    use super::*;
    use second::address::{address_words, Words};
    use second::capcode::{read_with_place, Phase};
    use second::frames::{frames_listened, Listener, MOST_LISTENERS};
    use second::layout::{build, Kind};
    use second::packet::{
        AddressEnable, Checksum, Configuration, Control, FrameAssignment, PartId, UserAddress,
    };

    const SAMPLE: &str = include_str!("../../../docs/start-up.md");

    fn built(fields: impl Kind) -> u32 {
        build(&fields).expect("the fields fit")
    }

    /// Packets 20H to 27H for the CAPCODE alone.
    fn frame_assignments(frame: u32, collapse: u32) -> Vec<u32> {
        let mut listeners = [Listener::default(); MOST_LISTENERS];
        listeners[0] = Listener { frame, collapse };
        let masks = frames_listened(&listeners, 1)
            .expect("the listener is one")
            .masks;
        (0..)
            .zip(masks)
            .map(|(range, mask)| {
                let frames = u32::from(mask);
                built(FrameAssignment { range, frames })
            })
            .collect()
    }

    /// What is sent again: the address at location 0, and that it is enabled.
    fn address_block(word: u32) -> [u32; 2] {
        let address = UserAddress {
            word,
            ..Default::default()
        };
        [built(address), built(AddressEnable { enabled: 1 })]
    }

    /// The packets of the tables are those that their second column speaks of.
    #[test]
    fn the_packets_are_those_of_the_capcode() {
        let (capcode, place) = read_with_place(b"E0001234").expect("it is a CAPCODE");
        assert_eq!(place.phase, Phase::Any);
        let Ok(Words::Short(word)) = address_words(capcode.address) else {
            panic!("the address is short");
        };
        let mut packets = vec![
            built(PartId {
                model: 0,
                compatibility: 1,
                revision: 6,
            }),
            built(Configuration {
                oscillator: 1,
                synchronous_mode: 1,
                minute_timer: 1,
                ..Default::default()
            }),
        ];
        packets.extend(frame_assignments(place.base_frame, capcode.collapse));
        packets.extend(address_block(word));
        packets.push(built(Control {
            on: 1,
            ..Default::default()
        }));
        packets.push(built(Checksum { value: 0x01_8544 }));
        for value in [0x01_0197, 0x01_8544] {
            packets.extend(address_block(word));
            packets.push(built(Checksum { value }));
        }
        let rows = read_rows(SAMPLE).expect("the sample is a start-up");
        let table: Vec<u32> = rows.iter().map(|row| row.packet).collect();
        assert_eq!(table, packets);
    }

    fn row_of(text: &str) -> Option<Row> {
        read_row(&Line { number: 7, text })
    }

    #[test]
    fn rows() {
        let row = Row {
            line: 7,
            packet: 0x0340_0000,
            after: Mirror {
                register: 0x40_0116,
                talking: 1,
            },
        };
        assert_eq!(row_of("| 03400000 | words | 400116 | yes |"), Some(row));
        for slip in [
            "| 3400000 | words | 400116 | yes |",
            "| 03400000 | words | +40116 | yes |",
            "| 03400000 | words | 0400116 | yes |",
            "| 03400000 | words | 400116 | maybe |",
            "| 03400000 | words | 400116 |",
            "| 03400000 | words | 400116 | yes | no |",
            "03400000",
        ] {
            assert_eq!(row_of(slip), None, "{slip}");
        }
    }

    #[test]
    fn a_table_with_a_slip_is_none() {
        let slip = "| Packet | |\n|---|\n| FF000106 | words | 000106 | no |\n| FF |\n";
        let told = read_rows(slip).expect_err("there is a slip");
        assert_eq!(told, "line 4 is no row of its table: | FF |");
        assert_eq!(read_rows("no table"), Ok(vec![]));
    }

    #[test]
    fn the_second_program_is_as_the_sample_has_it() {
        let rows = read_rows(SAMPLE).expect("the sample is a start-up");
        assert_eq!(Worked::new(&[rows], &[]).hold_second(), Ok(()));
    }

    #[test]
    fn every_wrong_number_of_the_sample_is_told() {
        let rows = read_rows(SAMPLE).expect("the sample is a start-up");
        let changes: [fn(&mut Row); 3] = [
            |row| row.packet ^= 1,
            |row| row.after.register ^= 1 << 23,
            |row| row.after.talking ^= 1,
        ];
        for place in 0..rows.len() {
            for change in changes {
                let mut wrong = rows.clone();
                change(&mut wrong[place]);
                let outcome = Worked::new(&[wrong], &[]).hold_second();
                assert!(outcome.is_err(), "line {}", rows[place].line);
            }
        }
    }
}
