//! The worked examples of docs/checksum.md: what a host sends, what of it reaches the
//! decoder, and the registers of both after each packet. They were worked out without either
//! program.

use std::fs;

use second::mirror::Mirror;

use crate::tables::{cells, read_packet, read_register, read_talking, tables, Line, Table};
use crate::worked::{is_checksum, Row, Worked};

/// That of every example.
const HEADING: &str =
    "| Sent | Host's register | Reached | Decoder's register | Talking | What it is |";

/// Tables with fewer columns, or with more, are no examples.
const COLUMNS: usize = 6;

/// What stands in place of a packet where none was sent, or none arrives.
const NOTHING: &str = "-";

/// One row of an example: what is sent and what arrives of it, and both sides after that.
#[derive(Clone, Copy, Debug, PartialEq, Eq)]
struct Both {
    line: usize,
    sent: Option<u32>,
    host_register: u32,
    reached: Option<u32>,
    decoder: Mirror,
}

/// Says how many examples there are.
pub fn compare(path: &str, exchange: &[String]) -> Result<usize, String> {
    let text = fs::read_to_string(path).map_err(|error| format!("{path}: {error}"))?;
    let in_file = |fault| format!("{path}: {fault}");
    let examples = read_examples(&text).map_err(in_file)?;
    let worked = worked(&examples).map_err(in_file)?;
    worked.hold(exchange).map_err(in_file)?;
    Ok(examples.len())
}

/// The rows of each.
fn read_examples(text: &str) -> Result<Vec<Vec<Both>>, String> {
    let tables = tables(text);
    let examples = tables
        .iter()
        .filter(|table| cells::<COLUMNS>(table.heading()).is_some());
    let examples: Vec<Vec<Both>> = examples.map(read_example).collect::<Result<_, _>>()?;
    match examples.len() {
        0 => Err(format!("has no table with the heading {HEADING}")),
        _ => Ok(examples),
    }
}

/// A slip in a heading is told, so that no example is passed over.
fn read_example(table: &Table) -> Result<Vec<Both>, String> {
    match table.heading() {
        HEADING => table.rows(read_both),
        other => Err(format!("has a table with the heading {other}")),
    }
}

/// The hosts' sides and the decoders'.
fn worked(examples: &[Vec<Both>]) -> Result<Worked, String> {
    let (mut hosts, mut decoders) = (Vec::new(), Vec::new());
    for rows in examples {
        match rows.last() {
            None => return Err("has an example without rows".to_string()),
            Some(last) if last.sent.is_some_and(is_checksum) => {}
            Some(last) => {
                let line = last.line;
                return Err(format!(
                    "line {line} ends an example, and sends no checksum"
                ));
            }
        }
        hosts.push(side(rows, |row| row.sent, host_mirrors(rows))?);
        let mirrors = rows.iter().map(|row| row.decoder).collect();
        decoders.push(side(rows, |row| row.reached, mirrors)?);
    }
    Ok(Worked::new(&hosts, &decoders))
}

fn read_both(line: &Line) -> Option<Both> {
    let [sent, host_register, reached, decoder_register, talking, _] = cells::<COLUMNS>(line.text)?;
    Some(Both {
        line: line.number,
        sent: read_packet_or_nothing(sent)?,
        host_register: read_register(host_register)?,
        reached: read_packet_or_nothing(reached)?,
        decoder: Mirror {
            register: read_register(decoder_register)?,
            talking: read_talking(talking)?,
        },
    })
}

fn read_packet_or_nothing(cell: &str) -> Option<Option<u32>> {
    match cell {
        NOTHING => Some(None),
        packet => read_packet(packet).map(Some),
    }
}

/// The host's mirror after each row. That it talks is in no column: it does from a checksum
/// of its own until it sends something else, since each of its checksums is the closing one.
fn host_mirrors(rows: &[Both]) -> Vec<Mirror> {
    let mut talking = 0;
    let mirrors = rows.iter().map(|row| {
        if let Some(packet) = row.sent {
            talking = u32::from(is_checksum(packet));
        }
        Mirror {
            register: row.host_register,
            talking,
        }
    });
    mirrors.collect()
}

/// The packets of one side, each with the mirror after it. A row without a packet leaves the
/// mirror as it was, and an example begins with a packet on both sides.
fn side(
    rows: &[Both],
    packet_of: fn(&Both) -> Option<u32>,
    mirrors: Vec<Mirror>,
) -> Result<Vec<Row>, String> {
    let mut side: Vec<Row> = Vec::new();
    for (row, after) in rows.iter().zip(mirrors) {
        let line = row.line;
        match (packet_of(row), side.last()) {
            (Some(packet), _) => side.push(Row {
                line,
                packet,
                after,
            }),
            (None, Some(above)) if above.after == after => {}
            (None, Some(_)) => {
                return Err(format!("line {line} changes a mirror without a packet"))
            }
            (None, None) => return Err(format!("line {line} begins an example without a part ID")),
        }
    }
    Ok(side)
}

#[cfg(test)]
mod tests {
    use super::*;

    const DOCUMENT: &str = include_str!("../../../../docs/checksum.md");

    /// The second packet does not arrive, and the checksum arrives changed to what fits.
    const EXAMPLE: &str = "\
| Sent | Host's register | Reached | Decoder's register | Talking | What it is |
|---|---|---|---|---|---|
| FF000106 | 000106 | FF000106 | 000106 | no | part ID |
| 800084D2 | 0085D4 | 800084D2 | 0085D4 | no | user address |
| 78000001 | 0085D5 | - | 0085D4 | no | user address enable |
| 000085D5 | 0085D5 | 000085D4 | 0085D4 | yes | the closing checksum |
";

    /// What is told of the examples of a document, with the second program alone.
    fn second(document: &str) -> Result<(), String> {
        let examples = read_examples(document)?;
        worked(&examples)?.hold_second()
    }

    #[test]
    fn the_second_program_is_as_the_examples_have_it() {
        assert_eq!(second(DOCUMENT), Ok(()));
        assert_eq!(second(EXAMPLE), Ok(()));
    }

    #[test]
    fn rows() {
        let read = |text: &str| read_both(&Line { number: 5, text });
        let row = Both {
            line: 5,
            sent: Some(0x7800_0001),
            host_register: 0x00_85D5,
            reached: None,
            decoder: Mirror {
                register: 0x00_85D4,
                talking: 0,
            },
        };
        let line = "| 78000001 | 0085D5 | - | 0085D4 | no | words |";
        assert_eq!(read(line), Some(row));
        for (old, new) in [
            ("78000001", "7800001"),
            ("78000001", ""),
            ("78000001", "--"),
            ("0085D5", "85D5"),
            ("0085D5", "-"),
            ("| - |", "| |"),
            ("| no |", "| No |"),
            ("| no |", "|"),
            ("words |", "words"),
            ("words |", "words | more |"),
        ] {
            assert_eq!(read(&line.replace(old, new)), None, "{new}");
        }
    }

    #[track_caller]
    fn assert_told(old: &str, new: &str, told: &str) {
        assert_eq!(EXAMPLE.matches(old).count(), 1, "{old}");
        let outcome = second(&EXAMPLE.replace(old, new));
        let fault = outcome.expect_err("something is wrong");
        assert!(fault.starts_with(told), "{fault}");
    }

    #[test]
    fn slips_are_told() {
        let row = "| 78000001 | 0085D5 | - | 0085D4 |";
        let slip = "| 78000001 | 0085D5 | | 0085D4 |";
        assert_told(row, slip, "line 5 is no row of its table: | 78000001");
        let told = "has a table with the heading | Sent | Host's register | Arrived |";
        assert_told("Reached", "Arrived", told);
        assert_told("|---|---|---|---|---|---|\n", "", "line 2 is no rule");
        let told = "line 5 changes a mirror without a packet";
        assert_told("| - | 0085D4 | no |", "| - | 0085D5 | no |", told);
        assert_told("| - | 0085D4 | no |", "| - | 0085D4 | yes |", told);
        let told = "line 3 begins an example without a part ID";
        assert_told("| FF000106 | 000106 | F", "| - | 000106 | F", told);
        let told = "line 6 ends an example, and sends no checksum";
        assert_told("| 000085D5 | 0085D5 |", "| - | 0085D5 |", told);
        assert_told("| 000085D5 | 0085D5 |", "| 02000000 | 0085D5 |", told);
        let heading = EXAMPLE.lines().next().expect("it has lines");
        let empty = format!("{heading}\n|---|---|---|---|---|---|\n");
        assert_eq!(
            second(&empty),
            Err("has an example without rows".to_string())
        );
    }

    #[test]
    fn other_tables_are_passed_over() {
        let other = "| Sent | What |\n|---|---|\n| nothing | of it |\n\n";
        assert_eq!(second(&[other, EXAMPLE, "\n", other].concat()), Ok(()));
        let told = format!("has no table with the heading {HEADING}");
        assert_eq!(second(other), Err(told));
    }

    #[test]
    fn wrong_numbers_are_told() {
        let told = "line 3: reset with FE000106";
        assert_told("| FF000106 | 000106 | F", "| FE000106 | 000106 | F", told);
        let told = "line 5: mirror of register 0085D4";
        assert_told("| 78000001 | 0085D5 |", "| 78000001 | 0085D4 |", told);
        let told = "line 6: mirror of register 0085D4";
        assert_told("| 0085D4 | yes |", "| 0085D4 | no |", told);
        let told = "line 6: mirror of register 0085D5, talking 0, after 000085D4";
        assert_told("| 000085D5 | 0085D5 |", "| 000085D4 | 0085D5 |", told);
        let told = "line 4: whether 900084D2 may be sent";
        assert_told("| 800084D2 | 0085D4 | 8", "| 900084D2 | 0085D4 | 8", told);
    }

    /// Each number that a document gives on its own is needed as it stands.
    #[test]
    fn every_wrong_number_of_the_document_is_told() {
        let examples = read_examples(DOCUMENT).expect("it has examples");
        let changes: [fn(&mut Both); 4] = [
            |row| row.sent = row.sent.map(|packet| packet ^ 1),
            |row| row.host_register ^= 1 << 23,
            |row| row.decoder.register ^= 1,
            |row| row.decoder.talking ^= 1,
        ];
        for example in &examples {
            for (place, change) in
                (0..example.len()).flat_map(|place| changes.map(|change| (place, change)))
            {
                let mut wrong = example.clone();
                change(&mut wrong[place]);
                if wrong != *example {
                    let outcome = worked(&[wrong]).and_then(|worked| worked.hold_second());
                    assert!(outcome.is_err(), "line {}", example[place].line);
                }
            }
        }
    }
}
