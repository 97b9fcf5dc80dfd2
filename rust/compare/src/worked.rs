//! Start-ups that were worked out by hand, as the tables of a document have them: both
//! programs are held to every row.

use second::layout::id_of;
use second::mirror::Mirror;
use second::packet::CHECKSUM;

use crate::exchange::{self, Request};
use crate::host::Told;
use crate::packets::mirrors::{Closing, Reset, Run, Step};
use crate::packets::readers::MaySend;

/// A packet, and the mirror after it. The first one of a start-up is the part ID.
#[derive(Clone, Copy, Debug, PartialEq, Eq)]
pub struct Row {
    /// The number of its line in the document.
    pub line: usize,
    pub packet: u32,
    pub after: Mirror,
}

pub fn is_checksum(packet: u32) -> bool {
    id_of(packet) == CHECKSUM
}

/// What the rows of start-ups say is answered.
pub struct Worked {
    resets: Vec<Held<Reset>>,
    /// From each row to the next.
    steps: Vec<Held<Step>>,
    /// All rows after the first.
    runs: Vec<Held<Run>>,
    closings: Vec<Held<Closing>>,
    may_send: Vec<Held<MaySend>>,
}

impl Worked {
    /// Start-ups as hosts send them, and as they reach decoders. Of a host each checksum is
    /// the closing one, the last packet is one of them, and all packets after the part ID
    /// may be sent; to a decoder anything may come.
    pub fn new(hosts: &[Vec<Row>], decoders: &[Vec<Row>]) -> Worked {
        let both = [hosts, decoders].concat();
        Worked {
            resets: of_all(&both, resets),
            steps: of_all(&both, steps),
            runs: of_all(&both, runs),
            closings: of_all(hosts, closings),
            may_send: of_all(hosts, may_send),
        }
    }

    /// Holds both programs to the rows: first the second program, then the library to the
    /// second program.
    pub fn hold(self, exchange: &[String]) -> Result<(), String> {
        self.hold_second()?;
        hold_library(exchange, self.resets)?;
        hold_library(exchange, self.steps)?;
        hold_library(exchange, self.runs)?;
        hold_library(exchange, self.closings)?;
        hold_library(exchange, self.may_send)
    }

    pub fn hold_second(&self) -> Result<(), String> {
        hold_second(&self.resets)?;
        hold_second(&self.steps)?;
        hold_second(&self.runs)?;
        hold_second(&self.closings)?;
        hold_second(&self.may_send)
    }
}

fn of_all<R: Request>(start_ups: &[Vec<Row>], held: fn(&[Row]) -> Vec<Held<R>>) -> Vec<Held<R>> {
    start_ups.iter().flat_map(|rows| held(rows)).collect()
}

/// What a row says is answered to a request.
struct Held<R: Request> {
    line: usize,
    request: R,
    table: R::Answer,
}

fn resets(rows: &[Row]) -> Vec<Held<Reset>> {
    let reset = |row: &Row| Held {
        line: row.line,
        request: Reset { packet: row.packet },
        table: accepted(row.after),
    };
    rows.first().map(reset).into_iter().collect()
}

fn steps(rows: &[Row]) -> Vec<Held<Step>> {
    let step = |pair: &[Row]| Held {
        line: pair[1].line,
        request: Step {
            mirror: pair[0].after,
            packet: pair[1].packet,
        },
        table: accepted(pair[1].after),
    };
    rows.windows(2).map(step).collect()
}

fn runs(rows: &[Row]) -> Vec<Held<Run>> {
    let [first, rest @ ..] = rows else {
        return Vec::new();
    };
    let last = rest.last().unwrap_or(first);
    vec![Held {
        line: last.line,
        request: Run {
            mirror: first.after,
            packets: rest.iter().map(|row| row.packet).collect(),
        },
        table: accepted(last.after),
    }]
}

fn closings(rows: &[Row]) -> Vec<Held<Closing>> {
    let closing = |pair: &[Row]| Held {
        line: pair[1].line,
        request: Closing {
            mirror: pair[0].after,
        },
        table: accepted(pair[1].packet),
    };
    let last = rows.last();
    let pairs = rows.windows(2);
    pairs
        .filter(|pair| is_checksum(pair[1].packet) || Some(&pair[1]) == last)
        .map(closing)
        .collect()
}

fn may_send(rows: &[Row]) -> Vec<Held<MaySend>> {
    let may_send = |row: &Row| Held {
        line: row.line,
        request: MaySend { packet: row.packet },
        table: accepted(()),
    };
    rows.iter().skip(1).map(may_send).collect()
}

fn accepted<F>(fields: F) -> Told<F> {
    Told { number: 0, fields }
}

/// A difference is told in hexadecimal, as the tables are.
fn hold_second<R: Request>(held: &[Held<R>]) -> Result<(), String> {
    for held in held {
        let (table, second) = (&held.table, held.request.second());
        if second != *table {
            let (line, question) = (held.line, held.request.question());
            return Err(format!(
                "line {line}: {question}\n  table   {table:X?}\n  second  {second:X?}"
            ));
        }
    }
    Ok(())
}

fn hold_library<R: Request>(exchange: &[String], held: Vec<Held<R>>) -> Result<(), String> {
    let requests = held.into_iter().map(|held| held.request);
    let requests: Vec<R> = requests.collect();
    exchange::compare(exchange, requests.into_iter()).map(drop)
}

#[cfg(test)]
mod tests {
    use super::*;

    fn row(line: usize, packet: u32, register: u32, talking: u32) -> Row {
        Row {
            line,
            packet,
            after: Mirror { register, talking },
        }
    }

    /// 01, proved example 9.
    fn marked_case() -> Vec<Row> {
        vec![
            row(1, 0xFF00_0106, 0x00_0106, 0),
            row(2, 0x0100_0010, 0x00_0116, 0),
            row(3, 0x0340_0000, 0x40_0116, 0),
            row(4, 0x0040_0116, 0x40_0116, 1),
        ]
    }

    /// What the second program is told of as a host's start-up and as a decoder's.
    fn both_ways(rows: Vec<Row>) -> [Result<(), String>; 2] {
        let start_ups = [rows];
        [(&start_ups[..], &[][..]), (&[], &start_ups)]
            .map(|(hosts, decoders)| Worked::new(hosts, decoders).hold_second())
    }

    #[track_caller]
    fn assert_told(outcome: &Result<(), String>, line: &str) {
        let told = outcome.as_ref().expect_err("a row is wrong");
        assert!(told.starts_with(line), "{told}");
        assert!(told.contains("\n  table   Told"), "{told}");
    }

    #[test]
    fn a_right_start_up() {
        assert_eq!(both_ways(marked_case()), [Ok(()), Ok(())]);
        let worked = Worked::new(&[marked_case()], &[marked_case()]);
        let counts = [worked.resets.len(), worked.steps.len(), worked.runs.len()];
        assert_eq!(counts, [2, 6, 2]);
        assert_eq!([worked.closings.len(), worked.may_send.len()], [1, 3]);
    }

    #[test]
    fn a_wrong_number_is_told() {
        for (place, line) in [
            (0, "line 1: reset with FF000106"),
            (1, "line 2: mirror of register 000106"),
            (2, "line 3: mirror of register 000116"),
            (3, "line 4: mirror of register 400116"),
        ] {
            let changes = [(1, 0), (1 << 23, 0), (0, 1)];
            for (register, talking) in changes {
                let mut rows = marked_case();
                rows[place].after.register ^= register;
                rows[place].after.talking ^= talking;
                for outcome in both_ways(rows) {
                    assert_told(&outcome, line);
                }
            }
        }
    }

    /// It is told before the library is asked: here is none.
    #[test]
    fn the_second_program_is_held_first() {
        let mut rows = marked_case();
        rows[3].packet ^= 1;
        let outcome = Worked::new(&[rows], &[]).hold(&[]);
        assert_told(&outcome, "line 4: mirror of register 400116");
    }

    /// A wrong answer in one of the rows.
    type Change = fn(&mut Worked);

    /// No other answer is looked at in the place of one of these.
    #[test]
    fn every_answer_is_held_by_itself() {
        let changes: [(Change, &str); 5] = [
            (|worked| worked.resets[0].table.number = 7, "line 1: reset"),
            (|worked| worked.steps[1].table.number = 2, "line 3: mirror"),
            (|worked| worked.runs[0].table.number = 2, "line 4: mirror"),
            (
                |worked| worked.closings[0].table.number = 2,
                "line 4: closing",
            ),
            (
                |worked| worked.may_send[1].table.number = 7,
                "line 3: whether",
            ),
        ];
        for (change, line) in changes {
            let mut worked = Worked::new(&[marked_case()], &[]);
            change(&mut worked);
            assert_told(&worked.hold_second(), line);
        }
    }

    /// To a decoder a checksum may come that closes nothing.
    #[test]
    fn a_wrong_checksum_of_a_host_is_told() {
        let mut rows = marked_case();
        rows.insert(3, row(9, 0x0040_0117, 0x40_0116, 0));
        let [host, decoder] = both_ways(rows);
        assert_told(&host, "line 9: closing of mirror of register 400116");
        assert_eq!(decoder, Ok(()));
    }

    #[test]
    fn a_host_without_its_last_checksum_is_told() {
        let mut rows = marked_case();
        rows.pop();
        let [host, decoder] = both_ways(rows);
        assert_told(&host, "line 3: closing of mirror");
        assert_eq!(decoder, Ok(()));
    }

    /// Other packets may come to a decoder all the same.
    #[test]
    fn a_packet_that_no_host_may_send_is_told() {
        let mut rows = marked_case();
        rows[1].packet |= 1;
        rows[1].after.register |= 1;
        rows[2].after.register |= 1;
        rows[3].after.register |= 1;
        rows[3].packet |= 1;
        let [host, decoder] = both_ways(rows);
        assert_told(&host, "line 2: whether 01000011");
        assert_eq!(decoder, Ok(()));
    }
}
