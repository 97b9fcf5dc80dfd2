//! Counts the instructions and the stack of the library's exports beside the second program's.
//!
//!     bench count [GROUP]                     runs every row, or a group's; to be run under callgrind (tools/bench)
//!     bench show FOLDER GROUP                 writes a group's table from what callgrind wrote into the folder
//!     bench document FOLDER ARCHIVE RANGES BOARDS WHY
//!                                             writes docs/BENCHMARKS.md whole; RANGES is the file that says what the search
//!                                             in the range table cost before, BOARDS the one with its section on boards
//!                                             (tools/bench-board), WHY the one with its last section

mod boards;
mod bytes;
mod callgrind;
mod glance;
mod measure;
mod messages;
mod rows;
mod stack;
mod table;
mod told;

use std::env;
use std::path::Path;
use std::process::ExitCode;

use measure::{Measure, Purpose};

fn measured(purpose: Purpose, wanted: &str) -> Measure {
    let mut measure = Measure::new(purpose, wanted);
    rows::all(&mut measure);
    measure
}

fn main() -> ExitCode {
    let arguments: Vec<String> = env::args().skip(1).collect();
    let arguments: Vec<&str> = arguments.iter().map(String::as_str).collect();
    let done = match arguments.as_slice() {
        ["count"] => count(""),
        ["count", group] => count(group),
        ["show", folder, group] => table::show(Path::new(folder), group),
        ["document", folder, archive, ranges, boards, why] => table::document(
            Path::new(folder),
            Path::new(archive),
            [Path::new(ranges), Path::new(boards), Path::new(why)],
        ),
        _ => Err(
            "usage: bench count [GROUP] | show FOLDER GROUP | document FOLDER ARCHIVE RANGES BOARDS WHY"
                .to_owned(),
        ),
    };
    match done {
        Ok(()) => ExitCode::SUCCESS,
        Err(wrong) => {
            eprintln!("bench: {wrong}");
            ExitCode::FAILURE
        }
    }
}

fn count(group: &str) -> Result<(), String> {
    match measured(Purpose::Instructions, group).rows.is_empty() {
        true => Err(format!("there is no group {group}")),
        false => Ok(()),
    }
}
