//! A day of a pager, worked by the second program: packets from standard input,
//! or from the file named, and what the host makes of them to standard output.

use std::env;
use std::fs::File;
use std::io::{self, BufReader, BufWriter};
use std::process::ExitCode;

use second::day::{work, Trouble};

fn main() -> ExitCode {
    match run() {
        Ok(()) => ExitCode::SUCCESS,
        Err(trouble) => {
            eprintln!("second_day: {trouble}");
            ExitCode::FAILURE
        }
    }
}

fn run() -> Result<(), Trouble> {
    let output = BufWriter::new(io::stdout().lock());
    match env::args_os().nth(1) {
        Some(path) => work(BufReader::new(File::open(path)?), output),
        None => work(io::stdin().lock(), output),
    }
}
