//! The listing program's second version: CAPCODE lines from standard input, or
//! from the file named, to standard output.

use std::env;
use std::fs::File;
use std::io::{self, BufReader};
use std::process::ExitCode;

use second::listing::list;

const READ_BYTES: usize = 1 << 16;

fn main() -> ExitCode {
    match run() {
        Ok(()) => ExitCode::SUCCESS,
        Err(error) => {
            eprintln!("second_listing: {error}");
            ExitCode::FAILURE
        }
    }
}

fn run() -> io::Result<()> {
    let output = io::stdout().lock();
    match env::args_os().nth(1) {
        Some(path) => list(
            BufReader::with_capacity(READ_BYTES, File::open(path)?),
            output,
        ),
        None => list(
            BufReader::with_capacity(READ_BYTES, io::stdin().lock()),
            output,
        ),
    }
}
