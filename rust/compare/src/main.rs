//! Compares the proved library, and the listing program made from it, with the
//! second program. The first difference ends the run with exit code 1.

mod air;
mod boundaries;
mod calls;
mod chains;
mod checksum;
mod child;
mod command_line;
mod counted;
mod edges;
mod exchange;
mod explained;
mod exports;
mod fragments;
mod host;
mod lines;
mod listing_program;
mod packets;
mod pages;
mod pocsag;
mod random;
mod start_up;
mod tables;
mod tally;
mod texts;
mod worked;
mod yardstick;

use std::env;
use std::io;
use std::process::ExitCode;

use command_line::Task;

fn main() -> ExitCode {
    let words: Vec<String> = env::args().skip(1).collect();
    let Some(task) = command_line::read(&words) else {
        eprintln!("{}", command_line::USAGE);
        return ExitCode::from(2);
    };
    match carry_out(&task) {
        Ok(()) => ExitCode::SUCCESS,
        Err(difference) => {
            eprintln!("{difference}");
            ExitCode::FAILURE
        }
    }
}

fn carry_out(task: &Task) -> Result<(), String> {
    let compared = match task {
        Task::Exports { exchange, seed } => exports::compare(exchange, *seed)?,
        Task::Packets {
            exchange,
            seed,
            extent,
        } => packets::compare(exchange, *seed, *extent)?,
        Task::Pages { exchange, seed } => pages::compare(exchange, *seed)?,
        Task::Fragments { exchange, seed } => fragments::compare(exchange, *seed)?,
        Task::Chains { exchange, seed } => chains::compare(exchange, *seed)?,
        Task::Air { exchange, seed } => air::compare(exchange, *seed)?,
        Task::Calls { exchange, seed } => calls::compare(exchange, *seed)?,
        Task::Pocsag { exchange, seed } => pocsag::compare(exchange, *seed)?,
        Task::StartUp { file, exchange } => start_up::compare(file, exchange)?,
        Task::Checksum {
            file,
            exchange,
            seed,
        } => checksum::compare(file, exchange, *seed)?,
        Task::Lines {
            listing,
            count,
            seed,
        } => lines::compare(listing, *count, *seed)?,
        Task::Explained {
            listing,
            count,
            seed,
        } => explained::compare(listing, *count, *seed)?,
        Task::Edges { listing } => edges::compare(listing)?,
        Task::WriteLines { .. } | Task::WriteCapcodes { .. } | Task::CopyLines => {
            return write(task);
        }
    };
    println!("{compared}");
    Ok(())
}

/// Of lines that are only written; a comparison writes none.
fn write(task: &Task) -> Result<(), String> {
    let output = io::stdout().lock();
    let written = match task {
        Task::WriteLines { count, seed } => lines::write(output, *count, *seed),
        Task::WriteCapcodes { count, seed } => lines::write_capcodes(output, *count, *seed),
        Task::CopyLines => lines::copy(io::stdin().lock(), output),
        _ => Ok(()),
    };
    written.map_err(|error| format!("the lines cannot be written: {error}"))
}
