//! Runs a listing program and lays its output beside the second program's.

use std::io::{self, Read, Write};
use std::process::Child;
use std::thread;

use second::listing::list;

use crate::child::start;
use crate::texts::shown;

/// How the input reaches the program.
#[derive(Clone, Copy)]
pub enum Feeding {
    AtOnce,
    ByteByByte,
}

/// Feeds the input to the program; the first line on which it and the second
/// program differ is the error.
pub fn agree(command: &[String], input: &[u8], feeding: Feeding) -> Result<(), String> {
    let told = output_of(command, input, feeding)?;
    let mut expected = Vec::new();
    list(input, &mut expected).map_err(|error| error.to_string())?;
    if told == expected {
        Ok(())
    } else {
        Err(first_difference(input, &told, &expected))
    }
}

/// All that the program writes to standard output.
pub fn output_of(command: &[String], input: &[u8], feeding: Feeding) -> Result<Vec<u8>, String> {
    run(command, input, feeding).map_err(|error| format!("{}: {error}", command.join(" ")))
}

fn run(command: &[String], input: &[u8], feeding: Feeding) -> io::Result<Vec<u8>> {
    let mut child = start(command)?;
    let mut output = Vec::new();
    // Feeding and reading go side by side: a pipe holds only so much.
    let fed = thread::scope(|scope| {
        let feeder = child
            .stdin
            .take()
            .map(|stdin| scope.spawn(move || feed(stdin, input, feeding)));
        let read = read_output(&mut child, &mut output);
        let fed = feeder.map_or(Ok(()), |feeder| {
            feeder.join().expect("feeding never panics")
        });
        read.and(fed)
    });
    // Told first: a program that ended early is also why feeding it failed.
    let status = child.wait()?;
    if !status.success() {
        return Err(io::Error::other(format!("ended with {status}")));
    }
    fed.map(|()| output)
}

fn feed(mut stdin: impl Write, input: &[u8], feeding: Feeding) -> io::Result<()> {
    let size = match feeding {
        Feeding::AtOnce => input.len().max(1),
        Feeding::ByteByByte => 1,
    };
    for piece in input.chunks(size) {
        stdin.write_all(piece)?;
        stdin.flush()?;
    }
    Ok(())
}

fn read_output(child: &mut Child, output: &mut Vec<u8>) -> io::Result<()> {
    if let Some(mut stdout) = child.stdout.take() {
        stdout.read_to_end(output)?;
    }
    Ok(())
}

fn first_difference(input: &[u8], told: &[u8], expected: &[u8]) -> String {
    let lines = |bytes: &[u8]| -> Vec<Vec<u8>> {
        let split = bytes.split_inclusive(|byte| *byte == b'\n');
        split.map(<[u8]>::to_vec).collect()
    };
    let (told, expected) = (lines(told), lines(expected));
    let index = (0..told.len().max(expected.len()))
        .find(|&index| told.get(index) != expected.get(index))
        .unwrap_or(0);
    // The header has no line of its own in the input.
    let line = match index.checked_sub(1) {
        Some(line) => shown_line(lines(input).get(line)),
        None => "(the header)".to_string(),
    };
    format!(
        "output line {}\n  line    {line}\n  program {}\n  second  {}",
        index + 1,
        shown_line(told.get(index)),
        shown_line(expected.get(index))
    )
}

fn shown_line(line: Option<&Vec<u8>>) -> String {
    line.map_or("(nothing)".to_string(), |line| shown(line))
}
