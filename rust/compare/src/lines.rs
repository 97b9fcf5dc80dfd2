//! Seeded lines through a listing program.

use std::io::{self, BufRead, BufReader, BufWriter, Read, Write};

use crate::listing_program::{agree, Feeding};
use crate::texts::Texts;

/// The lines go in as so many inputs, so that several ends of input are met.
const INPUTS: u64 = 8;

/// As many as the listing program reads and writes at a time.
const BUFFER_BYTES: usize = 1 << 16;

pub fn compare(listing: &[String], count: u64, seed: u64) -> Result<String, String> {
    let mut bytes = 0;
    for input in inputs(count, seed) {
        agree(listing, &input, Feeding::AtOnce)?;
        bytes += input.len();
    }
    Ok(format!(
        "lines: {count} lines ({bytes} bytes, seed {seed}) compared, all agree"
    ))
}

/// The lines in several inputs with different ends.
pub fn inputs(count: u64, seed: u64) -> impl Iterator<Item = Vec<u8>> {
    let mut texts = Texts::new(seed);
    (0..INPUTS).map(move |index| {
        let size = count * (index + 1) / INPUTS - count * index / INPUTS;
        let mut input = Vec::new();
        write_lines(&mut texts, size, &mut input).expect("memory takes all");
        change_end(&mut input, index);
        input
    })
}

/// Writes such lines as are compared, as one input.
pub fn write(output: impl Write, count: u64, seed: u64) -> io::Result<()> {
    let mut output = BufWriter::new(output);
    write_lines(&mut Texts::new(seed), count, &mut output)?;
    output.flush()
}

/// Writes lines that are all accepted, as a label desk's are.
pub fn write_capcodes(output: impl Write, count: u64, seed: u64) -> io::Result<()> {
    let mut output = BufWriter::new(output);
    let mut texts = Texts::new(seed);
    for _ in 0..count {
        output.write_all(&texts.accepted())?;
        output.write_all(b"\n")?;
    }
    output.flush()
}

/// Writes each line that is read with as many bytes after it as an accepted
/// one has in the listing: what reading and writing alone take.
pub fn copy(input: impl Read, output: impl Write) -> io::Result<()> {
    let mut input = BufReader::with_capacity(BUFFER_BYTES, input);
    let mut output = BufWriter::with_capacity(BUFFER_BYTES, output);
    let mut line = Vec::new();
    while input.read_until(b'\n', &mut line)? != 0 {
        output.write_all(line.strip_suffix(b"\n").unwrap_or(&line))?;
        output.write_all(b" 000000 ------ A 000 4\n")?;
        line.clear();
    }
    output.flush()
}

/// One very long line stands among the others.
fn write_lines(texts: &mut Texts, size: u64, output: &mut impl Write) -> io::Result<()> {
    for index in 0..size {
        let text = if size > 1 && index == size / 2 {
            texts.long_text()
        } else {
            texts.next_text()
        };
        output.write_all(&text)?;
        let carriage_return = texts.random().once_in(4);
        output.write_all(if carriage_return { b"\r\n" } else { b"\n" })?;
    }
    Ok(())
}

/// Ends of input in turn: a whole line, a line without its LF, and a line that
/// ends with a CR but no LF.
fn change_end(input: &mut Vec<u8>, index: u64) {
    match (index % 3, input.as_mut_slice()) {
        (1, [.., b'\n']) => input.truncate(input.len() - 1),
        (2, [.., end]) => *end = b'\r',
        _ => {}
    }
}

#[cfg(test)]
mod tests {
    use super::*;

    #[test]
    fn capcodes_are_accepted() {
        let mut written = Vec::new();
        write_capcodes(&mut written, 1_000, 1).expect("memory takes all");
        let lines = written.strip_suffix(b"\n").expect("the last line ends");
        let texts = lines.split(|byte| *byte == b'\n');
        let accepted = texts.filter(|text| second::capcode::read(text).is_ok());
        assert_eq!(accepted.count(), 1_000);
    }

    #[test]
    fn a_copied_line_is_as_long_as_a_listed_one() {
        let mut copied = Vec::new();
        copy(&b"A0000001\n"[..], &mut copied).expect("memory takes all");
        let listed = b"A0000001 008001 ------ A 000 4\n";
        assert_eq!(copied.len(), listed.len());
        assert!(copied.starts_with(b"A0000001 "));
    }

    #[test]
    fn as_many_lines_as_asked_for() {
        for count in [0, 1, 2, 1_000] {
            let mut written = Vec::new();
            write(&mut written, count, 1).expect("memory takes all");
            let line_feeds = written.iter().filter(|byte| **byte == b'\n').count();
            assert_eq!(line_feeds as u64, count);
        }
    }
}
