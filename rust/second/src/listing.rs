//! The listing (01, "The listing program"): one line for each CAPCODE line. A
//! text that is not in the form is told with the place where it goes wrong (02,
//! item 1).

use std::io::{self, BufRead, Write};

use crate::address::{address_words, Words};
use crate::capcode::{print_decimal, read_with_place, Capcode, Place, Refused};

/// The listing's first line.
pub const HEADER: &[u8] = b"ADDRESS FIRST SECOND PHASE FRAME COLLAPSE\n";

/// Lines are handed to the output once this many bytes have gathered.
const GATHERED_BYTES: usize = 1 << 16;

const HEX_DIGITS: &[u8; 16] = b"0123456789ABCDEF";

/// Lists every line of the input.
pub fn list(mut input: impl BufRead, mut output: impl Write) -> io::Result<()> {
    let mut listed = Vec::with_capacity(2 * GATHERED_BYTES);
    listed.extend_from_slice(HEADER);
    let mut line = Vec::new();
    while input.read_until(b'\n', &mut line)? > 0 {
        list_text(text_of_line(&line), &mut listed);
        line.clear();
        if listed.len() >= GATHERED_BYTES {
            output.write_all(&listed)?;
            listed.clear();
        }
    }
    output.write_all(&listed)?;
    output.flush()
}

/// The line without its end: the LF, and one CR if it stands right before that
/// LF. A CR anywhere else, also at the end of input, belongs to the text.
pub fn text_of_line(line: &[u8]) -> &[u8] {
    match line {
        [text @ .., b'\r', b'\n'] | [text @ .., b'\n'] => text,
        text => text,
    }
}

/// Appends the listing's line for one text.
pub fn list_text(text: &[u8], listed: &mut Vec<u8>) {
    let accepted = read_with_place(text)
        .and_then(|(capcode, place)| Ok((capcode, place, address_words(capcode.address)?)));
    match accepted {
        Ok((capcode, place, words)) => {
            listed.extend_from_slice(text);
            append_fields(&capcode, place, words, listed);
        }
        Err(refused) => append_refused(text, refused, listed),
    }
}

fn append_fields(capcode: &Capcode, place: Place, words: Words, listed: &mut Vec<u8>) {
    let mut fields = *b" FFFFFF ------ P 000 0\n";
    match words {
        Words::Short(word) => print_hexadecimal(word, &mut fields[1..7]),
        Words::Long { first, second } => {
            print_hexadecimal(first, &mut fields[1..7]);
            print_hexadecimal(second, &mut fields[8..14]);
        }
    }
    fields[15] = place.phase.sign();
    print_decimal(u64::from(place.base_frame), &mut fields[17..20]);
    print_decimal(u64::from(capcode.collapse), &mut fields[21..22]);
    listed.extend_from_slice(&fields);
}

fn print_hexadecimal(number: u32, digits: &mut [u8]) {
    let mut rest = number;
    for digit in digits.iter_mut().rev() {
        *digit = HEX_DIGITS[(rest % 16) as usize];
        rest /= 16;
    }
}

fn append_refused(text: &[u8], refused: Refused, listed: &mut Vec<u8>) {
    for &byte in text {
        append_shown(byte, listed);
    }
    listed.extend_from_slice(b" REFUSED ");
    append_number(u64::from(refused.refusal.number()), listed);
    if let Some(place) = refused.place {
        listed.push(b' ');
        append_number(place as u64, listed);
    }
    listed.push(b'\n');
}

/// The number of a refusal or a place, without zeros in front. Neither has more
/// than two digits.
fn append_number(number: u64, listed: &mut Vec<u8>) {
    let mut digits = [0; 2];
    print_decimal(number, &mut digits);
    listed.extend_from_slice(if number < 10 { &digits[1..] } else { &digits });
}

/// A text may hold anything: what a terminal could act on is escaped,
/// and so is the backslash, so that nothing is hidden.
pub(crate) fn append_shown(byte: u8, listed: &mut Vec<u8>) {
    match byte {
        b'\\' => listed.extend_from_slice(b"\\\\"),
        0x20..=0x7E => listed.push(byte),
        _ => {
            let high = HEX_DIGITS[usize::from(byte / 16)];
            let low = HEX_DIGITS[usize::from(byte % 16)];
            listed.extend_from_slice(&[b'\\', b'x', high, low]);
        }
    }
}

#[cfg(test)]
mod tests {
    use super::*;

    fn listing(input: &[u8]) -> String {
        let mut output = Vec::new();
        list(input, &mut output).unwrap();
        let text = String::from_utf8(output).unwrap();
        let header = std::str::from_utf8(HEADER).unwrap();
        text.strip_prefix(header).unwrap().to_string()
    }

    /// 01's own example, with the number and the place that 02 tells.
    #[test]
    fn the_three_lines() {
        assert_eq!(
            listing(b"E0001234\nA0002101249\nE1234\n"),
            "E0001234 0084D2 ------ * 077 4\n\
             A0002101249 000001 1FFFFE A 000 4\n\
             E1234 REFUSED 21 5\n"
        );
    }

    #[test]
    fn ends_of_lines() {
        assert_eq!(listing(b""), "");
        assert_eq!(listing(b"\n"), " REFUSED 21 0\n");
        assert_eq!(listing(b"\r\n"), " REFUSED 21 0\n");
        assert_eq!(listing(b"\r"), "\\x0D REFUSED 3 0\n");
        assert_eq!(listing(b"\r\r\n"), "\\x0D REFUSED 3 0\n");
        assert_eq!(listing(b"\n\n"), " REFUSED 21 0\n REFUSED 21 0\n");
        let accepted = "E0001234 0084D2 ------ * 077 4\n";
        assert_eq!(listing(b"E0001234"), accepted);
        assert_eq!(listing(b"E0001234\r\n"), accepted);
        assert_eq!(listing(b"E0001234\r"), "E0001234\\x0D REFUSED 3 8\n");
    }

    #[test]
    fn shown_bytes() {
        assert_eq!(
            listing(b" ~\x7F\\\0\xFF\t\n"),
            " ~\\x7F\\\\\\x00\\xFF\\x09 REFUSED 3 0\n"
        );
    }

    #[test]
    fn fields() {
        assert_eq!(
            listing(b"1270X4291000000\n5D0000003\nZ\nD0000002\n0774Z0000001\n"),
            "1270X4291000000 1FE6C0 1E7F47 D 127 0\n\
             5D0000003 008003 ------ A 000 5\n\
             Z REFUSED 3 0\n\
             D0000002 REFUSED 6\n\
             0774Z0000001 REFUSED 4\n"
        );
    }

    /// A place is one of the text's bytes, not of what is shown of them.
    #[test]
    fn places() {
        assert_eq!(
            listing(b"4A0001234\n1284Y0001234\nA0000001234\na0001234\nA2101249\n"),
            "4A0001234 REFUSED 20 0\n\
             1284Y0001234 REFUSED 19 2\n\
             A0000001234 REFUSED 21 8\n\
             a0001234 REFUSED 3 0\n\
             A2101249 REFUSED 21 8\n"
        );
        assert_eq!(
            listing(b"1275Y429100000\n1275Y42910000000\nA000203161\\\n12\x0034\n"),
            "1275Y429100000 REFUSED 21 14\n\
             1275Y42910000000 REFUSED 21 15\n\
             A000203161\\\\ REFUSED 3 10\n\
             12\\x0034 REFUSED 3 2\n"
        );
        assert_eq!(
            listing(b"I0001234\nA1933313\nD0000002\n"),
            "I0001234 REFUSED 4\nA1933313 REFUSED 5\nD0000002 REFUSED 6\n"
        );
    }
}
