//! Seeded lines through a listing program that explains them: it writes a remark
//! below each refused line, and into the file that `--summary=` names the
//! accepted texts and the totals. Which sentence of the table a remark has is judged here once more, by
//! the place at which the second program says that a text goes wrong.

use std::collections::BTreeSet;
use std::path::PathBuf;
use std::{env, fs, process};

use second::capcode::{read, LONGEST_TEXT};
use second::listing::{list_text, text_of_line, HEADER};

use crate::lines;
use crate::listing_program::{output_of, Feeding};
use crate::texts::{shown, TYPE_LETTERS};

/// The source of the table, from the folder of the repository on.
const TABLE: &str = "crates/refusal/src/sentences.rt";

/// The rows of the table that a listing tells.
const ROWS: [usize; 18] = [
    4, 5, 6, 19, 20, 40, 41, 42, 43, 44, 45, 46, 47, 48, 49, 50, 51, 52,
];

/// The byte-order marks of UTF-8 and UTF-16.
const MARKS: [&[u8]; 3] = [b"\xEF\xBB\xBF", b"\xFF\xFE", b"\xFE\xFF"];

/// Of a longer line only so many bytes count for its sentence.
const KEPT_BYTES: usize = LONGEST_TEXT + 1;

/// Lines for each sentence, and beside them such as only look like them.
const EXAMPLES: &[u8] = b"\xEF\xBB\xBFE0001234\nE0001234\n\xEF\xBB\xBFE0001234\r\n\
    I0001234\nA1933313\nD0000002\n1284Y0001234\n4A0001234\n\n0774\nE000123\n\
    E2101249\nA00020316\nE0000001234\nA00021012490\nE0001234 \nE0001234 \t \n\
    0774Y0002101249 \nI0001234 \nE0001234 x\nE00012 34\n e0001234\ne0001234\n\
    5h0001234\n0774a0001234\n0774y0001234\nE000123O\nEo001234\nO0001234\n\
    Y0001234\n12A0001234\nM0001234\nE000123-\n1270X4291000000\r\nE0001234\r";

pub fn compare(listing: &[String], count: u64, seed: u64) -> Result<String, String> {
    let source = fs::read_to_string(TABLE).map_err(|error| format!("{TABLE}: {error}"))?;
    let sentences = sentences_of(&source)
        .ok_or_else(|| format!("{TABLE}: no table has all sentences that a listing tells"))?;
    let program = Program::new(listing);
    let mut rows = BTreeSet::new();
    let (mut lines, mut bytes) = (0, 0);
    for input in inputs(count, seed) {
        let expected = Expected::of(&input.bytes, &sentences);
        program.agrees(&input, &expected)?;
        rows.extend(expected.rows);
        lines += expected.lines;
        bytes += input.bytes.len();
    }
    if !rows.iter().eq(&ROWS) {
        return Err(format!("rows {rows:?} were compared, and not {ROWS:?}"));
    }
    Ok(format!(
        "explained: {lines} lines ({bytes} bytes, seed {seed}) compared, all agree"
    ))
}

/// The rows of the table, from the text of its source: each is a text in a line of its own.
fn sentences_of(source: &str) -> Option<Vec<String>> {
    let (_, after_name) = source.split_once("\nconst SENTENCES: ")?;
    let (_, after_start) = after_name.split_once("= [\n")?;
    let (table, _) = after_start.split_once("];")?;
    let row = |line: &str| Some(line.trim().strip_prefix('"')?.strip_suffix("\",")?.to_string());
    let rows: Vec<String> = table.lines().map(row).collect::<Option<_>>()?;
    let has_words = |row: usize| rows.get(row).is_some_and(|words| !words.is_empty());
    ROWS.into_iter().all(has_words).then_some(rows)
}

struct Input {
    name: String,
    bytes: Vec<u8>,
    feeding: Feeding,
}

/// The drawn lines, the examples and an empty input. Each mark stands before some
/// of the drawn inputs.
fn inputs(count: u64, seed: u64) -> impl Iterator<Item = Input> {
    let at_once = |name: String, bytes: Vec<u8>| Input {
        name,
        bytes,
        feeding: Feeding::AtOnce,
    };
    let marks = [&b""[..]].into_iter().chain(MARKS).cycle();
    let drawn = lines::inputs(count, seed).zip(marks).zip(1..);
    let drawn = drawn.map(move |((lines, mark), number)| {
        at_once(format!("drawn input {number}"), [mark, &lines].concat())
    });
    drawn.chain([
        at_once("the empty input".to_string(), Vec::new()),
        at_once("the examples".to_string(), EXAMPLES.to_vec()),
        Input {
            name: "the examples byte by byte".to_string(),
            bytes: EXAMPLES.to_vec(),
            feeding: Feeding::ByteByByte,
        },
    ])
}

/// The program with its arguments, and the file for its summary, which goes when
/// all is compared.
struct Program {
    command: Vec<String>,
    file: PathBuf,
}

impl Program {
    fn new(listing: &[String]) -> Program {
        let file = env::temp_dir().join(format!("mortisevane-explained-{}", process::id()));
        let summary = format!("--summary={}", file.display());
        Program {
            command: [listing, &[summary]].concat(),
            file,
        }
    }

    fn agrees(&self, input: &Input, expected: &Expected) -> Result<(), String> {
        let listing = output_of(&self.command, &input.bytes, input.feeding)?;
        let summary = fs::read(&self.file).map_err(|error| format!("the summary: {error}"))?;
        let outputs = [
            ("the listing", listing, &expected.listing),
            ("the summary", summary, &expected.summary),
        ];
        for (output, told, expected) in outputs {
            if let Some(difference) = first_difference(&input.bytes, &told, expected) {
                return Err(format!("{}, {output}, {difference}", input.name));
            }
        }
        Ok(())
    }
}

impl Drop for Program {
    fn drop(&mut self) {
        let _ = fs::remove_file(&self.file);
    }
}

/// A line of output, and the number of the input's line that it tells of; 0 is
/// that of the header.
type Told = (usize, Vec<u8>);

/// What is to be written of an input, and what it holds.
struct Expected {
    listing: Vec<Told>,
    summary: Vec<Told>,
    rows: BTreeSet<usize>,
    lines: usize,
    refused: usize,
}

impl Expected {
    fn of(input: &[u8], sentences: &[String]) -> Expected {
        let mut expected = Expected {
            listing: vec![(0, HEADER.to_vec())],
            summary: Vec::new(),
            rows: BTreeSet::new(),
            lines: 0,
            refused: 0,
        };
        for line in lines_of(input) {
            expected.add(text_of_line(line), sentences);
        }
        let (lines, refused) = (expected.lines, expected.refused);
        let totals = format!("lines {lines} refused {refused}\n");
        expected.summary.push((lines, totals.into_bytes()));
        expected
    }

    fn add(&mut self, text: &[u8], sentences: &[String]) {
        self.lines += 1;
        let number = self.lines;
        let mut listed = Vec::new();
        list_text(text, &mut listed);
        self.listing.push((number, listed));
        match Remark::on(text, number == 1) {
            Some(remark) => {
                self.listing
                    .push((number, remark.written(number, sentences)));
                self.rows.insert(remark.row);
                self.refused += 1;
            }
            None => {
                let accepted = [text, format!(" {number}\n").as_bytes()].concat();
                self.summary.push((number, accepted));
            }
        }
    }
}

/// What is said of a refused text.
#[derive(Debug, PartialEq, Eq)]
struct Remark {
    /// Where the text goes wrong, if it is not in the form.
    place: Option<usize>,
    /// The row of the table.
    row: usize,
    /// The letter to be written, which stands after the sentence.
    capital: Option<u8>,
}

impl Remark {
    /// None on an accepted text.
    fn on(text: &[u8], is_first: bool) -> Option<Remark> {
        let refused = read(text).err()?;
        let number = refused.refusal.number() as usize;
        let kept = &text[..text.len().min(KEPT_BYTES)];
        let (row, capital) = match (refused.place, number) {
            (None, _) | (_, 19 | 20) => (number, None),
            (Some(place), _) => advice(kept, place, is_first),
        };
        Some(Remark {
            place: refused.place,
            row,
            capital,
        })
    }

    fn written(&self, line: usize, sentences: &[String]) -> Vec<u8> {
        let caret = self.place.map(|place| format!("{}^ ", " ".repeat(place)));
        let caret = caret.unwrap_or_default();
        let capital = self.capital.map(char::from).map(String::from);
        let capital = capital.unwrap_or_default();
        let sentence = &sentences[self.row];
        format!("{caret}line {line}: {sentence}{capital}\n").into_bytes()
    }
}

/// The row for a text that is not in the form, and the letter to be written.
fn advice(text: &[u8], place: usize, is_first: bool) -> (usize, Option<u8>) {
    let letter = text.iter().position(|byte| !byte.is_ascii_digit());
    let row = match (text.get(place), letter) {
        (None, _) if text.is_empty() => 40,
        (None, None) => 41,
        (None, Some(letter)) if text.len() - letter - 1 < 7 => 42,
        (None, Some(_)) => 43,
        (Some(b'0'..=b'9'), Some(letter)) if place == letter + 11 => 45,
        (Some(b'0'..=b'9'), _) => 44,
        (Some(_), _) if is_first && MARKS.iter().any(|mark| text.starts_with(mark)) => 46,
        (Some(b' ' | b'\t'), _) if only_blanks_too_many(text, place) => 47,
        (Some(b' ' | b'\t'), _) => 48,
        (Some(&byte), _) => return advice_on_byte(&text[..place], byte),
    };
    (row, None)
}

/// Of a byte that is neither a digit nor a blank, after what could begin a text.
fn advice_on_byte(before: &[u8], byte: u8) -> (usize, Option<u8>) {
    let capital = byte.to_ascii_uppercase();
    let comes_before_letter = before.iter().all(u8::is_ascii_digit);
    if byte.is_ascii_lowercase() && can_begin(&[before, &[capital]].concat()) {
        (49, Some(capital))
    } else if capital == b'O' && !comes_before_letter {
        (50, None)
    } else if TYPE_LETTERS.contains(&byte) && comes_before_letter {
        (51, None)
    } else {
        (52, None)
    }
}

/// Whether a text of at most fifteen bytes would be in the form up to a place,
/// and has blanks alone from there on.
fn only_blanks_too_many(text: &[u8], place: usize) -> bool {
    let (before, rest) = text.split_at(place);
    let is_in_form = read(before).map_or_else(|refused| refused.place.is_none(), |_| true);
    let are_blanks = rest.iter().all(|byte| matches!(byte, b' ' | b'\t'));
    is_in_form && are_blanks && text.len() <= LONGEST_TEXT
}

/// Whether bytes that are too few for a text could begin one.
fn can_begin(bytes: &[u8]) -> bool {
    read(bytes).is_err_and(|refused| refused.place == Some(bytes.len()))
}

fn lines_of(bytes: &[u8]) -> impl Iterator<Item = &[u8]> {
    bytes.split_inclusive(|byte| *byte == b'\n')
}

/// The first line of output that is not as expected, with the line that it tells
/// of.
fn first_difference(input: &[u8], told: &[u8], expected: &[Told]) -> Option<String> {
    let told: Vec<&[u8]> = lines_of(told).collect();
    let wanted = |index: usize| expected.get(index).map(|(_, text)| text.as_slice());
    let index = (0..told.len().max(expected.len()))
        .find(|&index| told.get(index).copied() != wanted(index))?;
    let (number, _) = expected.get(index).or(expected.last())?;
    let line = number.checked_sub(1);
    let line = line.and_then(|before| lines_of(input).nth(before));
    let shown = |text: Option<&[u8]>| text.map_or("(nothing)".to_string(), shown);
    Some(format!(
        "line {number}\n  line    {}\n  program {}\n  second  {}",
        shown(line),
        shown(told.get(index).copied()),
        shown(wanted(index))
    ))
}

#[cfg(test)]
mod tests {
    use super::*;

    fn sentences() -> Vec<String> {
        let source = include_str!("../../../crates/refusal/src/sentences.rt");
        sentences_of(source).expect("the source has the table")
    }

    fn joined(told: &[Told]) -> Vec<u8> {
        told.iter().flat_map(|(_, line)| line.clone()).collect()
    }

    #[test]
    fn a_text_has_its_row() {
        let rows: [(&str, usize); 29] = [
            ("I0001234", 4),
            ("A1933313", 5),
            ("D0000002", 6),
            ("0774Z0001234", 4),
            ("1284Y0001234", 19),
            ("4A0001234", 20),
            ("", 40),
            ("077", 41),
            ("E", 42),
            ("1E000123", 42),
            ("E2101249", 43),
            ("0774Y000210124", 43),
            ("A0000001234", 44),
            ("A0002031614", 44),
            ("0774Y00021012490", 45),
            ("E0001234 \t", 47),
            ("0774Y0001234   ", 47),
            ("I0001234 ", 47),
            ("0774Y0001234    ", 48),
            ("E0001234 0", 48),
            ("E000123 ", 48),
            (" E0001234", 48),
            ("\te0001234", 48),
            ("EO001234", 50),
            ("E000123o", 50),
            ("U0001234", 51),
            ("0774L0001234", 51),
            ("0774l0001234", 52),
            ("O0001234", 52),
        ];
        for (text, row) in rows {
            let remark = Remark::on(text.as_bytes(), false).expect("it is refused");
            assert_eq!((remark.row, remark.capital), (row, None), "{text:?}");
        }
        assert_eq!(Remark::on(b"E0001234", true), None);
    }

    #[test]
    fn a_small_letter_is_told_with_its_capital() {
        let told = |text: &[u8]| Remark::on(text, true).map(|remark| (remark.row, remark.capital));
        assert_eq!(told(b"e0001234"), Some((49, Some(b'E'))));
        assert_eq!(told(b"5l"), Some((49, Some(b'L'))));
        assert_eq!(told(b"0774y0001234"), Some((49, Some(b'Y'))));
        assert_eq!(told(b"y0001234"), Some((52, None)));
        assert_eq!(told(b"o"), Some((52, None)));
    }

    #[test]
    fn a_mark_is_one_at_the_start_of_the_first_line() {
        for mark in MARKS {
            let text = [mark, b"E0001234"].concat();
            let row = |text: &[u8], is_first| Remark::on(text, is_first).map(|remark| remark.row);
            assert_eq!(row(&text, true), Some(46));
            assert_eq!(row(&text, false), Some(52));
            assert_eq!(row(&text[1..], true), Some(52));
        }
    }

    /// The remarks as they are read, written by hand.
    #[test]
    fn an_input_is_explained() {
        let input = b"E0001234\nE1234\r\nI0001234\ne0001234\n1270X4291000000";
        let expected = Expected::of(input, &sentences());
        let listing = "ADDRESS FIRST SECOND PHASE FRAME COLLAPSE\n\
            E0001234 0084D2 ------ * 077 4\n\
            E1234 REFUSED 21 5\n\
            \x20    ^ line 2: too few digits: an address up to 2031614 has seven, its zeros written\n\
            I0001234 REFUSED 4\n\
            line 3: the letter is all-phase, which the decoder does not support\n\
            e0001234 REFUSED 3 0\n\
            ^ line 4: lower case: write E\n\
            1270X4291000000 1FE6C0 1E7F47 D 127 0\n";
        assert_eq!(joined(&expected.listing), listing.as_bytes());
        let summary = "E0001234 1\n1270X4291000000 5\nlines 5 refused 3\n";
        assert_eq!(joined(&expected.summary), summary.as_bytes());
    }

    #[test]
    fn the_examples_have_every_row() {
        let expected = Expected::of(EXAMPLES, &sentences());
        assert!(expected.rows.iter().eq(&ROWS));
        let empty = Expected::of(b"", &sentences());
        assert_eq!(joined(&empty.listing), HEADER);
        assert_eq!(joined(&empty.summary), b"lines 0 refused 0\n");
    }

    #[test]
    fn a_difference_is_told_with_its_line() {
        let input = b"E0001234\nE1234\n";
        let expected = Expected::of(input, &sentences()).listing;
        let told = joined(&expected);
        assert_eq!(first_difference(input, &told, &expected), None);
        let moved = String::from_utf8(told.clone()).expect("it is plain text");
        let moved = moved.replace("     ^ ", "    ^ ");
        let faults: [&[u8]; 3] = [
            moved.as_bytes(),
            &told[..told.len() - 1],
            &[&told, &b"\n"[..]].concat(),
        ];
        for fault in faults {
            let difference = first_difference(input, fault, &expected).expect("it is noticed");
            assert!(
                difference.starts_with("line 2\n  line    E1234\\n\n"),
                "{difference}"
            );
        }
        let difference = first_difference(input, b"", &expected).expect("it is noticed");
        assert!(
            difference.starts_with("line 0\n  line    (nothing)\n"),
            "{difference}"
        );
    }
}
