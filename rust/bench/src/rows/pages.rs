//! Numeric pages of 1 and of 8 words, with the option of Table 39 off and on.

use mortisevane::exports::*;
use second::numbers::Numbers;
use second::numeric::{
    self, Numbering as SecondNumbering, PageRead as SecondPageRead, Written as SecondWritten,
};
use second::refusal::Refusal;

use crate::measure::{side, Measure, Told};
use crate::told::{answer, bytes, told, words_of};

const NOT_NUMBERED: SecondNumbering = numbering(0);
const NUMBERED: SecondNumbering = numbering(63);

const fn numbering(message_number: u32) -> SecondNumbering {
    SecondNumbering {
        message_number,
        retrieval: 0,
        special_format: 0,
    }
}

/// As many characters as 8 words hold, of the same codes with the option off and on.
const LONGEST: &[u8] = b"01234567890123456789012345678901234567-][";
const LONGEST_CHINESE: &[u8] = b"01234567890123456789012345678901234567CDE";
/// As few characters as need 8 words, so that 4 spaces fill the page; of the same codes in both sets.
const SHORTER: &[u8] = b"0123456789?U-][0123456789?U-][0123456";
const SHORTER_CHINESE: &[u8] = b"0123456789ABCDE0123456789ABCDE0123456";
/// 8 words of spaces.
const SPACES: &[u8] = &[b' '; PAGE_CHARACTERS];
/// A number that chooses no set.
const NEITHER: u32 = 2;

/// A text with the set that it is written in, its vector's type, and what the head of its page says.
#[derive(Clone, Copy)]
struct Page<'a> {
    set: u32,
    text: &'a [u8],
    kind: u32,
    numbering: SecondNumbering,
}

/// A page that is not numbered.
fn page(set: u32, text: &[u8]) -> Page<'_> {
    Page {
        set,
        text,
        kind: VECTOR_STANDARD,
        numbering: NOT_NUMBERED,
    }
}

fn numbered_page(text: &[u8]) -> Page<'_> {
    Page {
        kind: VECTOR_NUMBERED,
        numbering: NUMBERED,
        ..page(SET_STANDARD, text)
    }
}

pub fn rows(measure: &mut Measure) {
    measure.group("pages");
    write_rows(measure);
    read_rows(measure);
    refused_read_rows(measure);
}

fn write_rows(measure: &mut Measure) {
    let mut row = |input, page| write(measure, input, page);
    row("4 characters, 1 word", page(SET_STANDARD, b"0417"));
    row("41 characters, 8 words", page(SET_STANDARD, LONGEST));
    row("2 characters, 1 word, numbered", numbered_page(b"04"));
    let numbered = numbered_page(&LONGEST[..39]);
    row("39 characters, 8 words, numbered", numbered);
    row(
        "4 characters, 1 word, option on",
        page(SET_CHINESE, b"0A1E"),
    );
    let chinese = page(SET_CHINESE, LONGEST_CHINESE);
    row("41 characters, 8 words, option on", chinese);
    let of_no_kind = Page {
        kind: VECTOR_HEX,
        ..page(SET_STANDARD, b"0417")
    };
    row("refused 7: of no kind", of_no_kind);
    row("refused 7: of no set", page(NEITHER, b"0417"));
    let too_long = page(SET_STANDARD, &[b'0'; 42]);
    row("refused 15: 42 characters", too_long);
    let last_wrong = [&LONGEST[..40], b"x"].concat();
    let last_wrong = page(SET_STANDARD, &last_wrong);
    row("refused 18: the last of 41 characters", last_wrong);
    let last_of_other = [&LONGEST_CHINESE[..40], b"["].concat();
    row(
        "refused 18: the last of 41 characters, option on",
        page(SET_CHINESE, &last_of_other),
    );
}

fn read_rows(measure: &mut Measure) {
    let mut row = |input, page| read(measure, input, sent(page));
    row("1 word", page(SET_STANDARD, b"0417"));
    row("8 words", page(SET_STANDARD, LONGEST));
    row("1 word, numbered", numbered_page(b"04"));
    row("8 words, numbered", numbered_page(&LONGEST[..39]));
    row("1 word, option on", page(SET_CHINESE, b"0A1E"));
    row("8 words, option on", page(SET_CHINESE, LONGEST_CHINESE));
    let shorter = page(SET_STANDARD, SHORTER);
    row("8 words, 4 spaces at the end", shorter);
    let shorter = page(SET_CHINESE, SHORTER_CHINESE);
    row("8 words, 4 spaces at the end, option on", shorter);
    row("8 words of spaces alone", page(SET_STANDARD, SPACES));
    let spaces = page(SET_CHINESE, SPACES);
    row("8 words of spaces alone, option on", spaces);
}

fn refused_read_rows(measure: &mut Measure) {
    let large = || sent(page(SET_STANDARD, LONGEST));
    let of_no_set = Sent {
        set: NEITHER,
        ..large()
    };
    read(measure, "refused 7: of no set", of_no_set);
    let damaged = with_changed_last_word(large(), 1 << 21);
    read(measure, "refused 10: the last of 8 words", damaged);
    let wrong_check = with_changed_last_word(large(), 1);
    read(measure, "refused 11: K of 8 words", wrong_check);
}

fn write(measure: &mut Measure, input: &str, page: Page) {
    type Write = fn(u32, &[u8], u32, SecondNumbering, &mut [u32]) -> Result<SecondWritten, Refusal>;
    let second = numeric::write as Write;
    let Page {
        set,
        text,
        kind,
        numbering,
    } = page;
    let lent = [0xDEAD_BEEF; PAGE_WORDS];
    measure.row(
        "numeric_write",
        input,
        side(
            (text, own_numbering(numbering), lent),
            |(text, numbering, lent)| unsafe {
                let (from, length) = (text.as_ptr(), text.len());
                let (words, room) = (lent.as_mut_ptr(), lent.len());
                mortisevane_numeric_write(set, from, length, kind, *numbering, words, room)
            },
            |(_, _, lent), written| [told_own_written(written), told(lent)].concat(),
        ),
        side(
            (text, lent, second),
            |(text, lent, second)| second(set, text, kind, numbering, lent),
            |(_, lent, _), written| [answer(written, told_written, 2), told(lent)].concat(),
        ),
    );
}

fn own_numbering(numbering: SecondNumbering) -> Numbering {
    Numbering {
        message_number: numbering.message_number,
        retrieval: numbering.retrieval,
        special_format: numbering.special_format,
    }
}

fn told_own_written(written: &Written) -> Told {
    let Written {
        number,
        check,
        words,
    } = *written;
    vec![number.into(), check.into(), words as u64]
}

fn told_written(written: &SecondWritten) -> Told {
    vec![written.check.into(), written.words as u64]
}

/// The words of a page with the K of its vector, and the set that they are read in.
struct Sent {
    set: u32,
    kind: u32,
    check: u32,
    words: Vec<u32>,
}

/// A page as the second program writes it.
fn sent(page: Page) -> Sent {
    let mut words = vec![0; PAGE_WORDS];
    let written = numeric::write(page.set, page.text, page.kind, page.numbering, &mut words);
    let written = written.expect("the text has a page");
    words.truncate(written.words);
    Sent {
        set: page.set,
        kind: page.kind,
        check: written.check,
        words,
    }
}

fn with_changed_last_word(mut sent: Sent, changed: u32) -> Sent {
    *sent.words.last_mut().expect("a page has a word") ^= changed;
    sent
}

fn read(measure: &mut Measure, input: &str, sent: Sent) {
    type Read = fn(u32, u32, u32, &[u32], &mut [u8]) -> Result<SecondPageRead, Refusal>;
    let second = numeric::read as Read;
    let Sent {
        set,
        kind,
        check,
        words,
    } = sent;
    let lent = [0xA5; PAGE_CHARACTERS];
    measure.row(
        "numeric_read",
        input,
        side(
            (words.clone(), lent),
            |(words, lent)| unsafe {
                let (text, room) = (lent.as_mut_ptr(), lent.len());
                mortisevane_numeric_read(set, kind, check, words.as_ptr(), words.len(), text, room)
            },
            |(_, lent), read| [told_own_read(read), bytes(lent)].concat(),
        ),
        side(
            (words, lent, second),
            |(words, lent, second)| second(set, kind, check, words, lent),
            |(_, lent, _), read| [answer(read, told_read, 5), bytes(lent)].concat(),
        ),
    );
}

fn told_own_read(read: &PageRead) -> Told {
    let heading = [vec![read.number], words_of(&read.numbering)].concat();
    let counts = vec![read.characters as u64, read.spaces_at_end as u64];
    [told(&heading), counts].concat()
}

fn told_read(read: &SecondPageRead) -> Told {
    let counts = vec![read.characters as u64, read.spaces_at_end as u64];
    [told(&read.numbering.numbers()), counts].concat()
}
