//! POCSAG pages: words mended one by one and in a row, a batch heard, and texts read.

use mortisevane::exports::*;
use second::pocsag::mending::{mend, mend_row, Mend};
use second::pocsag::reader::{Ended, Heard, Page, Reader};
use second::pocsag::sender::{address_word, message_word, numeric_words, text_words};
use second::pocsag::text::{self, TextRead, CHINESE_NUMERIC, SEVEN_BIT, STANDARD_NUMERIC};
use second::pocsag::word::{IDLE, SYNC};
use second::refusal::Refusal;

use crate::measure::{side, Measure, Told};
use crate::told::{answer, bytes, told};

/// The words of a batch after its sync word.
const BATCH: usize = 16;
/// Which bits of a word come wrong: one in the middle, and the highest besides.
const ONE: u32 = 1 << 16;
const TWO: u32 = 1 << 31 | ONE;
/// Three code bits, which leave what no one or two leave.
const THREE: u32 = 0b111 << 1;
/// The parity bit, which is never mended.
const PARITY: u32 = 1;
/// An address in frame 0, and the bits of a message word.
const ADDRESS: u32 = 8 * 0x1_2345;
const MESSAGE: u32 = 0xC_7140;
/// A number that is no kind's.
const NEITHER: u32 = 3;

pub fn rows(measure: &mut Measure) {
    measure.group("pocsag");
    mend_rows(measure);
    hear_rows(measure);
    refused_hear_rows(measure);
    close_rows(measure);
    read_rows(measure);
    refused_read_rows(measure);
}

// ---- Mending ----

fn mend_rows(measure: &mut Measure) {
    let sent = message_word(MESSAGE);
    for (how, wrong) in [
        ("whole", 0),
        ("with one wrong bit", ONE),
        ("with two wrong bits", TWO),
        ("beyond repair", THREE),
        ("with wrong parity", PARITY),
    ] {
        mended(measure, &format!("1 word {how}"), &[sent ^ wrong], 1);
        let words = batch(wrong);
        mended(measure, &format!("17 words {how}"), &words, words.len());
    }
    mended(measure, "refused 1: 15 places", &[sent; BATCH], BATCH - 1);
}

fn mended(measure: &mut Measure, input: &str, words: &[u32], places: usize) {
    type MendRow = fn(Mend, &mut [u32], &mut [u32]) -> Result<(), Refusal>;
    let second = mend_row as MendRow;
    let bits = vec![0xDEAD_BEEF; places];
    measure.row(
        "pocsag_mend",
        input,
        side(
            (words.to_vec(), bits.clone()),
            |(words, bits)| unsafe {
                let (places, room) = (bits.as_mut_ptr(), bits.len());
                mortisevane_pocsag_mend(words.as_mut_ptr(), words.len(), places, room)
            },
            |(words, bits), number| [told(&[*number]), told(words), told(bits)].concat(),
        ),
        side(
            (words.to_vec(), bits, second),
            |(words, bits, second)| second(mend, words, bits),
            |(words, bits, _), told_of| {
                let number = answer(told_of, |()| Vec::new(), 0);
                [number, told(words), told(bits)].concat()
            },
        ),
    );
}

// ---- The reader ----

/// A reader with so many words of its batch to come, and an open page that has so many words.
fn with_page(left: u32, words: usize) -> Reader {
    let page = Page {
        is_open: 1,
        address: ADDRESS,
        words,
        ..Page::default()
    };
    Reader { left, page }
}

/// A sync word, an address word and 15 message words, each with these bits wrong.
fn batch(wrong: u32) -> Vec<u32> {
    let mut words = vec![SYNC, address_word(ADDRESS, 0)];
    words.resize(BATCH + 1, message_word(MESSAGE));
    words.iter().map(|word| word ^ wrong).collect()
}

fn hear_rows(measure: &mut Measure) {
    let fresh = Reader::default();
    let mut row = |input, reader, words: &[u32]| heard(measure, input, reader, words);
    row("no word", fresh, &[]);
    row("a sync word", fresh, &[SYNC]);
    let idle = [&[SYNC][..], &[IDLE; BATCH]].concat();
    row("a batch of 16 idle words", fresh, &idle);
    row("a batch with a page of 15 words", fresh, &batch(0));
    let one = batch(ONE);
    row("the same, one bit of each word wrong", fresh, &one);
    let two = batch(TWO);
    row("the same, two bits of each word wrong", fresh, &two);
    let goes_on = [&[SYNC][..], &[message_word(MESSAGE); BATCH]].concat();
    row(
        "a batch in which a page goes on",
        with_page(0, 15),
        &goes_on,
    );
    let message = [message_word(MESSAGE)];
    row("a message word", with_page(9, 3), &message);
    row(
        "an address word",
        Reader { left: 9, ..fresh },
        &batch(0)[1..2],
    );
    row("an idle word that ends a page", with_page(9, 3), &[IDLE]);
    row("a sync word too early in a page", with_page(9, 3), &[SYNC]);
    row("a message word with no room", with_page(9, 40), &message);
}

fn refused_hear_rows(measure: &mut Measure) {
    let in_batch = Reader {
        left: 9,
        ..Reader::default()
    };
    let message = message_word(MESSAGE);
    let mut row = |input, reader, word: u32| heard(measure, input, reader, &[word]);
    row("refused 17: a word of no page", in_batch, message);
    let beyond_repair = message ^ THREE;
    row("refused 25: in a page", with_page(9, 3), beyond_repair);
    row("refused 26: in a page", with_page(0, 3), message);
}

/// With 40 words lent.
fn heard(measure: &mut Measure, input: &str, reader: Reader, words: &[u32]) {
    type Hear = fn(&mut Reader, &[u32], &mut [u32]) -> Heard;
    let second = Reader::hear as Hear;
    let lent = [0xDEAD_BEEF; 40];
    measure.row_of_state(
        "pocsag_hear",
        input,
        side(
            (as_lent(&reader), lent),
            |(reader, lent)| {
                let (place, room) = (lent.as_mut_ptr(), lent.len());
                let (from, length) = (words.as_ptr(), words.len());
                let heard = unsafe { mortisevane_pocsag_hear(*reader, from, length, place, room) };
                *reader = heard.reader;
                (heard.number, heard.taken, heard.page)
            },
            |(reader, lent), (number, taken, page)| {
                let answer = vec![u64::from(*number), *taken as u64];
                [answer, told_page(page), told_reader(reader), told(lent)].concat()
            },
        ),
        side(
            (reader, lent, second),
            |(reader, lent, second)| second(reader, words, lent),
            |(reader, lent, _), heard| {
                let reader = told_reader(&as_lent(reader));
                [told_heard(heard), reader, told(lent)].concat()
            },
        ),
    );
}

/// The second program's reader as the library's.
fn as_lent(reader: &Reader) -> PocsagReader {
    let page = &reader.page;
    PocsagReader {
        left: reader.left,
        is_open: page.is_open,
        address: page.address,
        function: page.function,
        words: page.words as Size,
        mended: page.mended,
        fault: page.fault,
    }
}

fn told_reader(reader: &PocsagReader) -> Told {
    let PocsagReader {
        left,
        is_open,
        address,
        function,
        words,
        mended,
        fault,
    } = *reader;
    let numbers = told(&[left, is_open, address, function, mended, fault]);
    [numbers, vec![words as u64]].concat()
}

fn told_page(page: &PocsagPage) -> Told {
    let PocsagPage {
        is_ended,
        number,
        address,
        function,
        words,
        mended,
    } = *page;
    let numbers = told(&[is_ended, number, address, function, mended]);
    [numbers, vec![words as u64]].concat()
}

fn told_heard(heard: &Heard) -> Told {
    let number = number_of(heard.told.refusal);
    let answer = vec![number, heard.taken as u64];
    [answer, told_ended(&heard.told.ended)].concat()
}

fn told_ended(ended: &Option<Ended>) -> Told {
    let page = ended.map_or_else(PocsagPage::default, |ended| PocsagPage {
        is_ended: 1,
        number: number_of(ended.refusal) as u32,
        address: ended.address,
        function: ended.function,
        words: ended.words as Size,
        mended: ended.mended,
    });
    told_page(&page)
}

fn number_of(refusal: Option<Refusal>) -> u64 {
    refusal.map_or(0, |refusal| refusal.number().into())
}

fn close_rows(measure: &mut Measure) {
    closed(measure, "no page open", Reader::default());
    closed(measure, "refused 26: a page open", with_page(9, 3));
}

fn closed(measure: &mut Measure, input: &str, reader: Reader) {
    let second = Reader::close as fn(&Reader) -> Option<Ended>;
    measure.row(
        "pocsag_close",
        input,
        side(
            as_lent(&reader),
            |reader| unsafe { mortisevane_pocsag_close(*reader) },
            |_, page| told_page(page),
        ),
        side(
            (reader, second),
            |(reader, second)| second(reader),
            |_, ended| told_ended(ended),
        ),
    );
}

// ---- Texts ----

/// 40 characters of both sets, and 40 of seven bits, which need 14 words.
const DIGITS: &[u8] = b"0123456789012345678901234567890123456789";
const LETTERS: &[u8] = b"Bay 12, shelf 4: 2 boxes; bay 13: 1 box.";

fn numeric(kind: u32, text: &[u8]) -> Vec<u32> {
    numeric_words(kind, text).expect("the set has the text")
}

fn letters(text: &[u8]) -> Vec<u32> {
    text_words(text).expect("each character has seven bits")
}

fn read_rows(measure: &mut Measure) {
    let mut row = |input, kind, words: Vec<u32>| read(measure, input, kind, &words, 80);
    let kind = STANDARD_NUMERIC;
    row("numeric, 1 word", kind, numeric(kind, b"0417"));
    row("numeric, 8 words", kind, numeric(kind, DIGITS));
    let spaces = numeric(kind, &[b' '; 40]);
    row("numeric, 8 words of spaces alone", kind, spaces);
    let kind = CHINESE_NUMERIC;
    row("numeric, 1 word, option on", kind, numeric(kind, b"0A1E"));
    row("numeric, 8 words, option on", kind, numeric(kind, DIGITS));
    row("text, 1 word", SEVEN_BIT, letters(b"Ba"));
    row("text, 14 words", SEVEN_BIT, letters(LETTERS));
    row("text, 14 words of fill alone", SEVEN_BIT, vec![0; 14]);
}

fn refused_read_rows(measure: &mut Measure) {
    let words = numeric(STANDARD_NUMERIC, DIGITS);
    read(measure, "refused 7: of no kind", NEITHER, &words, 80);
    let mut large = words.clone();
    large[7] |= 1 << 20;
    let input = "refused 10: the last of 8 words";
    read(measure, input, STANDARD_NUMERIC, &large, 80);
    read(measure, "refused 1: 39 bytes", STANDARD_NUMERIC, &words, 39);
}

fn read(measure: &mut Measure, input: &str, kind: u32, words: &[u32], room: usize) {
    type Read = fn(u32, &[u32], &mut [u8]) -> Result<TextRead, Refusal>;
    let second = text::read as Read;
    let lent = vec![0xA5; room];
    measure.row(
        "pocsag_read",
        input,
        side(
            lent.clone(),
            |lent| unsafe {
                let (place, room) = (lent.as_mut_ptr(), lent.len());
                mortisevane_pocsag_read(kind, words.as_ptr(), words.len(), place, room)
            },
            |lent, read| {
                let counts = vec![read.characters as u64, read.fill_at_end as u64];
                [told(&[read.number]), counts, bytes(lent)].concat()
            },
        ),
        side(
            (lent, second),
            |(lent, second)| second(kind, words, lent),
            |(lent, _), read| [answer(read, told_read, 2), bytes(lent)].concat(),
        ),
    );
}

fn told_read(read: &TextRead) -> Told {
    vec![read.characters as u64, read.fill_at_end as u64]
}
