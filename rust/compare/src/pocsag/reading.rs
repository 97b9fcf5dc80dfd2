//! Reading pages: every character at every place, and words of every kind, too large ones
//! among them.

use std::io;

use second::pocsag::sender::{numeric_words, text_words};
use second::pocsag::text::{
    self, TextRead, CHINESE_NUMERIC, SEVEN_BIT, STANDARD_NUMERIC, TEXT_FILL,
};
use second::pocsag::word::MESSAGE_BITS;

use crate::counted::{self, Cases, Counts};
use crate::exchange::{append_row, Fields, Item, Request};
use crate::host::{Lent, Told};
use crate::random::Random;
use crate::tally::Tally;
use crate::yardstick;

const PAGES: usize = 300_000;
const KINDS: [u32; 3] = [STANDARD_NUMERIC, CHINESE_NUMERIC, SEVEN_BIT];
/// After seven words a character ends with a word again.
const LONGEST_ROUND: usize = 7;
const LONGEST_PAGE: u64 = 15;

pub struct Read {
    kind: u32,
    words: Vec<u32>,
    /// What stands in the lent bytes before.
    lent: Vec<u8>,
    second: Told<Lent<TextRead, u8>>,
}

/// The answer and the whole lent row must agree. The exchange program itself watches the lent
/// words and the memory around both.
impl Request for Read {
    const EXPORT: u8 = 58;
    type Answer = Told<Lent<TextRead, u8>>;

    fn arguments(&self, bytes: &mut Vec<u8>) {
        self.kind.append_to(bytes);
        append_row(bytes, &self.words);
        append_row(bytes, &self.lent);
    }

    fn library(&self, fields: &mut Fields) -> io::Result<Self::Answer> {
        Told::read_with_row(fields, self.lent.len())
    }

    fn second(&self) -> Self::Answer {
        self.second.clone()
    }

    fn question(&self) -> String {
        let Read {
            kind, words, lent, ..
        } = self;
        format!("reading {words:X?} as kind {kind} into {lent:X?}")
    }
}

impl Read {
    fn new(kind: u32, words: Vec<u32>, lent: Vec<u8>) -> Read {
        let mut row = lent.clone();
        let read = text::read(kind, &words, &mut row);
        Read {
            kind,
            words,
            lent,
            second: yardstick::told_with_row(read, row),
        }
    }

    /// The text, if it was read.
    fn text(&self) -> &[u8] {
        &self.second.fields.row[..self.second.fields.told.characters]
    }

    fn fill(&self) -> usize {
        self.second.fields.told.fill_at_end
    }

    fn is_read(&self, kind: u32) -> bool {
        self.second.number == 0 && self.kind == kind
    }

    fn is_refused(&self, number: u32) -> bool {
        self.second.number == number
    }

    fn has_large_word(&self) -> bool {
        self.words.iter().any(|word| word >> MESSAGE_BITS != 0)
    }

    /// How many bytes the text needs, of a kind that there is.
    fn needed(&self) -> usize {
        match self.kind {
            SEVEN_BIT => 20 * self.words.len() / 7,
            _ => 5 * self.words.len(),
        }
    }
}

pub fn compare(exchange: &[String], seed: u64) -> Result<usize, String> {
    let codes = reads_of_codes(seed);
    let reads = codes.chain(seeded_reads(seed.wrapping_add(1), PAGES));
    counted::compare(exchange, reads, &mut Counted::new())
}

/// Every character of each kind at every place of pages of one to seven words, once among the
/// lowest character and once among the one that fills.
fn reads_of_codes(seed: u64) -> impl Iterator<Item = Read> + Send {
    let mut random = Random::new(seed);
    let pages = (1..=LONGEST_ROUND).flat_map(|words| KINDS.map(|kind| (words, kind)));
    pages.flat_map(move |(words, kind)| {
        let mut reads = Vec::new();
        for (text, words) in texts_of_codes(words, kind) {
            let lent = bytes(&mut random, text.len() + 2);
            reads.push(Read::new(kind, words, lent));
        }
        reads
    })
}

/// The texts, and their words.
fn texts_of_codes(words: usize, kind: u32) -> Vec<(Vec<u8>, Vec<u32>)> {
    let (characters, room, fillers) = match kind {
        SEVEN_BIT => ((0..0x80).collect(), 20 * words / 7, [0, 4]),
        _ => (set(kind).to_vec(), 5 * words, [b'0', b' ']),
    };
    let mut texts = Vec::new();
    for filler in fillers {
        for place in 0..room {
            for character in &characters {
                let mut text = vec![filler; room];
                text[place] = *character;
                let words = words_of(kind, &text);
                texts.push((text, words));
            }
        }
    }
    texts
}

fn set(kind: u32) -> &'static [u8; 16] {
    text::characters_of(kind).expect("a numeric kind has a set")
}

/// The words of a text of that kind, as the second program sends it.
fn words_of(kind: u32, text: &[u8]) -> Vec<u32> {
    let words = match kind {
        SEVEN_BIT => text_words(text),
        _ => numeric_words(kind, text),
    };
    words.expect("each character is one of the kind")
}

fn seeded_reads(seed: u64, pages: usize) -> impl Iterator<Item = Read> + Send {
    let mut random = Random::new(seed);
    (0..pages).map(move |_| seeded_read(&mut random))
}

fn seeded_read(random: &mut Random) -> Read {
    let mut kind = random.choose(&KINDS);
    let mut words = match random.below(3) {
        0 => any_words(random),
        _ => sent_words(random, kind),
    };
    if random.once_in(8) && !words.is_empty() {
        let place = random.below(words.len() as u64) as usize;
        words[place] |= 1 << random.between(u64::from(MESSAGE_BITS), 31);
    }
    let needed = match kind {
        SEVEN_BIT => 20 * words.len() / 7,
        _ => 5 * words.len(),
    };
    let lent = match random.below(8) {
        0 => needed.saturating_sub(1),
        1 => random.choose(&[0, needed / 2]),
        2 => needed + random.between(1, 9) as usize,
        _ => needed,
    };
    if random.once_in(16) {
        kind = random.choose(&[3, 4, 5, 7, 255, 256, 1 << 16, 1 << 31, u32::MAX]);
    }
    let lent = bytes(random, lent);
    Read::new(kind, words, lent)
}

fn any_words(random: &mut Random) -> Vec<u32> {
    let length = random.between(0, LONGEST_PAGE);
    (0..length)
        .map(|_| random.below(1 << MESSAGE_BITS) as u32)
        .collect()
}

/// A text with fill at its end, more than its last word needs of it.
fn sent_words(random: &mut Random, kind: u32) -> Vec<u32> {
    let length = random.between(0, 30) as usize;
    let fill = random.choose(&[0, 0, 1, 3, 12]);
    let mut text = Vec::new();
    for place in 0..length {
        let is_fill = place + fill >= length;
        text.push(match (kind, is_fill) {
            (SEVEN_BIT, true) => random.choose(&TEXT_FILL),
            (SEVEN_BIT, false) if random.once_in(4) => b' ',
            (SEVEN_BIT, false) => random.below(0x80) as u8,
            (_, true) => b' ',
            (_, false) => random.choose(set(kind)),
        });
    }
    words_of(kind, &text)
}

fn bytes(random: &mut Random, length: usize) -> Vec<u8> {
    (0..length).map(|_| random.byte()).collect()
}

/// What a case is called, and whether a page is one of it.
type Case = (&'static str, fn(&Read) -> bool);

const CASES: &[Case] = &[
    ("numeric in the standard set", |read| {
        read.is_read(STANDARD_NUMERIC)
    }),
    ("numeric in the Chinese set", |read| {
        read.is_read(CHINESE_NUMERIC)
    }),
    ("seven-bit text", |read| read.is_read(SEVEN_BIT)),
    ("no words", |read| {
        read.is_refused(0) && read.words.is_empty()
    }),
    ("numeric, its fill some of it", |read| {
        read.is_numeric() && read.fill() > 0 && read.fill() < read.text().len()
    }),
    ("numeric, no fill", |read| {
        read.is_numeric() && read.fill() == 0 && !read.text().is_empty()
    }),
    ("numeric, all fill", |read| {
        read.is_numeric() && read.fill() > 0 && read.fill() == read.text().len()
    }),
    ("numeric, a space before another character", |read| {
        read.is_numeric() && read.has_earlier(b' ')
    }),
    ("text, its fill some of it", |read| {
        read.is_read(SEVEN_BIT) && read.fill() > 0 && read.fill() < read.text().len()
    }),
    ("text, no fill", |read| {
        read.is_read(SEVEN_BIT) && read.fill() == 0 && !read.text().is_empty()
    }),
    ("text, all fill", |read| {
        read.is_read(SEVEN_BIT) && read.fill() > 0 && read.fill() == read.text().len()
    }),
    ("text, NUL and ETX and EOT as fill", |read| {
        let fill = &read.text()[read.text().len() - read.fill()..];
        read.is_read(SEVEN_BIT) && TEXT_FILL.iter().all(|byte| fill.contains(byte))
    }),
    ("text, a space at its end", |read| {
        read.is_read(SEVEN_BIT) && read.text().last() == Some(&b' ')
    }),
    ("text, ETX before another character", |read| {
        read.is_read(SEVEN_BIT) && read.has_earlier(3)
    }),
    ("text, bits left over that are not 0", |read| {
        let left_over = 20 * read.words.len() % 7;
        let last = read.words.last().copied().unwrap_or_default();
        read.is_read(SEVEN_BIT) && left_over > 0 && last >> (20 - left_over) != 0
    }),
    ("text of a multiple of seven words", |read| {
        read.is_read(SEVEN_BIT) && !read.words.is_empty() && read.words.len() % 7 == 0
    }),
    ("bytes left over", |read| {
        read.is_refused(0) && read.lent.len() > read.text().len()
    }),
    ("no kind", |read| read.is_refused(7)),
    ("kind 3", |read| read.is_refused(7) && read.kind == 3),
    ("no kind and a word too large", |read| {
        read.is_refused(7) && read.has_large_word()
    }),
    ("no kind and no bytes", |read| {
        read.is_refused(7) && read.lent.is_empty()
    }),
    ("a word too large", |read| read.is_refused(10)),
    ("a word of 21 bits", |read| {
        let largest = read.words.iter().max();
        read.is_refused(10) && largest.is_some_and(|word| word >> MESSAGE_BITS == 1)
    }),
    ("the last word too large", |read| {
        let [before @ .., last] = &read.words[..] else {
            return false;
        };
        let is_large = |word: &u32| word >> MESSAGE_BITS != 0;
        read.is_refused(10) && is_large(last) && !before.iter().any(is_large)
    }),
    ("a word too large and too few bytes", |read| {
        read.is_refused(10) && read.lent.len() < read.needed()
    }),
    ("numeric, one byte too few", |read| {
        read.is_refused(1) && read.kind != SEVEN_BIT && read.lent.len() + 1 == read.needed()
    }),
    ("text, one byte too few", |read| {
        read.is_refused(1) && read.kind == SEVEN_BIT && read.lent.len() + 1 == read.needed()
    }),
    ("no bytes", |read| {
        read.is_refused(1) && read.lent.is_empty()
    }),
];

impl Read {
    fn is_numeric(&self) -> bool {
        self.is_read(STANDARD_NUMERIC) || self.is_read(CHINESE_NUMERIC)
    }

    /// Whether that character stands before the last one that is no fill.
    fn has_earlier(&self, character: u8) -> bool {
        let text = self.text();
        text[..text.len() - self.fill()].contains(&character)
    }
}

struct Counted {
    cases: Cases,
    tallies: [Tally; 4],
}

impl Counted {
    fn new() -> Counted {
        Counted {
            cases: Cases::named(CASES.iter().map(|(name, _)| *name)),
            tallies: [
                "numeric pages",
                "Chinese numeric pages",
                "texts",
                "of no kind",
            ]
            .map(Tally::new),
        }
    }
}

impl Counts<Read> for Counted {
    fn add(&mut self, read: &Read) {
        self.cases.note(CASES.iter().map(|(_, is_it)| is_it(read)));
        let tally = &mut self.tallies[read.kind.min(3) as usize];
        let word = match (read.second.number, read.fill()) {
            (0, 0) => "with no fill",
            (0, _) => "with fill",
            _ => "",
        };
        tally.add(read.second.number, word);
    }

    fn tallies(&self) -> Vec<&Tally> {
        self.tallies.iter().collect()
    }

    fn cases(&self) -> &Cases {
        &self.cases
    }
}

#[cfg(test)]
mod tests {
    use std::collections::BTreeSet;

    use super::*;

    /// A tenth of the pages brings a tenth of each case.
    #[test]
    fn every_case_comes() {
        let mut counted = Counted::new();
        for read in seeded_reads(1, PAGES / 10) {
            counted.add(&read);
        }
        assert_eq!(counted.cases.too_few(10), [""; 0]);
    }

    /// Pages of one to seven words have 140 places, texts 77, and each of these comes with each
    /// of 16 characters or of 128.
    #[test]
    fn every_character_at_every_place() {
        let mut came = BTreeSet::new();
        for read in reads_of_codes(1) {
            assert_eq!(read.second.number, 0);
            for (place, character) in read.text().iter().enumerate() {
                came.insert((read.kind, read.words.len(), place, *character));
            }
        }
        assert_eq!(came.len(), 2 * 140 * 16 + 77 * 128);
    }
}
