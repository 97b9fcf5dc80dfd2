//! Writing pages: texts that fit and texts that do not, of every kind, in both
//! sets of characters.

use std::io;

use second::numeric::{self, Numbering, Written, CHINESE_SET, MOST_WORDS, STANDARD_SET};
use second::vector::{NUMBERED_NUMERIC, SPECIAL_NUMERIC, STANDARD_NUMERIC};

use crate::exchange::{append_numbers, append_row, Fields, Item, Request};
use crate::host::{Lent, Told};
use crate::random::Random;
use crate::tally::{self, Tally};
use crate::texts::shown;
use crate::yardstick;

pub const SETS: [u32; 2] = [STANDARD_SET, CHINESE_SET];
pub const KINDS: [u32; 3] = [STANDARD_NUMERIC, SPECIAL_NUMERIC, NUMBERED_NUMERIC];

const LONGEST_SHORT_TEXT: u32 = 3;
/// The longest short text of the other set's characters.
const LONGEST_FOREIGN_TEXT: u32 = 2;
/// A short text needs one word, or two.
const MOST_LENT_TO_SHORT: usize = 3;
/// Over the room of eight words, which is 41 characters.
const LONGEST_TEXT: usize = 45;
/// As many in each set, and of each kind.
const TEXTS_OF_EACH_LENGTH: usize = 3_000;
/// Lent rows reach beyond the longest page.
const LONGEST_LENT: u64 = MOST_WORDS as u64 + 2;

struct Write {
    set: u32,
    text: Vec<u8>,
    kind: u32,
    numbering: Numbering,
    /// What stands in the lent words before.
    lent: Vec<u32>,
}

/// The answer and the whole lent row must agree. The exchange program itself
/// watches the lent text and the memory around both.
impl Request for Write {
    const EXPORT: u8 = 42;
    type Answer = Told<Lent<Written, u32>>;

    fn arguments(&self, bytes: &mut Vec<u8>) {
        self.set.append_to(bytes);
        self.kind.append_to(bytes);
        append_numbers(bytes, &self.numbering);
        append_row(bytes, &self.text);
        append_row(bytes, &self.lent);
    }

    fn library(&self, fields: &mut Fields) -> io::Result<Self::Answer> {
        Told::read_with_row(fields, self.lent.len())
    }

    fn second(&self) -> Self::Answer {
        let mut row = self.lent.clone();
        let written = numeric::write(self.set, &self.text, self.kind, self.numbering, &mut row);
        yardstick::told_with_row(written, row)
    }

    fn question(&self) -> String {
        format!(
            "writing \"{}\", set {}, kind {}, {:?}, into {:X?}",
            shown(&self.text),
            self.set,
            self.kind,
            self.numbering,
            self.lent
        )
    }
}

/// The sixteen characters of a set that can be chosen.
pub fn characters(set: u32) -> &'static [u8; 16] {
    numeric::characters_of(set).expect("it is one of the sets")
}

/// Each set with each kind of page.
pub fn sets_and_kinds() -> impl Iterator<Item = (u32, u32)> + Send {
    SETS.into_iter()
        .flat_map(|set| KINDS.map(|kind| (set, kind)))
}

pub fn compare_bytes(exchange: &[String], seed: u64) -> Result<Tally, String> {
    tally::compare("write single bytes", exchange, pages_of_bytes(seed))
}

/// Every byte as a text by itself, in each set and of every kind.
fn pages_of_bytes(seed: u64) -> impl Iterator<Item = Write> + Send {
    let mut random = Random::new(seed);
    let bytes = sets_and_kinds().flat_map(|page| (0..=u8::MAX).map(move |byte| (page, byte)));
    bytes.map(move |((set, kind), byte)| Write {
        set,
        text: vec![byte],
        kind,
        numbering: fitting_numbering(&mut random, kind),
        lent: words(&mut random, MOST_WORDS),
    })
}

pub fn compare_short_texts(exchange: &[String], seed: u64) -> Result<Tally, String> {
    let mut random = Random::new(seed);
    let pages = short_texts().flat_map(|(set, text)| pages_of_short_text(&mut random, set, &text));
    tally::compare("write short texts", exchange, pages)
}

/// Every short text of a set's own characters, and those of the other's, each with
/// the set that it is to be written in.
fn short_texts() -> impl Iterator<Item = (u32, Vec<u8>)> + Send {
    let sets = [(STANDARD_SET, CHINESE_SET), (CHINESE_SET, STANDARD_SET)];
    sets.into_iter().flat_map(|(set, other)| {
        let own = (0..=LONGEST_SHORT_TEXT).flat_map(move |length| texts_of_length(set, length));
        let foreign =
            (1..=LONGEST_FOREIGN_TEXT).flat_map(move |length| texts_of_length(other, length));
        own.chain(foreign).map(move |text| (set, text))
    })
}

/// All texts of that many characters of the set.
fn texts_of_length(set: u32, length: u32) -> impl Iterator<Item = Vec<u8>> + Send {
    let characters = characters(set);
    let codes_in_turn = 0..characters.len().pow(length);
    codes_in_turn.map(move |codes| {
        let code = |place| codes >> (4 * place) & 0xF;
        (0..length).map(|place| characters[code(place)]).collect()
    })
}

/// Of every kind, into rows of every length about what is needed.
fn pages_of_short_text(random: &mut Random, set: u32, text: &[u8]) -> Vec<Write> {
    let mut pages = Vec::new();
    for kind in KINDS {
        for lent in 0..=MOST_LENT_TO_SHORT {
            pages.push(Write {
                set,
                text: text.to_vec(),
                kind,
                numbering: fitting_numbering(random, kind),
                lent: words(random, lent),
            });
        }
    }
    pages
}

pub fn compare(exchange: &[String], seed: u64) -> Result<Tally, String> {
    tally::compare("write texts", exchange, seeded_pages(seed))
}

fn seeded_pages(seed: u64) -> impl Iterator<Item = Write> + Send {
    let mut random = Random::new(seed);
    let pages = (0..=LONGEST_TEXT)
        .flat_map(|length| sets_and_kinds().map(move |(set, kind)| (length, set, kind)));
    pages
        .flat_map(|page| std::iter::repeat_n(page, TEXTS_OF_EACH_LENGTH))
        .map(move |(length, set, kind)| seeded_page(&mut random, length, set, kind))
}

/// Each part is right more often than not, so that every refusal gets its turn.
fn seeded_page(random: &mut Random, length: usize, set: u32, kind: u32) -> Write {
    let mut text = seeded_text(random, set, length);
    if random.once_in(8) {
        spoil(random, &mut text);
    }
    let numbering = if random.once_in(8) {
        wrong_numbering(random, kind)
    } else {
        fitting_numbering(random, kind)
    };
    let lent = match random.below(2) {
        0 => random.between(0, LONGEST_LENT),
        _ => random.between(MOST_WORDS as u64, LONGEST_LENT),
    };
    Write {
        set: if random.once_in(32) {
            wrong_set(random, set)
        } else {
            set
        },
        text,
        kind: if random.once_in(16) {
            wrong_kind(random, kind)
        } else {
            kind
        },
        numbering,
        lent: words(random, lent as usize),
    }
}

/// Any characters of the set, a space being one of them. Now and then more spaces
/// stand at the end, or nothing but spaces.
pub fn seeded_text(random: &mut Random, set: u32, length: usize) -> Vec<u8> {
    let characters = characters(set);
    let mut text: Vec<u8> = (0..length).map(|_| random.choose(characters)).collect();
    let before_spaces = match random.below(8) {
        0 => 0,
        1 => random.between(0, length as u64) as usize,
        _ => length,
    };
    text[before_spaces..].fill(b' ');
    text
}

/// Puts a byte that may not be in the set anywhere in the text: any byte, one
/// that only one of the sets has, one near those of the sets, or the right one with
/// a higher bit.
fn spoil(random: &mut Random, text: &mut [u8]) {
    if text.is_empty() {
        return;
    }
    let place = random.below(text.len() as u64) as usize;
    text[place] = match random.below(4) {
        0 => random.byte(),
        1 => random.choose(b"?U-][ABCDE"),
        2 => random.choose(b"\0\x0C/:@FTVabcdeu\\^_,.+*()"),
        _ => text[place] | 0x80,
    };
}

pub fn fitting_numbering(random: &mut Random, kind: u32) -> Numbering {
    if kind != NUMBERED_NUMERIC {
        return Numbering::default();
    }
    Numbering {
        message_number: random.below(64) as u32,
        retrieval: random.below(2) as u32,
        special_format: random.below(2) as u32,
    }
}

/// One of the numbers has no room in a page of the kind, or just still has.
fn wrong_numbering(random: &mut Random, kind: u32) -> Numbering {
    let mut numbering = fitting_numbering(random, kind);
    let flag = random.choose(&[1, 2, 3, 1 << 31, u32::MAX]);
    match random.below(3) {
        0 => numbering.message_number = random.choose(&[1, 63, 64, 127, 128, 1 << 31, u32::MAX]),
        1 => numbering.retrieval = flag,
        _ => numbering.special_format = flag,
    }
    numbering
}

/// A number that chooses neither set.
pub fn wrong_set(random: &mut Random, set: u32) -> u32 {
    match random.below(3) {
        0 => random.choose(&[2, 3]),
        1 => set | 1 << random.between(1, 31),
        _ => random.between(2, u32::MAX.into()) as u32,
    }
}

/// The kind of another vector, or of none.
pub fn wrong_kind(random: &mut Random, kind: u32) -> u32 {
    match random.below(3) {
        0 => random.choose(&[0, 1, 2, 5, 6]),
        1 => kind | 1 << random.between(3, 31),
        _ => random.number() as u32,
    }
}

/// What stands in the lent words before.
fn words(random: &mut Random, length: usize) -> Vec<u32> {
    (0..length).map(|_| random.number() as u32).collect()
}

#[cfg(test)]
mod tests {
    use std::collections::{BTreeMap, BTreeSet};

    use super::*;

    /// Each set takes its sixteen characters, of whatever kind the page is.
    #[test]
    fn every_byte() {
        let pages: Vec<Write> = pages_of_bytes(1).collect();
        assert_eq!(pages.len(), 2 * 3 * 256);
        for set in SETS {
            let taken = pages
                .iter()
                .filter(|page| page.set == set && page.second().number == 0);
            assert_eq!(taken.count(), 3 * 16);
        }
    }

    #[test]
    fn every_short_text() {
        for set in SETS {
            let texts = (0..=LONGEST_SHORT_TEXT).flat_map(|length| texts_of_length(set, length));
            let texts: Vec<Vec<u8>> = texts.collect();
            assert_eq!(texts.len(), 1 + 16 + 16 * 16 + 16 * 16 * 16);
            let different: BTreeSet<&Vec<u8>> = texts.iter().collect();
            assert_eq!(different.len(), texts.len());
        }
    }

    /// Eleven characters are in both sets, so of the other's 16 texts of one character
    /// 5 are refused, and of its 256 of two characters all but 121.
    #[test]
    fn short_texts_of_the_other_set() {
        for set in SETS {
            let is_refused = |text: &[u8]| {
                let numbering = Numbering::default();
                numeric::write(set, text, STANDARD_NUMERIC, numbering, &mut [0; 2]).is_err()
            };
            let texts: Vec<Vec<u8>> = short_texts()
                .filter_map(|(chosen, text)| (chosen == set).then_some(text))
                .collect();
            assert_eq!(texts.len(), 4_369 + 16 + 256);
            let refused = texts.iter().filter(|text| is_refused(text));
            assert_eq!(refused.count(), 5 + 256 - 121);
        }
    }

    /// Of every hundred pages of either set some are accepted, and some get each
    /// refusal.
    #[test]
    fn every_answer_is_common() {
        for set in SETS {
            let mut counts: BTreeMap<u32, usize> = BTreeMap::new();
            let pages = seeded_pages(1).filter(|page| page.set == set);
            for page in pages.step_by(16) {
                *counts.entry(page.second().number).or_default() += 1;
            }
            let numbers: Vec<u32> = counts.keys().copied().collect();
            assert_eq!(numbers, [0, 1, 7, 15, 18]);
            let all: usize = counts.values().sum();
            assert!(counts.values().all(|count| 20 * count > all), "{counts:?}");
        }
    }

    /// Of every hundred pages some are of a set that is neither.
    #[test]
    fn wrong_sets_are_common() {
        let pages: Vec<Write> = seeded_pages(1).step_by(16).collect();
        let wrong = pages.iter().filter(|page| !SETS.contains(&page.set));
        assert!(100 * wrong.count() > pages.len());
    }
}
