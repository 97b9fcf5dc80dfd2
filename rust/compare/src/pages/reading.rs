//! Reading pages: those that the second program wrote, and others, in both sets of
//! characters.

use std::io;

use second::numeric::{self, Numbering, PageRead, MOST_WORDS};
use second::sums;
use second::vector::NUMBERED_NUMERIC;

use crate::exchange::{append_row, Fields, Item, Request};
use crate::host::{Lent, Told};
use crate::random::Random;
use crate::tally::{self, Tally};
use crate::yardstick;

use super::writing::{
    characters, fitting_numbering, seeded_text, sets_and_kinds, wrong_kind, wrong_set, KINDS, SETS,
};

const PAGES: usize = 1_000_000;
const WORD_BITS: u64 = 21;
/// The room of eight words, where the page is numbered and where it is not.
const LONGEST_NUMBERED_TEXT: u64 = 39;
const LONGEST_TEXT: u64 = 41;
/// Lent rows reach beyond the longest text.
const LONGEST_LENT: u64 = LONGEST_TEXT + 4;

/// A page's words, with the K of its vector and the set that they are read in.
struct Page {
    set: u32,
    kind: u32,
    check: u32,
    words: Vec<u32>,
}

struct Read {
    page: Page,
    /// What stands in the lent bytes before.
    lent: Vec<u8>,
}

/// The answer and the whole lent row must agree. The exchange program itself
/// watches the lent words and the memory around both.
impl Request for Read {
    const EXPORT: u8 = 43;
    type Answer = Told<Lent<PageRead, u8>>;

    fn arguments(&self, bytes: &mut Vec<u8>) {
        self.page.set.append_to(bytes);
        self.page.kind.append_to(bytes);
        self.page.check.append_to(bytes);
        append_row(bytes, &self.page.words);
        append_row(bytes, &self.lent);
    }

    fn library(&self, fields: &mut Fields) -> io::Result<Self::Answer> {
        Told::read_with_row(fields, self.lent.len())
    }

    fn second(&self) -> Self::Answer {
        let page = &self.page;
        let mut row = self.lent.clone();
        let read = numeric::read(page.set, page.kind, page.check, &page.words, &mut row);
        yardstick::told_with_row(read, row)
    }

    fn question(&self) -> String {
        let Page {
            set,
            kind,
            check,
            words,
        } = &self.page;
        format!(
            "reading {words:X?}, set {set}, kind {kind}, check {check}, into {:X?}",
            self.lent
        )
    }
}

/// How a page that was read ends, in words.
fn ending(read: &Lent<PageRead, u8>) -> &'static str {
    let PageRead {
        characters,
        spaces_at_end,
        ..
    } = read.told;
    match spaces_at_end {
        0 => "ending in no space",
        _ if spaces_at_end == characters => "of spaces alone",
        _ => "ending in spaces",
    }
}

pub fn compare_codes(exchange: &[String], seed: u64) -> Result<Tally, String> {
    tally::compare_by("read single codes", exchange, reads_of_codes(seed), ending)
}

/// Every code at every place of pages of every size and kind, in each set: once
/// among 0s and once among spaces.
fn reads_of_codes(seed: u64) -> impl Iterator<Item = Read> + Send {
    let mut random = Random::new(seed);
    let sizes = (1..=MOST_WORDS).flat_map(|words| sets_and_kinds().map(move |page| (words, page)));
    let pages = sizes.flat_map(|(words, (set, kind))| {
        let places = 0..room(kind, words);
        places.flat_map(move |place| pages_of_codes(set, kind, room(kind, words), place))
    });
    pages.map(move |page| Read {
        page,
        lent: bytes(&mut random, LONGEST_LENT),
    })
}

/// 01: "Room for w words (1 to 8): (21w - 2) div 4 characters, or (21w - 10) div 4
/// when numbered".
fn room(kind: u32, words: usize) -> usize {
    match kind {
        NUMBERED_NUMERIC => (21 * words - 10) / 4,
        _ => (21 * words - 2) / 4,
    }
}

/// Full pages that have each code at a place, among 0s and among spaces.
fn pages_of_codes(set: u32, kind: u32, room: usize, place: usize) -> Vec<Page> {
    let mut pages = Vec::new();
    for filler in [b'0', b' '] {
        for character in *characters(set) {
            let mut text = vec![filler; room];
            text[place] = character;
            pages.push(page_of(set, &text, kind, Numbering::default()));
        }
    }
    pages
}

pub fn compare(exchange: &[String], seed: u64) -> Result<Tally, String> {
    tally::compare_by("read pages", exchange, seeded_reads(seed), ending)
}

fn seeded_reads(seed: u64) -> impl Iterator<Item = Read> + Send {
    let mut random = Random::new(seed);
    (0..PAGES).map(move |_| {
        let mut page = seeded_page(&mut random);
        spoil(&mut random, &mut page);
        let lent = lent_bytes(&mut random);
        Read { page, lent }
    })
}

fn seeded_page(random: &mut Random) -> Page {
    match random.below(8) {
        0..=2 => written_page(random),
        3 => page_with_left_over_bits(random),
        4..=6 => any_page(random),
        _ => Page {
            check: random.below(16) as u32,
            ..any_page(random)
        },
    }
}

/// The text fits a page of any kind.
fn written_page(random: &mut Random) -> Page {
    let set = random.choose(&SETS);
    let kind = random.choose(&KINDS);
    let numbering = fitting_numbering(random, kind);
    let length = random.between(0, LONGEST_NUMBERED_TEXT) as usize;
    let text = seeded_text(random, set, length);
    page_of(set, &text, kind, numbering)
}

/// The page of a text that fits, as the second program writes it.
fn page_of(set: u32, text: &[u8], kind: u32, numbering: Numbering) -> Page {
    let mut words = vec![0; MOST_WORDS];
    let written = numeric::write(set, text, kind, numbering, &mut words).expect("all of it fits");
    words.truncate(written.words);
    Page {
        set,
        kind,
        check: written.check,
        words,
    }
}

/// At most three bits are left over at the end of the last word; where there
/// are fewer, the last character gets the others.
fn page_with_left_over_bits(random: &mut Random) -> Page {
    let mut page = written_page(random);
    let last = page.words.last_mut().expect("a page has a word");
    *last ^= (random.between(1, 7) as u32) << (WORD_BITS - 3);
    set_check(&mut page);
    page
}

/// Any words of 21 bits, now and then none or too many, with K set right.
fn any_page(random: &mut Random) -> Page {
    let count = match random.below(16) {
        0 => random.choose(&[0, MOST_WORDS + 1]),
        _ => random.between(1, MOST_WORDS as u64) as usize,
    };
    let mut page = Page {
        set: random.choose(&SETS),
        kind: random.choose(&KINDS),
        check: 0,
        words: (0..count).map(|_| any_word(random)).collect(),
    };
    set_check(&mut page);
    page
}

fn any_word(random: &mut Random) -> u32 {
    random.below(1 << WORD_BITS) as u32
}

/// K0 to K3 are the vector's, K4 and K5 the lowest bits of the first word.
fn set_check(page: &mut Page) {
    let check = sums::six_bit(&page.words);
    page.check = check & 0xF;
    if let Some(first) = page.words.first_mut() {
        *first = *first & !0b11 | check >> 4;
    }
}

/// Every other page has a fault, more seldom a second one.
fn spoil(random: &mut Random, page: &mut Page) {
    while random.once_in(2) {
        match random.below(9) {
            0 => page.kind = wrong_kind(random, page.kind),
            1 => page.check ^= 1 << random.below(4),
            2 => page.check = random.choose(&[16, page.check | 16, 1 << 31, u32::MAX]),
            3..=4 => change_bit(random, &mut page.words, 0, WORD_BITS - 1),
            5..=6 => change_bit(random, &mut page.words, WORD_BITS, 31),
            7 => page.set = wrong_set(random, page.set),
            _ => swap_words(random, &mut page.words),
        }
    }
}

fn change_bit(random: &mut Random, words: &mut [u32], lowest: u64, highest: u64) {
    if words.is_empty() {
        return;
    }
    let place = random.below(words.len() as u64) as usize;
    words[place] ^= 1 << random.between(lowest, highest);
}

/// K is the same unless the first word, in which it stands, is another one.
fn swap_words(random: &mut Random, words: &mut [u32]) {
    if words.is_empty() {
        return;
    }
    let mut place = || random.below(words.len() as u64) as usize;
    let (one, other) = (place(), place());
    words.swap(one, other);
}

/// What stands in the lent bytes before; there are enough of them more often
/// than not.
fn lent_bytes(random: &mut Random) -> Vec<u8> {
    let length = match random.below(4) {
        0 => random.between(0, LONGEST_LENT),
        _ => random.between(LONGEST_TEXT, LONGEST_LENT),
    };
    bytes(random, length)
}

fn bytes(random: &mut Random, length: u64) -> Vec<u8> {
    (0..length).map(|_| random.byte()).collect()
}

#[cfg(test)]
mod tests {
    use std::collections::{BTreeMap, BTreeSet};

    use super::*;

    /// Pages of 1 to 8 words have 182 places in all, numbered ones 166 (the titles of
    /// Tables 41 and 42). Each has 16 codes among 0s and 16 among spaces.
    #[test]
    fn every_code_at_every_place() {
        let places = 182 + 182 + 166;
        let reads: Vec<Read> = reads_of_codes(1).collect();
        assert_eq!(reads.len(), 2 * places * 2 * 16);
        let mut came = BTreeSet::new();
        for read in &reads {
            let Page {
                set, kind, words, ..
            } = &read.page;
            let told = read.second();
            assert_eq!(told.number, 0);
            let text = &told.fields.row[..told.fields.told.characters];
            for (place, character) in text.iter().enumerate() {
                came.insert((set, kind, words.len(), place, *character));
            }
        }
        assert_eq!(came.len(), 2 * places * 16);
    }

    /// Of every hundred pages of either set some are accepted, and some get each
    /// refusal.
    #[test]
    fn every_answer_is_common() {
        for set in SETS {
            let mut counts: BTreeMap<u32, usize> = BTreeMap::new();
            let reads = seeded_reads(1).filter(|read| read.page.set == set);
            for read in reads.take(25_000) {
                *counts.entry(read.second().number).or_default() += 1;
            }
            let numbers: Vec<u32> = counts.keys().copied().collect();
            assert_eq!(numbers, [0, 1, 7, 9, 10, 11]);
            let all: usize = counts.values().sum();
            assert!(counts.values().all(|count| 100 * count > all), "{counts:?}");
        }
    }

    /// Of every hundred pages some are of a set that is neither.
    #[test]
    fn wrong_sets_are_common() {
        let reads = seeded_reads(1).take(50_000);
        let wrong = reads.filter(|read| !SETS.contains(&read.page.set));
        assert!(100 * wrong.count() > 50_000);
    }

    /// Of every hundred pages that are read in either set some end in no space, some
    /// in spaces, and some are of spaces alone. Of the first two sorts some have
    /// spaces before their last other character, and some have none there.
    #[test]
    fn every_ending_is_common() {
        for set in SETS {
            let mut counts: BTreeMap<(&str, bool), usize> = BTreeMap::new();
            let reads = seeded_reads(1).filter(|read| read.page.set == set);
            let read = reads.take(25_000).map(|read| read.second());
            for Told { fields, .. } in read.filter(|told| told.number == 0) {
                let text = &fields.row[..fields.told.characters];
                let spaces = text.iter().filter(|character| **character == b' ').count();
                let has_earlier = spaces > fields.told.spaces_at_end;
                *counts.entry((ending(&fields), has_earlier)).or_default() += 1;
            }
            assert_eq!(counts.len(), 5);
            let all: usize = counts.values().sum();
            assert!(counts.values().all(|count| 100 * count > all), "{counts:?}");
        }
    }
}
