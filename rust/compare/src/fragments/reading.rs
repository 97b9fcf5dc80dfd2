//! Reading fragments: those that texts were cut into, and rows good and bad.

use std::io;

use second::fragment::{self, FragmentRead, ETX, FIRST};

use crate::exchange::{append_row, Fields, Request};
use crate::host::{Lent, Told, ToldOfRow};
use crate::random::Random;
use crate::tally::{self, Case, Tally};
use crate::yardstick;

use super::cutting::cut_fragments;
use super::rows::{
    seeded_row, Row, ANOTHER_CHECK, ANY_WORDS, AS_CUT, BIT_TURNED, CELLS_IN_WORD, OF_ANY_CELLS,
    OVER_21_BITS, WORDS_LOST,
};
use super::ROOMS;

const READS: usize = 1_000_000;
const HEADINGS: usize = 250_000;

/// What is told of the fragment alone.
struct Heading {
    row: Row,
}

/// The exchange program itself watches the lent words and the memory around them.
impl Request for Heading {
    const EXPORT: u8 = 44;
    type Answer = Told<FragmentRead>;

    fn arguments(&self, bytes: &mut Vec<u8>) {
        append_row(bytes, &self.row.words);
    }

    fn library(&self, fields: &mut Fields) -> io::Result<Self::Answer> {
        Ok(Told {
            number: fields.u32()?,
            fields: FragmentRead::read(fields)?,
        })
    }

    fn second(&self) -> Self::Answer {
        yardstick::told(fragment::heading(&self.row.words))
    }

    fn question(&self) -> String {
        format!("heading of {:X?}", self.row.words)
    }
}

struct Read {
    row: Row,
    /// What stands in the lent bytes before.
    lent: Vec<u8>,
}

/// The answer and the whole lent row must agree. The exchange program itself
/// watches the lent words and the memory around both.
impl Request for Read {
    const EXPORT: u8 = 45;
    type Answer = Told<Lent<FragmentRead, u8>>;

    fn arguments(&self, bytes: &mut Vec<u8>) {
        append_row(bytes, &self.row.words);
        append_row(bytes, &self.lent);
    }

    fn library(&self, fields: &mut Fields) -> io::Result<Self::Answer> {
        Told::read_with_row(fields, self.lent.len())
    }

    fn second(&self) -> Self::Answer {
        let mut row = self.lent.clone();
        let read = fragment::read(&self.row.words, &mut row);
        yardstick::told_with_row(read, row)
    }

    fn question(&self) -> String {
        format!("reading {:X?}, into {:X?}", self.row.words, self.lent)
    }
}

/// The lent rows are long enough, so each fragment is accepted.
pub fn compare_cut_fragments(exchange: &[String], seed: u64) -> Result<Tally, String> {
    let mut random = Random::new(seed);
    let reads = cut_fragments(seed).map(|words| {
        let row = Row {
            sort: AS_CUT,
            words,
        };
        let lent = needed(&row) + random.below(2) as usize;
        read_into(&mut random, row, lent)
    });
    tally::compare_cases("read what was cut", exchange, reads, |read, answer| {
        let told = &answer.fields.told;
        let fragment = fragment_cases(&read.row, answer.number, told);
        [fragment, enough_room_cases(read, answer)].concat()
    })
}

pub fn compare(exchange: &[String], seed: u64) -> Result<Tally, String> {
    tally::compare_cases("read fragments", exchange, seeded_reads(seed), read_cases)
}

pub fn compare_headings(exchange: &[String], seed: u64) -> Result<Tally, String> {
    let headings = seeded_headings(seed);
    tally::compare_cases("headings of fragments", exchange, headings, heading_cases)
}

fn seeded_headings(seed: u64) -> impl Iterator<Item = Heading> + Send {
    let mut random = Random::new(seed);
    (0..HEADINGS).map(move |_| Heading {
        row: seeded_row(&mut random),
    })
}

fn seeded_reads(seed: u64) -> impl Iterator<Item = Read> + Send {
    let mut random = Random::new(seed);
    (0..READS).map(move |_| {
        let row = seeded_row(&mut random);
        let room = random.choose(&ROOMS);
        let lent = room(needed(&row));
        read_into(&mut random, row, lent)
    })
}

/// How many characters the text has. Where there is none, it is as many as would
/// have room.
fn needed(row: &Row) -> usize {
    let cells = CELLS_IN_WORD * row.words.len();
    fragment::heading(&row.words).map_or(cells, |told| told.characters)
}

fn read_into(random: &mut Random, row: Row, lent: usize) -> Read {
    let lent = (0..lent).map(|_| random.byte()).collect();
    Read { row, lent }
}

fn read_cases(read: &Read, answer: &Told<Lent<FragmentRead, u8>>) -> Vec<Case> {
    let Told { number, fields } = answer;
    let mut cases = fragment_cases(&read.row, *number, &fields.told);
    cases.extend(row_cases(&read.row, *number, &fields.told));
    cases.extend(enough_room_cases(read, answer));
    cases.extend(short_room_cases(read, *number));
    cases
}

fn heading_cases(heading: &Heading, answer: &Told<FragmentRead>) -> Vec<Case> {
    let Told { number, fields } = answer;
    let mut cases = fragment_cases(&heading.row, *number, fields);
    cases.extend(row_cases(&heading.row, *number, fields));
    cases
}

/// Of fragments that are as they should be.
fn fragment_cases(row: &Row, number: u32, told: &FragmentRead) -> Vec<Case> {
    let (words, heading) = (row.words.len(), told.heading);
    let accepted = |is_it| number == 0 && is_it;
    let numbered = |fragment_number| accepted(heading.fragment_number == fragment_number);
    vec![
        ("a first fragment", numbered(FIRST)),
        ("a later one with F = 0", numbered(0)),
        ("a later one with F = 1", numbered(1)),
        ("a later one with F = 2", numbered(2)),
        ("a last one", accepted(heading.continued == 0)),
        ("a continued one", accepted(heading.continued == 1)),
        ("one of two words", accepted(words == 2)),
        ("one of 85 words", accepted(words == 85)),
        ("one without text", accepted(told.characters == 0)),
    ]
}

/// Of rows that no text was cut into, or that are no fragments.
fn row_cases(row: &Row, number: u32, told: &FragmentRead) -> Vec<Case> {
    let words = row.words.len();
    let later = told.heading.fragment_number != FIRST;
    let is = |sort, answered| row.sort == sort && number == answered;
    let with_u_or_v = || row.words[0] >> 19 != 0;
    let etx_within = || {
        let characters = CELLS_IN_WORD * (words - 1) - usize::from(!later);
        told.characters < characters && row.words[words - 1] >> 14 != u32::from(ETX)
    };
    vec![
        (AS_CUT, is(AS_CUT, 0)),
        (OF_ANY_CELLS, is(OF_ANY_CELLS, 0)),
        ("U or V set", number == 0 && later && with_u_or_v()),
        ("ETX before text", number == 0 && etx_within()),
        (BIT_TURNED, is(BIT_TURNED, 11)),
        (OVER_21_BITS, is(OVER_21_BITS, 10)),
        (WORDS_LOST, is(WORDS_LOST, 11)),
        ("too many words lost", is(WORDS_LOST, 9)),
        (ANOTHER_CHECK, is(ANOTHER_CHECK, 11)),
        (ANY_WORDS, is(ANY_WORDS, 0)),
        ("no words", number == 9 && words == 0),
        ("one word", number == 9 && words == 1),
        ("86 words", number == 9 && words == 86),
        ("any words over 21 bits", is(ANY_WORDS, 10)),
        ("any words with any K", is(ANY_WORDS, 11)),
    ]
}

fn enough_room_cases(read: &Read, answer: &Told<Lent<FragmentRead, u8>>) -> Vec<Case> {
    let (lent, characters) = (read.lent.len(), answer.fields.told.characters);
    let accepted = |is_it| answer.number == 0 && is_it;
    vec![
        ("an exact row", accepted(lent == characters)),
        ("a longer row", accepted(lent > characters)),
    ]
}

fn short_room_cases(read: &Read, number: u32) -> Vec<Case> {
    let lent = read.lent.len();
    vec![
        ("a byte short", number == 1 && lent + 1 == needed(&read.row)),
        ("an empty row", number == 1 && lent == 0),
    ]
}

#[cfg(test)]
mod tests {
    use super::*;
    use crate::tally::{missing, note, Came};

    #[test]
    fn every_case_comes() {
        let mut came = Came::new();
        for read in seeded_reads(1).take(20_000) {
            note(&mut came, read_cases(&read, &read.second()));
        }
        assert_eq!(missing(&came), [""; 0]);
        let mut came = Came::new();
        for heading in seeded_headings(1).take(20_000) {
            note(&mut came, heading_cases(&heading, &heading.second()));
        }
        assert_eq!(missing(&came), [""; 0]);
    }
}
