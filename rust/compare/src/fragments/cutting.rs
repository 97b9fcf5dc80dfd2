//! Cutting texts: of every length, at sizes from the least to the largest.

use std::io;

use second::fragment::{self, Marks, TextCut, ETX, LONGEST_TEXT, SIZES};

use crate::exchange::{append_numbers, append_row, Fields, Request};
use crate::host::{Lent, Told};
use crate::random::Random;
use crate::tally::{self, Case, Tally};
use crate::texts::shown;
use crate::yardstick;

use super::ROOMS;

/// Tried with every length, beside a few random ones that are allowed.
const FIXED_SIZES: [usize; 10] = [0, 1, 2, 3, 4, 7, 16, 84, 85, 86];
const RANDOM_SIZES: usize = 4;
/// They would be allowed if only their low bits were looked at.
const SIZES_WITH_HIGH_BITS: [usize; 3] = [2 | 1 << 8, 16 | 1 << 32, 85 | 1 << 63];
/// Beside every length up to one over the longest text.
const LONGER_TEXTS: [usize; 3] = [1_010, 2_016, 4_096];
/// What 1,008 characters need in fragments of two words: 2 stand in the first
/// one, 3 in each other.
const MOST_FRAGMENTS: usize = 337;
pub const MOST_WORDS: usize = 674;

pub struct Cut {
    pub text: Vec<u8>,
    pub marks: Marks,
    pub largest: usize,
    /// What stands in the lent words before.
    pub lent: Vec<u32>,
}

/// The answer and the whole lent row must agree. The exchange program itself
/// watches the lent text and the memory around both.
impl Request for Cut {
    const EXPORT: u8 = 46;
    type Answer = Told<Lent<TextCut, u32>>;

    fn arguments(&self, bytes: &mut Vec<u8>) {
        append_numbers(bytes, &self.marks);
        bytes.extend((self.largest as u64).to_le_bytes());
        append_row(bytes, &self.text);
        append_row(bytes, &self.lent);
    }

    fn library(&self, fields: &mut Fields) -> io::Result<Self::Answer> {
        Told::read_with_row(fields, self.lent.len())
    }

    fn second(&self) -> Self::Answer {
        let mut row = self.lent.clone();
        let cut = fragment::cut(&self.text, self.marks, self.largest, &mut row);
        yardstick::told_with_row(cut, row)
    }

    fn question(&self) -> String {
        format!(
            "cutting \"{}\", {:?}, at {}, into {} words",
            shown(&self.text),
            self.marks,
            self.largest,
            self.lent.len()
        )
    }
}

pub fn compare(exchange: &[String], seed: u64) -> Result<Tally, String> {
    let cuts = seeded_cuts(seed, lengths());
    tally::compare_cases("cut texts", exchange, cuts, cases)
}

/// The fragments of all texts that `compare` has cut with this seed.
pub fn cut_fragments(seed: u64) -> impl Iterator<Item = Vec<u32>> + Send {
    seeded_cuts(seed, lengths()).flat_map(|cut| {
        // There are none where the cut was refused.
        let Lent { told, row } = cut.second().fields;
        (0..told.fragments).map(move |place| {
            let from = place * cut.largest;
            let to = told.words.min(from + cut.largest);
            row[from..to].to_vec()
        })
    })
}

fn lengths() -> impl Iterator<Item = usize> + Send {
    (0..=LONGEST_TEXT + 1).chain(LONGER_TEXTS)
}

fn seeded_cuts(
    seed: u64,
    lengths: impl Iterator<Item = usize> + Send,
) -> impl Iterator<Item = Cut> + Send {
    let mut random = Random::new(seed);
    lengths.flat_map(move |length| {
        let mut sizes = FIXED_SIZES.to_vec();
        sizes.extend((0..RANDOM_SIZES).map(|_| allowed_size(&mut random)));
        let cuts = sizes.into_iter();
        let cuts = cuts.flat_map(|largest| cuts_of_length(&mut random, length, largest));
        cuts.collect::<Vec<Cut>>()
    })
}

pub fn allowed_size(random: &mut Random) -> usize {
    random.between(*SIZES.start() as u64, *SIZES.end() as u64) as usize
}

/// One for each room. The first, which has enough, is as it should be; in each of
/// the others something may be wrong.
fn cuts_of_length(random: &mut Random, length: usize, largest: usize) -> Vec<Cut> {
    let mut cuts: Vec<Cut> = Vec::new();
    for room in ROOMS {
        let mut cut = Cut {
            text: seeded_text(random, length),
            marks: fitting_marks(random),
            largest,
            lent: Vec::new(),
        };
        let lent = room(cut.needed());
        cut.lent = (0..lent).map(|_| random.number() as u32).collect();
        while !cuts.is_empty() && random.once_in(4) {
            spoil(random, &mut cut);
        }
        cuts.push(cut);
    }
    cuts
}

impl Cut {
    /// How many words the fragments have; some number where there are none.
    fn needed(&self) -> usize {
        let mut row = [0; MOST_WORDS];
        let cut = fragment::cut(&self.text, self.marks, self.largest, &mut row);
        cut.map_or(row.len(), |cut| cut.words)
    }
}

/// Any characters, or only those about ETX and the ends.
pub fn seeded_text(random: &mut Random, length: usize) -> Vec<u8> {
    let rare = random.once_in(8);
    let character = |_| match random.below(0x80) as u8 {
        byte if rare => [0x00, 0x02, 0x04, 0x7F][usize::from(byte) % 4],
        ETX => b'C',
        byte => byte,
    };
    (0..length).map(character).collect()
}

pub fn fitting_marks(random: &mut Random) -> Marks {
    Marks {
        message_number: random.below(64) as u32,
        retrieval: random.below(2) as u32,
        mail_drop: random.below(2) as u32,
    }
}

fn spoil(random: &mut Random, cut: &mut Cut) {
    let flag = random.choose(&[2, 3, 1 << 31, u32::MAX]);
    match random.below(6) {
        0 => cut.marks.message_number = random.choose(&[64, 65, 128, 1 << 31, u32::MAX]),
        1 => cut.marks.retrieval = flag,
        2 => cut.marks.mail_drop = flag,
        3 => cut.largest = random.choose(&SIZES_WITH_HIGH_BITS),
        4 => spoil_text(random, &mut cut.text, |_| ETX),
        _ => spoil_text(random, &mut cut.text, |character| character | 0x80),
    }
}

fn spoil_text(random: &mut Random, text: &mut [u8], spoilt: fn(u8) -> u8) {
    if text.is_empty() {
        return;
    }
    let place = random.below(text.len() as u64) as usize;
    text[place] = spoilt(text[place]);
}

fn cases(cut: &Cut, answer: &Told<Lent<TextCut, u32>>) -> Vec<Case> {
    let TextCut { fragments, words } = answer.fields.told;
    let (length, lent, marks) = (cut.text.len(), cut.lent.len(), cut.marks);
    let answered = |number| answer.number == number;
    let with_high_bits = SIZES_WITH_HIGH_BITS.contains(&cut.largest);
    let over_seven_bits = || cut.text.iter().any(|byte| *byte > 0x7F);
    vec![
        ("an empty text", answered(0) && length == 0),
        ("a longest text", answered(0) && length == LONGEST_TEXT),
        ("one fragment", answered(0) && fragments == 1),
        ("most fragments", answered(0) && fragments == MOST_FRAGMENTS),
        ("an exact row", answered(0) && lent == words),
        ("a longer row", answered(0) && lent > words),
        ("a word short", answered(1) && lent + 1 == cut.needed()),
        ("an empty row", answered(1) && lent == 0),
        ("N too large", answered(7) && marks.message_number > 63),
        ("R too large", answered(7) && marks.retrieval > 1),
        ("M too large", answered(7) && marks.mail_drop > 1),
        ("size 0", answered(9) && cut.largest == 0),
        ("size 1", answered(9) && cut.largest == 1),
        ("size 86", answered(9) && cut.largest == 86),
        ("a size with high bits", answered(9) && with_high_bits),
        ("1,009 characters", answered(15) && length == 1_009),
        ("more characters", answered(15) && length > 1_009),
        ("ETX", answered(18) && cut.text.contains(&ETX)),
        ("over 7FH", answered(18) && over_seven_bits()),
    ]
}

#[cfg(test)]
mod tests {
    use std::collections::BTreeSet;

    use super::*;
    use crate::tally::{missing, note, Came};

    /// A few of all lengths, the longest among them.
    fn a_few_cuts() -> impl Iterator<Item = Cut> {
        let a_few = lengths().filter(|length| length % 63 == 0 || *length > 1_000);
        seeded_cuts(1, a_few)
    }

    #[test]
    fn every_case_comes() {
        let mut came = Came::new();
        for cut in a_few_cuts() {
            note(&mut came, cases(&cut, &cut.second()));
        }
        assert_eq!(missing(&came), [""; 0]);
    }

    #[test]
    fn every_length_is_accepted_at_every_size() {
        assert!((0..=1_009).all(|length| lengths().any(|other| other == length)));
        let accepted = a_few_cuts().filter(|cut| cut.second().number == 0);
        let accepted: BTreeSet<_> = accepted.map(|cut| (cut.text.len(), cut.largest)).collect();
        for length in lengths().filter(|length| length % 63 == 0 && *length <= 1_008) {
            for largest in [2, 3, 4, 7, 16, 84, 85] {
                assert!(
                    accepted.contains(&(length, largest)),
                    "{length} at {largest}"
                );
            }
        }
    }
}
