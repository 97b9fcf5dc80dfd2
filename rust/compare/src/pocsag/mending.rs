//! Rows of words to mend: sent words with every choice of up to two wrong code bits, with
//! three and with four wrong bits, and any words.

use std::fmt::{self, Debug, Formatter};
use std::io;

use second::pocsag::mending::{choices, mend_row};
use second::pocsag::word::{remainder, sent_word, IDLE, SYNC};
use second::refusal::Refusal;

use crate::counted::{self, Cases, Counts};
use crate::exchange::{append_row, Fields, Request};
use crate::random::Random;
use crate::tally::Tally;
use crate::yardstick;

use super::map;

/// How many sent words come with every choice of up to two wrong code bits, and how many of
/// them with the parity bit wrong besides.
const SENT_WORDS: usize = 10_000;
const WITH_WRONG_PARITY: usize = 2_000;
/// How many sent words come with every choice of three wrong bits of all 32, and of four.
const WITH_THREE_WRONG: usize = 100;
const WITH_FOUR_WRONG: usize = 10;
/// How many rows of any words come. They have over a million words together.
const ANY_ROWS: usize = 75_000;
const LONGEST_ANY_ROW: u64 = 40;
/// No more words than this stand in a row: so many can be lent.
const LONGEST_ROW: usize = 4_096;

const WORD_BITS: u32 = 32;
/// What stands in the lent places before.
const BEFORE: u32 = 0xA5A5_A5A5;

/// What comes of a row: its number, and both lent rows as they stand after.
#[derive(Clone, PartialEq, Eq)]
pub struct Outcome {
    number: u32,
    words: Vec<u32>,
    bits: Vec<u32>,
}

/// Words are easier to find when they are hexadecimal.
impl Debug for Outcome {
    fn fmt(&self, formatter: &mut Formatter) -> fmt::Result {
        let Outcome {
            number,
            words,
            bits,
        } = self;
        write!(formatter, "{number}, words {words:X?}, bits {bits:?}")
    }
}

/// What stands in a row.
#[derive(Clone, Copy, PartialEq, Eq)]
enum Sort {
    /// A sent word with every choice of up to two wrong code bits.
    UpToTwo,
    /// The same, with the parity bit wrong too.
    ParityToo,
    /// A sent word with three wrong bits.
    Three,
    /// A sent word with four wrong bits.
    Four,
    Any,
}

pub struct Row {
    sort: Sort,
    words: Vec<u32>,
    bits: Vec<u32>,
    expected: Outcome,
}

/// The library is held against what was sent, where that decides, and against the second
/// program elsewhere. The exchange program itself watches the memory around both rows.
impl Request for Row {
    const EXPORT: u8 = 55;
    const YARDSTICK: &'static str = "due";
    type Answer = Outcome;

    fn arguments(&self, bytes: &mut Vec<u8>) {
        append_row(bytes, &self.words);
        append_row(bytes, &self.bits);
    }

    fn library(&self, fields: &mut Fields) -> io::Result<Self::Answer> {
        Ok(Outcome {
            number: fields.u32()?,
            words: fields.row(self.words.len())?,
            bits: fields.row(self.bits.len())?,
        })
    }

    fn second(&self) -> Self::Answer {
        self.expected.clone()
    }

    fn question(&self) -> String {
        format!("mending {:X?}, places {:?}", self.words, self.bits)
    }
}

pub fn compare(exchange: &[String], seed: u64) -> Result<usize, String> {
    let rows = seeded_rows(seed, 1);
    counted::compare(exchange, rows, &mut Mended::new())
}

/// All rows; or as many times fewer.
fn seeded_rows(seed: u64, times_fewer: usize) -> impl Iterator<Item = Row> + Send {
    let mut random = Random::new(seed);
    let sorts = [
        (Sort::UpToTwo, SENT_WORDS),
        (Sort::ParityToo, WITH_WRONG_PARITY),
        (Sort::Three, WITH_THREE_WRONG),
        (Sort::Four, WITH_FOUR_WRONG),
        (Sort::Any, ANY_ROWS),
    ];
    let turns = sorts.into_iter().flat_map(move |(sort, turns)| {
        let turns = turns.div_ceil(times_fewer);
        (0..turns).map(move |turn| (sort, turn))
    });
    turns.flat_map(move |(sort, turn)| {
        let sent = match turn {
            0 => SYNC,
            1 => IDLE,
            _ => sent_word(random.below(1 << 21) as u32),
        };
        match sort {
            Sort::UpToTwo => vec![up_to_two_wrong(sent)],
            Sort::ParityToo => vec![parity_wrong_too(sent)],
            Sort::Three => rows_wrong(sent, Sort::Three, threes()),
            Sort::Four => rows_wrong(sent, Sort::Four, fours()),
            Sort::Any => vec![any_row(&mut random)],
        }
    })
}

/// 02, item 5: "Of the 31 code bits at most two are changed". Of each word that arrives so
/// the sent one is made again.
fn up_to_two_wrong(sent: u32) -> Row {
    let words: Vec<u32> = choices().map(|wrong| sent ^ wrong).collect();
    Row {
        sort: Sort::UpToTwo,
        bits: vec![BEFORE; words.len()],
        expected: Outcome {
            number: 0,
            words: vec![sent; words.len()],
            bits: choices().map(u32::count_ones).collect(),
        },
        words,
    }
}

/// "Parity is then tested (wrong parity is 25)."
fn parity_wrong_too(sent: u32) -> Row {
    let words: Vec<u32> = choices().map(|wrong| sent ^ wrong ^ 1).collect();
    beyond_repair(Sort::ParityToo, words)
}

/// All words stay as they come.
fn beyond_repair(sort: Sort, words: Vec<u32>) -> Row {
    Row {
        sort,
        bits: vec![BEFORE; words.len()],
        expected: Outcome {
            number: 0,
            words: words.clone(),
            bits: vec![Refusal::BeyondRepair.number(); words.len()],
        },
        words,
    }
}

/// Two sent words differ in six bits or more, so that three wrong bits bring none within two
/// code bits of another with its parity right: each is beyond repair. With four wrong bits a
/// word may become another, as the second program says.
fn rows_wrong(sent: u32, sort: Sort, wrong: impl Iterator<Item = u32>) -> Vec<Row> {
    let words: Vec<u32> = wrong.map(|wrong| sent ^ wrong).collect();
    let rows = words.chunks(LONGEST_ROW).map(<[u32]>::to_vec);
    rows.map(|words| match sort {
        Sort::Three => beyond_repair(sort, words),
        _ => {
            let bits = vec![BEFORE; words.len()];
            by_second(sort, words, bits)
        }
    })
    .collect()
}

/// Every choice of three of the 32 bits, as the word in which these alone are ones.
fn threes() -> impl Iterator<Item = u32> {
    (0..WORD_BITS).flat_map(|first| {
        (0..first).flat_map(move |second| {
            (0..second).map(move |third| 1 << first | 1 << second | 1 << third)
        })
    })
}

fn fours() -> impl Iterator<Item = u32> {
    (0..WORD_BITS).flat_map(|first| {
        let lower = threes().filter(move |three| three >> first == 0);
        lower.map(move |three| 1 << first | three)
    })
}

fn by_second(sort: Sort, words: Vec<u32>, bits: Vec<u32>) -> Row {
    let (mut mended, mut changed) = (words.clone(), bits.clone());
    let told = yardstick::told(mend_row(map::mend, &mut mended, &mut changed));
    Row {
        sort,
        words,
        bits,
        expected: Outcome {
            number: told.number,
            words: mended,
            bits: changed,
        },
    }
}

/// Any words, and sent words with a few wrong bits. There are now and then too few places, or
/// more than are needed.
fn any_row(random: &mut Random) -> Row {
    let longest = random.choose(&[0, LONGEST_ANY_ROW, LONGEST_ANY_ROW, LONGEST_ANY_ROW]);
    let length = random.between(0, longest) as usize;
    let words = (0..length).map(|_| any_word(random)).collect();
    let places = match random.below(8) {
        0 => random.below(length as u64 + 1) as usize / 2,
        1 => random.choose(&[0, length.saturating_sub(1)]),
        2 => length + random.between(1, 5) as usize,
        _ => length,
    };
    let bits = (0..places).map(|_| random.number() as u32).collect();
    by_second(Sort::Any, words, bits)
}

fn any_word(random: &mut Random) -> u32 {
    if random.once_in(2) {
        return random.number() as u32;
    }
    let mut word = sent_word(random.below(1 << 21) as u32);
    for _ in 0..random.below(7) {
        word ^= 1 << random.below(u64::from(WORD_BITS));
    }
    word
}

/// What a case is called, and whether a word is one of it.
type Case = (&'static str, fn(&Word) -> bool);

struct Word {
    sort: Sort,
    /// As it came.
    came: u32,
    /// How many of its bits were changed, or that it is beyond repair.
    told: u32,
}

impl Word {
    fn is_any(&self, told: u32) -> bool {
        self.sort == Sort::Any && self.told == told
    }
}

const BEYOND: u32 = Refusal::BeyondRepair as u32;

const CASES: &[Case] = &[
    ("sent and whole", |word| {
        word.sort == Sort::UpToTwo && word.told == 0
    }),
    ("sent with one wrong bit", |word| {
        word.sort == Sort::UpToTwo && word.told == 1
    }),
    ("sent with two wrong bits", |word| {
        word.sort == Sort::UpToTwo && word.told == 2
    }),
    ("a lone wrong parity bit", |word| {
        word.sort == Sort::ParityToo && remainder(word.came) == 0
    }),
    ("the parity bit and others wrong", |word| {
        word.sort == Sort::ParityToo && remainder(word.came) != 0
    }),
    ("three wrong bits", |word| {
        word.sort == Sort::Three && word.told == BEYOND
    }),
    ("four wrong bits, beyond repair", |word| {
        word.sort == Sort::Four && word.told == BEYOND
    }),
    ("four wrong bits, mended to another word", |word| {
        word.sort == Sort::Four && word.told == 2
    }),
    ("any word, whole", |word| word.is_any(0)),
    ("any word, one bit mended", |word| word.is_any(1)),
    ("any word, two bits mended", |word| word.is_any(2)),
    ("any word, of no remainder that is mended", |word| {
        word.is_any(BEYOND) && map::mend(word.came ^ 1).is_err()
    }),
    ("any word, its parity wrong alone", |word| {
        word.is_any(BEYOND) && remainder(word.came) == 0
    }),
    ("any word, its parity wrong after mending", |word| {
        word.is_any(BEYOND) && remainder(word.came) != 0 && map::mend(word.came ^ 1).is_ok()
    }),
];

type RowCase = (&'static str, fn(&Row) -> bool);

const ROW_CASES: &[RowCase] = &[
    ("no words", |row| row.words.is_empty()),
    ("no words and no places", |row| {
        row.words.is_empty() && row.bits.is_empty()
    }),
    ("one place too few", |row| {
        row.expected.number == 1 && row.bits.len() + 1 == row.words.len()
    }),
    ("no places", |row| {
        row.expected.number == 1 && row.bits.is_empty()
    }),
    ("too few places for a word that could be mended", |row| {
        row.expected.number == 1 && map::mend(row.words[0]).is_ok_and(|mended| mended.changed > 0)
    }),
    ("places left over", |row| row.bits.len() > row.words.len()),
];

struct Mended {
    cases: Cases,
    rows: Tally,
    words: Tally,
}

impl Mended {
    fn new() -> Mended {
        let words = CASES.iter().map(|(name, _)| *name);
        let rows = ROW_CASES.iter().map(|(name, _)| *name);
        Mended {
            cases: Cases::named(words.chain(rows)),
            rows: Tally::new("rows to mend"),
            words: Tally::new("words in them"),
        }
    }

    fn add_word(&mut self, word: &Word) {
        let number = if word.told == BEYOND { BEYOND } else { 0 };
        self.words.add(
            number,
            match word.told {
                0 => "whole",
                1 => "with one bit mended",
                _ => "with two",
            },
        );
        self.cases.note(CASES.iter().map(|(_, is_it)| is_it(word)));
    }
}

impl Counts<Row> for Mended {
    fn add(&mut self, row: &Row) {
        self.rows.add(row.expected.number, "mended");
        let no_word = CASES.iter().map(|_| false);
        let row_cases = ROW_CASES.iter().map(|(_, is_it)| is_it(row));
        self.cases.note(no_word.chain(row_cases));
        if row.expected.number != 0 {
            return;
        }
        for (&came, &told) in row.words.iter().zip(&row.expected.bits) {
            let sort = row.sort;
            self.add_word(&Word { sort, came, told });
        }
    }

    fn tallies(&self) -> Vec<&Tally> {
        vec![&self.rows, &self.words]
    }

    fn cases(&self) -> &Cases {
        &self.cases
    }
}

#[cfg(test)]
mod tests {
    use second::pocsag::word::is_sent;

    use super::*;

    /// A hundredth of the rows brings a hundredth of each case.
    #[test]
    fn every_case_comes() {
        let mut mended = Mended::new();
        for row in seeded_rows(1, 100) {
            mended.add(&row);
        }
        assert_eq!(mended.cases.too_few(100), [""; 0]);
    }

    /// What is due of sent words is what the second program makes of them.
    #[test]
    fn the_second_program_mends_as_is_due() {
        for row in seeded_rows(1, 1_000) {
            let second = by_second(row.sort, row.words.clone(), row.bits.clone());
            assert_eq!(row.expected, second.expected);
        }
    }

    /// 32 times 31 times 30 by 6, and that times 29 by 4.
    #[test]
    fn every_three_and_every_four() {
        let all: Vec<u32> = threes().collect();
        assert_eq!(all.len(), 4_960);
        assert!(all.iter().all(|three| three.count_ones() == 3));
        let all: Vec<u32> = fours().collect();
        assert_eq!(all.len(), 35_960);
        assert!(all.iter().all(|four| four.count_ones() == 4));
    }

    /// Whatever is mended becomes a sent word, by at most two changes and none of the parity.
    #[test]
    fn what_is_mended_is_a_sent_word() {
        for row in seeded_rows(1, 100) {
            let after = row.expected.words.iter().zip(&row.expected.bits);
            for (came, (after, told)) in row.words.iter().zip(after) {
                let changed = came ^ after;
                match (row.expected.number, *told) {
                    (0, 0..=2) => {
                        assert!(is_sent(*after) && changed & 1 == 0);
                        assert_eq!(changed.count_ones(), *told);
                    }
                    _ => assert_eq!(changed, 0),
                }
            }
        }
    }
}
