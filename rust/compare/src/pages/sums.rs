//! The sums, of rows of any length.

use std::io;

use second::sums;

use crate::exchange::{append_row, Fields, Item, Request};
use crate::host::Told;
use crate::random::Random;
use crate::tally::{self, Tally};

const ROWS_FOR_EACH: usize = 200_000;
const LONGEST_USUAL_ROW: u64 = 100;
/// The longest row that can be lent.
const LONGEST_ROW: u64 = 4_096;
const USUAL_ROWS_FOR_A_LONGEST: u64 = 2_000;

/// One of the sums.
pub trait Sum: Send {
    const NAME: &'static str;
    const EXPORT: u8;
    /// What it is the sum of.
    type Item: Summand;

    fn second(row: &[Self::Item]) -> u32;
}

pub struct SixBit;

impl Sum for SixBit {
    const NAME: &'static str = "six-bit sum";
    const EXPORT: u8 = 39;
    type Item = u32;

    fn second(row: &[u32]) -> u32 {
        sums::six_bit(row)
    }
}

pub struct TenBit;

impl Sum for TenBit {
    const NAME: &'static str = "ten-bit sum";
    const EXPORT: u8 = 40;
    type Item = u32;

    fn second(row: &[u32]) -> u32 {
        sums::ten_bit(row)
    }
}

pub struct Signature;

impl Sum for Signature {
    const NAME: &'static str = "signature";
    const EXPORT: u8 = 41;
    type Item = u8;

    fn second(row: &[u8]) -> u32 {
        sums::signature(row)
    }
}

struct SumOf<S: Sum> {
    row: Vec<S::Item>,
}

/// A sum is never refused, so its answer has no number. The exchange program
/// itself watches the lent row and the memory around it.
impl<S: Sum> Request for SumOf<S> {
    const EXPORT: u8 = S::EXPORT;
    type Answer = Told<u32>;

    fn arguments(&self, bytes: &mut Vec<u8>) {
        append_row(bytes, &self.row);
    }

    fn library(&self, fields: &mut Fields) -> io::Result<Self::Answer> {
        Ok(Told {
            number: 0,
            fields: fields.u32()?,
        })
    }

    fn second(&self) -> Self::Answer {
        Told {
            number: 0,
            fields: S::second(&self.row),
        }
    }

    fn question(&self) -> String {
        format!("{} of {:X?}", S::NAME, self.row)
    }
}

pub fn compare<S: Sum>(exchange: &[String], seed: u64) -> Result<Tally, String> {
    let mut random = Random::new(seed);
    let sums = (0..ROWS_FOR_EACH).map(|_| SumOf::<S> {
        row: seeded_row(&mut random),
    });
    tally::compare_by(S::NAME, exchange, sums, |_| "summed")
}

/// A row is of one sort throughout, so that large sums get their turn too.
fn seeded_row<I: Summand>(random: &mut Random) -> Vec<I> {
    let length = if random.once_in(USUAL_ROWS_FOR_A_LONGEST) {
        LONGEST_ROW
    } else {
        random.between(0, LONGEST_USUAL_ROW)
    };
    let sort = random.number();
    (0..length).map(|_| I::seeded(random, sort)).collect()
}

pub trait Summand: Item {
    /// Any one of the sort.
    fn seeded(random: &mut Random, sort: u64) -> Self;
}

/// Words of 21 bits, of any bits, and the least and largest of both.
impl Summand for u32 {
    fn seeded(random: &mut Random, sort: u64) -> u32 {
        match sort % 4 {
            0..=1 => random.below(1 << 21) as u32,
            2 => random.number() as u32,
            _ => random.choose(&[0, 0x1F_FFFF, 0x1F_FFFF, 0xFFE0_0000, u32::MAX]),
        }
    }
}

/// Characters, any bytes, and the least and largest of both.
impl Summand for u8 {
    fn seeded(random: &mut Random, sort: u64) -> u8 {
        match sort % 4 {
            0..=1 => random.below(0x80) as u8,
            2 => random.byte(),
            _ => random.choose(&[0x00, 0x7F, 0x80, 0xFF, 0xFF]),
        }
    }
}
