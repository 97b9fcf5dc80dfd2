//! The builders: fields that fit, and fields that are too large.

use std::io;

use second::layout::{self, Field};

use crate::exchange::{append_numbers, Fields, Request};
use crate::host::Told;
use crate::random::Random;
use crate::tally::{self, Tally};
use crate::yardstick;

use super::kinds::Buildable;

const SETS_FOR_EACH: usize = 100_000;

struct Build<K> {
    fields: K,
}

impl<K: Buildable> Request for Build<K> {
    const EXPORT: u8 = K::BUILDER;
    type Answer = Told<u32>;

    fn arguments(&self, bytes: &mut Vec<u8>) {
        append_numbers(bytes, &self.fields);
    }

    fn library(&self, fields: &mut Fields) -> io::Result<Self::Answer> {
        Told::read(fields)
    }

    fn second(&self) -> Self::Answer {
        yardstick::told(layout::build(&self.fields))
    }

    fn question(&self) -> String {
        format!("building {:?}", self.fields)
    }
}

pub fn compare<K: Buildable>(exchange: &[String], seed: u64) -> Result<Tally, String> {
    let mut random = Random::new(seed.wrapping_add(u64::from(K::BUILDER)));
    let sets = (0..SETS_FOR_EACH).map(move |_| Build {
        fields: seeded_fields::<K>(&mut random),
    });
    tally::compare(format!("build {}", K::NAME), exchange, sets)
}

/// Every third time, on average, one field is too large.
fn seeded_fields<K: Buildable>(random: &mut Random) -> K {
    let fields = K::LAYOUT.fields;
    let mut numbers: Vec<u32> = fields
        .iter()
        .map(|field| fitting_number(random, *field))
        .collect();
    if random.once_in(3) {
        let place = random.below(fields.len() as u64) as usize;
        numbers[place] = too_large_number(random, fields[place], numbers[place]);
    }
    K::from_numbers(&mut numbers.into_iter())
}

fn fitting_number(random: &mut Random, field: Field) -> u32 {
    match random.below(8) {
        0 => 0,
        1 => field.largest(),
        _ => random.between(0, u64::from(field.largest())) as u32,
    }
}

/// By one, by anything, as large as can be, or by one bit above those that fit.
fn too_large_number(random: &mut Random, field: Field, fitting: u32) -> u32 {
    let least = field.largest() + 1;
    match random.below(4) {
        0 => least,
        1 => u32::MAX,
        2 => random.between(u64::from(least), u64::from(u32::MAX)) as u32,
        _ => fitting | 1 << random.between(u64::from(least.trailing_zeros()), 31),
    }
}
