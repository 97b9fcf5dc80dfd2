//! Addresses: their class, and their words.

use std::io;

use crate::boundaries::{addresses_near_ends, likely_address};
use crate::exchange::{self, Fields, Request};
use crate::host::{MortisevaneClass, MortisevaneWords};
use crate::random::Random;
use crate::yardstick;

/// So many addresses are drawn, beside the fixed ones.
const DRAWN: usize = 1_000_000;

struct AddressClass {
    address: u64,
}

impl Request for AddressClass {
    const EXPORT: u8 = 1;
    type Answer = MortisevaneClass;

    fn arguments(&self, bytes: &mut Vec<u8>) {
        bytes.extend(self.address.to_le_bytes());
    }

    fn library(&self, fields: &mut Fields) -> io::Result<Self::Answer> {
        MortisevaneClass::read(fields)
    }

    fn second(&self) -> Self::Answer {
        yardstick::address_class(self.address)
    }

    fn question(&self) -> String {
        format!("class of address {}", self.address)
    }
}

struct AddressWords {
    address: u64,
}

impl Request for AddressWords {
    const EXPORT: u8 = 2;
    type Answer = MortisevaneWords;

    fn arguments(&self, bytes: &mut Vec<u8>) {
        bytes.extend(self.address.to_le_bytes());
    }

    fn library(&self, fields: &mut Fields) -> io::Result<Self::Answer> {
        MortisevaneWords::read(fields)
    }

    fn second(&self) -> Self::Answer {
        yardstick::address_words(self.address)
    }

    fn question(&self) -> String {
        format!("words of address {}", self.address)
    }
}

/// Class and words are asked of the same addresses.
pub fn compare(exchange: &[String], seed: u64) -> Result<usize, String> {
    let classes = addresses(seed).map(|address| AddressClass { address });
    exchange::compare(exchange, classes)?;
    let words = addresses(seed).map(|address| AddressWords { address });
    exchange::compare(exchange, words)
}

fn addresses(seed: u64) -> impl Iterator<Item = u64> + Send {
    let mut random = Random::new(seed);
    let near_ends = addresses_near_ends();
    let seeded = std::iter::repeat_with(move || seeded_address(&mut random, &near_ends));
    fixed_addresses().into_iter().chain(seeded.take(DRAWN))
}

/// Every range end, every power of two and of ten, and their neighbours; and
/// the same range ends with higher bits that a narrower number would lose.
fn fixed_addresses() -> Vec<u64> {
    let mut addresses = addresses_near_ends();
    let near_ends = addresses.clone();
    let powers = (0..64).map(|exponent| 1_u64 << exponent);
    let decimal_powers = (0..20).map(|exponent| 10_u64.pow(exponent));
    for power in powers.chain(decimal_powers).chain([0, u64::MAX]) {
        addresses.extend([power.wrapping_sub(1), power, power.wrapping_add(1)]);
    }
    for high in [1_u64 << 32, 1 << 33, 1 << 63, u64::MAX << 32] {
        addresses.extend(near_ends.iter().map(|address| address.wrapping_add(high)));
    }
    addresses
}

fn seeded_address(random: &mut Random, near_ends: &[u64]) -> u64 {
    match random.below(4) {
        0 => random.number(),
        1 => random.below(1 << 33),
        _ => likely_address(random, near_ends),
    }
}
