//! Numeric pages and the sums of messages: their exports beside the second
//! program.

mod reading;
mod sums;
mod writing;

use crate::tally::Tally;
use sums::{Signature, SixBit, TenBit};

/// Says the counts of each export as soon as it is compared. Each has a seed of
/// its own, so that one's count does not move another's inputs.
pub fn compare(exchange: &[String], seed: u64) -> Result<String, String> {
    let mut compared = 0;
    let mut tell = |tally: Tally| {
        println!("{tally}");
        compared += tally.compared();
    };
    tell(sums::compare::<SixBit>(exchange, seed.wrapping_add(39))?);
    tell(sums::compare::<TenBit>(exchange, seed.wrapping_add(40))?);
    tell(sums::compare::<Signature>(exchange, seed.wrapping_add(41))?);
    tell(writing::compare_bytes(exchange, seed.wrapping_add(45))?);
    tell(writing::compare_short_texts(
        exchange,
        seed.wrapping_add(42),
    )?);
    tell(writing::compare(exchange, seed.wrapping_add(43))?);
    tell(reading::compare_codes(exchange, seed.wrapping_add(46))?);
    tell(reading::compare(exchange, seed.wrapping_add(44))?);
    Ok(format!(
        "pages: {compared} answers (seed {seed}) compared, all agree"
    ))
}
