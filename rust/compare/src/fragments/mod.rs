//! Fragments: cutting texts into them and reading them, the exports beside the
//! second program.

pub mod cutting;
mod reading;
pub mod rows;

use crate::tally::Tally;

/// Says the counts of each export as soon as it is compared. Each has a seed of
/// its own, so that one's count does not move another's inputs; only what was
/// cut is read back as it was.
pub fn compare(exchange: &[String], seed: u64) -> Result<String, String> {
    let mut compared = 0;
    let mut tell = |tally: Tally| {
        println!("{tally}");
        compared += tally.compared();
    };
    let cut_seed = seed.wrapping_add(46);
    tell(cutting::compare(exchange, cut_seed)?);
    tell(reading::compare_cut_fragments(exchange, cut_seed)?);
    tell(reading::compare(exchange, seed.wrapping_add(45))?);
    tell(reading::compare_headings(exchange, seed.wrapping_add(44))?);
    Ok(format!(
        "fragments: {compared} answers (seed {seed}) compared, all agree"
    ))
}

/// How long a lent row is, from how much is needed: exact, one short, longer, and
/// none at all.
type Room = fn(usize) -> usize;

const ROOMS: [Room; 4] = [
    |needed| needed,
    |needed| needed.saturating_sub(1),
    |needed| needed + 1 + needed % 7,
    |_| 0,
];
