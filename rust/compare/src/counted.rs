//! Events that are compared and counted: the answers of each export, and the kinds of
//! case that the events must bring.

use crate::exchange::{self, Request};
use crate::tally::Tally;

/// What is counted of the events that were compared.
pub trait Counts<R> {
    fn add(&mut self, event: &R);

    /// The answers, in the order in which they are told.
    fn tallies(&self) -> Vec<&Tally>;

    fn cases(&self) -> &Cases;
}

/// Says the counts of each export, and it is a fault of the events if they bring too
/// few of a case.
pub fn compare<R: Request>(
    exchange: &[String],
    events: impl Iterator<Item = R> + Send,
    counts: &mut impl Counts<R>,
) -> Result<usize, String> {
    let compared = exchange::compare_and_show(exchange, events, |event, _| counts.add(event))?;
    for tally in counts.tallies() {
        println!("{tally}");
    }
    match counts.cases().too_few(1) {
        too_few if too_few.is_empty() => Ok(compared),
        too_few => Err(format!("too few compared: {}", too_few.join(", "))),
    }
}

/// How many of each kind of case there must be in a whole comparison.
const LEAST: usize = 1_000;

/// How often each kind of case came.
pub struct Cases {
    counts: Vec<(&'static str, usize)>,
}

impl Cases {
    /// Of cases with these names, none yet.
    pub fn named(names: impl Iterator<Item = &'static str>) -> Cases {
        Cases {
            counts: names.map(|name| (name, 0)).collect(),
        }
    }

    /// How many kinds there are.
    pub fn number(&self) -> usize {
        self.counts.len()
    }

    /// Counts what came: whether it is a case of each kind, in the order of their names.
    pub fn note(&mut self, which: impl Iterator<Item = bool>) {
        for ((_, count), is_it) in self.counts.iter_mut().zip(which) {
            *count += usize::from(is_it);
        }
    }

    /// Each kind of which there were not enough, in a comparison that is so many times
    /// smaller than a whole one.
    pub fn too_few(&self, times_smaller: usize) -> Vec<String> {
        let least = LEAST.div_ceil(times_smaller);
        let too_few = self.counts.iter().filter(|(_, count)| *count < least);
        let told = too_few.map(|(name, count)| format!("{name} ({count})"));
        told.collect()
    }
}
