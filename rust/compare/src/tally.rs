//! How many answers of an export were compared, and how they came out.

use std::collections::BTreeMap;
use std::fmt::{self, Display, Formatter};

use crate::exchange::{self, Request};
use crate::host::Told;

/// The number that an answer begins with and, where nothing is refused, a word
/// for what was answered.
type Outcome = (u32, &'static str);

pub struct Tally {
    export: String,
    outcomes: BTreeMap<Outcome, usize>,
}

impl Tally {
    pub fn new(export: impl Into<String>) -> Tally {
        Tally {
            export: export.into(),
            outcomes: BTreeMap::new(),
        }
    }

    /// One more answer with that number; the word is for what is not refused.
    pub fn add(&mut self, number: u32, word: &'static str) {
        *self.outcomes.entry((number, word)).or_default() += 1;
    }

    pub fn compared(&self) -> usize {
        self.outcomes.values().sum()
    }

    fn any_accepted(&self) -> bool {
        self.outcomes.keys().any(|(number, _)| *number == 0)
    }
}

impl Display for Tally {
    fn fmt(&self, formatter: &mut Formatter) -> fmt::Result {
        let (export, compared) = (&self.export, self.compared());
        write!(formatter, "  {export:<22} {compared:>9} compared:")?;
        for ((number, word), count) in &self.outcomes {
            match number {
                0 => write!(formatter, " {count:>9} {word}")?,
                _ => write!(formatter, " {count:>9} refused {number}")?,
            }
        }
        Ok(())
    }
}

/// Compares the answers of one export and counts them.
pub fn compare<R, F>(
    export: impl Into<String>,
    exchange: &[String],
    requests: impl Iterator<Item = R> + Send,
) -> Result<Tally, String>
where
    R: Request<Answer = Told<F>>,
{
    compare_by(export, exchange, requests, |_| "accepted")
}

/// As `compare`, with a word of its own for each sort of accepted answer.
pub fn compare_by<R, F>(
    export: impl Into<String>,
    exchange: &[String],
    requests: impl Iterator<Item = R> + Send,
    word: impl Fn(&F) -> &'static str,
) -> Result<Tally, String>
where
    R: Request<Answer = Told<F>>,
{
    count(export, exchange, requests, |_, told| match told.number {
        0 => word(&told.fields),
        _ => "",
    })
}

/// A case that the inputs must bring, and whether a request with its answer is
/// one of it.
pub type Case = (&'static str, bool);

/// As `compare`. The same cases are looked for in every request, and it is a
/// fault of the inputs if one of them never came.
pub fn compare_cases<R, F>(
    export: impl Into<String>,
    exchange: &[String],
    requests: impl Iterator<Item = R> + Send,
    cases: impl Fn(&R, &Told<F>) -> Vec<Case>,
) -> Result<Tally, String>
where
    R: Request<Answer = Told<F>>,
{
    let mut came = BTreeMap::new();
    let tally = count(export, exchange, requests, |request, told| {
        note(&mut came, cases(request, told));
        match told.number {
            0 => "accepted",
            _ => "",
        }
    })?;
    match missing(&came) {
        cases if cases.is_empty() => Ok(tally),
        cases => Err(format!("{tally}\nnever compared: {}", cases.join(", "))),
    }
}

/// The cases by their names, and whether each of them came.
pub type Came = BTreeMap<&'static str, bool>;

pub fn note(came: &mut Came, cases: Vec<Case>) {
    for (case, is_it) in cases {
        *came.entry(case).or_default() |= is_it;
    }
}

pub fn missing(came: &Came) -> Vec<&'static str> {
    let missing = came.iter().filter(|(_, came)| !**came);
    missing.map(|(case, _)| *case).collect()
}

/// Counts by the answers' numbers and a word for each. It is a fault of the
/// inputs if all are refused: then only numbers were compared.
fn count<R, F>(
    export: impl Into<String>,
    exchange: &[String],
    requests: impl Iterator<Item = R> + Send,
    mut word: impl FnMut(&R, &Told<F>) -> &'static str,
) -> Result<Tally, String>
where
    R: Request<Answer = Told<F>>,
{
    let mut tally = Tally::new(export);
    exchange::compare_and_show(exchange, requests, |request, told| {
        tally.add(told.number, word(request, told));
    })?;
    if !tally.any_accepted() {
        return Err(format!("{tally}\nnothing but refusals was compared"));
    }
    Ok(tally)
}

#[cfg(test)]
mod tests {
    use super::*;

    #[test]
    fn a_case_that_never_came_is_missing() {
        let mut came = Came::new();
        note(&mut came, vec![("zero", true), ("nine", false)]);
        note(&mut came, vec![("zero", false), ("nine", false)]);
        assert_eq!(missing(&came), ["nine"]);
        note(&mut came, vec![("zero", false), ("nine", true)]);
        assert_eq!(missing(&came), [""; 0]);
    }
}
