//! Chains: runs of fragments and drops, the library's answers, records and lent
//! buffer beside the second program's after each of them.

mod cases;
pub mod events;
pub mod messages;
mod named;
pub mod runs;

use crate::counted::{self, Cases, Counts};
use crate::tally::Tally;

use events::{Event, Happening};

const RUNS: usize = 200_000;

pub fn compare(exchange: &[String], seed: u64) -> Result<String, String> {
    let named = named::compare(exchange)?;
    let events = runs::seeded_events(seed, RUNS);
    let compared = counted::compare(exchange, events, &mut Tallies::new())?;
    Ok(format!(
        "chains: {RUNS} runs, {} answers (seed {seed}) compared, all agree",
        named + compared
    ))
}

struct Tallies {
    cases: Cases,
    fresh: Tally,
    steps: Tally,
    drops: Tally,
}

impl Tallies {
    fn new() -> Tallies {
        Tallies {
            cases: cases::none(),
            fresh: Tally::new("fresh chains"),
            steps: Tally::new("fragments for chains"),
            drops: Tally::new("drops of chains"),
        }
    }
}

impl Counts<Event> for Tallies {
    fn add(&mut self, event: &Event) {
        cases::note(&mut self.cases, event);
        let told = &event.second.told;
        match event.happening {
            Happening::Fresh { .. } => self.fresh.add(told.number, "fresh"),
            Happening::Step { .. } => self.steps.add(
                told.number,
                match (told.number, told.begun, told.complete) {
                    (0, 1, 1) => "pages of one",
                    (0, 1, _) => "begun",
                    (0, _, 1) => "complete",
                    (0, ..) => "grown",
                    _ => "",
                },
            ),
            Happening::Drop { .. } => self.drops.add(
                told.number,
                match told.number {
                    0 => "dropped",
                    _ => "",
                },
            ),
        }
    }

    fn tallies(&self) -> Vec<&Tally> {
        vec![&self.fresh, &self.steps, &self.drops]
    }

    fn cases(&self) -> &Cases {
        &self.cases
    }
}

#[cfg(test)]
mod tests {
    use super::*;

    /// A fiftieth of the runs brings a fiftieth of each case.
    #[test]
    fn every_case_comes() {
        let mut came = cases::none();
        for event in runs::seeded_events(1, RUNS / 50) {
            cases::note(&mut came, &event);
        }
        assert_eq!(came.too_few(50), [""; 0]);
    }
}
