//! The laws of the checksum handshake on the library: random lists of packets are sent, and
//! come to the decoder in another order, changed, not at all or too often. What the closing
//! checksum leaves is held against the law of what happened. Each answer is also laid beside
//! the second program's. Before that both are held to the worked examples.

mod cases;
mod changes;
mod events;
mod examples;
mod laws;
mod lists;

use crate::counted::{self, Cases, Counts};
use crate::tally::Tally;

use events::Event;
use laws::{Seen, LAWS};

/// About six seconds' worth.
const START_UPS: usize = 1_000_000;

pub fn compare(path: &str, exchange: &[String], seed: u64) -> Result<String, String> {
    let examples = examples::compare(path, exchange)?;
    let mut judged = Judged::new();
    let events = events::seeded_events(seed, START_UPS);
    let compared = counted::compare(exchange, events, &mut judged);
    judged.verdict?;
    Ok(format!(
        "checksum: {START_UPS} start-ups, {} answers (seed {seed}) compared, {} cases, the laws \
         are kept; {examples} worked examples are as {path} has them",
        compared?,
        judged.cases.number()
    ))
}

/// Start-ups that were held against their laws, and what came in them.
struct Judged {
    /// The first start-up that breaks its law.
    verdict: Result<(), String>,
    cases: Cases,
    /// Of each law, in their order.
    tallies: [Tally; LAWS.len()],
}

impl Judged {
    fn new() -> Judged {
        Judged {
            verdict: Ok(()),
            cases: cases::none(),
            tallies: LAWS.map(Tally::new),
        }
    }

    fn start_up(&mut self, seen: &Seen) {
        if self.verdict.is_ok() {
            self.verdict = laws::judge(seen);
        }
        cases::note(&mut self.cases, &seen.start_up);
        let word = match seen.talks() {
            true => "talking",
            false => "silent",
        };
        self.tallies[seen.start_up.happening.number()].add(0, word);
    }
}

impl Counts<Event> for Judged {
    fn add(&mut self, event: &Event) {
        if let Some(seen) = &event.seen {
            self.start_up(seen);
        }
    }

    fn tallies(&self) -> Vec<&Tally> {
        self.tallies.iter().collect()
    }

    fn cases(&self) -> &Cases {
        &self.cases
    }
}

#[cfg(test)]
mod tests {
    use super::*;

    /// A hundredth of the start-ups brings a hundredth of each case.
    #[test]
    fn every_case_comes_and_the_second_program_keeps_the_laws() {
        let mut judged = Judged::new();
        for event in events::seeded_events(1, START_UPS / 100) {
            judged.add(&event);
        }
        assert_eq!(judged.verdict, Ok(()));
        assert_eq!(judged.cases.too_few(100), [""; 0]);
    }

    /// Start-ups that keep their laws come before a break and after it.
    #[test]
    fn a_broken_law_is_the_verdict() {
        let mut judged = Judged::new();
        let start_ups = events::seeded_events(1, 3).filter_map(|event| event.seen);
        for (place, mut seen) in start_ups.enumerate() {
            if place == 1 {
                seen.decoder.fields.talking ^= 1;
            }
            judged.start_up(&seen);
            assert_eq!(judged.verdict.is_err(), place > 0);
        }
    }
}
