//! Demand 3 on the library: a sender's text is cut, the air loses, damages and repeats its
//! fragments, other traffic comes between them, and what the library hands out is held
//! against the demand's own sentence. Each answer is also laid beside the second program's.

mod arrivals;
mod cases;
mod events;
mod named;
mod runs;
mod seen;
mod sender;
mod sentence;
mod traffic;

use crate::chains::events::{Event as ChainEvent, Happening};
use crate::counted::{self, Cases, Counts};
use crate::tally::Tally;

use events::{Asked, Event};
use seen::{Seen, Watch};

/// About five seconds' worth.
const RUNS: usize = 50_000;

pub fn compare(exchange: &[String], seed: u64) -> Result<String, String> {
    let named = named::compare(exchange)?;
    let mut judged = Judged::new();
    let events = runs::seeded_events(seed, RUNS);
    let compared = counted::compare(exchange, events, &mut judged);
    judged.verdict?;
    Ok(format!(
        "air: {RUNS} runs, {} answers (seed {seed}) compared, {} cases, the sentence is kept",
        named + compared?,
        judged.cases.number()
    ))
}

/// Runs that were held against the sentence, and what came in them.
struct Judged {
    watch: Watch,
    /// The first run that breaks the sentence.
    verdict: Result<(), String>,
    cases: Cases,
    texts: Tally,
    copies: Tally,
    others: Tally,
    drops: Tally,
}

impl Judged {
    fn new() -> Judged {
        Judged {
            watch: Watch::default(),
            verdict: Ok(()),
            cases: cases::none(),
            texts: Tally::new("texts on the air"),
            copies: Tally::new("the texts' fragments"),
            others: Tally::new("other fragments"),
            drops: Tally::new("drops"),
        }
    }

    fn run(&mut self, run: &Seen) {
        if self.verdict.is_ok() {
            self.verdict = sentence::judge(run);
        }
        cases::note(&mut self.cases, run);
        let word = match run.handed_out.len() {
            0 => "handed out never",
            1 => "once",
            _ => "more than once",
        };
        self.texts.add(0, word);
    }
}

impl Counts<Event> for Judged {
    fn add(&mut self, event: &Event) {
        match &event.asked {
            Asked::Cut { .. } => {}
            Asked::Copy { step, .. } => count(&mut self.copies, step),
            Asked::Other(other) => match other.happening {
                Happening::Fresh { .. } => {}
                Happening::Step { .. } => count(&mut self.others, other),
                Happening::Drop { .. } => self.drops.add(other.second.told.number, "dropped"),
            },
        }
        if let Some(run) = self.watch.event(event) {
            self.run(&run);
        }
    }

    fn tallies(&self) -> Vec<&Tally> {
        vec![&self.texts, &self.copies, &self.others, &self.drops]
    }

    fn cases(&self) -> &Cases {
        &self.cases
    }
}

fn count(tally: &mut Tally, step: &ChainEvent) {
    let told = &step.second.told;
    let word = match (told.number, told.complete) {
        (0, 1) => "complete",
        (0, _) => "joined",
        _ => "",
    };
    tally.add(told.number, word);
}

#[cfg(test)]
mod tests {
    use super::*;

    /// A thirtieth of the runs brings a thirtieth of each case.
    #[test]
    fn every_case_comes_and_the_second_program_keeps_the_sentence() {
        let mut judged = Judged::new();
        for event in runs::seeded_events(1, RUNS / 30) {
            judged.add(&event);
        }
        assert_eq!(judged.verdict, Ok(()));
        assert_eq!(judged.cases.too_few(30), [""; 0]);
    }
}
