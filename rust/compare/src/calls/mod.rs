//! Calls in a frame: frames of packets and their ends, the library's answers, records
//! and lent memory beside the second program's after each of them.

mod cases;
mod events;
mod frames;
mod named;
mod packets;
mod plan;
mod states;

use crate::counted::{self, Cases, Counts};
use crate::tally::Tally;

use events::{Event, Happening, Told};

const FRAMES: usize = 200_000;

pub fn compare(exchange: &[String], seed: u64) -> Result<String, String> {
    let named = named::compare(exchange)?;
    let events = frames::seeded_events(seed, FRAMES);
    let mut tallies = Tallies::new();
    let compared = counted::compare(exchange, events, &mut tallies)?;
    Ok(format!(
        "calls: {FRAMES} frames, {} answers (seed {seed}) compared, {} cases, all agree",
        named + compared,
        tallies.cases.number()
    ))
}

struct Tallies {
    cases: Cases,
    fresh: Tally,
    addresses: Tally,
    heard: Tally,
    ends: Tally,
    places: Tally,
}

impl Tallies {
    fn new() -> Tallies {
        Tallies {
            cases: cases::none(),
            fresh: Tally::new("fresh calls"),
            addresses: Tally::new("addresses of calls"),
            heard: Tally::new("vectors and words"),
            ends: Tally::new("ends of frames"),
            places: Tally::new("places of calls"),
        }
    }
}

impl Counts<Event> for Tallies {
    fn add(&mut self, event: &Event) {
        cases::note(&mut self.cases, event);
        let told = &event.second.told;
        let tally = match event.happening {
            Happening::Fresh { .. } => &mut self.fresh,
            Happening::Open { .. } => &mut self.addresses,
            Happening::Hear { .. } => &mut self.heard,
            Happening::End { .. } => &mut self.ends,
            Happening::Place { .. } => &mut self.places,
        };
        let word = match told {
            told if told.number() != 0 => "",
            Told::Nothing => "fresh",
            Told::Opened(opened) if opened.opened == 1 => "opened",
            Told::Opened(_) => "tone-only",
            Told::Heard(heard) if heard.is_vector == 1 => "vectors",
            Told::Heard(_) => "words",
            Told::Ended { .. } => "ended",
            Told::Place(_) => "places",
        };
        tally.add(told.number(), word);
    }

    fn tallies(&self) -> Vec<&Tally> {
        vec![
            &self.fresh,
            &self.addresses,
            &self.heard,
            &self.ends,
            &self.places,
        ]
    }

    fn cases(&self) -> &Cases {
        &self.cases
    }
}

#[cfg(test)]
mod tests {
    use super::*;

    /// A fiftieth of the frames brings a fiftieth of each case.
    #[test]
    fn every_case_comes() {
        let mut came = cases::none();
        for event in frames::seeded_events(1, FRAMES / 50) {
            cases::note(&mut came, &event);
        }
        assert_eq!(came.too_few(50), [""; 0]);
    }
}
