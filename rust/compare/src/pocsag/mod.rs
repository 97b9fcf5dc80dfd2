//! POCSAG pages: words mended, streams of words heard, and texts read, the library's answers
//! beside the second program's. Mending is also held against what was sent, and whole streams
//! against their laws.

mod cases;
mod events;
mod laws;
mod map;
mod mending;
mod reading;
mod streams;

use crate::counted::{self, Cases, Counts};
use crate::host::MortisevanePocsagHeard;
use crate::tally::Tally;

use events::{Event, Happening};
use laws::Stream;

/// How many words of each remainder and each parity are mended by the map and by the search.
const WORDS_OF_EACH: u32 = 4;
/// About four seconds' worth.
const STREAMS: usize = 150_000;

pub fn compare(exchange: &[String], seed: u64) -> Result<String, String> {
    let held = map::hold(seed, WORDS_OF_EACH)?;
    println!("  {held} words are mended by the map as by the search");
    let mended = mending::compare(exchange, seed.wrapping_add(55))?;
    let mut judged = Judged::new();
    let events = streams::seeded_events(seed.wrapping_add(56), STREAMS);
    let heard = counted::compare(exchange, events, &mut judged);
    judged.verdict?;
    let answers = mended + heard? + reading::compare(exchange, seed.wrapping_add(58))?;
    Ok(format!(
        "pocsag: {STREAMS} streams, {answers} answers (seed {seed}) compared, all agree, the laws \
         are kept"
    ))
}

/// Streams that were held against their laws, and what came in them.
struct Judged {
    /// The first stream that breaks a law.
    verdict: Result<(), String>,
    cases: Cases,
    streams: Tally,
    heard: Tally,
    ended: Tally,
    closes: Tally,
}

impl Judged {
    fn new() -> Judged {
        Judged {
            verdict: Ok(()),
            cases: cases::none(),
            streams: Tally::new("streams"),
            heard: Tally::new("portions of words"),
            ended: Tally::new("pages that ended"),
            closes: Tally::new("closes"),
        }
    }

    fn stream(&mut self, stream: &Stream) {
        if self.verdict.is_ok() {
            self.verdict = laws::judge(stream);
        }
        let word = match (stream.has_its_pages_due(), stream.is_undisturbed) {
            (true, _) => "with all their pages due",
            (_, true) => "with some",
            (_, false) => "disturbed",
        };
        self.streams.add(0, word);
    }

    fn portion(&mut self, told: &MortisevanePocsagHeard) {
        let word = match (told.number, told.page.is_ended) {
            (0, 0) => "with nothing told",
            (0, _) => "with a page ended",
            _ => "",
        };
        self.heard.add(told.number, word);
        if told.page.is_ended == 1 {
            let word = match told.page.number {
                0 => "handed out",
                _ => "",
            };
            self.ended.add(told.page.number, word);
        }
    }
}

impl Counts<Event> for Judged {
    fn add(&mut self, event: &Event) {
        cases::note(&mut self.cases, event);
        let told = &event.second.told;
        match event.happening {
            Happening::Hear { .. } => self.portion(told),
            Happening::Close { .. } => {
                let word = match told.page.is_ended {
                    0 => "with no page open",
                    _ => "",
                };
                self.closes.add(told.page.number, word);
            }
        }
        if let Some(stream) = &event.stream {
            self.stream(stream);
        }
    }

    fn tallies(&self) -> Vec<&Tally> {
        vec![&self.streams, &self.heard, &self.ended, &self.closes]
    }

    fn cases(&self) -> &Cases {
        &self.cases
    }
}

#[cfg(test)]
mod tests {
    use super::*;

    /// A twentieth of the streams brings a twentieth of each case.
    #[test]
    fn every_case_comes_and_the_second_program_keeps_the_laws() {
        let mut judged = Judged::new();
        for event in streams::seeded_events(1, STREAMS / 20) {
            judged.add(&event);
        }
        assert_eq!(judged.verdict, Ok(()));
        assert_eq!(judged.cases.too_few(20), [""; 0]);
    }

    /// The first stream with a page due, and some before it.
    #[test]
    fn a_broken_law_is_the_verdict() {
        let streams = streams::seeded_events(1, 200).filter_map(|event| event.stream);
        let mut due =
            streams.filter(|stream| stream.has_its_pages_due() && !stream.sent.is_empty());
        let mut stream = due.next().expect("such streams are common");
        assert_eq!(laws::judge(&stream), Ok(()));
        stream.sent[0].address ^= 8;
        let mut judged = Judged::new();
        judged.stream(&stream);
        assert!(judged.verdict.is_err());
        stream.sent[0].address ^= 8;
        judged.stream(&stream);
        assert!(judged.verdict.is_err());
        stream.tellings[0].place += 1;
        assert!(laws::judge(&stream).is_err());
    }
}
