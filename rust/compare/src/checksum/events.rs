//! What is asked of the library in a start-up.

use std::io;

use second::mirror::Mirror;

use crate::exchange::{Fields, Request};
use crate::host::Told;
use crate::packets::mirrors::{Closing, Reset, Run};
use crate::packets::readers::MaySend;
use crate::random::Random;

use super::changes::{seeded_start_up, StartUp};
use super::laws::Seen;

pub struct Event {
    asked: Asked,
    /// With the last event of a start-up, what the second program answered in all of it.
    pub seen: Option<Box<Seen>>,
}

enum Asked {
    Reset(Reset),
    MaySend(MaySend),
    Run(Run),
    Closing(Closing),
}

#[derive(Debug, PartialEq)]
pub enum Answer {
    Mirror(Told<Mirror>),
    Allowed(Told<()>),
    Packet(Told<u32>),
}

/// The library's answers must be the same all through, and so what was seen is what both
/// agree on.
impl Request for Event {
    /// What every start-up begins with.
    const EXPORT: u8 = Reset::EXPORT;
    type Answer = Answer;

    fn export(&self) -> u8 {
        match &self.asked {
            Asked::Reset(reset) => reset.export(),
            Asked::MaySend(packet) => packet.export(),
            Asked::Run(run) => run.export(),
            Asked::Closing(closing) => closing.export(),
        }
    }

    fn arguments(&self, bytes: &mut Vec<u8>) {
        match &self.asked {
            Asked::Reset(reset) => reset.arguments(bytes),
            Asked::MaySend(packet) => packet.arguments(bytes),
            Asked::Run(run) => run.arguments(bytes),
            Asked::Closing(closing) => closing.arguments(bytes),
        }
    }

    fn library(&self, fields: &mut Fields) -> io::Result<Self::Answer> {
        match &self.asked {
            Asked::Reset(reset) => reset.library(fields).map(Answer::Mirror),
            Asked::MaySend(packet) => packet.library(fields).map(Answer::Allowed),
            Asked::Run(run) => run.library(fields).map(Answer::Mirror),
            Asked::Closing(closing) => closing.library(fields).map(Answer::Packet),
        }
    }

    fn second(&self) -> Self::Answer {
        match &self.asked {
            Asked::Reset(reset) => Answer::Mirror(reset.second()),
            Asked::MaySend(packet) => Answer::Allowed(packet.second()),
            Asked::Run(run) => Answer::Mirror(run.second()),
            Asked::Closing(closing) => Answer::Packet(closing.second()),
        }
    }

    fn question(&self) -> String {
        match &self.asked {
            Asked::Reset(reset) => reset.question(),
            Asked::MaySend(packet) => packet.question(),
            Asked::Run(run) => run.question(),
            Asked::Closing(closing) => closing.question(),
        }
    }
}

pub fn seeded_events(seed: u64, start_ups: usize) -> impl Iterator<Item = Event> + Send {
    let mut random = Random::new(seed);
    (0..start_ups).flat_map(move |_| events_of(seeded_start_up(&mut random)))
}

/// The host's side with its closing checksum, then the decoder's.
fn events_of(start_up: StartUp) -> Vec<Event> {
    let reset = Reset {
        packet: start_up.part_id,
    };
    let start = reset.second();
    let run = |packets: &[u32]| Run {
        mirror: start.fields,
        packets: packets.to_vec(),
    };
    let sent = run(&start_up.sent);
    let host = sent.second();
    let closing = Closing {
        mirror: host.fields,
    };
    let closed = closing.second();
    let arriving = start_up.arriving(closed.fields);
    let reached = run(&[&start_up.reached[..], &[arriving]].concat());
    let parts: Vec<Run> = start_up.parts().into_iter().map(run).collect();
    let may_send: Vec<MaySend> = may_send(&start_up.sent).collect();
    let seen = Seen {
        start,
        may_send: may_send.iter().map(MaySend::second).collect(),
        host,
        parts: parts.iter().map(Run::second).collect(),
        closing: closed,
        decoder: reached.second(),
        start_up,
    };
    let mut asked = vec![Asked::Reset(reset)];
    asked.extend(may_send.into_iter().map(Asked::MaySend));
    asked.push(Asked::Run(sent));
    asked.extend(parts.into_iter().map(Asked::Run));
    asked.extend([Asked::Closing(closing), Asked::Run(reached)]);
    in_their_order(asked, seen)
}

fn may_send(sent: &[u32]) -> impl Iterator<Item = MaySend> + '_ {
    sent.iter().map(|&packet| MaySend { packet })
}

fn in_their_order(asked: Vec<Asked>, seen: Seen) -> Vec<Event> {
    let events = asked.into_iter().map(|asked| Event { asked, seen: None });
    let mut events: Vec<Event> = events.collect();
    if let Some(last) = events.last_mut() {
        last.seen = Some(Box::new(seen));
    }
    events
}
