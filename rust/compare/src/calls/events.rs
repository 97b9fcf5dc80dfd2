//! What happens to calls, and what comes of it. Events are asked in their order,
//! since the exchange program keeps the memory from one to the next.

use std::fmt::{self, Debug, Formatter};
use std::io;
use std::ops::Range;

use second::call::{Call, Calls, MOST_CALLS, TO_COME};
use second::heard::MESSAGE_WORDS;
use second::numbers::Numbers;

use crate::exchange::{append_numbers, append_row, Fields, Item, Request};
use crate::host::{read_calls, MortisevaneHeard, MortisevaneOpened};
use crate::yardstick;

use super::packets::{phase_of, word_of};

pub enum Happening {
    /// Fresh calls are asked for, and a memory is lent for all that follows.
    Fresh { memory: Vec<u32> },
    /// A packet comes as an address packet.
    Open { packet: u32 },
    /// A packet comes as a vector or a message packet.
    Hear {
        /// How many of the memory's words are lent.
        lent: usize,
        packet: u32,
    },
    /// The frame ends.
    End { lent: usize },
    /// It is asked where a call's words begin.
    Place { call: Call },
}

/// What is told of an event, beside the calls and the memory after it.
#[derive(Clone, Debug, PartialEq, Eq)]
pub enum Told {
    Nothing,
    Opened(MortisevaneOpened),
    Heard(MortisevaneHeard),
    Ended { number: u32, incomplete: Box<Calls> },
    Place(usize),
}

impl Told {
    pub fn number(&self) -> u32 {
        match self {
            Told::Nothing | Told::Place(_) => 0,
            Told::Opened(opened) => opened.number,
            Told::Heard(heard) => heard.number,
            Told::Ended { number, .. } => *number,
        }
    }
}

/// What both must agree on after an event.
#[derive(Clone, PartialEq, Eq)]
pub struct Outcome {
    pub told: Told,
    /// No calls where a place was asked for.
    pub calls: Calls,
    /// The part of the memory that is looked at.
    pub part: Vec<u32>,
}

/// A record to a line; words are easier to find when they are hexadecimal.
impl Debug for Outcome {
    fn fmt(&self, formatter: &mut Formatter) -> fmt::Result {
        match &self.told {
            Told::Ended { number, incomplete } => {
                writeln!(formatter, "number {number}, incomplete")?;
                show_calls(formatter, incomplete)?;
                writeln!(formatter, "    and open")?;
            }
            told => writeln!(formatter, "{told:?}")?,
        }
        show_calls(formatter, &self.calls)?;
        write!(formatter, "    part of the memory {:X?}", self.part)
    }
}

fn show_calls(to: &mut impl fmt::Write, calls: &Calls) -> fmt::Result {
    writeln!(to, "    size {}", calls.size)?;
    for (place, call) in calls.calls.iter().enumerate() {
        writeln!(to, "    call {place}: {call:?}")?;
    }
    Ok(())
}

/// What is known of an event that its answer does not tell.
#[derive(Clone, Copy, Default)]
pub struct Notes {
    /// A bit for each call that holds the packet's word.
    pub holding: u32,
    /// Those of them that lacked it.
    pub lacking: u32,
    /// Since a bad span closed a call, another was opened in the same frame.
    pub opened_after_bad_span: bool,
}

pub struct Event {
    pub happening: Happening,
    /// The calls that are handed in.
    pub before: Calls,
    /// Which words of the memory are looked at afterwards.
    pub part: Range<usize>,
    /// What the second program makes of it, which knows what came before.
    pub second: Outcome,
    pub notes: Notes,
}

/// The second program's calls and their memory, in the course of a run.
pub struct Receiver {
    pub calls: Calls,
    pub memory: Vec<u32>,
    /// The whole memory is looked at after each event that changes it.
    pub looks_at_all: bool,
    closed_by_bad_span: bool,
    opened_after_bad_span: bool,
}

impl Receiver {
    /// With the event that it begins with.
    pub fn fresh(memory: Vec<u32>) -> (Receiver, Event) {
        let receiver = Receiver {
            calls: Calls::default(),
            memory: memory.clone(),
            looks_at_all: false,
            closed_by_bad_span: false,
            opened_after_bad_span: false,
        };
        let fresh = Happening::Fresh { memory };
        let event = receiver.event(fresh, Calls::default(), 0..0, Told::Nothing);
        (receiver, event)
    }

    /// An address packet comes to these calls, which are handed in for its own.
    pub fn open(&mut self, before: Calls, packet: u32) -> Event {
        self.calls = before;
        let opened = yardstick::call_open(self.calls.open(packet));
        self.opened_after_bad_span |= self.closed_by_bad_span && opened.opened == 1;
        let told = Told::Opened(opened);
        self.event(Happening::Open { packet }, before, 0..0, told)
    }

    pub fn hear(&mut self, before: Calls, lent: usize, packet: u32) -> Event {
        let held = places_of(&before, &self.memory[..lent], packet);
        self.calls = before;
        let heard = yardstick::call_hear(self.calls.hear(&mut self.memory[..lent], packet));
        self.closed_by_bad_span |= heard.number == 9;
        let written = match heard {
            MortisevaneHeard { number: 1.., .. } => 0..0,
            _ if self.looks_at_all => 0..self.memory.len(),
            MortisevaneHeard {
                is_vector: 1, call, ..
            } => {
                let call = &self.calls.calls[call];
                self.about(call.place(), call.words as usize)
            }
            _ => self.about(held.place, 1),
        };
        let told = Told::Heard(heard);
        let event = self.event(Happening::Hear { lent, packet }, before, written, told);
        Event {
            notes: Notes {
                holding: held.holding,
                lacking: held.lacking,
                ..event.notes
            },
            ..event
        }
    }

    /// The whole memory is looked at.
    pub fn end_frame(&mut self, before: Calls, lent: usize) -> Event {
        self.calls = before;
        let ended = self.calls.end_frame(&self.memory[..lent]);
        let told = Told::Ended {
            number: ended.map_or_else(|refusal| refusal.number(), |_| 0),
            incomplete: Box::new(ended.unwrap_or_default()),
        };
        let event = self.event(Happening::End { lent }, before, 0..self.memory.len(), told);
        if event.second.told.number() == 0 {
            self.closed_by_bad_span = false;
            self.opened_after_bad_span = false;
        }
        event
    }

    pub fn place(&self, call: Call) -> Event {
        let told = Told::Place(call.place());
        let event = self.event(Happening::Place { call }, self.calls, 0..0, told);
        Event {
            second: Outcome {
                calls: Calls::default(),
                ..event.second
            },
            ..event
        }
    }

    /// So many words, and one before and one after them.
    fn about(&self, place: usize, words: usize) -> Range<usize> {
        let end = place + words + 1;
        place.saturating_sub(1)..end.min(self.memory.len())
    }

    /// As it stands after it.
    fn event(&self, happening: Happening, before: Calls, part: Range<usize>, told: Told) -> Event {
        let second = Outcome {
            told,
            calls: self.calls,
            part: self.memory[part.clone()].to_vec(),
        };
        let notes = Notes {
            opened_after_bad_span: self.opened_after_bad_span,
            ..Notes::default()
        };
        Event {
            happening,
            before,
            part,
            second,
            notes,
        }
    }
}

/// Which calls hold a word, and the place of it in the last one's words.
#[derive(Default)]
struct Held {
    holding: u32,
    lacking: u32,
    place: usize,
}

fn places_of(calls: &Calls, memory: &[u32], packet: u32) -> Held {
    let mut held = Held::default();
    let (phase, word) = (phase_of(packet), word_of(packet));
    // Only of sound calls are the places asked for.
    if word > *MESSAGE_WORDS.end() || !calls.is_sound() {
        return held;
    }
    for (bit, call) in calls.open_calls().iter().enumerate() {
        if let Some(place) = call.place_of(phase, word) {
            let lacks = memory.get(place).is_none_or(|word| *word >= TO_COME);
            held.place = place;
            held.holding |= 1 << bit;
            held.lacking |= u32::from(lacks) << bit;
        }
    }
    held
}

/// The exchange program itself watches the memory around the lent words.
impl Request for Event {
    /// What every run begins with.
    const EXPORT: u8 = 50;
    type Answer = Outcome;

    fn export(&self) -> u8 {
        match self.happening {
            Happening::Fresh { .. } => Self::EXPORT,
            Happening::Open { .. } => 51,
            Happening::Hear { .. } => 52,
            Happening::End { .. } => 53,
            Happening::Place { .. } => 54,
        }
    }

    fn arguments(&self, bytes: &mut Vec<u8>) {
        match &self.happening {
            Happening::Fresh { memory } => append_row(bytes, memory),
            Happening::Open { packet } => {
                append_calls(bytes, &self.before);
                Item::append_to(*packet, bytes);
            }
            Happening::Hear { lent, packet } => {
                append_calls(bytes, &self.before);
                append_length(bytes, *lent);
                Item::append_to(*packet, bytes);
                append_part(bytes, &self.part);
            }
            Happening::End { lent } => {
                append_calls(bytes, &self.before);
                append_length(bytes, *lent);
                append_part(bytes, &self.part);
            }
            Happening::Place { call } => append_numbers(bytes, call),
        }
    }

    fn library(&self, fields: &mut Fields) -> io::Result<Self::Answer> {
        let told = match self.happening {
            Happening::Fresh { .. } => Told::Nothing,
            Happening::Open { .. } => Told::Opened(MortisevaneOpened::read(fields)?),
            Happening::Hear { .. } => Told::Heard(MortisevaneHeard::read(fields)?),
            Happening::End { .. } => Told::Ended {
                number: fields.u32()?,
                incomplete: Box::new(read_calls(fields)?),
            },
            Happening::Place { .. } => Told::Place(fields.count()?),
        };
        Ok(Outcome {
            calls: match told {
                Told::Place(_) => Calls::default(),
                _ => read_calls(fields)?,
            },
            told,
            part: fields.row(self.part.len())?,
        })
    }

    fn second(&self) -> Self::Answer {
        self.second.clone()
    }

    fn question(&self) -> String {
        let mut question = match &self.happening {
            Happening::Fresh { .. } => return "fresh calls".to_string(),
            Happening::Place { call } => return format!("the place of {call:?}"),
            Happening::Open { packet } => format!("address packet {packet:08X} comes to"),
            Happening::Hear { lent, packet } => {
                format!("packet {packet:08X}, {lent} words lent, comes to")
            }
            Happening::End { lent } => format!("the frame ends, {lent} words lent, of"),
        };
        question.push('\n');
        show_calls(&mut question, &self.before).expect("a text takes all");
        question + &format!("    looked at: {:?}", self.part)
    }
}

fn append_length(bytes: &mut Vec<u8>, length: usize) {
    let length = u32::try_from(length).expect("no memory is that long");
    Item::append_to(length, bytes);
}

/// The exchange program counts it in bytes.
fn append_part(bytes: &mut Vec<u8>, part: &Range<usize>) {
    append_length(bytes, part.start * size_of::<u32>());
    append_length(bytes, part.len() * size_of::<u32>());
}

fn append_calls(bytes: &mut Vec<u8>, calls: &Calls) {
    bytes.extend((calls.size as u64).to_le_bytes());
    let mut numbers = Vec::with_capacity(MOST_CALLS * Call::COUNT);
    for call in &calls.calls {
        Numbers::append_to(call, &mut numbers);
    }
    for number in numbers {
        Item::append_to(number, bytes);
    }
}
