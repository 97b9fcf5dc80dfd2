//! What is asked of the library in a run, and what it is in the run.

use std::io;

use second::fragment::TextCut;

use crate::chains::events::{Event as ChainEvent, Outcome};
use crate::exchange::{Fields, Request};
use crate::fragments::cutting::Cut;
use crate::host::{Lent, Told};

use super::arrivals::Arrival;
use super::sender::Sender;

pub struct Event {
    pub asked: Asked,
    pub is_last_of_run: bool,
}

pub enum Asked {
    /// The sender's text is cut: a run begins.
    Cut { sender: Sender, cut: Cut },
    /// A copy of one of the sender's fragments comes.
    Copy { arrival: Arrival, step: ChainEvent },
    /// Fresh chains, and all other traffic.
    Other(ChainEvent),
}

#[derive(Debug, PartialEq)]
pub enum Answer {
    Cut(Told<Lent<TextCut, u32>>),
    Chains(Box<Outcome>),
}

impl Event {
    pub fn new(asked: Asked) -> Event {
        Event {
            asked,
            is_last_of_run: false,
        }
    }
}

/// The chains that are handed in are those that came back, since both must agree on them
/// after each event; so must they on the fragments that are sent.
impl Request for Event {
    /// What every run begins with.
    const EXPORT: u8 = Cut::EXPORT;
    type Answer = Answer;

    fn export(&self) -> u8 {
        match &self.asked {
            Asked::Cut { .. } => Self::EXPORT,
            Asked::Copy { step: event, .. } | Asked::Other(event) => event.export(),
        }
    }

    fn arguments(&self, bytes: &mut Vec<u8>) {
        match &self.asked {
            Asked::Cut { cut, .. } => cut.arguments(bytes),
            Asked::Copy { step: event, .. } | Asked::Other(event) => event.arguments(bytes),
        }
    }

    fn library(&self, fields: &mut Fields) -> io::Result<Self::Answer> {
        match &self.asked {
            Asked::Cut { cut, .. } => cut.library(fields).map(Answer::Cut),
            Asked::Copy { step: event, .. } | Asked::Other(event) => {
                let outcome = event.library(fields)?;
                Ok(Answer::Chains(Box::new(outcome)))
            }
        }
    }

    fn second(&self) -> Self::Answer {
        match &self.asked {
            Asked::Cut { cut, .. } => Answer::Cut(cut.second()),
            Asked::Copy { step: event, .. } | Asked::Other(event) => {
                Answer::Chains(Box::new(event.second()))
            }
        }
    }

    fn question(&self) -> String {
        match &self.asked {
            Asked::Cut { cut, .. } => cut.question(),
            Asked::Copy { step: event, .. } | Asked::Other(event) => event.question(),
        }
    }
}
