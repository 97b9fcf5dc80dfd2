//! What happens to chains, and what comes of it. Events are asked in their order,
//! since the exchange program keeps the buffer from one to the next.

use std::fmt::{self, Debug, Formatter};
use std::io;
use std::ops::Range;

use second::chain::{Chains, Key};

use crate::exchange::{append_row, Fields, Item, Request};
use crate::host::{read_chains, MortisevaneChain};
use crate::yardstick;

pub enum Happening {
    /// Fresh chains are asked for, and a buffer is lent for all that follows.
    Fresh { buffer: Vec<u8> },
    /// A fragment comes.
    Step {
        chains: Chains,
        /// How many of the buffer's bytes are lent.
        lent: usize,
        address: u32,
        words: Vec<u32>,
    },
    /// A chain is dropped.
    Drop { chains: Chains, key: Key },
}

/// What both must agree on after an event.
#[derive(Clone, PartialEq, Eq)]
pub struct Outcome {
    /// A drop tells its number alone, and fresh chains tell nothing.
    pub told: MortisevaneChain,
    pub chains: Chains,
    /// The part of the buffer that is looked at.
    pub part: Vec<u8>,
}

/// A record to a line; bytes are easier to find when they are hexadecimal.
impl Debug for Outcome {
    fn fmt(&self, formatter: &mut Formatter) -> fmt::Result {
        writeln!(formatter, "{:?}", self.told)?;
        show_chains(formatter, &self.chains)?;
        write!(formatter, "    part of the buffer {:X?}", self.part)
    }
}

fn show_chains(to: &mut impl fmt::Write, chains: &Chains) -> fmt::Result {
    for (slot, record) in chains.slots.iter().enumerate() {
        writeln!(to, "    slot {slot}: {record:?}")?;
    }
    Ok(())
}

pub struct Event {
    pub happening: Happening,
    /// Which bytes of the buffer are looked at afterwards.
    pub part: Range<usize>,
    /// What the second program makes of it, which knows what came before.
    pub second: Outcome,
}

/// The second program's chains and their buffer, in the course of a run.
pub struct Receiver {
    pub chains: Chains,
    pub buffer: Vec<u8>,
}

impl Receiver {
    /// With the event that it begins with.
    pub fn fresh(buffer: Vec<u8>) -> (Receiver, Event) {
        let receiver = Receiver {
            chains: Chains::default(),
            buffer: buffer.clone(),
        };
        let event = receiver.event(Happening::Fresh { buffer }, 0..0, Default::default());
        (receiver, event)
    }

    /// A fragment comes to these chains, which are handed in for its own.
    pub fn step(
        &mut self,
        chains: Chains,
        lent: usize,
        address: u32,
        words: Vec<u32>,
        part: Range<usize>,
    ) -> Event {
        self.chains = chains;
        let buffer = &mut self.buffer[..lent];
        let told = yardstick::chain_step(self.chains.step(buffer, address, &words));
        let step = Happening::Step {
            chains,
            lent,
            address,
            words,
        };
        self.event(step, part, told)
    }

    pub fn drop_chain(&mut self, chains: Chains, key: Key, part: Range<usize>) -> Event {
        self.chains = chains;
        let told = yardstick::chain_drop(self.chains.give_up(key));
        self.event(Happening::Drop { chains, key }, part, told)
    }

    /// As it stands after it.
    fn event(&self, happening: Happening, part: Range<usize>, told: MortisevaneChain) -> Event {
        let second = Outcome {
            told,
            chains: self.chains,
            part: self.buffer[part.clone()].to_vec(),
        };
        Event {
            happening,
            part,
            second,
        }
    }
}

/// The exchange program itself watches the lent words and the memory around them
/// and around the buffer.
impl Request for Event {
    /// What every run begins with.
    const EXPORT: u8 = 47;
    type Answer = Outcome;

    fn export(&self) -> u8 {
        match self.happening {
            Happening::Fresh { .. } => Self::EXPORT,
            Happening::Step { .. } => 48,
            Happening::Drop { .. } => 49,
        }
    }

    fn arguments(&self, bytes: &mut Vec<u8>) {
        match &self.happening {
            Happening::Fresh { buffer } => {
                append_length(bytes, buffer.len());
                bytes.extend(buffer);
                return;
            }
            Happening::Step {
                chains,
                lent,
                address,
                words,
            } => {
                append_chains(bytes, chains);
                append_length(bytes, *lent);
                address.append_to(bytes);
                append_row(bytes, words);
            }
            Happening::Drop { chains, key } => {
                append_chains(bytes, chains);
                key.address.append_to(bytes);
                key.message_number.append_to(bytes);
            }
        }
        append_length(bytes, self.part.start);
        append_length(bytes, self.part.len());
    }

    fn library(&self, fields: &mut Fields) -> io::Result<Self::Answer> {
        let told = match self.happening {
            Happening::Fresh { .. } => MortisevaneChain::default(),
            Happening::Step { .. } => MortisevaneChain::read(fields)?,
            Happening::Drop { .. } => MortisevaneChain {
                number: fields.u32()?,
                ..Default::default()
            },
        };
        Ok(Outcome {
            told,
            chains: read_chains(fields)?,
            part: fields.bytes(self.part.len())?,
        })
    }

    fn second(&self) -> Self::Answer {
        self.second.clone()
    }

    fn question(&self) -> String {
        let (mut question, chains) = match &self.happening {
            Happening::Fresh { .. } => return "fresh chains".to_string(),
            Happening::Step {
                chains,
                lent,
                address,
                words,
            } => {
                let fragment = format!("{words:X?} for address {address}");
                (format!("{fragment}, {lent} bytes lent, comes to"), chains)
            }
            Happening::Drop { chains, key } => (format!("{key:?} is dropped from"), chains),
        };
        question.push('\n');
        show_chains(&mut question, chains).expect("a text takes all");
        question + &format!("    looked at: {:?}", self.part)
    }
}

fn append_length(bytes: &mut Vec<u8>, length: usize) {
    let length = u32::try_from(length).expect("no buffer is that long");
    length.append_to(bytes);
}

fn append_chains(bytes: &mut Vec<u8>, chains: &Chains) {
    for record in &chains.slots {
        for number in [
            record.is_open,
            record.key.address,
            record.key.message_number,
            record.next_fragment,
            record.sum,
        ] {
            number.append_to(bytes);
        }
        bytes.extend((record.characters as u64).to_le_bytes());
    }
}
