//! What was seen of one run, from the sender's text to the last event.

use std::ops::Range;

use second::chain::{Chains, Key};

use crate::chains::events::{Event as ChainEvent, Happening};
use crate::chains::runs::key_of;
use crate::host::MortisevaneChain;

use super::arrivals::Arrival;
use super::events::{Asked, Event};
use super::sender::Sender;

pub struct Seen {
    pub sender: Sender,
    /// The fragments that arrived good, in the order of their arrival.
    pub good: Vec<usize>,
    /// Those that arrived damaged, and what they were refused with.
    pub damaged: Vec<(usize, u32)>,
    /// Whether the first fragment of a later sending arrived good after one of an earlier.
    pub began_again: bool,
    /// The texts handed out for the sender's address and message number: the bytes at the
    /// place and of the length that were told.
    pub handed_out: Vec<Vec<u8>>,
    /// The slots that they were handed out from.
    pub slots: Vec<usize>,
    pub others: Vec<Other>,
    /// The one in which the first fragment arrived good before all others.
    sending: Option<usize>,
}

/// Something of other traffic.
pub struct Other {
    /// Of a fragment what its first word says, good or not.
    pub key: Key,
    pub is_drop: bool,
    /// Whether the sender's own words came for another address.
    pub is_sent_words: bool,
    /// The chains that were handed in.
    pub before: Chains,
    pub told: MortisevaneChain,
}

impl Seen {
    fn new(sender: &Sender) -> Seen {
        Seen {
            sender: sender.clone(),
            good: Vec::new(),
            damaged: Vec::new(),
            began_again: false,
            handed_out: Vec::new(),
            slots: Vec::new(),
            others: Vec::new(),
            sending: None,
        }
    }

    /// What both programs agree on, after it was compared.
    fn chain_event(&mut self, event: &ChainEvent, arrival: Option<Arrival>) {
        let told = event.second.told;
        let (before, key, words) = match &event.happening {
            Happening::Fresh { .. } => return,
            Happening::Step {
                chains,
                address,
                words,
                ..
            } => (chains, key_of(*address, words), Some(words)),
            Happening::Drop { chains, key } => (chains, *key, None),
        };
        if key == self.sender.key && told.complete == 1 {
            let from = told.place - event.part.start;
            let text = &event.second.part[from..][..told.characters];
            self.handed_out.push(text.to_vec());
            self.slots.push(told.slot);
        }
        match arrival {
            Some(arrival) if arrival.is_good => self.arrived(arrival),
            Some(arrival) => self.damaged.push((arrival.fragment, told.number)),
            None => self.others.push(Other {
                key,
                is_drop: words.is_none(),
                is_sent_words: words.is_some_and(|words| self.sender.fragments.contains(words)),
                before: *before,
                told,
            }),
        }
    }

    fn arrived(&mut self, arrival: Arrival) {
        self.good.push(arrival.fragment);
        if arrival.fragment == 0 {
            let sending = *self.sending.get_or_insert(arrival.sending);
            self.began_again |= sending < arrival.sending;
        }
    }

    /// How often a fragment arrived good.
    pub fn times(&self, fragment: usize) -> usize {
        self.good.iter().filter(|good| **good == fragment).count()
    }

    /// The numbers of the fragments between the first and the last.
    pub fn middle(&self) -> Range<usize> {
        1..self.sender.last()
    }

    /// How many fragments are missing from one good arrival to the next.
    pub fn gaps(&self) -> impl Iterator<Item = usize> + '_ {
        let steps = self
            .good
            .windows(2)
            .map(|pair| pair[1].saturating_sub(pair[0]));
        steps.filter(|step| *step > 1).map(|step| step - 1)
    }
}

/// Takes events one by one, and gives what was seen of a run with its last one.
#[derive(Default)]
pub struct Watch {
    run: Option<Seen>,
}

impl Watch {
    pub fn event(&mut self, event: &Event) -> Option<Seen> {
        let run = match &event.asked {
            Asked::Cut { sender, .. } => self.run.insert(Seen::new(sender)),
            _ => self.run.as_mut().expect("a run begins with a cut"),
        };
        match &event.asked {
            Asked::Cut { .. } => {}
            Asked::Copy { arrival, step } => run.chain_event(step, Some(*arrival)),
            Asked::Other(other) => run.chain_event(other, None),
        }
        self.run.take_if(|_| event.is_last_of_run)
    }
}
