//! The second program's answers, in the shape of the proved library's exports.

use second::address::{self, Words};
use second::call::{Heard, Opened};
use second::capcode::{self, Capcode, Refused};
use second::chain::{Joined, NotJoined};
use second::frames::{self, Listener};
use second::mirror::Mirror;
use second::pocsag::reader::{Ended, Heard as PocsagHeard};
use second::refusal::Refusal;

use crate::host::{
    Lent, MortisevaneAddress, MortisevaneAssignment, MortisevaneCapcode, MortisevaneChain,
    MortisevaneClass, MortisevaneFrames, MortisevaneHeard, MortisevaneLength, MortisevaneListeners,
    MortisevaneOpened, MortisevanePocsagHeard, MortisevanePocsagPage, MortisevaneWait,
    MortisevaneWords, Told,
};

/// An answer of no: its number, and 0 in every other field.
macro_rules! refused {
    ($answer:ident, $refusal:expr) => {
        $answer {
            number: $refusal.number(),
            ..Default::default()
        }
    };
}

pub fn address_class(address: u64) -> MortisevaneClass {
    match address::address_class(address) {
        Ok(class) => MortisevaneClass {
            number: 0,
            class: class.number(),
        },
        Err(refusal) => refused!(MortisevaneClass, refusal),
    }
}

pub fn address_words(address: u64) -> MortisevaneWords {
    let (count, first, second) = match address::address_words(address) {
        Ok(Words::Short(word)) => (1, word, 0),
        Ok(Words::Long { first, second }) => (2, first, second),
        Err(refusal) => return refused!(MortisevaneWords, refusal),
    };
    MortisevaneWords {
        number: 0,
        count,
        first,
        second,
    }
}

pub fn word_address(word: u32) -> MortisevaneAddress {
    match address::word_address(word) {
        Ok(address) => MortisevaneAddress { number: 0, address },
        Err(refusal) => refused!(MortisevaneAddress, refusal),
    }
}

pub fn pair_address(first: u32, second: u32) -> MortisevaneAddress {
    match address::pair_address(first, second) {
        Ok(address) => MortisevaneAddress { number: 0, address },
        Err(refusal) => refused!(MortisevaneAddress, refusal),
    }
}

pub fn capcode_read(text: &[u8]) -> MortisevaneCapcode {
    match capcode::read_with_place(text) {
        Ok((capcode, place)) => MortisevaneCapcode {
            number: 0,
            letter: capcode.letter,
            frame: capcode.frame,
            collapse: capcode.collapse,
            phase: place.phase.number(),
            base: place.base_frame as u8,
            place: 0,
            address: capcode.address,
        },
        Err(Refused { refusal, place }) => MortisevaneCapcode {
            place: place.map_or(0, as_byte),
            ..refused!(MortisevaneCapcode, refusal)
        },
    }
}

fn as_byte(place: usize) -> u8 {
    u8::try_from(place).expect("no place is over 15")
}

pub fn capcode_assign(capcode: &Capcode) -> MortisevaneAssignment {
    match capcode::place(capcode) {
        Ok(place) => MortisevaneAssignment {
            number: 0,
            phase: place.phase.number(),
            base: place.base_frame as u8,
        },
        Err(refusal) => refused!(MortisevaneAssignment, refusal),
    }
}

pub fn capcode_print(capcode: &Capcode, out: &mut [u8]) -> MortisevaneLength {
    match capcode::print(capcode, out) {
        Ok(length) => MortisevaneLength {
            number: 0,
            length: length as u64,
        },
        Err(refusal) => refused!(MortisevaneLength, refusal),
    }
}

pub fn frames_listened(row: MortisevaneListeners) -> MortisevaneFrames {
    let listeners = row.listeners.map(|listener| Listener {
        frame: listener.frame,
        collapse: listener.collapse,
    });
    match frames::frames_listened(&listeners, row.count) {
        Ok(listened) => MortisevaneFrames {
            number: 0,
            count: listened.count,
            masks: listened.masks,
        },
        Err(refusal) => refused!(MortisevaneFrames, refusal),
    }
}

pub fn frames_wait(from: u32, to: u32) -> MortisevaneWait {
    match frames::frames_wait(from, to) {
        Ok(frames) => MortisevaneWait { number: 0, frames },
        Err(refusal) => refused!(MortisevaneWait, refusal),
    }
}

/// The answer of a builder, a reader or a reset, and whether a packet may be sent.
pub fn told<F: Default>(answer: Result<F, Refusal>) -> Told<F> {
    answer.map_or_else(
        |refusal| refused!(Told, refusal),
        |fields| Told { number: 0, fields },
    )
}

/// The answer of a mirror that goes on; refused, it comes back as it was.
pub fn mirrored(before: Mirror, after: Result<Mirror, Refusal>) -> Told<Mirror> {
    Told {
        fields: after.unwrap_or(before),
        ..told(after)
    }
}

/// The answer of an export that writes into a lent row, and the row after it.
pub fn told_with_row<F: Default, I>(answer: Result<F, Refusal>, row: Vec<I>) -> Told<Lent<F, I>> {
    let Told { number, fields } = told(answer);
    Told {
        number,
        fields: Lent { told: fields, row },
    }
}

/// The answer of a step of the chains. What is not told is 0.
pub fn chain_step(answer: Result<Joined, NotJoined>) -> MortisevaneChain {
    let joined = match answer {
        Ok(joined) => joined,
        Err(NotJoined { refusal, lost }) => {
            return MortisevaneChain {
                lost: u32::from(lost),
                ..refused!(MortisevaneChain, refusal)
            }
        }
    };
    let mut told = MortisevaneChain {
        lost: u32::from(joined.lost),
        ..Default::default()
    };
    if let Some(begun) = joined.begun {
        told.begun = 1;
        told.retrieval = begun.retrieval;
        told.mail_drop = begun.mail_drop;
    }
    if let Some(complete) = joined.complete {
        told.complete = 1;
        told.slot = complete.slot;
        told.place = complete.place;
        told.characters = complete.characters;
    }
    told
}

/// The answer of a drop, which has a number alone.
pub fn chain_drop(answer: Result<(), Refusal>) -> MortisevaneChain {
    MortisevaneChain {
        number: told(answer).number,
        ..Default::default()
    }
}

/// The answer to an address packet. A tone-only address opens nothing.
pub fn call_open(answer: Result<Opened, Refusal>) -> MortisevaneOpened {
    match answer {
        Ok(Opened { call, fields }) => MortisevaneOpened {
            number: 0,
            opened: u32::from(call.is_some()),
            call: call.unwrap_or_default(),
            fields,
        },
        Err(refusal) => refused!(MortisevaneOpened, refusal),
    }
}

/// The answer to a vector or a message packet.
pub fn call_hear(answer: Result<Heard, Refusal>) -> MortisevaneHeard {
    match answer {
        Ok(Heard::Vector {
            call,
            kind,
            check,
            is_complete,
        }) => MortisevaneHeard {
            number: 0,
            is_vector: 1,
            call,
            kind,
            check,
            completed: u32::from(is_complete) << call,
        },
        Ok(Heard::Word { completed }) => MortisevaneHeard {
            completed,
            ..Default::default()
        },
        Err(refusal) => refused!(MortisevaneHeard, refusal),
    }
}

/// What is told of a POCSAG page, if one ended.
pub fn pocsag_page(ended: Option<Ended>) -> MortisevanePocsagPage {
    let Some(ended) = ended else {
        return MortisevanePocsagPage::default();
    };
    MortisevanePocsagPage {
        is_ended: 1,
        number: number_of(ended.refusal),
        address: ended.address,
        function: ended.function,
        words: ended.words,
        mended: ended.mended,
    }
}

/// The answer to POCSAG words.
pub fn pocsag_hear(heard: PocsagHeard) -> MortisevanePocsagHeard {
    MortisevanePocsagHeard {
        number: number_of(heard.told.refusal),
        taken: heard.taken,
        page: pocsag_page(heard.told.ended),
    }
}

fn number_of(refusal: Option<Refusal>) -> u32 {
    refusal.map_or(0, Refusal::number)
}
