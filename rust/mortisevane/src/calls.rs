//! Calls in a frame: which message words belong to which page (S8.8.2).
//!
//! ```
//! use mortisevane::calls::{Calls, CALL_WORDS};
//! use mortisevane::numeric::{self, CharacterSet, PAGE_CHARACTERS};
//! use mortisevane::Refusal;
//!
//! let mut calls = Calls::default();
//! let mut memory = [0; CALL_WORDS];
//!
//! // The address of location 4 on phase A, whose vector will be word 7; the vector, a standard numeric one whose K is 6 and
//! // whose one word is word 9; and that word.
//! assert_eq!(calls.open(0x0100_0407)?.address.address, 4);
//! assert_eq!(calls.hear(&mut memory, 0x0703_1809)?.completed.count(), 0);
//! let page = calls.hear(&mut memory, 0x0901_C503)?.completed.next().expect("the call is complete");
//!
//! assert_eq!((page.call.address, page.words), (4, &[0x01C503][..]));
//! let mut text = [0; PAGE_CHARACTERS];
//! let read = numeric::read(CharacterSet::Standard, page.call.kind, page.call.check, page.words, &mut text)?;
//! assert_eq!(read.text, b"0417");
//!
//! // Nothing was left open, and a word of no call is refused.
//! assert!(calls.end_frame(&memory)?.open_calls().is_empty());
//! assert_eq!(calls.hear(&mut memory, 0x0901_C503).unwrap_err(), Refusal::NoCall);
//! # Ok::<(), Refusal>(())
//! ```

use crate::ask::within;
use crate::exports::Size;
use crate::packet::Address;
use crate::refusal::{told, Refusal};

#[doc(inline)]
pub use crate::exports::{Call, Calls, CALLS, CALL_WORDS};

/// What became of an address packet.
#[derive(Clone, Copy, Debug, PartialEq, Eq)]
pub struct Opened {
    /// What the packet says.
    pub address: Address,
    /// The place of its call among the open ones. A tone-only address opens none.
    pub call: Option<usize>,
}

/// What became of a vector or message packet.
#[derive(Clone, Debug)]
pub struct Heard<'a> {
    /// What is told where it was the vector of a call; else it was a message word.
    pub vector: Option<HeardVector>,
    /// The calls that are complete by it.
    pub completed: Completed<'a>,
}

/// The vector of a call.
#[derive(Clone, Copy, Debug, PartialEq, Eq, Hash)]
pub struct HeardVector {
    /// The place of its call among the open ones.
    pub call: usize,
    /// Its type.
    pub kind: u32,
    /// K of a numeric one, else 0.
    pub check: u32,
}

/// A call all of whose words have come.
#[derive(Clone, Copy, Debug, PartialEq, Eq)]
pub struct Complete<'a> {
    /// Its place among the open calls.
    pub place: usize,
    /// Its record, with the vector's type and K.
    pub call: &'a Call,
    /// Its message words, a part of the lent memory; none where its vector brings none.
    pub words: &'a [u32],
}

/// The calls that a packet completed, the one opened first before the others.
#[derive(Clone, Debug)]
pub struct Completed<'a> {
    calls: &'a Calls,
    memory: &'a [u32],
    /// A bit for each call that is still to be given.
    places: u32,
}

impl<'a> Iterator for Completed<'a> {
    type Item = Complete<'a>;

    fn next(&mut self) -> Option<Complete<'a>> {
        let place = self.places.trailing_zeros() as usize;
        let call = self.calls.calls.get(place)?;
        self.places &= self.places - 1;
        let words = call.words_in(self.memory)?;
        Some(Complete { place, call, words })
    }
}

impl Call {
    /// The words of a call, as a part of the memory that was lent when they came. None where the memory is shorter.
    pub fn words_in<'a>(&self, memory: &'a [u32]) -> Option<&'a [u32]> {
        let call = *self;
        let place = ask!(mortisevane_call_place(call));
        memory.get(place..)?.get(..usize::try_from(self.words).ok()?)
    }
}

impl Calls {
    /// No call is open. [`Default`] gives the same.
    pub fn fresh() -> Calls {
        ask!(mortisevane_calls_fresh())
    }

    /// The open calls, in the order opened.
    pub fn open_calls(&self) -> &[Call] {
        &self.calls[..within(self.size.min(CALLS as Size))]
    }

    /// An address packet, which opens a call.
    ///
    /// Refuses [`Refusal::State`], [`Refusal::Packet`], [`Refusal::Address`], [`Refusal::OutOfTurn`] (the call is open
    /// already), [`Refusal::Full`], the first that applies; the calls are then as they were.
    pub fn open(&mut self, packet: u32) -> Result<Opened, Refusal> {
        let calls = *self;
        let opening = ask!(mortisevane_call_open(calls, packet));
        *self = opening.calls;
        let answer = opening.answer;
        told(answer.number, Opened { address: answer.fields, call: (answer.opened != 0).then_some(within(answer.call)) })
    }

    /// A vector or message packet. The memory is [`CALL_WORDS`] or more, as it was left last; what it holds before the
    /// first vector of a frame does not matter.
    ///
    /// Refuses [`Refusal::State`], [`Refusal::Packet`], [`Refusal::Damaged`]; then a second vector, for a call that has one,
    /// with [`Refusal::OutOfTurn`], whatever its span, and a bad span, for a call still without its vector, with
    /// [`Refusal::Size`]; a word that every call has that holds its place with [`Refusal::OutOfTurn`], a vector or word of no
    /// call with [`Refusal::NoCall`]; and last [`Refusal::Room`]. The memory is then as it was, and so are the calls, but for [`Refusal::Size`], by which the call
    /// of the vector is closed.
    pub fn hear<'a>(&'a mut self, memory: &'a mut [u32], packet: u32) -> Result<Heard<'a>, Refusal> {
        let calls = *self;
        let hearing = ask!(mortisevane_call_hear(calls, lent mut memory, packet));
        *self = hearing.calls;
        let answer = hearing.answer;
        let vector = HeardVector { call: within(answer.call), kind: answer.kind, check: answer.check };
        let completed = Completed { calls: self, memory, places: answer.completed };
        told(answer.number, Heard { vector: (answer.is_vector != 0).then_some(vector), completed })
    }

    /// The end of a frame, which closes all calls. Gives those that were incomplete, in the order opened, as the open calls
    /// of a state of their own.
    ///
    /// Refuses [`Refusal::State`] and then [`Refusal::Room`]; the calls are then as they were.
    pub fn end_frame(&mut self, memory: &[u32]) -> Result<Calls, Refusal> {
        let calls = *self;
        let end = ask!(mortisevane_call_end(calls, lent memory));
        *self = end.calls;
        told(end.number, end.incomplete)
    }
}
