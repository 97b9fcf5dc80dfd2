//! Chains: the fragments of a text joined by address number and message number, in eight slots of lent memory.
//!
//! ```
//! use mortisevane::chains::{Chains, CHAIN_BYTES};
//! use mortisevane::fragment::{self, Marks, CUT_WORDS};
//! use mortisevane::Refusal;
//!
//! // Fragments of three words: the first has room for five characters, the others for six.
//! let mut words = [0; CUT_WORDS];
//! let fragments = fragment::cut(b"Bay 12, shelf 4.", Marks::default(), 3, &mut words).unwrap();
//! assert_eq!(fragments.len(), 3);
//!
//! let mut chains = Chains::default();
//! let mut buffer = [0; CHAIN_BYTES];
//! let mut handed_out = None;
//! for fragment in fragments.clone() {
//!     let taken = chains.fragment(&mut buffer, 4, fragment).unwrap();
//!     handed_out = taken.text.map(<[u8]>::to_vec);
//! }
//! assert_eq!(handed_out.as_deref(), Some(&b"Bay 12, shelf 4."[..]));
//!
//! // The last fragment again has no chain to go on with; right after the first one it is out of turn.
//! let [first, _, third] = fragments.collect::<Vec<_>>().try_into().unwrap();
//! assert_eq!(chains.fragment(&mut buffer, 4, third).unwrap_err().refusal, Refusal::NoChain);
//! assert!(chains.fragment(&mut buffer, 4, first).unwrap().begun.is_some());
//! let refused = chains.fragment(&mut buffer, 4, third).unwrap_err();
//! assert_eq!((refused.refusal, refused.lost), (Refusal::OutOfTurn, true));
//! ```

use core::error::Error;
use core::fmt;

use crate::ask::within;
use crate::refusal::{told, Refusal};

#[doc(inline)]
pub use crate::exports::{Chain, Chains, CHAIN_BYTES, SLOTS};

/// What became of a fragment that was not refused.
#[derive(Clone, Copy, Debug, PartialEq, Eq)]
pub struct Taken<'a> {
    /// A first fragment closed an older chain of its key, whose text is lost.
    pub lost: bool,
    /// The marks of a first fragment.
    pub begun: Option<Begun>,
    /// The text that the last fragment handed out, a part of the lent buffer. It is ASCII. Its slot is free: the next
    /// fragment may write there.
    pub text: Option<&'a [u8]>,
}

/// The marks of a first fragment.
#[derive(Clone, Copy, Debug, PartialEq, Eq, Hash)]
pub struct Begun {
    /// R: the pager expects its messages to be numbered.
    pub retrieval: bool,
    /// M: a mail drop.
    pub mail_drop: bool,
}

/// A fragment that was refused.
#[derive(Clone, Copy, Debug, PartialEq, Eq, Hash)]
pub struct Refused {
    /// The refusal.
    pub refusal: Refusal,
    /// An open chain of the fragment's key was closed by it, and its text is lost. So it is with
    /// [`Refusal::OutOfTurn`], [`Refusal::TooLong`] and, of a chain that was open, [`Refusal::Signature`].
    pub lost: bool,
}

impl fmt::Display for Refused {
    fn fmt(&self, out: &mut fmt::Formatter<'_>) -> fmt::Result {
        let lost = if self.lost { ", and an open chain is lost" } else { "" };
        write!(out, "{}{lost}", self.refusal)
    }
}

impl Error for Refused {
    fn source(&self) -> Option<&(dyn Error + 'static)> {
        Some(&self.refusal)
    }
}

impl From<Refused> for Refusal {
    fn from(refused: Refused) -> Refusal {
        refused.refusal
    }
}

impl Chains {
    /// No chain is open. [`Default`] gives the same.
    pub fn fresh() -> Chains {
        ask!(mortisevane_chains_fresh())
    }

    /// A fragment for an address number, 0 to 31: it begins a chain, goes on with one, or hands out a text. The buffer is
    /// [`CHAIN_BYTES`] or more, as it was left last; what it holds before the first fragment does not matter.
    ///
    /// Refuses [`Refusal::Room`], [`Refusal::State`], [`Refusal::Address`], [`Refusal::Size`], [`Refusal::Damaged`],
    /// [`Refusal::Checksum`], [`Refusal::NoChain`], [`Refusal::OutOfTurn`], [`Refusal::TooLong`],
    /// [`Refusal::Signature`], [`Refusal::Full`], the first that applies; the buffer is then as it was, and the chains too
    /// unless [`Refused::lost`] says otherwise.
    ///
    /// The text is a part of the buffer, so that it cannot be read once the next fragment has come:
    ///
    /// ```compile_fail,E0499
    /// # use mortisevane::chains::{Chains, CHAIN_BYTES};
    /// # let (mut chains, mut buffer) = (Chains::default(), [0; CHAIN_BYTES]);
    /// # let (page, next) = ([0x00B966, 0x0D1830, 0x00DBB1], [0; 2]);
    /// let text = chains.fragment(&mut buffer, 4, &page).unwrap().text;
    /// chains.fragment(&mut buffer, 4, &next).unwrap_err();
    /// assert_eq!(text, Some(&b"0417"[..]));
    /// ```
    ///
    /// Before that it can:
    ///
    /// ```
    /// # use mortisevane::chains::{Chains, CHAIN_BYTES};
    /// # let (mut chains, mut buffer) = (Chains::default(), [0; CHAIN_BYTES]);
    /// # let (page, next) = ([0x00B966, 0x0D1830, 0x00DBB1], [0; 2]);
    /// let text = chains.fragment(&mut buffer, 4, &page).unwrap().text;
    /// assert_eq!(text, Some(&b"0417"[..]));
    /// chains.fragment(&mut buffer, 4, &next).unwrap_err();
    /// ```
    pub fn fragment<'a>(&mut self, buffer: &'a mut [u8], address: u32, words: &[u32]) -> Result<Taken<'a>, Refused> {
        let chains = *self;
        let step = ask!(mortisevane_chain_step(chains, lent mut buffer, address, lent words));
        *self = step.chains;
        let answer = step.answer;
        let lost = answer.lost != 0;
        let begun = Begun { retrieval: answer.retrieval != 0, mail_drop: answer.mail_drop != 0 };
        let text = &buffer[within(answer.place)..][..within(answer.characters)];
        let taken =
            Taken { lost, begun: (answer.begun != 0).then_some(begun), text: (answer.complete != 0).then_some(text) };
        told(answer.number, taken).map_err(|refusal| Refused { refusal, lost })
    }

    /// Closes the chain of an address number, 0 to 31, and a message number, 0 to 63.
    ///
    /// Refuses [`Refusal::State`], [`Refusal::Packet`] (the message number), [`Refusal::Address`],
    /// [`Refusal::NoChain`], the first that applies; the chains are then as they were.
    pub fn drop_chain(&mut self, address: u32, message_number: u32) -> Result<(), Refusal> {
        let chains = *self;
        let dropped = ask!(mortisevane_chain_drop(chains, address, message_number));
        *self = dropped.chains;
        told(dropped.number, ())
    }
}
