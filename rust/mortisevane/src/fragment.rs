//! Fragments: a text cut into them, and one fragment read (S8.7.8.3, S8.8.5).
//!
//! ```
//! use mortisevane::fragment::{self, Marks, CUT_WORDS, FRAGMENT_CHARACTERS};
//! use mortisevane::Refusal;
//!
//! // Message number 5. The first word says F 3 and N 5, and its K is 166H; the second begins with the signature 30H.
//! let marks = Marks { message_number: 5, ..Marks::default() };
//! let mut memory = [0; CUT_WORDS];
//! let fragments = fragment::cut(b"0417", marks, 85, &mut memory)?;
//! assert!(fragments.eq([[0x00B966, 0x0D1830, 0x00DBB1]]));
//!
//! let mut text = [0; FRAGMENT_CHARACTERS];
//! let read = fragment::read(&[0x00B966, 0x0D1830, 0x00DBB1], &mut text)?;
//! assert_eq!((read.heading.message_number, read.text), (5, &b"0417"[..]));
//! assert!(read.heading.is_first() && !read.heading.continued);
//!
//! assert_eq!(fragment::read(&[0x00B966], &mut text), Err(Refusal::Size));
//! # Ok::<(), Refusal>(())
//! ```

use core::slice::Chunks;

use crate::ask::within;
use crate::exports::FragmentRead;
use crate::refusal::{told, Refusal};

#[doc(inline)]
pub use crate::exports::{Marks, CUT_WORDS, FRAGMENT_CHARACTERS, FRAGMENT_WORDS, TEXT_CHARACTERS};

/// What a fragment says of itself.
#[derive(Clone, Copy, Debug, PartialEq, Eq, Hash)]
pub struct Heading {
    /// C: more fragments of the message follow.
    pub continued: bool,
    /// F: 3 in a first fragment, then 0, 1, 2, 0 and so on.
    pub fragment_number: u32,
    /// N, the message number, 0 to 63.
    pub message_number: u32,
    /// R of a first fragment: the pager expects its messages to be numbered. False of others.
    pub retrieval: bool,
    /// M of a first fragment: a mail drop. False of others.
    pub mail_drop: bool,
    /// The signature of a first fragment, 0 of others.
    pub signature: u32,
    /// The sum modulo 128 of all its characters, fill and signature with them.
    pub sum: u32,
    /// How many characters its text has, the fill left out.
    pub characters: usize,
}

impl Heading {
    /// Whether it is the first fragment of its message.
    pub fn is_first(&self) -> bool {
        self.fragment_number == 3
    }

    fn told(read: FragmentRead) -> Result<Heading, Refusal> {
        let heading = Heading {
            continued: read.continued != 0,
            fragment_number: read.fragment_number,
            message_number: read.message_number,
            retrieval: read.retrieval != 0,
            mail_drop: read.mail_drop != 0,
            signature: read.signature,
            sum: read.sum,
            characters: within(read.characters),
        };
        told(read.number, heading)
    }
}

/// A fragment read.
#[derive(Clone, Copy, Debug, PartialEq, Eq)]
pub struct Fragment<'a> {
    /// What it says of itself.
    pub heading: Heading,
    /// Its text without the fill, a part of the lent memory. It is ASCII.
    pub text: &'a [u8],
}

/// What a fragment of 2 to [`FRAGMENT_WORDS`] words says of itself, without its text.
///
/// Refuses [`Refusal::Size`], [`Refusal::Damaged`], [`Refusal::Checksum`], the first that applies.
pub fn heading(words: &[u32]) -> Result<Heading, Refusal> {
    Heading::told(ask!(mortisevane_fragment_heading(lent words)))
}

/// Reads a fragment of 2 to [`FRAGMENT_WORDS`] words. Of the lent memory [`FRAGMENT_CHARACTERS`] are always enough.
///
/// Refuses [`Refusal::Size`], [`Refusal::Damaged`], [`Refusal::Checksum`], the first that applies, and last
/// [`Refusal::Room`]; the memory is then as it was.
pub fn read<'a>(words: &[u32], memory: &'a mut [u8]) -> Result<Fragment<'a>, Refusal> {
    let heading = Heading::told(ask!(mortisevane_fragment_read(lent words, lent mut memory)))?;
    Ok(Fragment { heading, text: &memory[..heading.characters] })
}

/// Cuts a text of up to [`TEXT_CHARACTERS`] into fragments of a largest size, 2 to [`FRAGMENT_WORDS`] words, and gives
/// the words of each, in their order. Of the lent memory [`CUT_WORDS`] are always enough.
///
/// Refuses [`Refusal::Packet`] (the marks), [`Refusal::Size`] (the largest size), [`Refusal::TooLong`],
/// [`Refusal::Character`], the first that applies, and last [`Refusal::Room`]; the memory is then as it was.
pub fn cut<'a>(text: &[u8], marks: Marks, largest: usize, memory: &'a mut [u32]) -> Result<Chunks<'a, u32>, Refusal> {
    let cut = ask!(mortisevane_text_cut(lent text, marks, largest, lent mut memory));
    told(cut.number, ())?;
    // Each fragment but the last has the largest size, which is no longer 0.
    Ok(memory[..within(cut.words)].chunks(largest))
}
