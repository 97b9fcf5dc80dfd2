//! Numeric pages: a text as message words, and back (S8.7.8.2), in one of two sets of characters.
//!
//! ```
//! use mortisevane::numeric::{self, CharacterSet, Numbering, PAGE_CHARACTERS, PAGE_WORDS};
//! use mortisevane::packet::VECTOR_STANDARD;
//! use mortisevane::Refusal;
//!
//! let mut memory = [0; PAGE_WORDS];
//! let page = numeric::write(CharacterSet::Standard, b"0417", VECTOR_STANDARD, Numbering::default(), &mut memory)?;
//! // The word is 01C500 with the two highest bits of K, 54; the other four are for the vector.
//! assert_eq!((page.words, page.check), (&[0x01C503][..], 6));
//!
//! let mut text = [0; PAGE_CHARACTERS];
//! let set = CharacterSet::Standard;
//! assert_eq!(numeric::read(set, VECTOR_STANDARD, 6, &[0x01C503], &mut text)?.text, b"0417");
//! assert_eq!(numeric::read(set, VECTOR_STANDARD, 7, &[0x01C503], &mut text), Err(Refusal::Checksum));
//!
//! // Nothing in a page tells the set of its sender: the codes 0, B, 1 and 7 are a text in both.
//! let words = [0x01C6C3];
//! assert_eq!(numeric::read(CharacterSet::Standard, VECTOR_STANDARD, 6, &words, &mut text)?.text, b"0U17");
//! assert_eq!(numeric::read(CharacterSet::Chinese, VECTOR_STANDARD, 6, &words, &mut text)?.text, b"0B17");
//! # Ok::<(), Refusal>(())
//! ```

use crate::ask::within;
use crate::exports::{SET_CHINESE, SET_STANDARD};
use crate::refusal::{told, Refusal};

#[doc(inline)]
pub use crate::exports::{Numbering, PAGE_CHARACTERS, PAGE_WORDS};

/// The set of characters of a numeric page, a column of Table 39. No page and no packet tells which one its sender uses:
/// it is a setting of the pager, which holds until it is changed, over a reset of the decoder too.
///
/// | code | [`Standard`](Self::Standard) | [`Chinese`](Self::Chinese) |
/// |---|---|---|
/// | 0 to 9 | `0` to `9` | `0` to `9` |
/// | 10 | `?` | `A` |
/// | 11 | `U` | `B` |
/// | 12 | space | space |
/// | 13 | `-` | `C` |
/// | 14 | `]` | `D` |
/// | 15 | `[` | `E` |
#[derive(Clone, Copy, Debug, Default, PartialEq, Eq, Hash)]
#[repr(u32)]
pub enum CharacterSet {
    /// With the option of the People's Republic of China off; `?` stands for the code that is spare there.
    #[default]
    Standard = SET_STANDARD,
    /// With the option on.
    Chinese = SET_CHINESE,
}

/// A page written.
#[derive(Clone, Copy, Debug, PartialEq, Eq)]
pub struct Written<'a> {
    /// K0 to K3, for the vector.
    pub check: u32,
    /// The words, a part of the lent memory.
    pub words: &'a [u32],
}

/// A page read.
#[derive(Clone, Copy, Debug, PartialEq, Eq)]
pub struct Page<'a> {
    /// What the head of a numbered page says; all 0 of other pages.
    pub numbering: Numbering,
    /// The text, a part of the lent memory: all that the words have room for, so that spaces may stand at the end. It is
    /// ASCII.
    pub text: &'a [u8],
    /// How many spaces stand at the end of the text, after the last character that is none. Where there is no such
    /// character it is the length of the text.
    pub spaces_at_end: usize,
}

impl<'a> Page<'a> {
    /// What a display has to show: the text without the spaces at its end. Whether these fill up the last word or are the
    /// sender's nobody can tell, and a place that shows one of them is lost to the characters before.
    ///
    /// ```
    /// use mortisevane::numeric::{self, CharacterSet, PAGE_CHARACTERS};
    /// use mortisevane::packet::VECTOR_STANDARD;
    /// # use mortisevane::Refusal;
    ///
    /// // 417 in a page that has room for four characters.
    /// let mut memory = [0; PAGE_CHARACTERS];
    /// let page = numeric::read(CharacterSet::Standard, VECTOR_STANDARD, 15, &[0x031C50], &mut memory)?;
    /// assert_eq!((page.text, page.spaces_at_end), (&b"417 "[..], 1));
    /// assert_eq!(page.shown(), b"417");
    /// # Ok::<(), Refusal>(())
    /// ```
    pub fn shown(&self) -> &'a [u8] {
        &self.text[..self.text.len().saturating_sub(self.spaces_at_end)]
    }
}

/// Writes a text, characters of the set, as the fewest words that hold it. The kind is the vector's type,
/// [`VECTOR_STANDARD`], [`VECTOR_SPECIAL`] or [`VECTOR_NUMBERED`]; the numbering is all 0 with the first two. Of the
/// lent memory [`PAGE_WORDS`] are always enough.
///
/// Refuses [`Refusal::Packet`] (the kind or the numbering), [`Refusal::TooLong`], [`Refusal::Character`], the first that
/// applies, and last [`Refusal::Room`]; the memory is then as it was. The library also refuses a set that is neither of
/// the two, which no [`CharacterSet`] is.
///
/// [`VECTOR_STANDARD`]: crate::packet::VECTOR_STANDARD
/// [`VECTOR_SPECIAL`]: crate::packet::VECTOR_SPECIAL
/// [`VECTOR_NUMBERED`]: crate::packet::VECTOR_NUMBERED
pub fn write<'a>(
    set: CharacterSet,
    text: &[u8],
    kind: u32,
    numbering: Numbering,
    memory: &'a mut [u32],
) -> Result<Written<'a>, Refusal> {
    let set = set as u32;
    let written = ask!(mortisevane_numeric_write(set, lent text, kind, numbering, lent mut memory));
    told(written.number, Written { check: written.check, words: &memory[..within(written.words)] })
}

/// Reads the words of a page, with the type and the K of its vector as a [`Call`](crate::calls::Call) or a
/// [`Vector`](crate::packet::Vector) has them. Of the lent memory [`PAGE_CHARACTERS`] are always enough.
///
/// Refuses [`Refusal::Packet`] (no numeric kind, or a K over 15), [`Refusal::Size`], [`Refusal::Damaged`],
/// [`Refusal::Checksum`], the first that applies, and last [`Refusal::Room`]; the memory is then as it was. The library
/// also refuses a set that is neither of the two, which no [`CharacterSet`] is.
pub fn read<'a>(
    set: CharacterSet,
    kind: u32,
    check: u32,
    words: &[u32],
    memory: &'a mut [u8],
) -> Result<Page<'a>, Refusal> {
    let set = set as u32;
    let read = ask!(mortisevane_numeric_read(set, kind, check, lent words, lent mut memory));
    let text = &memory[..within(read.characters)];
    told(read.number, Page { numbering: read.numbering, text, spaces_at_end: within(read.spaces_at_end) })
}
