//! POCSAG pages (CCIR Radiopaging Code No. 1): words mended, the pages that batches bring, and their text.
//!
//! A transmitter sends batches, each a [`SYNC`] word and sixteen words after it, two to each of eight frames. A page is an
//! address word, which stands in the frame of its address, and the message words after it, up to the next address word or
//! the [`IDLE`] word.
//!
//! ```
//! use mortisevane::numeric::CharacterSet;
//! use mortisevane::pocsag::{self, Kind, Reader, IDLE, SYNC};
//! use mortisevane::Refusal;
//!
//! // The address 1234567 with function 3 in frame 7, and the digits 0417 after it. The page goes on in the next batch with
//! // the digits 00419, in a word of which two bits came wrong.
//! let mut first = [IDLE; 17];
//! (first[0], first[15], first[16]) = (SYNC, 0x4B5A_1A25, 0x8147_1A86);
//! let second = [SYNC, 0x8014_4815 ^ 0x0010_0002, IDLE, 0x8147_1A86, IDLE];
//!
//! let mut reader = Reader::default();
//! let mut memory = [0; 80];
//! let heard = reader.hear(&first, &mut memory);
//! assert_eq!((heard.taken, heard.refusal, heard.page), (17, None, None));
//!
//! // The idle word ends the page.
//! let heard = reader.hear(&second, &mut memory);
//! let page = heard.page.expect("it ended");
//! assert_eq!((heard.taken, page.address, page.function, page.mended), (3, 1_234_567, 3, 2));
//! let mut text = [0; 400];
//! let read = pocsag::read(Kind::Numeric(CharacterSet::Standard), page.words.unwrap(), &mut text)?;
//! assert_eq!(read.shown(), b"0417 00419");
//!
//! // The rest of the words is given again. A message word of no page is refused.
//! let heard = reader.hear(&second[3..], &mut memory);
//! assert_eq!((heard.taken, heard.refusal), (1, Some(Refusal::NoCall)));
//! # Ok::<(), Refusal>(())
//! ```

use core::error::Error;
use core::fmt;
use core::mem;

use crate::ask::within;
use crate::exports::{PocsagPage, Size};
use crate::numeric::CharacterSet;
use crate::refusal::{told, Refusal};

#[doc(inline)]
pub use crate::exports::PocsagReader as Reader;

/// The word before each sixteen others.
pub const SYNC: u32 = 0x7CD2_15D8;
/// The word that is sent where there is nothing to send.
pub const IDLE: u32 = 0x7A89_C197;

/// The most bits of a word that are mended.
const MOST_CHANGED: u32 = 2;

/// A word that could be mended.
#[derive(Clone, Copy, Debug, PartialEq, Eq, Hash)]
pub struct Mended {
    /// The word as it was sent.
    pub word: u32,
    /// How many of its bits came wrong, 0 to 2.
    pub changed: u32,
}

/// Mends a word: of its 31 code bits at most two are changed, and then the parity of all 32 must be even. The parity bit is
/// never changed.
///
/// Refuses [`Refusal::BeyondRepair`].
///
/// ```
/// use mortisevane::pocsag::{self, Mended, IDLE};
/// use mortisevane::Refusal;
///
/// assert_eq!(pocsag::mend(IDLE ^ 0x8000_0002), Ok(Mended { word: IDLE, changed: 2 }));
/// assert_eq!(pocsag::mend(IDLE ^ 1), Err(Refusal::BeyondRepair));
/// ```
pub fn mend(word: u32) -> Result<Mended, Refusal> {
    let (mut words, mut bits) = ([word], [0]);
    mend_row(&mut words, &mut bits)?;
    match bits {
        [changed @ 0..=MOST_CHANGED] => Ok(Mended { word: words[0], changed }),
        _ => Err(Refusal::BeyondRepair),
    }
}

/// Mends each word of a row where it stands. At the same place of `bits` stands afterwards how many of its bits were
/// changed, 0 to 2, or 25, the number of [`Refusal::BeyondRepair`]; that word is then as it came. Places of `bits` after
/// those are as they were.
///
/// Refuses [`Refusal::Room`], fewer places than words; nothing is then changed.
pub fn mend_row(words: &mut [u32], bits: &mut [u32]) -> Result<(), Refusal> {
    let number = ask!(mortisevane_pocsag_mend(lent mut words, lent mut bits));
    told(number, ())
}

/// What became of some words.
#[derive(Clone, Copy, Debug, PartialEq, Eq)]
pub struct Heard<'a> {
    /// How many words were taken: all, or those up to the first of which something is told. The others are to be given
    /// again.
    pub taken: usize,
    /// Why the last word taken was refused: [`Refusal::BeyondRepair`]; [`Refusal::NoSync`], another word where a sync word
    /// must come; [`Refusal::NoCall`], a message word while no page is open.
    pub refusal: Option<Refusal>,
    /// The page that ended with the last word taken.
    pub page: Option<Page<'a>>,
}

/// A page that ended.
#[derive(Clone, Copy, Debug, PartialEq, Eq)]
pub struct Page<'a> {
    /// Its address, of 21 bits.
    pub address: u32,
    /// Its function, 0 to 3, by which senders tell what kind of text it has.
    pub function: u32,
    /// How many bits of its words were mended.
    pub mended: u32,
    /// Its message words, a part of the lent memory, for [`read`]; or why it is not handed out.
    pub words: Result<&'a [u32], Lost>,
}

/// Why a page is not handed out.
#[derive(Clone, Copy, Debug, PartialEq, Eq, Hash)]
pub struct Lost {
    /// [`Refusal::BeyondRepair`], a word of it could not be mended; [`Refusal::NoSync`], it ended without an address word or
    /// the idle word after it; [`Refusal::TooLong`], it has more words than the memory that was lent.
    pub refusal: Refusal,
    /// How many message words had come whole before that.
    pub words: usize,
}

impl fmt::Display for Lost {
    fn fmt(&self, out: &mut fmt::Formatter<'_>) -> fmt::Result {
        write!(out, "{}, after {} words", self.refusal, self.words)
    }
}

impl Error for Lost {
    fn source(&self) -> Option<&(dyn Error + 'static)> {
        Some(&self.refusal)
    }
}

impl From<Lost> for Refusal {
    fn from(lost: Lost) -> Refusal {
        lost.refusal
    }
}

/// What is told of a page, with the memory that its words lie in.
fn ended(page: PocsagPage, memory: &[u32]) -> Option<Page<'_>> {
    let PocsagPage { address, function, mended, .. } = page;
    let words = told(page.number, ()).map_err(|refusal| Lost { refusal, words: as_count(page.words) });
    let words = words.map(|()| &memory[..within(page.words)]);
    (page.is_ended != 0).then_some(Page { address, function, mended, words })
}

/// A number of a reader that a caller may have made up, so that it need not be a count of what is in memory.
fn as_count(words: Size) -> usize {
    usize::try_from(words).unwrap_or(usize::MAX)
}

impl Reader {
    /// Takes words up to and with the first of which something is told: it is refused, or a page ended with it. The memory
    /// holds the message words of the open page from its start on, 20 bits each, and is to be lent again as it was left; its
    /// length is the most words that a page may have.
    ///
    /// Nothing is refused as a whole: whatever the reader holds has a meaning, and of a word that is refused it is told in
    /// [`Heard::refusal`].
    ///
    /// The words of a page are a part of the memory, so that they cannot be read once more words have come:
    ///
    /// ```compile_fail,E0499
    /// # use mortisevane::pocsag::{Reader, IDLE};
    /// # let (mut reader, mut memory) = (Reader { left: 16, is_open: 1, ..Reader::default() }, [0; 8]);
    /// let page = reader.hear(&[0x8147_1A86, IDLE], &mut memory).page.unwrap();
    /// reader.hear(&[IDLE], &mut memory);
    /// assert_eq!(page.words, Ok(&[0xC7140][..]));
    /// ```
    ///
    /// Before that they can:
    ///
    /// ```
    /// # use mortisevane::pocsag::{Reader, IDLE};
    /// # let (mut reader, mut memory) = (Reader { left: 16, is_open: 1, ..Reader::default() }, [0; 8]);
    /// let page = reader.hear(&[0x8147_1A86, IDLE], &mut memory).page.unwrap();
    /// assert_eq!(page.words, Ok(&[0xC7140][..]));
    /// reader.hear(&[IDLE], &mut memory);
    /// ```
    pub fn hear<'a>(&mut self, words: &[u32], memory: &'a mut [u32]) -> Heard<'a> {
        let reader = *self;
        let heard = ask!(mortisevane_pocsag_hear(reader, lent words, lent mut memory));
        *self = heard.reader;
        Heard { taken: within(heard.taken), refusal: told(heard.number, ()).err(), page: ended(heard.page, memory) }
    }

    /// Whether a page is open.
    pub fn is_open(&self) -> bool {
        self.is_open != 0
    }

    /// No more words come: the reader is fresh afterwards, and a page that was open is lost.
    pub fn close(&mut self) -> Option<Page<'static>> {
        let reader = mem::take(self);
        ended(ask!(mortisevane_pocsag_close(reader)), &[])
    }
}

/// What the message words of a page are read as. No word tells it; senders agree on it, mostly by the function.
#[derive(Clone, Copy, Debug, PartialEq, Eq, Hash)]
pub enum Kind {
    /// Digits and a few other characters, five to a word, in one of two sets.
    Numeric(CharacterSet),
    /// Seven-bit characters, over word ends.
    Text,
}

impl Kind {
    const fn number(self) -> u32 {
        match self {
            Kind::Numeric(set) => set as u32,
            Kind::Text => 2,
        }
    }
}

/// The text of a page.
#[derive(Clone, Copy, Debug, PartialEq, Eq)]
pub struct Text<'a> {
    /// All that the words have room for, a part of the lent memory. It is ASCII.
    pub text: &'a [u8],
    /// How many characters at the end of the text are fill: spaces of a numeric page; NUL, ETX and EOT of a text.
    pub fill_at_end: usize,
}

impl<'a> Text<'a> {
    /// What a display has to show: the text without the fill at its end.
    pub fn shown(&self) -> &'a [u8] {
        &self.text[..self.text.len().saturating_sub(self.fill_at_end)]
    }
}

/// Reads the message words of a page. A numeric page has five characters a word, a text of n words (20 n) div 7, so that
/// five bytes a word are always enough.
///
/// Refuses [`Refusal::Damaged`], a word over 20 bits, and last [`Refusal::Room`]; the memory is then as it was. The library
/// also refuses a number of no kind, which no [`Kind`] has.
///
/// ```
/// use mortisevane::pocsag::{self, Kind};
/// # use mortisevane::Refusal;
///
/// // B, a, and six bits of y; its last bit, and NULs.
/// let mut memory = [0; 10];
/// let read = pocsag::read(Kind::Text, &[0xE70C2, 1], &mut memory)?;
/// assert_eq!((read.text, read.fill_at_end), (&b"Bay\0\0"[..], 2));
/// assert_eq!(read.shown(), b"Bay");
/// # Ok::<(), Refusal>(())
/// ```
pub fn read<'a>(kind: Kind, words: &[u32], memory: &'a mut [u8]) -> Result<Text<'a>, Refusal> {
    let kind = kind.number();
    let read = ask!(mortisevane_pocsag_read(kind, lent words, lent mut memory));
    let text = &memory[..within(read.characters)];
    told(read.number, Text { text, fill_at_end: within(read.fill_at_end) })
}
