//! CAPCODEs: the text on a pager's label, and what it assigns (S8.6.2, S8.6.5).
//!
//! ```
//! use mortisevane::capcode::{Capcode, Phase};
//! use mortisevane::Refusal;
//!
//! let capcode: Capcode = "D0000003".parse()?;
//! assert_eq!((capcode.phase(), capcode.base_frame()), (Phase::A, 0));
//! assert_eq!(capcode.to_string(), "D0000003");
//!
//! // The address is below the letter's offset: no place of the text is to blame.
//! let refused = Capcode::read(b"D0000002").unwrap_err();
//! assert_eq!((refused.refusal, refused.place), (Refusal::Offset, None));
//! // The zeros belong to the text: this one stops too soon, after five bytes.
//! let refused = Capcode::read(b"E1234").unwrap_err();
//! assert_eq!((refused.refusal, refused.place), (Refusal::DigitAfterLetter, Some(5)));
//! # Ok::<(), Refusal>(())
//! ```

use core::error::Error;
use core::fmt;
use core::str::{self, FromStr};

use crate::ask::within;
use crate::frames::Listener;
use crate::refusal::{told, Refusal};

#[doc(inline)]
pub use crate::exports::CAPCODE_BYTES;

/// The phase that a pager listens in.
#[derive(Clone, Copy, Debug, PartialEq, Eq, Hash)]
pub enum Phase {
    /// Phase A.
    A,
    /// Phase B.
    B,
    /// Phase C.
    C,
    /// Phase D.
    D,
    /// Any one of them: the letters E to H and Y. Shown as `*`.
    Any,
}

impl Phase {
    fn numbered(number: u8) -> Phase {
        match number {
            0 => Phase::A,
            1 => Phase::B,
            2 => Phase::C,
            3 => Phase::D,
            _ => Phase::Any,
        }
    }
}

impl fmt::Display for Phase {
    fn fmt(&self, out: &mut fmt::Formatter<'_>) -> fmt::Result {
        out.pad(match self {
            Phase::A => "A",
            Phase::B => "B",
            Phase::C => "C",
            Phase::D => "D",
            Phase::Any => "*",
        })
    }
}

/// A text that was refused.
///
/// ```
/// use mortisevane::{Capcode, Refusal};
///
/// // A frame is 127 at most, so that after 12 no 8 can stand.
/// let refused = Capcode::read(b"1284Y0001234").unwrap_err();
/// assert_eq!((refused.refusal, refused.place), (Refusal::DigitBeforeLetter, Some(2)));
/// let meaning = "a digit that cannot stand here: A to L take one digit or none, U to Z 000 to 127 and one more";
/// assert_eq!(refused.to_string(), format!("refused 19: {meaning}, at place 2"));
/// assert_eq!(Refusal::from(refused), Refusal::DigitBeforeLetter);
/// ```
#[derive(Clone, Copy, Debug, PartialEq, Eq, Hash)]
pub struct Refused {
    /// The refusal.
    pub refusal: Refusal,
    /// Where a text that is not in the form goes wrong: the place, counted from 0, of the first byte at which no correct
    /// text could go on. It is the text's length where the text only stops too soon, and never over [`CAPCODE_BYTES`].
    /// So it is with [`Refusal::Text`], [`Refusal::DigitBeforeLetter`], [`Refusal::LeadingFour`] and
    /// [`Refusal::DigitAfterLetter`]; the others have no place.
    pub place: Option<usize>,
}

impl fmt::Display for Refused {
    fn fmt(&self, out: &mut fmt::Formatter<'_>) -> fmt::Result {
        write!(out, "{}", self.refusal)?;
        match self.place {
            Some(place) => write!(out, ", at place {place}"),
            None => Ok(()),
        }
    }
}

impl Error for Refused {
    fn source(&self) -> Option<&(dyn Error + 'static)> {
        Some(&self.refusal)
    }
}

impl From<Refused> for Refusal {
    fn from(refused: Refused) -> Refusal {
        refused.refusal
    }
}

/// An accepted CAPCODE. It has one text, which [`Display`](fmt::Display) and [`Capcode::print`] write.
#[derive(Clone, Copy, Debug, PartialEq, Eq, Hash)]
pub struct Capcode {
    letter: u8,
    frame: u32,
    collapse: u32,
    address: u64,
    phase: Phase,
    base_frame: u32,
}

impl Capcode {
    /// Reads a text, without a line's end.
    ///
    /// Refuses [`Refusal::Text`], [`Refusal::DigitBeforeLetter`], [`Refusal::LeadingFour`],
    /// [`Refusal::DigitAfterLetter`], each with the place where the text goes wrong, then [`Refusal::Type`],
    /// [`Refusal::Range`], [`Refusal::Offset`], the first that applies. By the byte at that place it is
    /// [`Refusal::LeadingFour`] for a 4 at the start, [`Refusal::DigitBeforeLetter`] for any other digit before the letter,
    /// [`Refusal::DigitAfterLetter`] for a digit after the letter and where the text only stops too soon, and
    /// [`Refusal::Text`] for any other byte.
    pub fn read(text: &[u8]) -> Result<Capcode, Refused> {
        let read = ask!(mortisevane_capcode_read(lent text));
        let capcode = Capcode {
            letter: read.letter,
            frame: read.frame,
            collapse: read.collapse,
            address: read.address,
            phase: Phase::numbered(read.phase),
            base_frame: read.base.into(),
        };
        told(read.number, capcode).map_err(|refusal| {
            let place = match refusal {
                Refusal::Type | Refusal::Range | Refusal::Offset => None,
                _ => Some(read.place.into()),
            };
            Refused { refusal, place }
        })
    }

    /// The CAPCODE of a letter as a character, the frame that the text names (0 with A to H, whose text names none), the
    /// collapse and the address.
    ///
    /// Refuses [`Refusal::Text`] (a letter of no form), [`Refusal::Type`], [`Refusal::Range`], [`Refusal::Offset`],
    /// [`Refusal::Packet`] (a frame or a collapse too large), the first that applies.
    pub fn new(letter: u8, frame: u32, collapse: u32, address: u64) -> Result<Capcode, Refusal> {
        let assigned = ask!(mortisevane_capcode_assign(letter, frame, collapse, address));
        let phase = Phase::numbered(assigned.phase);
        told(assigned.number, Capcode { letter, frame, collapse, address, phase, base_frame: assigned.base.into() })
    }

    /// The letter, `b'A'` to `b'H'` or `b'U'` to `b'Y'`.
    pub fn letter(&self) -> u8 {
        self.letter
    }

    /// The three frame digits of U to Y; 0 with A to H.
    pub fn frame(&self) -> u32 {
        self.frame
    }

    /// The collapse, 0 to 5: the pager listens once in 2 to the power of it frames.
    pub fn collapse(&self) -> u32 {
        self.collapse
    }

    /// The address.
    pub fn address(&self) -> u64 {
        self.address
    }

    /// The phase that it assigns.
    pub fn phase(&self) -> Phase {
        self.phase
    }

    /// The base frame that it assigns, 0 to 127.
    pub fn base_frame(&self) -> u32 {
        self.base_frame
    }

    /// Writes the text at the start of a lent buffer, for which [`CAPCODE_BYTES`] are always enough, and gives that part.
    /// It is ASCII.
    ///
    /// Refuses [`Refusal::Room`]; the buffer is then as it was.
    pub fn print<'a>(&self, out: &'a mut [u8]) -> Result<&'a [u8], Refusal> {
        let Capcode { letter, frame, collapse, address, .. } = *self;
        let written = ask!(mortisevane_capcode_print(letter, frame, collapse, address, lent mut out));
        told(written.number, &out[..within(written.length)])
    }
}

impl FromStr for Capcode {
    type Err = Refused;

    /// As [`Capcode::read`].
    fn from_str(text: &str) -> Result<Capcode, Refused> {
        Capcode::read(text.as_bytes())
    }
}

impl fmt::Display for Capcode {
    fn fmt(&self, out: &mut fmt::Formatter<'_>) -> fmt::Result {
        let mut buffer = [0; CAPCODE_BYTES];
        let text = self.print(&mut buffer).map_err(|_| fmt::Error)?;
        out.pad(str::from_utf8(text).map_err(|_| fmt::Error)?)
    }
}

impl From<Capcode> for Listener {
    /// The base frame and the collapse.
    fn from(capcode: Capcode) -> Listener {
        Listener { frame: capcode.base_frame, collapse: capcode.collapse }
    }
}
