//! The refusals by their numbers: 1 to 18 are 01's, and 19 to 21, 25 and 26 those of 02, the list of later change requests.
//! The numbers 22 to 24 are not given yet.
//!
//! ```
//! use mortisevane::{Capcode, Refusal};
//!
//! // D takes the offset 3, and 2 is below it.
//! let refusal = Capcode::read(b"D0000002").unwrap_err().refusal;
//! assert_eq!(refusal, Refusal::Offset);
//! assert_eq!(refusal.number(), 6);
//! assert_eq!(refusal.to_string(), "refused 6: the address is below the offset of its letter");
//! assert_eq!(Refusal::try_from(6), Ok(refusal));
//! ```

use core::error::Error;
use core::fmt;

use crate::exports;

/// Why an input was refused. Where several refusals would apply, each function says which one is told.
#[derive(Clone, Copy, Debug, PartialEq, Eq, PartialOrd, Ord, Hash)]
#[repr(u32)]
pub enum Refusal {
    /// A lent buffer is too short for what is to stand in it.
    Room = exports::REFUSED_ROOM,
    /// A register or a record that was handed back is outside its limits.
    State = exports::REFUSED_STATE,
    /// A CAPCODE text that is not in the form, and the byte where it goes wrong is no digit; a letter that no CAPCODE has.
    Text = exports::REFUSED_TEXT,
    /// A CAPCODE of an all-phase letter, I to L or Z.
    Type = exports::REFUSED_TYPE,
    /// An address, or words, of no accepted range.
    Range = exports::REFUSED_RANGE,
    /// An address below the offset of its letter.
    Offset = exports::REFUSED_OFFSET,
    /// A packet that is not to be sent or of another kind, a field too large, a bit set that is printed as 0.
    Packet = exports::REFUSED_PACKET,
    /// An address number over 31.
    Address = exports::REFUSED_ADDRESS,
    /// Too few or too many words, too many addresses, or a span outside the limits.
    Size = exports::REFUSED_SIZE,
    /// A word in error.
    Damaged = exports::REFUSED_DAMAGED,
    /// K is not the sum of the words.
    Checksum = exports::REFUSED_CHECKSUM,
    /// No slot or no call is free.
    Full = exports::REFUSED_FULL,
    /// A later fragment, or a drop, where no chain of its key is open.
    NoChain = exports::REFUSED_NO_CHAIN,
    /// A fragment that is not the next one; an address, a vector or a word of a call that has it.
    OutOfTurn = exports::REFUSED_OUT_OF_TURN,
    /// A text that is longer than the room for it.
    TooLong = exports::REFUSED_TOO_LONG,
    /// The last fragment came, and the total is not that of the message.
    Signature = exports::REFUSED_SIGNATURE,
    /// A vector or a word of no open call.
    NoCall = exports::REFUSED_NO_CALL,
    /// A character that is not in the set or is over 7FH, or ETX in a text to write.
    Character = exports::REFUSED_CHARACTER,
    /// A CAPCODE text that goes wrong at a digit before its letter.
    DigitBeforeLetter = exports::REFUSED_DIGIT_BEFORE_LETTER,
    /// A CAPCODE text that begins with a 4, which no CAPCODE does: no digit means 4.
    LeadingFour = exports::REFUSED_LEADING_FOUR,
    /// A CAPCODE text that goes wrong at a digit after its letter, or stops too soon.
    DigitAfterLetter = exports::REFUSED_DIGIT_AFTER_LETTER,
    /// A POCSAG word with more wrong bits than are mended, or with wrong parity; a page with such a word.
    BeyondRepair = exports::REFUSED_BEYOND_REPAIR,
    /// A POCSAG word that is not after a sync word; a page that ended without the word that should end it.
    NoSync = exports::REFUSED_NO_SYNC,
}

impl Refusal {
    /// All of them, in the order of their numbers.
    pub const ALL: [Refusal; 23] = [
        Refusal::Room,
        Refusal::State,
        Refusal::Text,
        Refusal::Type,
        Refusal::Range,
        Refusal::Offset,
        Refusal::Packet,
        Refusal::Address,
        Refusal::Size,
        Refusal::Damaged,
        Refusal::Checksum,
        Refusal::Full,
        Refusal::NoChain,
        Refusal::OutOfTurn,
        Refusal::TooLong,
        Refusal::Signature,
        Refusal::NoCall,
        Refusal::Character,
        Refusal::DigitBeforeLetter,
        Refusal::LeadingFour,
        Refusal::DigitAfterLetter,
        Refusal::BeyondRepair,
        Refusal::NoSync,
    ];

    /// Its number: 1 to 18 are 01's, 19 to 21, 25 and 26 are 02's.
    pub const fn number(self) -> u32 {
        self as u32
    }

    const fn meaning(self) -> &'static str {
        exports::SENTENCES[self.number() as usize]
    }
}

impl fmt::Display for Refusal {
    fn fmt(&self, out: &mut fmt::Formatter<'_>) -> fmt::Result {
        write!(out, "refused {}: {}", self.number(), self.meaning())
    }
}

impl Error for Refusal {}

/// A number that is no refusal's.
#[derive(Clone, Copy, Debug, PartialEq, Eq, Hash)]
pub struct NoRefusal(
    /// The number.
    pub u32,
);

impl fmt::Display for NoRefusal {
    fn fmt(&self, out: &mut fmt::Formatter<'_>) -> fmt::Result {
        write!(out, "{} is the number of no refusal", self.0)
    }
}

impl Error for NoRefusal {}

impl TryFrom<u32> for Refusal {
    type Error = NoRefusal;

    /// The refusal of this number. 0, which says that nothing was refused, is none.
    fn try_from(number: u32) -> Result<Refusal, NoRefusal> {
        Refusal::ALL.into_iter().find(|refusal| refusal.number() == number).ok_or(NoRefusal(number))
    }
}

/// What an export answered, by its number.
pub(crate) fn told<T>(number: u32, value: T) -> Result<T, Refusal> {
    match number {
        0 => Ok(value),
        _ => Err(Refusal::try_from(number).expect("an export tells 0 or a refusal's number")),
    }
}
