//! The answers of no: those of 01's table by its numbers, and those that 02
//! added by 02's.

/// Why an input was refused.
#[derive(Clone, Copy, Debug, PartialEq, Eq)]
pub enum Refusal {
    /// A lent buffer is shorter than the answer needs.
    Room = 1,
    /// The mirror's register has over 24 bits; a record of an open chain or
    /// call is out of its limits; that of a closed chain is not all zero; two open
    /// chains or calls have one key.
    State = 2,
    /// A CAPCODE text is not in the form, and the byte where it goes wrong is no
    /// digit; a CAPCODE value has a letter that no CAPCODE has.
    Text = 3,
    /// The form is right, but the letter is I to L or Z.
    Type = 4,
    /// The address, or the words, belong to no accepted range.
    Range = 5,
    /// The address is below its letter's offset.
    Offset = 6,
    /// A packet that is not to be sent or not of that kind, or with a 0 bit
    /// set; a field too large, such as a frame over 127 or a collapse over 5, or
    /// a vector's K over 15 or an N over 63; a kind of page that is none.
    Packet = 7,
    /// The address number is not 0 to 31.
    Address = 8,
    /// Over 16 addresses; words, or a call's span, outside the limits.
    Size = 9,
    /// A word over 21 bits, or marked in error; a message word of a POCSAG page over
    /// 20 bits.
    Damaged = 10,
    /// K differs.
    Checksum = 11,
    /// No free slot or call.
    Full = 12,
    /// A continuation, or a drop, of a key not open.
    NoChain = 13,
    /// F is not the next; an open call's key or its vector comes again, or a word
    /// that came before.
    OutOfTurn = 14,
    /// A text over the room; a POCSAG page over the lent memory.
    TooLong = 15,
    /// The total of a message's last fragment differs.
    Signature = 16,
    /// A vector or a word of no call; a message word of no POCSAG page.
    NoCall = 17,
    /// A character that is not in the set or is over 7FH, or ETX in a text to
    /// write.
    Character = 18,
    /// A CAPCODE text goes wrong at a digit before its letter.
    DigitBeforeLetter = 19,
    /// A CAPCODE text begins with a 4.
    LeadingFour = 20,
    /// A CAPCODE text goes wrong at a digit after its letter, or stops too soon.
    DigitAfterLetter = 21,
    /// A POCSAG word with more wrong bits than are mended, or with wrong parity.
    BeyondRepair = 25,
    /// A POCSAG word that does not follow a sync word; a page that ended without the
    /// word that should have ended it.
    NoSync = 26,
}

impl Refusal {
    /// Its number: 1 to 18 are those of 01's table, 19 to 21 those of 02's first
    /// item, 25 and 26 those of its fifth.
    pub fn number(self) -> u32 {
        self as u32
    }
}
