//! The answers of the proved library's exports, as the exchange program hands
//! them over. Every answer has the refusal's number first, 0 where nothing is
//! refused; on refusal all other fields are 0 unless the struct says otherwise.

use std::fmt::{self, Debug, Formatter};
use std::io;

use second::call::{Call, Calls};
use second::chain::{Chains, Key, Record};
use second::fragment::{FragmentRead, TextCut};
use second::heard::Address;
use second::numbers::Numbers;
use second::numeric::{PageRead, Written};
use second::pocsag::reader::{Page, Reader};
use second::pocsag::text::TextRead;

use crate::exchange::{Fields, Item};

/// How many listeners the library takes at most.
pub const LISTENERS: usize = 16;

#[derive(Clone, Copy, Debug, Default, PartialEq, Eq)]
pub struct MortisevaneClass {
    pub number: u32,
    pub class: u32,
}

impl MortisevaneClass {
    pub fn read(fields: &mut Fields) -> io::Result<Self> {
        Ok(MortisevaneClass {
            number: fields.u32()?,
            class: fields.u32()?,
        })
    }
}

#[derive(Clone, Copy, Debug, Default, PartialEq, Eq)]
pub struct MortisevaneWords {
    pub number: u32,
    pub count: u32,
    pub first: u32,
    pub second: u32,
}

impl MortisevaneWords {
    pub fn read(fields: &mut Fields) -> io::Result<Self> {
        Ok(MortisevaneWords {
            number: fields.u32()?,
            count: fields.u32()?,
            first: fields.u32()?,
            second: fields.u32()?,
        })
    }
}

#[derive(Clone, Copy, Debug, Default, PartialEq, Eq)]
pub struct MortisevaneAddress {
    pub number: u32,
    pub address: u64,
}

impl MortisevaneAddress {
    pub fn read(fields: &mut Fields) -> io::Result<Self> {
        Ok(MortisevaneAddress {
            number: fields.u32()?,
            address: fields.u64()?,
        })
    }
}

/// What a CAPCODE text says. With 3 and 19 to 21 the place where it goes wrong is
/// told beside the number; it is 0 else.
#[derive(Clone, Copy, Debug, Default, PartialEq, Eq)]
pub struct MortisevaneCapcode {
    pub number: u32,
    pub letter: u8,
    pub frame: u32,
    pub collapse: u32,
    pub phase: u8,
    pub base: u8,
    pub place: u8,
    pub address: u64,
}

impl MortisevaneCapcode {
    pub fn read(fields: &mut Fields) -> io::Result<Self> {
        Ok(MortisevaneCapcode {
            number: fields.u32()?,
            letter: fields.u8()?,
            frame: fields.u32()?,
            collapse: fields.u32()?,
            phase: fields.u8()?,
            base: fields.u8()?,
            place: fields.u8()?,
            address: fields.u64()?,
        })
    }
}

#[derive(Clone, Copy, Debug, Default, PartialEq, Eq)]
pub struct MortisevaneAssignment {
    pub number: u32,
    pub phase: u8,
    pub base: u8,
}

impl MortisevaneAssignment {
    pub fn read(fields: &mut Fields) -> io::Result<Self> {
        Ok(MortisevaneAssignment {
            number: fields.u32()?,
            phase: fields.u8()?,
            base: fields.u8()?,
        })
    }
}

#[derive(Clone, Copy, Debug, Default, PartialEq, Eq)]
pub struct MortisevaneLength {
    pub number: u32,
    pub length: u64,
}

impl MortisevaneLength {
    pub fn read(fields: &mut Fields) -> io::Result<Self> {
        Ok(MortisevaneLength {
            number: fields.u32()?,
            length: fields.u64()?,
        })
    }
}

#[derive(Clone, Copy, Debug, Default, PartialEq, Eq)]
pub struct MortisevaneListener {
    pub frame: u32,
    pub collapse: u32,
}

#[derive(Clone, Copy, Debug, Default, PartialEq, Eq)]
pub struct MortisevaneListeners {
    pub listeners: [MortisevaneListener; LISTENERS],
    pub count: u32,
}

#[derive(Clone, Copy, Debug, Default, PartialEq, Eq)]
pub struct MortisevaneFrames {
    pub number: u32,
    pub count: u32,
    pub masks: [u16; 8],
}

impl MortisevaneFrames {
    pub fn read(fields: &mut Fields) -> io::Result<Self> {
        let mut frames = MortisevaneFrames {
            number: fields.u32()?,
            count: fields.u32()?,
            ..Default::default()
        };
        for mask in &mut frames.masks {
            *mask = fields.u16()?;
        }
        Ok(frames)
    }
}

#[derive(Clone, Copy, Debug, Default, PartialEq, Eq)]
pub struct MortisevaneWait {
    pub number: u32,
    pub frames: u32,
}

impl MortisevaneWait {
    pub fn read(fields: &mut Fields) -> io::Result<Self> {
        Ok(MortisevaneWait {
            number: fields.u32()?,
            frames: fields.u32()?,
        })
    }
}

/// An answer of packets, of the mirror, of pages and of fragments, all of which
/// have one form: the number, and the fields that are told with it.
#[derive(Clone, Copy, Debug, Default, PartialEq, Eq)]
pub struct Told<F> {
    pub number: u32,
    pub fields: F,
}

impl<F: Numbers> Told<F> {
    pub fn read(fields: &mut Fields) -> io::Result<Self> {
        Ok(Told {
            number: fields.u32()?,
            fields: fields.numbers()?,
        })
    }
}

/// The fields that are told of a row that was lent for writing, and the whole
/// row as it stands after, on refusal too.
#[derive(Clone, PartialEq, Eq)]
pub struct Lent<F, I> {
    pub told: F,
    pub row: Vec<I>,
}

/// Words and bytes are easier to find in the tables when they are hexadecimal.
impl<F: Debug, I: Debug> Debug for Lent<F, I> {
    fn fmt(&self, formatter: &mut Formatter) -> fmt::Result {
        write!(formatter, "{:?}, lent row {:X?}", self.told, self.row)
    }
}

/// What is told of a lent row, as the exchange program hands it over.
pub trait ToldOfRow: Sized {
    fn read(fields: &mut Fields) -> io::Result<Self>;
}

impl ToldOfRow for Written {
    fn read(fields: &mut Fields) -> io::Result<Self> {
        Ok(Written {
            check: fields.u32()?,
            words: fields.count()?,
        })
    }
}

impl ToldOfRow for PageRead {
    fn read(fields: &mut Fields) -> io::Result<Self> {
        Ok(PageRead {
            numbering: fields.numbers()?,
            characters: fields.count()?,
            spaces_at_end: fields.count()?,
        })
    }
}

impl ToldOfRow for FragmentRead {
    fn read(fields: &mut Fields) -> io::Result<Self> {
        Ok(FragmentRead {
            heading: fields.numbers()?,
            characters: fields.count()?,
        })
    }
}

impl ToldOfRow for TextRead {
    fn read(fields: &mut Fields) -> io::Result<Self> {
        Ok(TextRead {
            characters: fields.count()?,
            fill_at_end: fields.count()?,
        })
    }
}

impl ToldOfRow for TextCut {
    fn read(fields: &mut Fields) -> io::Result<Self> {
        Ok(TextCut {
            fragments: fields.count()?,
            words: fields.count()?,
        })
    }
}

impl<F: ToldOfRow, I: Item> Told<Lent<F, I>> {
    pub fn read_with_row(fields: &mut Fields, lent: usize) -> io::Result<Self> {
        let number = fields.u32()?;
        let told = F::read(fields)?;
        let row = fields.row(lent)?;
        Ok(Told {
            number,
            fields: Lent { told, row },
        })
    }
}

/// What a step of the chains tells. With a refusal `lost` may be told beside the
/// number.
#[derive(Clone, Copy, Debug, Default, PartialEq, Eq)]
pub struct MortisevaneChain {
    pub number: u32,
    pub lost: u32,
    pub begun: u32,
    pub retrieval: u32,
    pub mail_drop: u32,
    pub complete: u32,
    pub slot: usize,
    pub place: usize,
    pub characters: usize,
}

impl MortisevaneChain {
    pub fn read(fields: &mut Fields) -> io::Result<Self> {
        Ok(MortisevaneChain {
            number: fields.u32()?,
            lost: fields.u32()?,
            begun: fields.u32()?,
            retrieval: fields.u32()?,
            mail_drop: fields.u32()?,
            complete: fields.u32()?,
            slot: fields.count()?,
            place: fields.count()?,
            characters: fields.count()?,
        })
    }
}

/// The records of all chains.
pub fn read_chains(fields: &mut Fields) -> io::Result<Chains> {
    let mut chains = Chains::default();
    for record in &mut chains.slots {
        *record = Record {
            is_open: fields.u32()?,
            key: Key {
                address: fields.u32()?,
                message_number: fields.u32()?,
            },
            next_fragment: fields.u32()?,
            sum: fields.u32()?,
            characters: fields.count()?,
        };
    }
    Ok(chains)
}

/// What an address packet is answered with.
#[derive(Clone, Copy, Debug, Default, PartialEq, Eq)]
pub struct MortisevaneOpened {
    pub number: u32,
    pub opened: u32,
    pub call: usize,
    pub fields: Address,
}

impl MortisevaneOpened {
    pub fn read(fields: &mut Fields) -> io::Result<Self> {
        Ok(MortisevaneOpened {
            number: fields.u32()?,
            opened: fields.u32()?,
            call: fields.count()?,
            fields: fields.numbers()?,
        })
    }
}

/// What a vector or a message packet is answered with.
#[derive(Clone, Copy, Debug, Default, PartialEq, Eq)]
pub struct MortisevaneHeard {
    pub number: u32,
    pub is_vector: u32,
    pub call: usize,
    pub kind: u32,
    pub check: u32,
    pub completed: u32,
}

impl MortisevaneHeard {
    pub fn read(fields: &mut Fields) -> io::Result<Self> {
        Ok(MortisevaneHeard {
            number: fields.u32()?,
            is_vector: fields.u32()?,
            call: fields.count()?,
            kind: fields.u32()?,
            check: fields.u32()?,
            completed: fields.u32()?,
        })
    }
}

/// The records of all calls, and how many are open.
pub fn read_calls(fields: &mut Fields) -> io::Result<Calls> {
    let mut calls = Calls {
        size: fields.count()?,
        ..Calls::default()
    };
    for call in &mut calls.calls {
        *call = Call {
            phase: fields.u32()?,
            vector: fields.u32()?,
            address: fields.u32()?,
            priority: fields.u32()?,
            long_address: fields.u32()?,
            has_vector: fields.u32()?,
            kind: fields.u32()?,
            check: fields.u32()?,
            start: fields.u32()?,
            words: fields.u32()?,
            area: fields.u32()?,
        };
    }
    Ok(calls)
}

/// What is told of a POCSAG page that ended; all 0 where none did.
#[derive(Clone, Copy, Debug, Default, PartialEq, Eq)]
pub struct MortisevanePocsagPage {
    pub is_ended: u32,
    pub number: u32,
    pub address: u32,
    pub function: u32,
    pub words: usize,
    pub mended: u32,
}

impl MortisevanePocsagPage {
    pub fn read(fields: &mut Fields) -> io::Result<Self> {
        Ok(MortisevanePocsagPage {
            is_ended: fields.u32()?,
            number: fields.u32()?,
            address: fields.u32()?,
            function: fields.u32()?,
            words: fields.count()?,
            mended: fields.u32()?,
        })
    }
}

/// What POCSAG words are answered with, but for the reader and the lent row.
#[derive(Clone, Copy, Debug, Default, PartialEq, Eq)]
pub struct MortisevanePocsagHeard {
    pub number: u32,
    pub taken: usize,
    pub page: MortisevanePocsagPage,
}

impl MortisevanePocsagHeard {
    pub fn read(fields: &mut Fields) -> io::Result<Self> {
        Ok(MortisevanePocsagHeard {
            number: fields.u32()?,
            taken: fields.count()?,
            page: MortisevanePocsagPage::read(fields)?,
        })
    }
}

/// The reader of POCSAG words.
pub fn read_pocsag_reader(fields: &mut Fields) -> io::Result<Reader> {
    Ok(Reader {
        left: fields.u32()?,
        page: Page {
            is_open: fields.u32()?,
            address: fields.u32()?,
            function: fields.u32()?,
            words: fields.count()?,
            mended: fields.u32()?,
            fault: fields.u32()?,
        },
    })
}
