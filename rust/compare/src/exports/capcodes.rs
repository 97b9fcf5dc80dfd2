//! CAPCODE texts and values.

use std::io;

use second::capcode::Capcode;

use crate::boundaries::{addresses_near_ends, likely_address};
use crate::exchange::{self, Fields, Request};
use crate::host::{MortisevaneAssignment, MortisevaneCapcode, MortisevaneLength};
use crate::random::Random;
use crate::texts::{shown, Texts, TYPE_LETTERS};
use crate::yardstick;

const TEXTS: usize = 1_000_000;
const LONG_TEXTS: usize = 40;
const VALUES: usize = 300_000;

/// The byte that names the export which reads a text.
pub const CAPCODE_READ: u8 = 5;
/// A request counts the bytes of a text in 16 bits.
const LONGEST_TEXT_ASKED: usize = u16::MAX as usize;
/// Lent lengths reach beyond the longest text, which has 15 bytes.
const LONGEST_LENT: u8 = 20;

struct CapcodeRead {
    text: Vec<u8>,
}

impl Request for CapcodeRead {
    const EXPORT: u8 = CAPCODE_READ;
    type Answer = MortisevaneCapcode;

    fn arguments(&self, bytes: &mut Vec<u8>) {
        append_text(&self.text, bytes);
    }

    fn library(&self, fields: &mut Fields) -> io::Result<Self::Answer> {
        MortisevaneCapcode::read(fields)
    }

    fn second(&self) -> Self::Answer {
        yardstick::capcode_read(&self.text)
    }

    fn question(&self) -> String {
        format!("reading \"{}\"", shown(&self.text))
    }
}

struct CapcodeAssign {
    capcode: Capcode,
}

impl Request for CapcodeAssign {
    const EXPORT: u8 = 6;
    type Answer = MortisevaneAssignment;

    fn arguments(&self, bytes: &mut Vec<u8>) {
        add_capcode(&self.capcode, bytes);
    }

    fn library(&self, fields: &mut Fields) -> io::Result<Self::Answer> {
        MortisevaneAssignment::read(fields)
    }

    fn second(&self) -> Self::Answer {
        yardstick::capcode_assign(&self.capcode)
    }

    fn question(&self) -> String {
        format!("place of {:?}", self.capcode)
    }
}

struct CapcodePrint {
    capcode: Capcode,
    lent: u8,
}

/// The answer and the whole lent buffer must agree. The exchange program
/// itself watches the memory around the buffer.
impl Request for CapcodePrint {
    const EXPORT: u8 = 7;
    type Answer = (MortisevaneLength, Vec<u8>);

    fn arguments(&self, bytes: &mut Vec<u8>) {
        add_capcode(&self.capcode, bytes);
        bytes.push(self.lent);
        bytes.extend(pattern(self.lent));
    }

    fn library(&self, fields: &mut Fields) -> io::Result<Self::Answer> {
        let length = MortisevaneLength::read(fields)?;
        Ok((length, fields.bytes(usize::from(self.lent))?))
    }

    fn second(&self) -> Self::Answer {
        let mut buffer: Vec<u8> = pattern(self.lent).collect();
        let length = yardstick::capcode_print(&self.capcode, &mut buffer);
        (length, buffer)
    }

    fn question(&self) -> String {
        format!("printing {:?} into {} bytes", self.capcode, self.lent)
    }
}

/// Adds a text to a request to read it.
pub fn append_text(text: &[u8], bytes: &mut Vec<u8>) {
    let length = u16::try_from(text.len()).expect("no longer text is asked");
    bytes.extend(length.to_le_bytes());
    bytes.extend(text);
}

fn add_capcode(capcode: &Capcode, bytes: &mut Vec<u8>) {
    bytes.push(capcode.letter);
    bytes.extend(capcode.frame.to_le_bytes());
    bytes.extend(capcode.collapse.to_le_bytes());
    bytes.extend(capcode.address.to_le_bytes());
}

pub fn compare_texts(exchange: &[String], seed: u64) -> Result<usize, String> {
    let mut texts = Texts::new(seed);
    let requests = (0..TEXTS + LONG_TEXTS).map(|index| {
        let text = if index < TEXTS {
            text_with_line_feeds(&mut texts)
        } else {
            long_text(&mut texts)
        };
        CapcodeRead { text }
    });
    exchange::compare(exchange, requests)
}

/// A line cannot hold an LF, but a text handed in can.
fn text_with_line_feeds(texts: &mut Texts) -> Vec<u8> {
    let mut text = texts.next_text();
    if !text.is_empty() && texts.random().once_in(64) {
        let place = texts.random().below(text.len() as u64) as usize;
        text[place] = b'\n';
    }
    text
}

fn long_text(texts: &mut Texts) -> Vec<u8> {
    let mut text = texts.long_text();
    text.truncate(LONGEST_TEXT_ASKED);
    text
}

/// How many values were compared, and how many prints of them: each value is
/// printed into buffers of every length.
pub fn compare_values(exchange: &[String], seed: u64) -> Result<(usize, usize), String> {
    let assigned = values(seed).map(|capcode| CapcodeAssign { capcode });
    let printed = values(seed)
        .flat_map(|capcode| (0..=LONGEST_LENT).map(move |lent| CapcodePrint { capcode, lent }));
    Ok((
        exchange::compare(exchange, assigned)?,
        exchange::compare(exchange, printed)?,
    ))
}

fn values(seed: u64) -> impl Iterator<Item = Capcode> + Send {
    let mut random = Random::new(seed);
    let near_ends = addresses_near_ends();
    (0..VALUES).map(move |_| seeded_value(&mut random, &near_ends))
}

/// What stands in the buffer before printing, different for each length.
fn pattern(lent: u8) -> impl Iterator<Item = u8> {
    (0..lent).map(move |place| (0x80 + 7 * u32::from(place) + 13 * u32::from(lent)) as u8)
}

/// Each field is right more often than not, so that every refusal gets its turn.
fn seeded_value(random: &mut Random, near_ends: &[u64]) -> Capcode {
    let letter = if random.once_in(8) {
        random.byte()
    } else {
        random.choose(TYPE_LETTERS)
    };
    let frame = match random.below(8) {
        0 => random.number() as u32,
        1 => random.choose(&[1, 126, 127, 128, 255, 256, 259, 65_536, 65_539, u32::MAX]),
        2..=4 => random.below(128) as u32,
        _ => 0,
    };
    let collapse = match random.below(8) {
        0 => random.number() as u32,
        1 => random.choose(&[4, 5, 6, 7, 255, 256, 260, 65_540, u32::MAX]),
        _ => random.below(6) as u32,
    };
    let address = match random.below(8) {
        0 => random.number(),
        1 => random.below(6),
        _ => likely_address(random, near_ends),
    };
    Capcode {
        letter,
        address,
        frame,
        collapse,
    }
}
