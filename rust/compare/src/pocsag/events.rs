//! What happens to a reader, and what comes of it.

use std::fmt::{self, Debug, Formatter};
use std::io;

use second::pocsag::reader::{Reader, Told};

use crate::exchange::{append_row, Fields, Item, Request};
use crate::host::{read_pocsag_reader, MortisevanePocsagHeard, MortisevanePocsagPage};
use crate::yardstick;

use super::laws::Stream;
use super::map;

pub enum Happening {
    /// Words come to a reader, which is lent this memory.
    Hear {
        reader: Reader,
        words: Vec<u32>,
        lent: Vec<u32>,
    },
    /// No more words come.
    Close { reader: Reader },
}

/// What both must agree on after an event. A close tells of a page alone.
#[derive(Clone, PartialEq, Eq, Default)]
pub struct Outcome {
    pub told: MortisevanePocsagHeard,
    pub reader: Reader,
    pub lent: Vec<u32>,
}

/// Words are easier to find when they are hexadecimal.
impl Debug for Outcome {
    fn fmt(&self, formatter: &mut Formatter) -> fmt::Result {
        let Outcome { told, reader, lent } = self;
        write!(formatter, "{told:?}\n    {reader:?}\n    lent {lent:X?}")
    }
}

pub struct Event {
    pub happening: Happening,
    pub second: Outcome,
    /// With the last event of a stream, what came of all of it.
    pub stream: Option<Box<Stream>>,
}

impl Event {
    /// Words come, and something is told of the last that is taken. The lent memory is changed
    /// as the second program changes it.
    pub fn hear(reader: Reader, words: &[u32], lent: &mut [u32]) -> (Event, Told) {
        let happening = Happening::Hear {
            reader,
            words: words.to_vec(),
            lent: lent.to_vec(),
        };
        let mut after = reader;
        let heard = after.hear_mended(map::mend, words, lent);
        let event = Event {
            happening,
            second: Outcome {
                told: yardstick::pocsag_hear(heard),
                reader: after,
                lent: lent.to_vec(),
            },
            stream: None,
        };
        (event, heard.told)
    }

    pub fn close(reader: Reader) -> Event {
        let page = yardstick::pocsag_page(reader.close());
        Event {
            happening: Happening::Close { reader },
            second: Outcome::of_close(page),
            stream: None,
        }
    }
}

impl Outcome {
    fn of_close(page: MortisevanePocsagPage) -> Outcome {
        Outcome {
            told: MortisevanePocsagHeard {
                page,
                ..Default::default()
            },
            ..Default::default()
        }
    }
}

/// The exchange program itself watches the lent words and the memory around both rows.
impl Request for Event {
    const EXPORT: u8 = 56;
    type Answer = Outcome;

    fn export(&self) -> u8 {
        match self.happening {
            Happening::Hear { .. } => Self::EXPORT,
            Happening::Close { .. } => 57,
        }
    }

    fn arguments(&self, bytes: &mut Vec<u8>) {
        match &self.happening {
            Happening::Hear {
                reader,
                words,
                lent,
            } => {
                append_reader(bytes, reader);
                append_row(bytes, words);
                append_row(bytes, lent);
            }
            Happening::Close { reader } => append_reader(bytes, reader),
        }
    }

    fn library(&self, fields: &mut Fields) -> io::Result<Self::Answer> {
        match &self.happening {
            Happening::Hear { lent, .. } => Ok(Outcome {
                told: MortisevanePocsagHeard::read(fields)?,
                reader: read_pocsag_reader(fields)?,
                lent: fields.row(lent.len())?,
            }),
            Happening::Close { .. } => Ok(Outcome::of_close(MortisevanePocsagPage::read(fields)?)),
        }
    }

    fn second(&self) -> Self::Answer {
        self.second.clone()
    }

    fn question(&self) -> String {
        match &self.happening {
            Happening::Hear {
                reader,
                words,
                lent,
            } => format!("words {words:X?} come to\n    {reader:?}\n    lent {lent:X?}"),
            Happening::Close { reader } => format!("the close of {reader:?}"),
        }
    }
}

fn append_reader(bytes: &mut Vec<u8>, reader: &Reader) {
    let page = &reader.page;
    for number in [reader.left, page.is_open, page.address, page.function] {
        number.append_to(bytes);
    }
    bytes.extend((page.words as u64).to_le_bytes());
    for number in [page.mended, page.fault] {
        number.append_to(bytes);
    }
}
