//! The readers, and whether a packet may be sent.

use std::io;
use std::marker::PhantomData;

use second::packet::may_send;

use crate::exchange::{Fields, Request};
use crate::host::Told;
use crate::tally::{self, Tally};
use crate::yardstick;

use super::kinds::Readable;

struct Read<F> {
    packet: u32,
    fields: PhantomData<F>,
}

impl<F: Readable> Request for Read<F> {
    const EXPORT: u8 = F::READER;
    type Answer = Told<F>;

    fn arguments(&self, bytes: &mut Vec<u8>) {
        bytes.extend(self.packet.to_le_bytes());
    }

    fn library(&self, fields: &mut Fields) -> io::Result<Self::Answer> {
        Told::read(fields)
    }

    fn second(&self) -> Self::Answer {
        yardstick::told(F::read(self.packet))
    }

    fn question(&self) -> String {
        format!("reading {:08X} as {}", self.packet, F::NAME)
    }
}

pub struct MaySend {
    pub packet: u32,
}

impl Request for MaySend {
    const EXPORT: u8 = 34;
    type Answer = Told<()>;

    fn arguments(&self, bytes: &mut Vec<u8>) {
        bytes.extend(self.packet.to_le_bytes());
    }

    fn library(&self, fields: &mut Fields) -> io::Result<Self::Answer> {
        Told::read(fields)
    }

    fn second(&self) -> Self::Answer {
        yardstick::told(may_send(self.packet))
    }

    fn question(&self) -> String {
        format!("whether {:08X} may be sent", self.packet)
    }
}

pub fn compare<F: Readable>(
    exchange: &[String],
    packets: impl Iterator<Item = u32> + Send,
) -> Result<Tally, String> {
    let requests = packets.map(|packet| Read::<F> {
        packet,
        fields: PhantomData,
    });
    tally::compare(format!("read {}", F::NAME), exchange, requests)
}

pub fn compare_may_send(
    exchange: &[String],
    packets: impl Iterator<Item = u32> + Send,
) -> Result<Tally, String> {
    let requests = packets.map(|packet| MaySend { packet });
    tally::compare("may send", exchange, requests)
}
