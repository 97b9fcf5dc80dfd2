//! The mirror: resets, steps, runs and closings.

use std::io;

use second::layout::{DATA_BITS, ID_PLACE};
use second::mirror::{self, Mirror};

use crate::exchange::{append_numbers, append_row, Fields, Request};
use crate::host::Told;
use crate::random::Random;
use crate::tally::{self, Tally};
use crate::yardstick;

const STEPS: usize = 1_000_000;
const RUNS: usize = 100_000;
const CLOSINGS: usize = 100_000;
const LONGEST_RUN: u64 = 64;

pub struct Reset {
    pub packet: u32,
}

impl Request for Reset {
    const EXPORT: u8 = 35;
    type Answer = Told<Mirror>;

    fn arguments(&self, bytes: &mut Vec<u8>) {
        bytes.extend(self.packet.to_le_bytes());
    }

    fn library(&self, fields: &mut Fields) -> io::Result<Self::Answer> {
        Told::read(fields)
    }

    fn second(&self) -> Self::Answer {
        yardstick::told(mirror::reset(self.packet))
    }

    fn question(&self) -> String {
        format!("reset with {:08X}", self.packet)
    }
}

pub struct Step {
    pub mirror: Mirror,
    pub packet: u32,
}

impl Request for Step {
    const EXPORT: u8 = 36;
    type Answer = Told<Mirror>;

    fn arguments(&self, bytes: &mut Vec<u8>) {
        append_numbers(bytes, &self.mirror);
        bytes.extend(self.packet.to_le_bytes());
    }

    fn library(&self, fields: &mut Fields) -> io::Result<Self::Answer> {
        Told::read(fields)
    }

    fn second(&self) -> Self::Answer {
        yardstick::mirrored(self.mirror, mirror::step(self.mirror, self.packet))
    }

    fn question(&self) -> String {
        format!("{} after {:08X}", shown(self.mirror), self.packet)
    }
}

pub struct Run {
    pub mirror: Mirror,
    pub packets: Vec<u32>,
}

/// The exchange program itself watches the lent packets and the memory around
/// them.
impl Request for Run {
    const EXPORT: u8 = 37;
    type Answer = Told<Mirror>;

    fn arguments(&self, bytes: &mut Vec<u8>) {
        append_numbers(bytes, &self.mirror);
        append_row(bytes, &self.packets);
    }

    fn library(&self, fields: &mut Fields) -> io::Result<Self::Answer> {
        Told::read(fields)
    }

    fn second(&self) -> Self::Answer {
        yardstick::mirrored(self.mirror, mirror::run(self.mirror, &self.packets))
    }

    fn question(&self) -> String {
        let packets = self.packets.iter().map(|packet| format!(" {packet:08X}"));
        let packets: String = packets.collect();
        format!("{} after the run{packets}", shown(self.mirror))
    }
}

pub struct Closing {
    pub mirror: Mirror,
}

impl Request for Closing {
    const EXPORT: u8 = 38;
    type Answer = Told<u32>;

    fn arguments(&self, bytes: &mut Vec<u8>) {
        append_numbers(bytes, &self.mirror);
    }

    fn library(&self, fields: &mut Fields) -> io::Result<Self::Answer> {
        Told::read(fields)
    }

    fn second(&self) -> Self::Answer {
        yardstick::told(mirror::closing(self.mirror))
    }

    fn question(&self) -> String {
        format!("closing of {}", shown(self.mirror))
    }
}

fn shown(mirror: Mirror) -> String {
    let Mirror { register, talking } = mirror;
    format!("mirror of register {register:06X}, talking {talking},")
}

pub fn compare_resets(
    exchange: &[String],
    packets: impl Iterator<Item = u32> + Send,
) -> Result<Tally, String> {
    let resets = packets.map(|packet| Reset { packet });
    tally::compare_by("mirror reset", exchange, resets, voice)
}

pub fn compare_steps(exchange: &[String], seed: u64) -> Result<Tally, String> {
    let mut random = Random::new(seed);
    let steps = (0..STEPS).map(|_| {
        let mirror = seeded_mirror(&mut random);
        let packet = seeded_packet(&mut random, mirror);
        Step { mirror, packet }
    });
    tally::compare_by("mirror step", exchange, steps, voice)
}

pub fn compare_runs(exchange: &[String], seed: u64) -> Result<Tally, String> {
    let mut random = Random::new(seed);
    let runs = (0..RUNS).map(|_| seeded_run(&mut random));
    tally::compare_by("mirror run", exchange, runs, voice)
}

pub fn compare_closings(exchange: &[String], seed: u64) -> Result<Tally, String> {
    let mut random = Random::new(seed);
    let closings = (0..CLOSINGS).map(|_| Closing {
        mirror: seeded_mirror(&mut random),
    });
    tally::compare("mirror closing", exchange, closings)
}

/// Runs that all end the same way would not show much.
fn voice(mirror: &Mirror) -> &'static str {
    match mirror.talking {
        0 => "silent after",
        _ => "talking after",
    }
}

/// Talking or not, and now and then with a register of over 24 bits.
fn seeded_mirror(random: &mut Random) -> Mirror {
    let register = random.number() as u32 & DATA_BITS;
    let register = match random.below(32) {
        0 => random.choose(&[DATA_BITS + 1, u32::MAX]),
        1 => register | 1 << random.between(u64::from(ID_PLACE), 31),
        2 => random.choose(&[0, DATA_BITS]),
        _ => register,
    };
    let talking = match random.below(8) {
        0..=3 => 0,
        4..=6 => 1,
        _ => random.choose(&[2, 5, 256, 1 << 31, u32::MAX]),
    };
    Mirror { register, talking }
}

/// The right checksum, a wrong one, a special packet, or any 32 bits.
fn seeded_packet(random: &mut Random, mirror: Mirror) -> u32 {
    let register = mirror.register & DATA_BITS;
    match random.below(8) {
        0..=1 => register,
        2 => register ^ 1 << random.below(u64::from(ID_PLACE)),
        3 => random.below(1 << ID_PLACE) as u32,
        4 => random.between(0x1C << ID_PLACE, (0x20 << ID_PLACE) - 1) as u32,
        _ => random.number() as u32,
    }
}

/// Each packet is chosen by what the mirror is before it.
fn seeded_run(random: &mut Random) -> Run {
    let mirror = seeded_mirror(random);
    let length = random.between(0, LONGEST_RUN);
    let mut before = mirror;
    let packets = (0..length).map(|_| {
        let packet = seeded_packet(random, before);
        before = mirror::step(before, packet).unwrap_or(before);
        packet
    });
    Run {
        packets: packets.collect(),
        mirror,
    }
}
