//! Frames listened to, and waits.

use std::io;

use crate::exchange::{self, Fields, Request};
use crate::host::{
    MortisevaneFrames, MortisevaneListener, MortisevaneListeners, MortisevaneWait, LISTENERS,
};
use crate::random::Random;
use crate::yardstick;

const SEEDED_SETS: usize = 200_000;

struct FramesListened {
    row: MortisevaneListeners,
}

impl Request for FramesListened {
    const EXPORT: u8 = 9;
    type Answer = MortisevaneFrames;

    fn arguments(&self, bytes: &mut Vec<u8>) {
        for listener in &self.row.listeners {
            bytes.extend(listener.frame.to_le_bytes());
            bytes.extend(listener.collapse.to_le_bytes());
        }
        bytes.extend(self.row.count.to_le_bytes());
    }

    fn library(&self, fields: &mut Fields) -> io::Result<Self::Answer> {
        MortisevaneFrames::read(fields)
    }

    fn second(&self) -> Self::Answer {
        yardstick::frames_listened(self.row)
    }

    fn question(&self) -> String {
        let listeners: Vec<String> = (self.row.listeners.iter())
            .map(|listener| format!("{}/{}", listener.frame, listener.collapse))
            .collect();
        format!(
            "frames of the first {} listeners of frame/collapse {}",
            self.row.count,
            listeners.join(" ")
        )
    }
}

struct FramesWait {
    from: u32,
    to: u32,
}

impl Request for FramesWait {
    const EXPORT: u8 = 8;
    type Answer = MortisevaneWait;

    fn arguments(&self, bytes: &mut Vec<u8>) {
        bytes.extend(self.from.to_le_bytes());
        bytes.extend(self.to.to_le_bytes());
    }

    fn library(&self, fields: &mut Fields) -> io::Result<Self::Answer> {
        MortisevaneWait::read(fields)
    }

    fn second(&self) -> Self::Answer {
        yardstick::frames_wait(self.from, self.to)
    }

    fn question(&self) -> String {
        format!("wait from frame {} to frame {}", self.from, self.to)
    }
}

pub fn compare_listeners(exchange: &[String], seed: u64) -> Result<usize, String> {
    let mut random = Random::new(seed);
    let single = every_two_numbers().map(|(frame, collapse)| single_row(frame, collapse));
    let seeded = (0..SEEDED_SETS).map(|_| seeded_row(&mut random));
    let rows = single.chain(seeded);
    exchange::compare(exchange, rows.map(|row| FramesListened { row }))
}

/// One listener, of any frame and collapse that a byte can hold or that a byte would cut to one of those.
fn single_row(frame: u32, collapse: u32) -> MortisevaneListeners {
    let mut row = MortisevaneListeners {
        count: 1,
        ..Default::default()
    };
    row.listeners[0] = MortisevaneListener { frame, collapse };
    row
}

/// Good listeners with, now and then, a wrong one anywhere, also after those
/// that are counted and must be looked at.
fn seeded_row(random: &mut Random) -> MortisevaneListeners {
    let mut row = MortisevaneListeners::default();
    let lowest_collapse = random.below(6);
    for listener in &mut row.listeners {
        listener.frame = random.below(128) as u32;
        listener.collapse = random.between(lowest_collapse, 5) as u32;
    }
    if random.once_in(2) {
        let place = random.below(LISTENERS as u64) as usize;
        let wrong = &mut row.listeners[place];
        match random.below(3) {
            0 => wrong.frame = random.between(128, 511) as u32,
            1 => wrong.collapse = random.between(6, 511) as u32,
            _ => (wrong.frame, wrong.collapse) = (random.number() as u32, random.number() as u32),
        }
    }
    row.count = match random.below(8) {
        0 => random.number() as u32,
        1 => random.choose(&[15, 16, 17, 18, 32, 256, 65_536, 1 << 31, u32::MAX]),
        _ => random.below(18) as u32,
    };
    row
}

pub fn compare_waits(exchange: &[String]) -> Result<usize, String> {
    let waits = every_two_numbers().map(|(from, to)| FramesWait { from, to });
    exchange::compare(exchange, waits)
}

/// Numbers that a byte or sixteen bits would cut to a small one, and the largest.
const CUT: [u32; 7] = [256, 259, 383, 65_536, 65_539, 1 << 31, u32::MAX];

/// Every two of the numbers that a byte can hold and of those that it would cut.
fn every_two_numbers() -> impl Iterator<Item = (u32, u32)> {
    let numbers = || (0..=255).chain(CUT);
    numbers().flat_map(move |one| numbers().map(move |other| (one, other)))
}
