//! Frames: the packets of a plan one after the other, with much that goes wrong, and
//! the end of the frame.

use second::call::{Calls, Key, MEMORY, TO_COME};

use crate::random::Random;

use super::events::{Event, Receiver};
use super::packets::{
    address, message, span, vector, word_of, ADDRESS_UNUSED, DAMAGED, LONG, PRIORITY, TONE_ONLY,
    WORD_BITS,
};
use super::plan::{any_bits, any_index, seeded_packets};
use super::states::{altered, any_call};

/// A memory serves so many frames, on average.
const FRAMES_OF_MEMORY: u64 = 8;
/// In so many frames, one has its whole memory looked at after each change.
const WHOLE_ONCE_IN: u64 = 16;
const ADDRESS_ID: u32 = 1;

pub fn seeded_events(seed: u64, frames: usize) -> impl Iterator<Item = Event> + Send {
    let mut random = Random::new(seed);
    let mut receiver = None;
    (0..frames).flat_map(move |_| seeded_frame(&mut random, &mut receiver))
}

fn seeded_frame(random: &mut Random, kept: &mut Option<Receiver>) -> Vec<Event> {
    let mut events = Vec::with_capacity(32);
    let receiver = match kept.take() {
        Some(receiver) if !random.once_in(FRAMES_OF_MEMORY) => receiver,
        _ => {
            let memory = seeded_memory(random);
            let (receiver, fresh) = Receiver::fresh(memory);
            events.push(fresh);
            receiver
        }
    };
    let mut frame = Frame {
        receiver,
        sent: Vec::new(),
        trouble_once_in: random.choose(&[4, 8, 16, 64, 100_000]),
    };
    frame.receiver.looks_at_all = random.once_in(WHOLE_ONCE_IN);
    for packet in seeded_packets(random) {
        frame.packet(random, packet, &mut events);
    }
    if random.once_in(4) {
        events.push(frame.place(random));
    }
    frame.end(random, &mut events);
    *kept = Some(frame.receiver);
    events
}

/// Any words, of which some are no words; some memories are longer than they need be.
fn seeded_memory(random: &mut Random) -> Vec<u32> {
    let length = MEMORY + random.choose(&[0, 0, 1, 20]);
    let style = random.below(4);
    let word = |_| match style {
        0 => TO_COME,
        1 => random.number() as u32 & WORD_BITS,
        2 => random.number() as u32,
        _ => random.choose(&[0, WORD_BITS, TO_COME, TO_COME + 1, 1 << 31, u32::MAX]),
    };
    (0..length).map(word).collect()
}

struct Frame {
    receiver: Receiver,
    /// The packets so far.
    sent: Vec<u32>,
    /// How often something of each sort goes wrong.
    trouble_once_in: u64,
}

impl Frame {
    fn trouble(&self, random: &mut Random) -> bool {
        random.once_in(self.trouble_once_in)
    }

    /// A packet of the plan comes, or is lost, and others before and after it.
    fn packet(&mut self, random: &mut Random, packet: u32, events: &mut Vec<Event>) {
        if self.trouble(random) {
            let packet = foreign(random);
            events.push(self.send(random, packet));
        }
        if random.once_in(8) {
            if let Some(packet) = self.of_open_call(random) {
                events.push(self.send(random, packet));
            }
        }
        match random.below(4 * self.trouble_once_in) {
            0 => return,
            1..=2 if word_of(packet) != ADDRESS_ID => {
                // It may come once more undamaged.
                events.push(self.send(random, packet | DAMAGED));
                if random.once_in(2) {
                    return;
                }
            }
            1..=3 if word_of(packet) == ADDRESS_ID => {
                let wrong = spoilt_address(random, packet);
                events.push(self.send(random, wrong));
            }
            _ => {}
        }
        events.push(self.send(random, packet));
        if self.trouble(random) {
            let mut again = random.choose(&self.sent);
            if random.once_in(8) {
                again |= DAMAGED;
            }
            events.push(self.send(random, again));
        }
    }

    /// To where its ID belongs, mostly.
    fn send(&mut self, random: &mut Random, packet: u32) -> Event {
        self.sent.push(packet);
        let is_address = word_of(packet) == ADDRESS_ID;
        let to_open = match self.trouble(random) {
            true => random.once_in(2),
            false => is_address,
        };
        let before = self.receiver.calls;
        let calls = self.handed_in(random);
        let event = match to_open {
            true => self.receiver.open(calls, packet),
            false => {
                let lent = self.lent(random);
                self.receiver.hear(calls, lent, packet)
            }
        };
        self.keep(before, &event);
        event
    }

    fn handed_in(&self, random: &mut Random) -> Calls {
        match self.trouble(random) {
            true => altered(random, self.receiver.calls),
            false => self.receiver.calls,
        }
    }

    /// What is no state of calls, or was not asked, is not handed on.
    fn keep(&mut self, before: Calls, event: &Event) {
        if matches!(event.second.told.number(), 1 | 2) {
            self.receiver.calls = before;
        }
    }

    fn lent(&self, random: &mut Random) -> usize {
        match self.trouble(random) {
            true => random.choose(&[0, 1, 85, MEMORY - 1, MEMORY - 1]),
            false => random.choose(&[MEMORY, self.receiver.memory.len()]),
        }
    }

    /// A vector or a word of a call that is open, or its address again. There may be
    /// calls that no packet has opened.
    fn of_open_call(&self, random: &mut Random) -> Option<u32> {
        let open = self.receiver.calls.open_calls();
        let call = match open {
            [] => return None,
            open => random.choose(open),
        };
        let key = call.key();
        if random.once_in(16) {
            let index = any_index(random);
            return Some(address(key, index));
        }
        if !call.has_vector() || random.once_in(16) {
            let kind = random.below(8) as u32;
            let rest = random.below(1 << 14) as u32;
            let rest = match random.once_in(2) {
                true => rest,
                false => {
                    let after = call.vector + u32::from(call.is_long()) + 1;
                    let words = random.between(1, 2) as u32;
                    span(kind, 0, words, random.choose(&[after, after, after - 1]))
                }
            };
            return Some(vector(key, kind, rest));
        }
        let words: Vec<u32> = call.word_numbers().collect();
        let word = match words.as_slice() {
            [] => call.vector + 1,
            words => random.choose(words),
        };
        // Another phase now and then, and a neighbour of its words.
        let phase = match random.once_in(16) {
            true => random.below(4) as u32,
            false => call.phase,
        };
        let word = match random.once_in(8) {
            true => random.choose(&[word + 1, word - 1, call.start]) & 127,
            false => word,
        };
        Some(message(phase, word, any_bits(random)))
    }

    fn place(&self, random: &mut Random) -> Event {
        let mut call = match self.receiver.calls.open_calls() {
            [] => any_call(random),
            open => random.choose(open),
        };
        if random.once_in(2) {
            call.area = random.choose(&[0, 1, 6, 7, 8, 9, 15, 16, 1 << 31, u32::MAX]);
        }
        self.receiver.place(call)
    }

    /// A refused end is no end.
    fn end(&mut self, random: &mut Random, events: &mut Vec<Event>) {
        let before = self.receiver.calls;
        let calls = self.handed_in(random);
        let lent = match calls != before && random.once_in(4) {
            true => MEMORY - 1,
            false => self.lent(random),
        };
        let event = self.receiver.end_frame(calls, lent);
        self.keep(before, &event);
        let is_refused = event.second.told.number() != 0;
        events.push(event);
        if is_refused {
            events.push(self.receiver.end_frame(before, MEMORY));
        }
    }
}

/// Another word, another index, tone-only, or several of these.
fn spoilt_address(random: &mut Random, packet: u32) -> u32 {
    let mut packet = packet;
    loop {
        packet = match random.below(4) {
            0 => packet & !127 | random.choose(&[0, 1, 87, 88, 89, 127]),
            1 => packet & !0xFF00 | random.choose(&[0x10, 0x1F, 0x7F, 0x90, 0xFF]) << 8,
            2 => packet | TONE_ONLY,
            _ => packet ^ TONE_ONLY,
        };
        if random.once_in(2) {
            return packet;
        }
    }
}

/// Of no call that is known, or of no frame.
fn foreign(random: &mut Random) -> u32 {
    let any = random.number() as u32 & 0xFF_FFFF;
    let id = match random.below(8) {
        0 => 0x00,
        1 => ADDRESS_ID,
        2 => random.choose(&[0x02, 0x03, 0x56, 0x57]),
        3..=5 => random.between(0x02, 0x57) as u32,
        6 => random.choose(&[0x58, 0x59, 0x7E, 0x7F, 0x80, 0x82, 0xD7, 0xFF]),
        _ => random.between(0x58, 0xFF) as u32,
    };
    let bits = match random.once_in(4) {
        true => any,
        false => any & !DAMAGED,
    };
    match id {
        ADDRESS_ID => {
            let key = Key {
                phase: random.below(4) as u32,
                vector: match random.once_in(2) {
                    true => random.choose(&[0, 1, 2, 87, 88, 127]),
                    false => random.below(128) as u32,
                },
            };
            let index = match random.once_in(4) {
                true => random.byte().into(),
                false => any_index(random),
            };
            let packet = address(key, index);
            let marks = PRIORITY | LONG | TONE_ONLY | ADDRESS_UNUSED;
            packet | any & marks
        }
        id => id << 24 | bits,
    }
}
