//! Runs: fresh chains and then one event after the other, with messages of several
//! keys mixed, and much that goes wrong.

use std::ops::Range;

use second::chain::{Chains, Key, Record, BUFFER, SLOTS};
use second::fragment::LONGEST_TEXT;

use crate::fragments::rows::{any_words, set_check, Damage, CELL_BITS, DAMAGES};
use crate::random::Random;

use super::events::{Event, Receiver};
use super::messages::{seeded_message, Message};

const LONGEST_RUN: u64 = 30;
/// The whole buffer is looked at this often, and at the end of each run.
const WHOLE_ONCE_IN: u64 = 32;

/// Where the fields of a first word stand.
const CONTINUED: u64 = 10;
const FRAGMENT_NUMBER: u64 = 11;
const MESSAGE_NUMBER: u64 = 13;
const MARKS: u64 = 19;

pub fn seeded_events(seed: u64, runs: usize) -> impl Iterator<Item = Event> + Send {
    let mut random = Random::new(seed);
    (0..runs).flat_map(move |_| seeded_run(&mut random))
}

struct Run {
    receiver: Receiver,
    /// The keys of its messages.
    keys: Vec<Key>,
    /// The messages that are on their way side by side.
    messages: Vec<Message>,
    /// How often something of each sort goes wrong.
    trouble_once_in: u64,
}

fn seeded_run(random: &mut Random) -> Vec<Event> {
    let buffer = seeded_buffer(random);
    let (receiver, fresh) = Receiver::fresh(buffer);
    let keys = seeded_keys(random);
    let side_by_side = random.choose(&[1, 1, 2, 4, 12]);
    let mut run = Run {
        receiver,
        messages: (0..side_by_side)
            .map(|_| message_of(random, &keys))
            .collect(),
        keys,
        trouble_once_in: random.choose(&[4, 8, 16, 64, 100_000]),
    };
    let mut events = vec![fresh];
    let longest = random.choose(&[LONGEST_RUN / 3, LONGEST_RUN]);
    let length = random.between(1, longest);
    events.extend((1..=length).map(|place| run.event(random, place == length)));
    events
}

/// Any bytes; some buffers are longer than they need be.
pub fn seeded_buffer(random: &mut Random) -> Vec<u8> {
    let longer = random.choose(&[0, 0, 1, 40]);
    let mut buffer = vec![0; BUFFER + longer];
    for piece in buffer.chunks_mut(8) {
        let bytes = random.number().to_le_bytes();
        piece.copy_from_slice(&bytes[..piece.len()]);
    }
    buffer
}

/// One to fifteen, of which many share an address or N.
fn seeded_keys(random: &mut Random) -> Vec<Key> {
    let addresses = random.between(1, 3);
    let addresses: Vec<u32> = (0..addresses)
        .map(|_| match random.below(4) {
            0 => random.choose(&[0, 15, 16, 31]),
            _ => random.below(32) as u32,
        })
        .collect();
    let message_numbers = random.between(1, 5);
    let message_numbers = (0..message_numbers).map(|_| match random.below(4) {
        0 => random.choose(&[0, 63]),
        _ => random.below(64) as u32,
    });
    message_numbers
        .flat_map(|message_number| {
            addresses.iter().map(move |&address| Key {
                address,
                message_number,
            })
        })
        .collect()
}

fn message_of(random: &mut Random, keys: &[Key]) -> Message {
    let key = random.choose(keys);
    seeded_message(random, key)
}

impl Run {
    fn event(&mut self, random: &mut Random, is_last: bool) -> Event {
        let before = self.receiver.chains;
        let chains = match self.trouble(random) {
            true => altered(random, before, &self.keys),
            false => before,
        };
        let event = match random.once_in(16) {
            true => self.drop_chain(random, chains, is_last),
            false => self.step(random, chains, is_last),
        };
        // What is no state of chains, or was not asked, is not handed on.
        if matches!(event.second.told.number, 1 | 2) {
            self.receiver.chains = before;
        }
        event
    }

    fn trouble(&self, random: &mut Random) -> bool {
        random.once_in(self.trouble_once_in)
    }

    fn step(&mut self, random: &mut Random, chains: Chains, is_last: bool) -> Event {
        let (mut address, mut words) = self.fragment(random);
        while self.trouble(random) {
            damage(random, &mut words);
        }
        if self.trouble(random) {
            address = random.choose(&[0, 31, 32, 33, 63, 1 << 31, u32::MAX]);
        }
        let whole = self.receiver.buffer.len();
        let lent = match self.trouble(random) {
            true => random.choose(&[0, 1, LONGEST_TEXT, BUFFER - 1, BUFFER - 1]),
            false => random.choose(&[BUFFER, whole]),
        };
        let part = match is_last || random.once_in(WHOLE_ONCE_IN) {
            true => 0..whole,
            false => likely_part(random, &chains, address, &words),
        };
        self.receiver.step(chains, lent, address, words, part)
    }

    /// The next one of a message, mostly; and for which address it comes.
    fn fragment(&mut self, random: &mut Random) -> (u32, Vec<u32>) {
        let place = random.below(self.messages.len() as u64) as usize;
        let goes_wrong = self.trouble(random);
        let message = &mut self.messages[place];
        if goes_wrong {
            lose_or_repeat(random, message);
        }
        if message.next >= message.fragments.len() {
            *message = message_of(random, &self.keys);
        }
        let words = message.fragments[message.next].clone();
        message.next += 1;
        (message.key.address, words)
    }

    fn drop_chain(&mut self, random: &mut Random, chains: Chains, is_last: bool) -> Event {
        let mut key = random.choose(&self.keys);
        if random.once_in(4) {
            key.message_number = random.choose(&[62, 63, 64, 65, 128, 1 << 31, u32::MAX]);
        }
        if random.once_in(4) {
            key.address = random.choose(&[30, 31, 32, 33, 1 << 31, u32::MAX]);
        }
        let part = match is_last {
            true => 0..self.receiver.buffer.len(),
            false => 0..0,
        };
        self.receiver.drop_chain(chains, key, part)
    }
}

/// One, two or three fragments are lost, one comes again at once or later, or the
/// message comes from its beginning.
pub fn lose_or_repeat(random: &mut Random, message: &mut Message) {
    let next = message.next as u64;
    message.next = match random.below(6) {
        lost @ 0..=2 => message.next + 1 + lost as usize,
        3 => message.next.saturating_sub(1),
        4 => random.between(0, next) as usize,
        _ => 0,
    };
}

/// The share of the slot into which the fragment would go.
fn likely_part(random: &mut Random, chains: &Chains, address: u32, words: &[u32]) -> Range<usize> {
    let key = key_of(address, words);
    let slot = chains.slot_of(key).or(chains.first_free());
    let slot = slot.unwrap_or_else(|| any_slot(random));
    let from = slot * LONGEST_TEXT;
    from..from + LONGEST_TEXT
}

/// What a fragment's chain is known by, if the fragment is good.
pub fn key_of(address: u32, words: &[u32]) -> Key {
    let first_word = words.first().copied().unwrap_or_default();
    Key {
        address,
        message_number: first_word >> MESSAGE_NUMBER & 63,
    }
}

fn any_slot(random: &mut Random) -> usize {
    random.below(SLOTS as u64) as usize
}

/// Changes a fragment, and lets K be right again.
type Forgery = fn(&mut Random) -> u32;

const FORGERIES: [Forgery; 4] = [
    |_| 1 << CONTINUED,
    |random| (random.between(1, 3) as u32) << FRAGMENT_NUMBER,
    |random| 1 << random.between(MESSAGE_NUMBER, MARKS - 1),
    |random| 1 << random.between(MARKS, MARKS + 1),
];

fn damage(random: &mut Random, words: &mut Vec<u32>) {
    match random.below(12) {
        0..=3 => {
            let (_, damage): (_, Damage) = random.choose(&DAMAGES);
            damage(random, words);
        }
        4..=7 => {
            let forgery = random.choose(&FORGERIES);
            if let Some(first) = words.first_mut() {
                *first ^= forgery(random);
                set_check(words);
            }
        }
        8..=9 => {
            if let [_, .., last] = words.as_mut_slice() {
                *last ^= 1 << random.below(3 * CELL_BITS);
                set_check(words);
            }
        }
        10 => words.resize(random.choose(&[0, 1, 86, 87]), 0),
        _ => *words = any_words(random),
    }
}

/// Chains as a caller might hand them back: sound or not.
fn altered(random: &mut Random, mut chains: Chains, keys: &[Key]) -> Chains {
    let any = any_slot(random);
    let mut from_any_on = (any..SLOTS).chain(0..any);
    let open = from_any_on.find(|slot| chains.slots[*slot].is_open());
    let one = open.unwrap_or(any);
    match random.below(10) {
        0..=1 => alter_number(random, &mut chains.slots[any]),
        2 => alter_number(random, &mut chains.slots[one]),
        3 => chains.slots[one].is_open = random.choose(&[2, 7, 1 << 31, u32::MAX]),
        4..=5 => {
            let nearly = random.between(LONGEST_TEXT as u64 - 20, LONGEST_TEXT as u64);
            chains.slots[one].characters = nearly as usize;
        }
        6 => {
            // Of one key are two now, unless it is the same slot.
            let key = chains.slots[one].key;
            chains.slots[any_slot(random)] = any_record(random, key);
        }
        _ => {
            let closed = chains.slots.iter_mut().filter(|record| !record.is_open());
            for record in closed.take(random.choose(&[4, 7, 8, 8])) {
                let any_key = Key {
                    address: random.below(32) as u32,
                    message_number: random.below(64) as u32,
                };
                let known = random.choose(keys);
                let key = random.choose(&[any_key, any_key, any_key, known]);
                *record = any_record(random, key);
            }
        }
    }
    chains
}

/// A sound one of an open chain.
fn any_record(random: &mut Random, key: Key) -> Record {
    Record {
        is_open: random.choose(&[1, 1, 7]),
        key,
        next_fragment: random.below(3) as u32,
        sum: random.below(128) as u32,
        characters: random.below(LONGEST_TEXT as u64 + 1) as usize,
    }
}

/// To one about its limit, or with high bits alone.
fn alter_number(random: &mut Random, record: &mut Record) {
    match random.below(6) {
        0 => record.is_open = random.choose(&[0, 0, 1, 7, 1 << 31]),
        1 => record.key.address = random.choose(&[0, 1, 31, 32, 33, 1 << 31, u32::MAX]),
        2 => record.key.message_number = random.choose(&[0, 1, 63, 64, 65, 1 << 31, u32::MAX]),
        3 => record.next_fragment = random.choose(&[0, 1, 2, 3, 4, 1 << 31, u32::MAX]),
        4 => record.sum = random.choose(&[0, 1, 126, 127, 128, 129, 1 << 31, u32::MAX]),
        _ => {
            record.characters = random.choose(&[
                0,
                1,
                1_007,
                1_008,
                1_009,
                1_010,
                1 << 32,
                1 << 63,
                usize::MAX,
            ]);
        }
    }
}
