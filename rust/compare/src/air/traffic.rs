//! Other traffic: whatever comes beside the sender's fragments, but nothing good of the
//! sender's address and message number, and no drop of its open chain.

use second::chain::{Chains, Key, BUFFER};

use crate::chains::messages::{seeded_message, Message};
use crate::chains::runs::lose_or_repeat;
use crate::fragments::rows::any_words;
use crate::random::Random;

use super::arrivals::damaged;
use super::sender::Sender;

pub enum Input {
    Fragment {
        /// How many of the buffer's bytes are lent.
        lent: usize,
        address: u32,
        words: Vec<u32>,
    },
    Drop(Key),
}

/// Messages of other keys.
pub struct Traffic {
    keys: Vec<Key>,
    /// Those on their way, and about how many are on their way side by side.
    messages: Vec<Message>,
    side_by_side: usize,
}

impl Traffic {
    pub fn seeded(random: &mut Random, sender: &Sender) -> Traffic {
        let keys = other_keys(random, sender.key);
        let key = random.choose(&keys);
        Traffic {
            messages: vec![other_message(random, key, sender)],
            keys,
            side_by_side: random.choose(&[2, 4, 12]),
        }
    }

    /// The first fragment of a chain of another key, which goes on later.
    pub fn opening(&mut self, random: &mut Random, sender: &Sender, chains: &Chains) -> Input {
        let closed = self
            .keys
            .iter()
            .filter(|key| chains.slot_of(**key).is_none());
        let closed: Vec<Key> = closed.copied().collect();
        let key = random.choose(&closed);
        let opening = loop {
            let message = other_message(random, key, sender);
            if message.fragments.len() > 1 {
                break message;
            }
        };
        self.messages.push(opening);
        self.fragment(self.messages.len() - 1)
    }

    pub fn next(&mut self, random: &mut Random, sender: &Sender, chains: &Chains) -> Input {
        loop {
            let input = self.any_input(random, sender, chains);
            if leaves_alone(&input, sender, chains) {
                return input;
            }
        }
    }

    fn any_input(&mut self, random: &mut Random, sender: &Sender, chains: &Chains) -> Input {
        match random.below(16) {
            0..=9 => self.next_fragment(random, sender),
            10 => open_key(random, chains).map_or(Input::Drop(sender.key), Input::Drop),
            11 => Input::Drop(self.any_key(random, sender)),
            12..=13 => {
                let words = match random.below(3) {
                    0 => any_words(random),
                    1 => self.any_fragment(random),
                    _ => any_of(random, &sender.fragments),
                };
                Input::Fragment {
                    lent: BUFFER,
                    address: self.any_key(random, sender).address,
                    words: damaged(random, &words),
                }
            }
            14 => Input::Fragment {
                lent: BUFFER,
                address: random.choose(&[32, 33, 63, 1 << 31, u32::MAX, sender.key.address | 32]),
                words: any_of(random, &sender.fragments),
            },
            _ => Input::Fragment {
                lent: random.choose(&[0, BUFFER - 1, BUFFER, BUFFER]),
                address: self.any_key(random, sender).address,
                words: match random.below(2) {
                    0 => any_words(random),
                    _ => self.any_fragment(random),
                },
            },
        }
    }

    /// Of any message, the next one but where something goes wrong.
    fn next_fragment(&mut self, random: &mut Random, sender: &Sender) -> Input {
        let most = self.side_by_side.max(self.messages.len());
        let place = random.below(most as u64) as usize;
        let key = random.choose(&self.keys);
        let Some(message) = self.messages.get_mut(place) else {
            self.messages.push(other_message(random, key, sender));
            return self.fragment(self.messages.len() - 1);
        };
        if random.once_in(8) {
            lose_or_repeat(random, message);
        }
        if message.next >= message.fragments.len() {
            *message = other_message(random, key, sender);
        }
        self.fragment(place)
    }

    fn fragment(&mut self, place: usize) -> Input {
        let message = &mut self.messages[place];
        message.next += 1;
        Input::Fragment {
            lent: BUFFER,
            address: message.key.address,
            words: message.fragments[message.next - 1].clone(),
        }
    }

    fn any_fragment(&self, random: &mut Random) -> Vec<u32> {
        let place = random.below(self.messages.len() as u64) as usize;
        any_of(random, &self.messages[place].fragments)
    }

    /// The sender's, another or one that is no key.
    fn any_key(&self, random: &mut Random, sender: &Sender) -> Key {
        let other = random.choose(&self.keys);
        let no_address = Key {
            address: random.choose(&[32, u32::MAX]),
            ..sender.key
        };
        let no_number = Key {
            message_number: random.choose(&[64, u32::MAX]),
            ..sender.key
        };
        random.choose(&[sender.key, sender.key, other, other, no_address, no_number])
    }
}

fn any_of(random: &mut Random, fragments: &[Vec<u32>]) -> Vec<u32> {
    fragments[random.below(fragments.len() as u64) as usize].clone()
}

/// Twelve, no two the same. Many share the address or the message number.
fn other_keys(random: &mut Random, key: Key) -> Vec<Key> {
    let mut keys = Vec::new();
    for quarter in 0..4 {
        let mut address = || (key.address + 8 * quarter + random.between(1, 7) as u32) % 32;
        let (one, another) = (address(), address());
        let mut number = || (key.message_number + 16 * quarter + random.between(1, 15) as u32) % 64;
        keys.extend([
            Key {
                message_number: number(),
                ..key
            },
            Key {
                address: one,
                ..key
            },
            Key {
                address: another,
                message_number: number(),
            },
        ]);
    }
    keys
}

/// Some are the sender's own words for another address.
fn other_message(random: &mut Random, key: Key, sender: &Sender) -> Message {
    if key.message_number == sender.key.message_number && random.once_in(3) {
        return Message {
            key,
            fragments: sender.fragments.clone(),
            next: 0,
        };
    }
    seeded_message(random, key)
}

/// One of those that are open.
pub fn open_key(random: &mut Random, chains: &Chains) -> Option<Key> {
    let open = chains.slots.iter().filter(|record| record.is_open());
    let open: Vec<Key> = open.map(|record| record.key).collect();
    match open.is_empty() {
        true => None,
        false => Some(random.choose(&open)),
    }
}

/// Whether it is no good fragment of the sender's key, and does not drop its chain.
fn leaves_alone(input: &Input, sender: &Sender, chains: &Chains) -> bool {
    match input {
        Input::Fragment { address, words, .. } => !sender.is_key_of(*address, words),
        Input::Drop(key) => *key != sender.key || chains.slot_of(*key).is_none(),
    }
}
