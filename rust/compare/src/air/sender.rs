//! The sender: a text, what it is known by on the air, and the fragments that it is cut
//! into.

use second::chain::Key;
use second::fragment::{self, FragmentRead, Marks, ETX, LONGEST_TEXT, SIZES};

use crate::fragments::cutting::{allowed_size, fitting_marks, seeded_text, Cut, MOST_WORDS};
use crate::fragments::rows::CELLS_IN_WORD;
use crate::random::Random;

#[derive(Clone, Debug)]
pub struct Sender {
    pub key: Key,
    pub text: Vec<u8>,
    /// The words of each.
    pub fragments: Vec<Vec<u32>>,
}

impl Sender {
    /// With the request that the library cuts the text, which must give the same
    /// fragments.
    pub fn new(address: u32, marks: Marks, text: Vec<u8>, largest: usize) -> (Sender, Cut) {
        let mut row = [0; MOST_WORDS];
        let cut = fragment::cut(&text, marks, largest, &mut row).expect("all of it is right");
        let fragments = row[..cut.words].chunks(largest);
        let sender = Sender {
            key: Key {
                address,
                message_number: marks.message_number,
            },
            text: text.clone(),
            fragments: fragments.map(<[u32]>::to_vec).collect(),
        };
        let request = Cut {
            text,
            marks,
            largest,
            lent: vec![0; cut.words],
        };
        (sender, request)
    }

    /// The number of the last fragment; the first one's is 0.
    pub fn last(&self) -> usize {
        self.fragments.len() - 1
    }

    /// Whether they are a good fragment of the sender's address and message number.
    pub fn is_key_of(&self, address: u32, words: &[u32]) -> bool {
        let is_its_number = |read: FragmentRead| {
            let number = read.heading.message_number;
            number == self.key.message_number
        };
        address == self.key.address && fragment::heading(words).is_ok_and(is_its_number)
    }
}

pub fn seeded_sender(random: &mut Random) -> (Sender, Cut) {
    let address = match random.below(4) {
        0 => random.choose(&[0, 15, 16, 31]),
        _ => random.below(32) as u32,
    };
    let (length, largest) = seeded_length(random);
    let text = match random.below(6) {
        0..=1 => text_without_sum(random, length),
        // Many of its fragments are the same words.
        2 => vec![random.choose(b"\0 0~"); length],
        _ => seeded_text(random, length),
    };
    Sender::new(address, fitting_marks(random), text, largest)
}

/// The length of a text, and the largest size of its fragments. Most are a few small
/// fragments, some have all the characters that there may be, and few have very many
/// fragments.
fn seeded_length(random: &mut Random) -> (usize, usize) {
    let most = LONGEST_TEXT as u64;
    match random.below(64) {
        0..=2 => (0, allowed_size(random)),
        3..=7 => (LONGEST_TEXT, random.between(60, 85) as usize),
        8..=9 => {
            let largest = random.between(30, *SIZES.end() as u64);
            (random.between(0, most) as usize, largest as usize)
        }
        10 if random.once_in(2) => {
            let largest = random.between(2, 8);
            (random.between(0, most) as usize, largest as usize)
        }
        _ => {
            let fragments = random.choose(&[1, 1, 2, 2, 3, 4, 5, 6, 7, 8, 12]);
            let largest = random.between(2, 6) as usize;
            // S is one of the characters of the first.
            let in_each = CELLS_IN_WORD * (largest - 1);
            let least = (fragments - 1) * in_each;
            let length = random.between(least as u64, (least + in_each - 1) as u64);
            (length as usize, largest)
        }
    }
}

/// None of its words adds anything to the signature, so that F alone tells its
/// fragments from each other.
fn text_without_sum(random: &mut Random, length: usize) -> Vec<u8> {
    // S stands in the first word.
    let mut text = word_without_sum(random, CELLS_IN_WORD - 1);
    while text.len() < length {
        text.extend(word_without_sum(random, CELLS_IN_WORD));
    }
    text.truncate(length);
    text
}

fn word_without_sum(random: &mut Random, characters: usize) -> Vec<u8> {
    loop {
        let mut word: Vec<u8> = (1..characters).map(|_| random.byte() & 0x7F).collect();
        let sum: u32 = word.iter().copied().map(u32::from).sum();
        word.push((sum.wrapping_neg() & 0x7F) as u8);
        if !word.contains(&ETX) {
            return word;
        }
    }
}
