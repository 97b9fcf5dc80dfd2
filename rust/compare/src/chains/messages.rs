//! Messages on their way: fragments as they are cut, and others by hand.

use second::chain::Key;
use second::fragment::{self, Heading, Marks, ETX, FIRST, LONGEST_TEXT, MOST_CHARACTERS};

use crate::fragments::cutting::{seeded_text, MOST_WORDS};
use crate::random::Random;

/// The fragments of one message, and which of them comes next.
pub struct Message {
    pub key: Key,
    pub fragments: Vec<Vec<u32>>,
    pub next: usize,
}

pub fn seeded_message(random: &mut Random, key: Key) -> Message {
    let fragments = match random.below(16) {
        0..=6 => {
            let length = random.between(0, 40);
            let largest = random.between(2, 6);
            cut(random, key, length, largest)
        }
        7..=8 => {
            let length = random.between(0, LONGEST_TEXT as u64 + 8);
            let largest = random.between(60, 85);
            cut(random, key, length.min(LONGEST_TEXT as u64), largest)
        }
        9..=10 => {
            let length = random.between(0, 20);
            cut(random, key, length, 85)
        }
        11..=13 => {
            let parts = random.choose(&[1, 1, 2, 3, 5]);
            let parts = (0..parts).map(|_| any_characters(random)).collect();
            by_hand(random, key, parts)
        }
        _ => {
            let length = random.between(LONGEST_TEXT as u64 - 2, LONGEST_TEXT as u64 + 4);
            let parts = full_parts(&seeded_text(random, length as usize));
            by_hand(random, key, parts)
        }
    };
    Message {
        key,
        fragments,
        next: 0,
    }
}

/// As the second program cuts it.
fn cut(random: &mut Random, key: Key, length: u64, largest: u64) -> Vec<Vec<u32>> {
    let text = seeded_text(random, length as usize);
    let marks = Marks {
        message_number: key.message_number,
        retrieval: random.below(2) as u32,
        mail_drop: random.below(2) as u32,
    };
    let mut row = [0; MOST_WORDS];
    let cut = fragment::cut(&text, marks, largest as usize, &mut row);
    let words = cut.expect("all of it is right").words;
    let fragments = row[..words].chunks(largest as usize);
    fragments.map(<[u32]>::to_vec).collect()
}

/// A few characters, ETX among them or nothing but it.
fn any_characters(random: &mut Random) -> Vec<u8> {
    let etx_once_in = random.choose(&[1, 2, 8, 1_000]);
    let length = random.between(0, 12);
    let character = |_| match random.once_in(etx_once_in) {
        true => ETX,
        false => random.below(0x80) as u8,
    };
    (0..length).map(character).collect()
}

/// A text for largest fragments, all full but the last, whatever its length. In the
/// first one S is in the place of a character.
pub fn full_parts(text: &[u8]) -> Vec<Vec<u8>> {
    let (first, rest) = text.split_at(text.len().min(MOST_CHARACTERS - 1));
    let later = rest.chunks(MOST_CHARACTERS).map(<[u8]>::to_vec);
    [first.to_vec()].into_iter().chain(later).collect()
}

/// Fragments of these characters. Of every fourth message the signature is wrong.
fn by_hand(random: &mut Random, key: Key, parts: Vec<Vec<u8>>) -> Vec<Vec<u32>> {
    let marks = |_: &Vec<u8>| (random.below(2) as u32, random.below(2) as u32);
    let marks: Vec<(u32, u32)> = parts.iter().map(marks).collect();
    let wrong = match random.once_in(4) {
        true => random.between(1, 127) as u32,
        false => 0,
    };
    signed(key.message_number, &parts, &marks, wrong)
}

/// Fragments of these characters, with R and M, or U and V, as they are given. The
/// bits that are set in `wrong` are turned in the signature.
pub fn signed(
    message_number: u32,
    parts: &[Vec<u8>],
    marks: &[(u32, u32)],
    wrong: u32,
) -> Vec<Vec<u32>> {
    let heading = |place: usize| Heading {
        continued: u32::from(place + 1 < parts.len()),
        fragment_number: match place {
            0 => FIRST,
            later => (later as u32 - 1) % 3,
        },
        message_number,
        retrieval: marks[place].0,
        mail_drop: marks[place].1,
        ..Heading::default()
    };
    let unsigned = parts.iter().enumerate();
    let unsigned = unsigned.map(|(place, part)| fragment::build(&heading(place), part));
    let mut fragments: Vec<Vec<u32>> = unsigned.collect();
    let sum: u32 = fragments.iter().map(|words| sum_of(words)).sum();
    let first = Heading {
        signature: (127 - sum % 128) ^ wrong,
        ..heading(0)
    };
    fragments[0] = fragment::build(&first, &parts[0]);
    fragments
}

fn sum_of(words: &[u32]) -> u32 {
    let read = fragment::heading(words).expect("it was built right");
    read.heading.sum
}
