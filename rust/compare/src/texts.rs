//! CAPCODE texts, good and bad: first a fixed round through every letter,
//! range end, digit count and prefix, then seeded ones without end. No text
//! holds an LF, so each can be a line.

use crate::boundaries::{addresses_near_ends, likely_address};
use crate::random::Random;

/// The letters that Table 25 knows.
pub const TYPE_LETTERS: &[u8] = b"ABCDEFGHIJKLUVWXYZ";
/// The longest text that `long_text` makes.
const LONGEST_TEXT: u64 = 200 * 1024;
/// Bytes of a text that are shown where it matters.
const SHOWN_BYTES: usize = 300;
/// A short address and a long one, both accepted.
const GOOD_ADDRESSES: [u64; 2] = [1_234, 2_101_249];

pub struct Texts {
    random: Random,
    near_ends: Vec<u64>,
    fixed: std::vec::IntoIter<Vec<u8>>,
}

impl Texts {
    pub fn new(seed: u64) -> Texts {
        Texts {
            random: Random::new(seed),
            near_ends: addresses_near_ends(),
            fixed: fixed_texts().into_iter(),
        }
    }

    pub fn random(&mut self) -> &mut Random {
        &mut self.random
    }

    pub fn next_text(&mut self) -> Vec<u8> {
        if let Some(text) = self.fixed.next() {
            return text;
        }
        let mut text = match self.random.below(17) {
            0..=4 => self.well_formed(),
            5 => self.cut_short(),
            6..=9 => self.pieced_together(),
            10..=11 => self.damaged(),
            12 => self.with_carriage_returns(),
            13 => self.bytes(24),
            14 => self.bytes(3),
            15 => self.mistyped(),
            _ => self.printable(),
        };
        replace_line_feeds(&mut text);
        text
    }

    /// A text that is accepted.
    pub fn accepted(&mut self) -> Vec<u8> {
        loop {
            let text = self.well_formed();
            if second::capcode::read(&text).is_ok() {
                return text;
            }
        }
    }

    /// A text far longer than any CAPCODE.
    pub fn long_text(&mut self) -> Vec<u8> {
        let length = self.random.between(1_000, LONGEST_TEXT) as usize;
        let mut text = self.well_formed();
        match self.random.below(5) {
            0 => text.resize(length, b'0'),
            1 => text.resize(length, b'\\'),
            2 => text = text.repeat(length / text.len()),
            3 => text.resize(length, b'\r'),
            _ => text.resize_with(length, || self.random.byte()),
        }
        replace_line_feeds(&mut text);
        text
    }

    fn address(&mut self) -> u64 {
        likely_address(&mut self.random, &self.near_ends)
    }

    /// A text in the form of 01; the letter's type, range and offset may
    /// still refuse it.
    fn well_formed(&mut self) -> Vec<u8> {
        let letter = self.random.choose(TYPE_LETTERS);
        let prefix = if letter >= b'U' {
            let frame = self.random.below(128);
            let collapse = self.random.below(6);
            format!("{frame:03}{collapse}")
        } else {
            self.random
                .choose(&["", "", "0", "1", "2", "3", "5"])
                .to_string()
        };
        let address = self.address();
        let width = if address <= 2_031_614 { 7 } else { 10 };
        text_of(&prefix, letter, address, width)
    }

    /// A text that only stops too soon, or a shorter one that is right.
    fn cut_short(&mut self) -> Vec<u8> {
        let mut text = self.well_formed();
        text.truncate(self.random.below(text.len() as u64) as usize);
        text
    }

    /// Every piece right or wrong by itself.
    fn pieced_together(&mut self) -> Vec<u8> {
        let prefix = match self.random.below(8) {
            0..=1 => String::new(),
            2..=3 => format!("{}", self.random.below(10)),
            4..=5 => format!("{:03}{}", self.random.below(150), self.random.below(8)),
            6 => format!("{:04}", self.random.below(10_000)),
            _ => {
                let width = self.random.between(2, 6) as usize;
                format!("{:0width$}", self.random.below(100))
            }
        };
        let letter = match self.random.below(6) {
            0 => b'a' + self.random.below(26) as u8,
            1 => b'A' + self.random.below(26) as u8,
            2 => self.random.byte(),
            _ => self.random.choose(TYPE_LETTERS),
        };
        let width = match self.random.below(4) {
            0 => self.random.below(13) as usize,
            1 => 10,
            _ => 7,
        };
        text_of(&prefix, letter, self.address(), width)
    }

    /// A good text with a byte or two changed, put in or taken out.
    fn damaged(&mut self) -> Vec<u8> {
        let mut text = self.well_formed();
        for _ in 0..self.random.between(1, 2) {
            let place = self.random.below(text.len() as u64) as usize;
            match self.random.below(4) {
                0 => text[place] = self.random.byte(),
                1 => text[place] = b'0' + self.random.below(10) as u8,
                2 => text.insert(place, self.random.byte()),
                _ => {
                    text.remove(place);
                }
            }
        }
        text
    }

    fn with_carriage_returns(&mut self) -> Vec<u8> {
        let mut text = self.well_formed();
        match self.random.below(4) {
            0 => text.push(b'\r'),
            1 => text.insert(0, b'\r'),
            2 => text = vec![b'\r'; self.random.below(4) as usize],
            _ => {
                let place = self.random.below(text.len() as u64) as usize;
                text.insert(place, b'\r');
            }
        }
        text
    }

    /// A good text as a hand may get it wrong: with blanks after it or a blank
    /// within, in lower case, or with O for some of its zeros.
    fn mistyped(&mut self) -> Vec<u8> {
        let mut text = self.well_formed();
        match self.random.below(4) {
            0 => {
                let length = text.len() + self.random.between(1, 8) as usize;
                text.resize_with(length, || self.random.choose(b"  \t"));
            }
            1 => {
                let place = self.random.below(text.len() as u64) as usize;
                text.insert(place, b' ');
            }
            2 => text.make_ascii_lowercase(),
            _ => {
                for zero in text.iter_mut().filter(|byte| **byte == b'0') {
                    *zero = self.random.choose(b"00Oo");
                }
            }
        }
        text
    }

    fn bytes(&mut self, longest: u64) -> Vec<u8> {
        let length = self.random.between(0, longest);
        (0..length).map(|_| self.random.byte()).collect()
    }

    fn printable(&mut self) -> Vec<u8> {
        let length = self.random.between(0, 30);
        (0..length)
            .map(|_| self.random.between(0x20, 0x7E) as u8)
            .collect()
    }
}

/// The text for the reader of a difference; of a long one its two ends.
pub fn shown(text: &[u8]) -> String {
    if text.len() <= SHOWN_BYTES {
        return text.escape_ascii().to_string();
    }
    let half = SHOWN_BYTES / 2;
    format!(
        "{} .. ({} bytes) .. {}",
        text[..half].escape_ascii(),
        text.len(),
        text[text.len() - half..].escape_ascii()
    )
}

fn replace_line_feeds(text: &mut [u8]) {
    for byte in text.iter_mut().filter(|byte| **byte == b'\n') {
        *byte = b'\x0B';
    }
}

/// The number's lowest `width` digits, with zeros in front.
fn decimal(number: u64, width: usize) -> Vec<u8> {
    let digits = format!("{number:0width$}").into_bytes();
    digits[digits.len() - width..].to_vec()
}

fn text_of(prefix: &str, letter: u8, address: u64, width: usize) -> Vec<u8> {
    let mut text = prefix.as_bytes().to_vec();
    text.push(letter);
    text.extend(decimal(address, width));
    text
}

fn every_letter() -> impl Iterator<Item = u8> {
    (b'A'..=b'Z').chain(b'a'..=b'z')
}

fn fixed_texts() -> Vec<Vec<u8>> {
    let mut texts = vec![Vec::new()];
    range_ends(&mut texts);
    digit_counts(&mut texts);
    prefixes(&mut texts);
    frame_fields(&mut texts);
    stray_bytes(&mut texts);
    texts
}

/// Every range end and neighbour with every letter, in both widths, in the
/// forms of both families of letters.
fn range_ends(texts: &mut Vec<Vec<u8>>) {
    for address in addresses_near_ends() {
        for letter in every_letter() {
            for width in [7, 10] {
                texts.push(text_of("", letter, address, width));
                texts.push(text_of("0774", letter, address, width));
            }
        }
    }
}

fn digit_counts(texts: &mut Vec<Vec<u8>>) {
    for address in GOOD_ADDRESSES {
        for letter in every_letter() {
            for width in 0..=12 {
                texts.push(text_of("", letter, address, width));
                texts.push(text_of("1270", letter, address, width));
            }
        }
    }
}

/// No prefix, every single digit, and prefixes of every other length to six.
fn prefixes(texts: &mut Vec<Vec<u8>>) {
    let mut prefixes = vec![String::new()];
    prefixes.extend((0..10).map(|digit| digit.to_string()));
    prefixes.extend((0..10).map(|digit| format!("012{digit}")));
    for width in 2..=6 {
        prefixes.push(format!("{:0width$}", 5));
        prefixes.push(format!("{:0width$}", 33));
    }
    for prefix in prefixes {
        for letter in every_letter() {
            texts.push(text_of(&prefix, letter, GOOD_ADDRESSES[0], 7));
            texts.push(text_of(&prefix, letter, GOOD_ADDRESSES[1], 10));
        }
    }
}

/// Every three frame digits with every collapse digit, the letters U to Z in turn.
fn frame_fields(texts: &mut Vec<Vec<u8>>) {
    let letters = (b'U'..=b'Z').cycle();
    let fields = (0..1_000).flat_map(|frame| (0..10).map(move |collapse| (frame, collapse)));
    for ((frame, collapse), letter) in fields.zip(letters) {
        let prefix = format!("{frame:03}{collapse}");
        texts.push(text_of(&prefix, letter, GOOD_ADDRESSES[0], 7));
    }
}

/// Each byte but LF in each place of a good text of either family.
fn stray_bytes(texts: &mut Vec<Vec<u8>>) {
    for good in [&b"E0001234"[..], b"0774Y0002101249"] {
        for place in 0..good.len() {
            for byte in (0..=u8::MAX).filter(|byte| *byte != b'\n') {
                let mut text = good.to_vec();
                text[place] = byte;
                texts.push(text);
            }
        }
    }
}

#[cfg(test)]
mod tests {
    use super::*;

    #[test]
    fn no_text_holds_a_line_feed() {
        let mut texts = Texts::new(1);
        for _ in 0..60_000 {
            assert!(!texts.next_text().contains(&b'\n'));
        }
        assert!(!texts.long_text().contains(&b'\n'));
    }

    /// The lines that are compared unless told otherwise count on it.
    #[test]
    fn the_fixed_texts_are_fewer_than_50_000() {
        assert!(fixed_texts().len() < 50_000);
    }

    #[test]
    fn one_seed_gives_one_run() {
        let (mut one, mut other) = (Texts::new(7), Texts::new(7));
        for _ in 0..60_000 {
            assert_eq!(one.next_text(), other.next_text());
        }
    }
}
