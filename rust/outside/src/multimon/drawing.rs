//! Transmissions: pages sent in batches, and the words of them that arrive.

use second::pocsag::sender::{address_word, numeric_words, text_words, Sender, SentPage};
use second::pocsag::text::STANDARD_NUMERIC;
use second::pocsag::word::{Meaning, IDLE};

use super::pages::Page;
use super::trouble::{Arrived, Trouble};
use super::ways::LONGEST;
use crate::random::Random;

const ADDRESSES: u64 = 1 << 21;
const FRAMES: u64 = 8;
const FUNCTIONS: u64 = 4;
const BATCH: u64 = 16;

/// What a numeric page is drawn from: mostly digits, and the other six characters.
const NUMERIC: &[u8; 32] = b"01234567890123456789012345?U -][";
const PRINTABLE: (u64, u64) = (0x20, 0x7E);

/// Bits a second at which POCSAG is sent.
const RATES: [u32; 8] = [1200, 1200, 1200, 1200, 1200, 1200, 512, 2400];

/// One in so many transmissions has a page that is about as long as multimon-ng has room for.
const LONG_ONCE_IN: u64 = 40;

pub struct Transmission {
    pub trouble: Trouble,
    pub rate: u32,
    sent: Vec<SentPage>,
    /// The place of each sent page's address word among the sent words.
    sent_places: Vec<usize>,
    /// For each word that arrived, the place of the one that was sent.
    origins: Vec<usize>,
    /// The words that arrived.
    pub words: Vec<u32>,
}

impl Transmission {
    /// The transmission of that number: the troubles come in turn.
    pub fn drawn(random: &mut Random, number: u64) -> Transmission {
        let trouble = Trouble::of(number);
        let (sent, words) = sent_words(random);
        let sent_places = address_places(&words, &sent);
        let Arrived { origins, words } = trouble.arrived(random, &words);
        Transmission {
            trouble,
            rate: random.choose(&RATES),
            sent,
            sent_places,
            origins,
            words,
        }
    }

    pub fn sent(&self) -> usize {
        self.sent.len()
    }

    /// Whether this is a page that was sent, and is read in the place at which it was sent.
    pub fn is_as_sent(&self, page: &Page) -> bool {
        let origin = self.origins[page.place];
        let number = self.sent_places.iter().position(|place| *place == origin);
        number.is_some_and(|number| {
            let sent = &self.sent[number];
            (sent.address, sent.function, &sent.words) == (page.address, page.function, &page.words)
        })
    }
}

/// Some pages, each after idle words up to its frame and now and then more, and all their words.
fn sent_words(random: &mut Random) -> (Vec<SentPage>, Vec<u32>) {
    let mut sender = Sender::default();
    let mut pages = Vec::new();
    let is_long = random.once_in(LONG_ONCE_IN);
    for number in 0..random.choose(&[1, 2, 3, 3, 4, 5, 8]) {
        if random.once_in(5) {
            for _ in 0..random.between(1, BATCH) {
                sender.send(IDLE);
            }
        }
        let page = drawn_page(random, sender.next_frame(), is_long && number == 0);
        sender.send_page(&page);
        pages.push(page);
    }
    (pages, sender.finish())
}

/// The places of the address words, one for each page, in the words that were sent.
fn address_places(words: &[u32], pages: &[SentPage]) -> Vec<usize> {
    let is_address = |word: u32| matches!(Meaning::of(word), Meaning::Address { .. });
    let places = (0..words.len()).filter(|place| is_address(words[*place]));
    let places: Vec<usize> = places.collect();
    assert_eq!(places.len(), pages.len());
    places
}

fn drawn_page(random: &mut Random, next_frame: u32, is_long: bool) -> SentPage {
    let (function, words) = drawn_message(random, is_long);
    loop {
        let address = drawn_address(random, next_frame);
        let word = address_word(address, function);
        // An address whose word is the sync or the idle word cannot be called.
        if matches!(Meaning::of(word), Meaning::Address { .. }) {
            return SentPage {
                address,
                function,
                words,
            };
        }
    }
}

/// Over the whole range, and now and then at an end of it. Every other page stands in the next
/// frame, so that it follows what was sent before.
fn drawn_address(random: &mut Random, next_frame: u32) -> u32 {
    let address = match random.below(16) {
        0 => random.below(2 * FRAMES),
        1 => ADDRESSES - random.between(1, 2 * FRAMES),
        _ => random.below(ADDRESSES),
    };
    let address = address as u32;
    match random.once_in(2) {
        true => address / FRAMES as u32 * FRAMES as u32 + next_frame,
        false => address,
    }
}

/// A numeric page with function 0, a text with function 3 or now and then 1 or 2, or a tone with
/// any function.
fn drawn_message(random: &mut Random, is_long: bool) -> (u32, Vec<u32>) {
    let kind = random.below(10);
    if kind < 4 || is_long {
        let length = match is_long {
            true => random.between(5 * LONGEST as u64 - 30, 5 * LONGEST as u64 + 60),
            false => drawn_length(random, 20, 90),
        };
        let text: Vec<u8> = (0..length).map(|_| random.choose(NUMERIC)).collect();
        let words = numeric_words(STANDARD_NUMERIC, &text);
        return (0, words.expect("the set has these characters"));
    }
    if kind < 8 {
        let function = random.choose(&[3, 3, 3, 3, 3, 1, 2]);
        let words = text_words(&drawn_text(random));
        return (function, words.expect("seven bits are a character"));
    }
    (random.below(FUNCTIONS) as u32, Vec::new())
}

/// Mostly what can be printed, with ETX or EOT after it now and then; else any seven bits.
fn drawn_text(random: &mut Random) -> Vec<u8> {
    let length = drawn_length(random, 40, 170);
    let is_any = random.once_in(5);
    let mut text: Vec<u8> = (0..length)
        .map(|_| match is_any {
            true => random.byte() & 0x7F,
            false => random.between(PRINTABLE.0, PRINTABLE.1) as u8,
        })
        .collect();
    text.extend_from_slice(random.choose::<&[u8]>(&[b"", b"", b"\x03", b"\x04", b"\0\x04"]));
    text
}

/// One or more characters, mostly few of them.
fn drawn_length(random: &mut Random, few: u64, many: u64) -> u64 {
    let longest = random.choose(&[few, few, few, many]);
    random.between(1, longest)
}

#[cfg(test)]
mod tests {
    use super::super::pages::told_by_second;
    use super::*;

    /// Where nothing goes wrong every page is handed out as it was sent.
    #[test]
    fn pages_as_they_were_sent() {
        let mut random = Random::new(1);
        let mut whole = 0;
        for number in 0..400 {
            let transmission = Transmission::drawn(&mut random, number);
            if transmission.trouble != Trouble::None {
                continue;
            }
            let pages = told_by_second(&transmission.words).handed_out();
            assert_eq!(pages.len(), transmission.sent());
            assert!(pages.iter().all(|page| transmission.is_as_sent(page)));
            let mut other = pages[0].clone();
            other.function ^= 1;
            assert!(!transmission.is_as_sent(&other));
            whole += 1;
        }
        assert!(whole > 30);
    }
}
