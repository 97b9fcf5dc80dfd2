//! The sender: pages as batches of words, for what is to be read.
//!
//! "A page goes: its address word in the frame of its address's lowest three bits, its
//! message words right after it (with a sync word before each 16 words), and then an
//! address word or the idle word."

use super::text::{characters_of, NUMERIC_BITS, NUMERIC_FILL, TEXT_BITS};
use super::word::{sent_word, turned, ADDRESS_BITS, FUNCTION_BITS, IDLE, MESSAGE_BITS, SYNC};
use crate::refusal::Refusal;

/// A batch is a sync word and 16 words after it, two to a frame.
const BATCH: usize = 17;
const FRAME: usize = 2;
const FRAMES: u32 = 8;

/// A page as it is to be sent.
#[derive(Clone, Debug, PartialEq, Eq)]
pub struct SentPage {
    /// 21 bits, of which the lowest three are the frame.
    pub address: u32,
    /// 2 bits.
    pub function: u32,
    /// The message bits of each word, the first sent bit the lowest.
    pub words: Vec<u32>,
}

/// "Address word: bits 30..13 are the upper 18 bits of the 21-bit address, bits 12..11 the
/// function (0..3)."
pub fn address_word(address: u32, function: u32) -> u32 {
    let upper = address / FRAMES % (1 << ADDRESS_BITS);
    let function = function % (1 << FUNCTION_BITS);
    sent_word(upper << FUNCTION_BITS | function)
}

/// "Message word: bits 30..11 are 20 message bits, of which bit 30 is sent first." The
/// first sent bit is the lowest of the number.
pub fn message_word(bits: u32) -> u32 {
    sent_word(1 << MESSAGE_BITS | turned(bits))
}

/// The words of a numeric page: "a numeric page is filled with spaces up to the end of its
/// last word". A character that is not in the set of the kind is refused, and a kind that
/// is not numeric.
pub fn numeric_words(kind: u32, text: &[u8]) -> Result<Vec<u32>, Refusal> {
    let by_code = characters_of(kind).ok_or(Refusal::Packet)?;
    let in_a_word = MESSAGE_BITS as usize / NUMERIC_BITS;
    let mut row = Vec::new();
    let mut filled = text.to_vec();
    filled.resize(text.len().next_multiple_of(in_a_word), NUMERIC_FILL);
    for character in filled {
        let code = by_code.iter().position(|other| *other == character);
        let code = code.ok_or(Refusal::Character)?;
        push_bits(&mut row, code, NUMERIC_BITS);
    }
    Ok(words_of(&row))
}

/// The words of a text, which is filled with 0 bits. A character over 7FH is refused.
pub fn text_words(text: &[u8]) -> Result<Vec<u32>, Refusal> {
    let mut row = Vec::new();
    for character in text {
        if *character > 0x7F {
            return Err(Refusal::Character);
        }
        push_bits(&mut row, usize::from(*character), TEXT_BITS);
    }
    Ok(words_of(&row))
}

/// Adds the lowest bits of a number, the lowest first.
fn push_bits(row: &mut Vec<bool>, number: usize, width: usize) {
    for place in 0..width {
        row.push(number >> place & 1 == 1);
    }
}

/// The row divided into words, each with its first bit the lowest. What is missing of the
/// last one is 0.
fn words_of(row: &[bool]) -> Vec<u32> {
    let mut words = Vec::new();
    for bits in row.chunks(MESSAGE_BITS as usize) {
        let from_highest = bits.iter().rev();
        words.push(from_highest.fold(0, |word, bit| 2 * word + u32::from(*bit)));
    }
    words
}

/// What was sent so far.
#[derive(Clone, Debug, Default)]
pub struct Sender {
    words: Vec<u32>,
}

impl Sender {
    /// Sends a word, after a sync word where a batch begins.
    pub fn send(&mut self, word: u32) {
        if self.place_in_batch() == 0 {
            self.words.push(SYNC);
        }
        self.words.push(word);
    }

    /// How many words of its batch were sent, the sync word with them; 0 after a whole one.
    fn place_in_batch(&self) -> usize {
        self.words.len() % BATCH
    }

    /// The frame in which the next word would stand.
    pub fn next_frame(&self) -> u32 {
        let after_sync = self.place_in_batch().saturating_sub(1);
        (after_sync / FRAME) as u32
    }

    /// Sends a page, after idle words up to its frame.
    pub fn send_page(&mut self, page: &SentPage) {
        while self.next_frame() != page.address % FRAMES {
            self.send(IDLE);
        }
        self.send(address_word(page.address, page.function));
        for bits in &page.words {
            self.send(message_word(*bits));
        }
    }

    /// Ends with an idle word and as many more as fill its batch.
    pub fn finish(mut self) -> Vec<u32> {
        self.send(IDLE);
        while self.place_in_batch() != 0 {
            self.send(IDLE);
        }
        self.words
    }
}

/// All that is sent for these pages.
pub fn batches(pages: &[SentPage]) -> Vec<u32> {
    let mut sender = Sender::default();
    for page in pages {
        sender.send_page(page);
    }
    sender.finish()
}

#[cfg(test)]
mod tests {
    use super::super::reader::{Ended, Heard, Reader};
    use super::super::text::{self, CHINESE_NUMERIC, SEVEN_BIT, STANDARD_NUMERIC};
    use super::*;

    /// Worked out by hand in the tests of `word`.
    const ADDRESS_1234567_3: u32 = 0x4B5A_1A25;
    const MESSAGE_0417: u32 = 0x8147_1A86;

    fn page(address: u32, function: u32, words: Vec<u32>) -> SentPage {
        SentPage {
            address,
            function,
            words,
        }
    }

    #[test]
    fn words_by_hand() {
        assert_eq!(address_word(1_234_567, 3), ADDRESS_1234567_3);
        assert_eq!(message_word(0xC_7140), MESSAGE_0417);
        for kind in [STANDARD_NUMERIC, CHINESE_NUMERIC] {
            assert_eq!(numeric_words(kind, b"0417"), Ok(vec![0xC_7140]));
            assert_eq!(numeric_words(kind, b""), Ok(vec![]));
            let two_words = Ok(vec![0x0_0000, 0xC_CCC1]);
            assert_eq!(numeric_words(kind, b"000001"), two_words);
        }
        assert_eq!(text_words(b"Bay"), Ok(vec![0xE_70C2, 1]));
        assert_eq!(text_words(b""), Ok(vec![]));
    }

    #[test]
    fn what_is_not_sent() {
        let refused = Err(Refusal::Character);
        assert_eq!(numeric_words(STANDARD_NUMERIC, b"04A"), refused);
        assert_eq!(numeric_words(CHINESE_NUMERIC, b"04-"), refused);
        assert_eq!(numeric_words(SEVEN_BIT, b"04"), Err(Refusal::Packet));
        assert_eq!(text_words(&[0x80]), refused);
    }

    /// Frame 7 has the last two places of a batch. The message words follow the address
    /// word at once, so that the second of them is the first word of the next batch.
    #[test]
    fn a_page_over_the_end_of_a_batch() {
        let sent = batches(&[page(1_234_567, 3, vec![0xC_7140; 2])]);
        let mut expected = vec![SYNC];
        expected.extend([IDLE; 14]);
        expected.extend([ADDRESS_1234567_3, MESSAGE_0417, SYNC, MESSAGE_0417]);
        expected.extend([IDLE; 15]);
        assert_eq!(sent, expected);
    }

    /// Both places of a frame may have an address word, and a page may have none but that.
    #[test]
    fn pages_of_one_frame() {
        let tone = page(8, 0, vec![]);
        let sent = batches(&[tone.clone(), tone.clone(), tone]);
        let word = address_word(8, 0);
        assert_eq!(sent[..4], [SYNC, word, word, IDLE]);
        assert_eq!(sent[17..20], [SYNC, word, IDLE]);
        assert_eq!(sent.len(), 34);
        assert_eq!(batches(&[]), [&[SYNC][..], &[IDLE; 16]].concat());
    }

    /// The pages that end, each with its words, where nothing else is told.
    fn received(words: &[u32]) -> Vec<(Ended, Vec<u32>)> {
        let mut reader = Reader::default();
        let mut lent = [0; 50];
        let mut pages = Vec::new();
        let mut rest = words;
        while !rest.is_empty() {
            let Heard { told, taken } = reader.hear(rest, &mut lent);
            assert_eq!(told.refusal, None);
            if let Some(ended) = told.ended {
                pages.push((ended, lent[..ended.words].to_vec()));
            }
            rest = &rest[taken..];
        }
        assert_eq!(reader.close(), None);
        pages
    }

    /// Two bits of every word are wrong.
    #[test]
    fn what_is_sent_is_received() {
        let list = b"Bay 12, shelf 4: 2 boxes; bay 13, shelf 1: 40 boxes.";
        let pages = [
            page(0, 0, numeric_words(STANDARD_NUMERIC, b"0417-[3]").unwrap()),
            page(2_097_151, 3, text_words(list).unwrap()),
            page(1_234_567, 1, vec![]),
            page(12, 2, numeric_words(CHINESE_NUMERIC, b"00E0").unwrap()),
        ];
        let mut words = batches(&pages);
        for word in &mut words {
            *word ^= 0x0002_0040;
        }
        let received = received(&words);
        assert_eq!(received.len(), pages.len());
        for (page, (ended, words)) in pages.iter().zip(&received) {
            let told = Ended {
                refusal: None,
                address: page.address,
                function: page.function,
                words: page.words.len(),
                mended: 2 + 2 * page.words.len() as u32,
            };
            assert_eq!((ended, words), (&told, &page.words));
        }
        let mut lent = [0; 60];
        let read = text::read(SEVEN_BIT, &received[1].1, &mut lent).unwrap();
        assert_eq!(&lent[..read.characters - read.fill_at_end], list);
    }
}
