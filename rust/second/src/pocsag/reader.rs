//! The reader: words of batches one after the other, and the pages that they bring.
//!
//! What is known from one word to the next stands in the reader's numbers, and the
//! message words of its open page at the start of a lent memory.

use super::mending::{mend, Mend, Mended};
use super::word::{Meaning, SYNC};
use crate::refusal::Refusal;

/// How many words stand in a batch after its sync word, and how many in a frame.
const BATCH: u32 = 16;
const FRAME: u32 = 2;
const FRAMES: u32 = BATCH / FRAME;

/// What is known from one word to the next. "Zeros are a fresh start. Every state that is
/// handed back has a meaning; none is refused."
#[derive(Clone, Copy, Debug, Default, PartialEq, Eq)]
pub struct Reader {
    /// "How many words of the batch are still to come, 1 to 16; 0 (or any number over
    /// 16): a sync word must come next."
    pub left: u32,
    pub page: Page,
}

/// The open page, where one is open.
#[derive(Clone, Copy, Debug, Default, PartialEq, Eq)]
pub struct Page {
    /// "Not 0 while a page is open (written as 1)."
    pub is_open: u32,
    pub address: u32,
    pub function: u32,
    /// "How many message words have come whole so far, which lie at the start of the lent
    /// memory."
    pub words: usize,
    /// "How many bits were mended in its address and message words, counted up to
    /// 4294967295 and no further."
    pub mended: u32,
    /// "0: none; 15: it became longer than the lent memory; any other number, written as
    /// 25: a word of it was beyond repair."
    pub fault: u32,
}

const NO_FAULT: u32 = 0;
const TOO_LONG: u32 = Refusal::TooLong as u32;
const BEYOND_REPAIR: u32 = Refusal::BeyondRepair as u32;

/// What is told of a page that ended.
#[derive(Clone, Copy, Debug, PartialEq, Eq)]
pub struct Ended {
    /// None where the page is handed out, and its words are the first of the memory.
    pub refusal: Option<Refusal>,
    pub address: u32,
    pub function: u32,
    pub words: usize,
    pub mended: u32,
}

/// How a page ends.
#[derive(Clone, Copy, PartialEq, Eq)]
enum Ending {
    /// By an address word or an idle word after it.
    Heard,
    /// By a sync word that is missing or too early, or by the close.
    Unheard,
}

/// What is told of one word.
#[derive(Clone, Copy, Debug, Default, PartialEq, Eq)]
pub struct Told {
    pub refusal: Option<Refusal>,
    /// The page that ended by it.
    pub ended: Option<Ended>,
}

/// What is told of some words.
#[derive(Clone, Copy, Debug, Default, PartialEq, Eq)]
pub struct Heard {
    /// Of the last word that was taken.
    pub told: Told,
    pub taken: usize,
}

impl Page {
    fn is_open(&self) -> bool {
        self.is_open != 0
    }

    /// "The number is the first that applies: 25 if the fault is neither 0 nor 15; 26 if
    /// it ended unheard; 15 if the fault is 15 or words is over the length of the lent
    /// memory; else 0."
    fn refusal(&self, ending: Ending, lent: usize) -> Option<Refusal> {
        if self.fault != NO_FAULT && self.fault != TOO_LONG {
            return Some(Refusal::BeyondRepair);
        }
        if ending == Ending::Unheard {
            return Some(Refusal::NoSync);
        }
        let is_too_long = self.fault == TOO_LONG || self.words > lent;
        is_too_long.then_some(Refusal::TooLong)
    }

    /// What is told where it ends, if it is open.
    fn ended(&self, ending: Ending, lent: usize) -> Option<Ended> {
        let ended = Ended {
            refusal: self.refusal(ending, lent),
            address: self.address,
            function: self.function,
            words: self.words,
            mended: self.mended,
        };
        self.is_open().then_some(ended)
    }

    /// A message word comes to it while it is open. "Where the fault is not 0 nothing
    /// else changes."
    fn take(&mut self, bits: u32, changed: u32, lent: &mut [u32]) {
        if self.fault != NO_FAULT {
            return;
        }
        match lent.get_mut(self.words) {
            Some(place) => {
                *place = bits;
                self.words += 1;
                self.mended = self.mended.saturating_add(changed);
            }
            None => self.fault = TOO_LONG,
        }
    }
}

impl Reader {
    /// "Takes words one after the other, up to and with the first that has something to
    /// tell: a number that is not 0, or a page that ended."
    pub fn hear(&mut self, words: &[u32], lent: &mut [u32]) -> Heard {
        self.hear_mended(mend, words, lent)
    }

    /// As `hear`, with the words mended in another way.
    pub fn hear_mended(&mut self, mend: Mend, words: &[u32], lent: &mut [u32]) -> Heard {
        for (before, word) in words.iter().enumerate() {
            let told = self.take(mend(*word), lent);
            if told != Told::default() {
                let taken = before + 1;
                return Heard { told, taken };
            }
        }
        Heard {
            told: Told::default(),
            taken: words.len(),
        }
    }

    /// "An open page ends unheard, and is told like that; where none is open is_ended is
    /// 0." It is never handed out then, so that the length of the memory does not matter.
    pub fn close(&self) -> Option<Ended> {
        self.page.ended(Ending::Unheard, 0)
    }

    /// "One word does the following. First it is mended."
    fn take(&mut self, mended: Result<Mended, Refusal>, lent: &mut [u32]) -> Told {
        match (self.left, mended) {
            (1..=BATCH, Ok(mended)) => self.take_in_batch(mended, lent),
            (1..=BATCH, Err(refusal)) => self.take_unmended(refusal),
            (_, Ok(Mended { word: SYNC, .. })) => {
                self.left = BATCH;
                Told::default()
            }
            (_, Ok(_)) => self.lose_sync(Refusal::NoSync, lent.len()),
            (_, Err(refusal)) => self.lose_sync(refusal, lent.len()),
        }
    }

    /// "It is 25 or another word: the word is told 25, or 26 where it was mended; left
    /// becomes 0; an open page ends unheard."
    fn lose_sync(&mut self, refusal: Refusal, lent: usize) -> Told {
        self.left = 0;
        Told {
            refusal: Some(refusal),
            ended: self.end_page(Ending::Unheard, lent),
        }
    }

    /// "The word is told 25 and takes its place (left falls by one). An open page with
    /// fault 0 gets fault 25."
    fn take_unmended(&mut self, refusal: Refusal) -> Told {
        self.left -= 1;
        if self.page.is_open() && self.page.fault == NO_FAULT {
            self.page.fault = BEYOND_REPAIR;
        }
        Told {
            refusal: Some(refusal),
            ended: None,
        }
    }

    /// A word that was mended, within a batch.
    fn take_in_batch(&mut self, mended: Mended, lent: &mut [u32]) -> Told {
        let frame = (BATCH - self.left) / FRAME;
        self.left -= 1;
        match Meaning::of(mended.word) {
            Meaning::Sync => {
                self.left = BATCH;
                self.tell_ended(Ending::Unheard, lent.len())
            }
            Meaning::Idle => self.tell_ended(Ending::Heard, lent.len()),
            Meaning::Address { upper, function } => {
                let told = self.tell_ended(Ending::Heard, lent.len());
                self.page = Page {
                    is_open: 1,
                    address: FRAMES * upper + frame,
                    function,
                    mended: mended.changed,
                    ..Page::default()
                };
                told
            }
            Meaning::Message { bits } => self.take_message(bits, mended.changed, lent),
        }
    }

    /// "With no page open it is told 17 (word of no call)."
    fn take_message(&mut self, bits: u32, changed: u32, lent: &mut [u32]) -> Told {
        if !self.page.is_open() {
            return Told {
                refusal: Some(Refusal::NoCall),
                ended: None,
            };
        }
        self.page.take(bits, changed, lent);
        Told::default()
    }

    fn tell_ended(&mut self, ending: Ending, lent: usize) -> Told {
        Told {
            refusal: None,
            ended: self.end_page(ending, lent),
        }
    }

    /// After a word that ends a page the fields of the page are zeros, whether or not one
    /// was open.
    fn end_page(&mut self, ending: Ending, lent: usize) -> Option<Ended> {
        let ended = self.page.ended(ending, lent);
        self.page = Page::default();
        ended
    }
}

#[cfg(test)]
mod tests {
    use super::super::sender::{address_word, message_word};
    use super::super::word::IDLE;
    use super::*;

    /// What stands in the lent memory before.
    const BEFORE: u32 = 0xDEAD_BEEF;
    /// Of frame 5: its lowest three bits are 101.
    const ADDRESS: u32 = 8 * 0x1_2345 + 5;

    fn in_batch(left: u32) -> Reader {
        Reader {
            left,
            ..Reader::default()
        }
    }

    /// With a page open that has so many words, and so many words of the batch to come.
    fn with_page(left: u32, words: usize) -> Reader {
        let page = Page {
            is_open: 1,
            address: ADDRESS,
            function: 2,
            words,
            mended: 1,
            fault: 0,
        };
        Reader { left, page }
    }

    fn with_fault(left: u32, words: usize, fault: u32) -> Reader {
        let mut reader = with_page(left, words);
        reader.page.fault = fault;
        reader
    }

    fn ended(refusal: Option<Refusal>, words: usize) -> Option<Ended> {
        Some(Ended {
            refusal,
            address: ADDRESS,
            function: 2,
            words,
            mended: 1,
        })
    }

    fn told(refusal: Option<Refusal>, ended: Option<Ended>) -> Heard {
        Heard {
            told: Told { refusal, ended },
            taken: 1,
        }
    }

    /// One word, with eight places lent.
    #[track_caller]
    fn assert_step(before: Reader, word: u32, expected: Heard, after: Reader) {
        let mut reader = before;
        let mut lent = [BEFORE; 8];
        assert_eq!(reader.hear(&[word], &mut lent), expected);
        assert_eq!(reader, after);
    }

    #[test]
    fn a_sync_word_where_it_must_come() {
        let nothing = told(None, None);
        for left in [0, 17, u32::MAX] {
            assert_step(in_batch(left), SYNC, nothing, in_batch(16));
            assert_step(in_batch(left), SYNC ^ 0x8008, nothing, in_batch(16));
            assert_step(with_page(left, 3), SYNC, nothing, with_page(16, 3));
            let faulty = with_fault(left, 3, 25);
            assert_step(faulty, SYNC, nothing, with_fault(16, 3, 25));
        }
    }

    #[test]
    fn another_word_where_a_sync_word_must_come() {
        let address = address_word(ADDRESS, 0);
        let message = message_word(7);
        for left in [0, 17, u32::MAX] {
            for word in [IDLE, address, message, message ^ 2] {
                let no_sync = told(Some(Refusal::NoSync), None);
                assert_step(in_batch(left), word, no_sync, in_batch(0));
                let unheard = ended(Some(Refusal::NoSync), 3);
                let no_sync = told(Some(Refusal::NoSync), unheard);
                assert_step(with_page(left, 3), word, no_sync, in_batch(0));
            }
            let unheard = ended(Some(Refusal::NoSync), 3);
            let unmended = told(Some(Refusal::BeyondRepair), unheard);
            assert_step(with_page(left, 3), SYNC ^ 1, unmended, in_batch(0));
        }
    }

    #[test]
    fn a_word_beyond_repair_takes_its_place() {
        let unmended = told(Some(Refusal::BeyondRepair), None);
        for left in [1, 9, 16] {
            assert_step(in_batch(left), IDLE ^ 1, unmended, in_batch(left - 1));
            let faulty = with_fault(left - 1, 3, 25);
            assert_step(with_page(left, 3), IDLE ^ 1, unmended, faulty);
            let long = with_fault(left - 1, 3, 15);
            assert_step(with_fault(left, 3, 15), IDLE ^ 1, unmended, long);
            let other = with_fault(left - 1, 3, 7);
            assert_step(with_fault(left, 3, 7), IDLE ^ 1, unmended, other);
        }
    }

    #[test]
    fn a_sync_word_too_early() {
        for left in [1, 9, 16] {
            assert_step(in_batch(left), SYNC, told(None, None), in_batch(16));
            let unheard = told(None, ended(Some(Refusal::NoSync), 3));
            assert_step(with_page(left, 3), SYNC, unheard, in_batch(16));
            assert_step(with_fault(left, 3, 15), SYNC, unheard, in_batch(16));
            let unmended = told(None, ended(Some(Refusal::BeyondRepair), 3));
            assert_step(with_fault(left, 3, 25), SYNC, unmended, in_batch(16));
        }
    }

    #[test]
    fn an_idle_word_ends_a_page() {
        for left in [1, 9, 16] {
            let after = in_batch(left - 1);
            assert_step(in_batch(left), IDLE, told(None, None), after);
            for words in [0, 3, 8] {
                let heard = told(None, ended(None, words));
                assert_step(with_page(left, words), IDLE, heard, after);
            }
            let too_long = told(None, ended(Some(Refusal::TooLong), 9));
            assert_step(with_page(left, 9), IDLE, too_long, after);
            let too_long = told(None, ended(Some(Refusal::TooLong), 3));
            assert_step(with_fault(left, 3, 15), IDLE, too_long, after);
            let unmended = told(None, ended(Some(Refusal::BeyondRepair), 9));
            assert_step(with_fault(left, 9, 25), IDLE, unmended, after);
            assert_step(with_fault(left, 9, 1), IDLE, unmended, after);
        }
    }

    /// With 16 to come it is the first word of frame 0, with 15 the second, and with 1
    /// the second of frame 7.
    #[test]
    fn an_address_word_opens_a_page() {
        for left in 1..=16 {
            let frame = [7, 7, 6, 6, 5, 5, 4, 4, 3, 3, 2, 2, 1, 1, 0, 0][left as usize - 1];
            let page = Page {
                is_open: 1,
                address: 8 * 0x3_FFFF + frame,
                function: 1,
                words: 0,
                mended: 2,
                fault: 0,
            };
            let after = Reader {
                left: left - 1,
                page,
            };
            let word = address_word(8 * 0x3_FFFF, 1) ^ 0x0100_0100;
            assert_step(in_batch(left), word, told(None, None), after);
            let heard = told(None, ended(None, 3));
            assert_step(with_page(left, 3), word, heard, after);
        }
    }

    #[test]
    fn a_message_word_of_no_page() {
        for left in [1, 9, 16] {
            let no_page = told(Some(Refusal::NoCall), None);
            let after = in_batch(left - 1);
            assert_step(in_batch(left), message_word(7), no_page, after);
        }
    }

    #[test]
    fn message_words_are_stored_one_after_the_other() {
        let mut reader = with_page(16, 1);
        let mut lent = [BEFORE; 4];
        let words = [message_word(0xC_7140), message_word(1) ^ 0x11 << 8];
        assert_eq!(reader.hear(&words, &mut lent).taken, 2);
        assert_eq!(lent, [BEFORE, 0xC_7140, 1, BEFORE]);
        assert_eq!((reader.left, reader.page.words), (14, 3));
        assert_eq!((reader.page.mended, reader.page.fault), (3, 0));
    }

    #[test]
    fn a_page_that_is_longer_than_the_memory() {
        let mut reader = with_page(16, 1);
        let mut lent = [BEFORE; 2];
        let words = [message_word(5); 3];
        assert_eq!(reader.hear(&words, &mut lent).taken, 3);
        assert_eq!(lent, [BEFORE, 5]);
        assert_eq!(reader, with_fault(13, 2, 15));
        let heard = reader.hear(&[IDLE], &mut lent);
        assert_eq!(heard, told(None, ended(Some(Refusal::TooLong), 2)));
        // A memory that became shorter than the page has no room for more.
        let mut reader = with_page(16, 9);
        assert_eq!(reader.hear(&words[..1], &mut lent).taken, 1);
        assert_eq!(reader, with_fault(15, 9, 15));
    }

    #[test]
    fn a_page_with_a_fault_takes_no_more() {
        for fault in [15, 25, 1, u32::MAX] {
            let after = with_fault(8, 3, fault);
            let before = with_fault(9, 3, fault);
            assert_step(before, message_word(7) ^ 4, told(None, None), after);
        }
    }

    #[test]
    fn mended_bits_are_counted_up_to_the_largest_number() {
        let mut reader = with_page(16, 0);
        reader.page.mended = u32::MAX - 1;
        let words = [message_word(5) ^ 6, message_word(5) ^ 6];
        reader.hear(&words, &mut [BEFORE; 2]);
        assert_eq!((reader.page.words, reader.page.mended), (2, u32::MAX));
    }

    /// Where no page is open, what stands in its place stays until a word that would end one.
    #[test]
    fn what_stands_in_the_place_of_no_page() {
        let closed = |left| {
            let mut reader = with_fault(left, 9, 3);
            reader.page.is_open = 0;
            reader
        };
        assert_step(closed(9), IDLE, told(None, None), in_batch(8));
        assert_step(closed(9), SYNC, told(None, None), in_batch(16));
        assert_step(closed(0), SYNC, told(None, None), closed(16));
        let unmended = told(Some(Refusal::BeyondRepair), None);
        assert_step(closed(9), IDLE ^ 1, unmended, closed(8));
        let no_page = told(Some(Refusal::NoCall), None);
        assert_step(closed(9), message_word(7), no_page, closed(8));
        let no_sync = told(Some(Refusal::NoSync), None);
        assert_step(closed(0), IDLE, no_sync, in_batch(0));
        assert_eq!(closed(9).close(), None);
    }

    /// Any number but 0 says that a page is open, and stays until the page ends.
    #[test]
    fn a_page_that_is_open_by_another_number() {
        let mut before = with_page(9, 3);
        before.page.is_open = 7;
        let after = Reader { left: 8, ..before };
        let mut faulty = after;
        faulty.page.fault = 25;
        let unmended = told(Some(Refusal::BeyondRepair), None);
        assert_step(before, IDLE ^ 1, unmended, faulty);
        let heard = told(None, ended(None, 3));
        assert_step(before, IDLE, heard, in_batch(8));
    }

    /// "The rest of the words is given again."
    #[test]
    fn hearing_stops_where_something_is_told() {
        let words = [SYNC, IDLE, message_word(1), IDLE, IDLE ^ 1, IDLE];
        let mut reader = Reader::default();
        let mut heard = |words: &[u32]| {
            let Heard { told, taken } = reader.hear(words, &mut []);
            (told.refusal, taken)
        };
        assert_eq!(heard(&words), (Some(Refusal::NoCall), 3));
        assert_eq!(heard(&words[3..]), (Some(Refusal::BeyondRepair), 2));
        assert_eq!(heard(&words[5..]), (None, 1));
        assert_eq!(heard(&[]), (None, 0));
    }

    #[test]
    fn the_close_ends_a_page_unheard() {
        assert_eq!(Reader::default().close(), None);
        for left in [0, 1, 16, 17] {
            let unheard = ended(Some(Refusal::NoSync), 3);
            assert_eq!(with_page(left, 3).close(), unheard);
            assert_eq!(with_fault(left, 3, 15).close(), unheard);
            let unmended = ended(Some(Refusal::BeyondRepair), 3);
            assert_eq!(with_fault(left, 3, 25).close(), unmended);
            assert_eq!(with_fault(left, 3, 1).close(), unmended);
        }
    }
}
