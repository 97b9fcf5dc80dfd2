//! POCSAG pages. Words are worked out by hand: what single bits leave after division by the generator is told once, and the
//! check bits of a word are what its other bits leave together.

use std::error::Error;

use mortisevane::numeric::CharacterSet;
use mortisevane::pocsag::{self, Heard, Kind, Lost, Mended, Page, Reader, Text, IDLE, SYNC};
use mortisevane::Refusal;

/// What bits 1 to 31 of a word leave. Each is twice the one before and, where that is over 3FFH, XOR 769H.
const LEFT: [u32; 31] = [
    0x001, 0x002, 0x004, 0x008, 0x010, 0x020, 0x040, 0x080, 0x100, 0x200, 0x369, 0x1BB, 0x376, 0x185, 0x30A, 0x17D, 0x2FA,
    0x29D, 0x253, 0x3CF, 0x0F7, 0x1EE, 0x3DC, 0x0D1, 0x1A2, 0x344, 0x1E1, 0x3C2, 0x0ED, 0x1DA, 0x3B4,
];

/// 1234567 with function 3, in frame 7. Of 4B5A1800H bits 30, 27, 25, 24, 22, 20, 19, 17, 12 and 11 are ones, which leave
/// 1DA, 1E1, 1A2, 0D1, 1EE, 3CF, 253, 2FA, 1BB and 369, together 112H; 4B5A1A24H has 13 ones.
const ADDRESS: u32 = 0x4B5A_1A25;
/// The codes 0, 4, 1, 7 and C, each with its lowest bit first: 0000 0010 1000 1110 0011. Of 81471800H bits 31, 24, 22, 18, 17,
/// 16, 12 and 11 are ones, which leave 3B4, 0D1, 1EE, 29D, 2FA, 17D, 1BB and 369, together 143H; 81471A86H has 12 ones.
const DIGITS_0417: u32 = 0x8147_1A86;
/// The codes 0, 0, 4, 1 and 9: 0000 0000 0010 1000 1001. Of 80144800H bits 31, 20, 18, 14 and 11 are ones, which leave 3B4,
/// 3CF, 29D, 185 and 369, together 00AH; 80144814H has seven ones.
const DIGITS_00419: u32 = 0x8014_4815;

const NO_WORDS: Page = Page { address: 1_234_567, function: 3, mended: 0, words: Ok(&[]) };

fn nothing(taken: usize) -> Heard<'static> {
    Heard { taken, refusal: None, page: None }
}

fn refused(refusal: Refusal) -> Heard<'static> {
    Heard { taken: 1, refusal: Some(refusal), page: None }
}

fn lost(refusal: Refusal, words: usize) -> Option<Page<'static>> {
    Some(Page { words: Err(Lost { refusal, words }), ..NO_WORDS })
}

/// A reader whose page was just opened, in frame 7 of a batch of which one word is to come.
fn opened() -> Reader {
    let mut reader = Reader { left: 2, ..Reader::default() };
    assert_eq!(reader.hear(&[ADDRESS], &mut []), nothing(1));
    assert_eq!(reader, Reader { left: 1, is_open: 1, address: 1_234_567, function: 3, ..Reader::default() });
    reader
}

/// A word of one bit, of what it leaves as the check bits, and of the parity is a sent word.
#[test]
fn what_bits_leave() {
    for (place, left) in (1..).zip(LEFT).skip(10) {
        let code_bits = 1 << place | left << 1;
        let parity = code_bits.count_ones() % 2;
        let word = code_bits | parity;
        assert_eq!(pocsag::mend(word), Ok(Mended { word, changed: 0 }));
    }
}

#[test]
fn up_to_two_wrong_bits_are_mended() {
    for sent in [SYNC, IDLE, ADDRESS, DIGITS_0417, DIGITS_00419, 0] {
        assert_eq!(pocsag::mend(sent), Ok(Mended { word: sent, changed: 0 }));
        assert_eq!(pocsag::mend(sent ^ 1), Err(Refusal::BeyondRepair));
        for lower in 1..32 {
            let one = sent ^ 1 << lower;
            assert_eq!(pocsag::mend(one), Ok(Mended { word: sent, changed: 1 }));
            assert_eq!(pocsag::mend(one ^ 1), Err(Refusal::BeyondRepair));
            for higher in lower + 1..32 {
                let two = one ^ 1 << higher;
                assert_eq!(pocsag::mend(two), Ok(Mended { word: sent, changed: 2 }));
                assert_eq!(pocsag::mend(two ^ 1), Err(Refusal::BeyondRepair));
            }
        }
    }
}

/// Bit 14 leaves 185H, as bits 9, 8, 3 and 1 do together: with the parity bit the five are a word, 430BH. Three of them wrong
/// in 0 are two from that word, but then the parity is wrong.
#[test]
fn three_wrong_bits_are_beyond_repair() {
    assert_eq!(pocsag::mend(0x4300), Err(Refusal::BeyondRepair));
    assert_eq!(pocsag::mend(0x4301), Ok(Mended { word: 0x430B, changed: 2 }));
    assert_eq!(pocsag::mend(0b1110), Err(Refusal::BeyondRepair));
}

#[test]
fn a_row_is_mended_where_it_stands() {
    let mut words = [SYNC, IDLE ^ 0x10, SYNC ^ 1, IDLE ^ 0x8000_0002];
    let mut bits = [7; 6];
    assert_eq!(pocsag::mend_row(&mut words, &mut bits), Ok(()));
    assert_eq!((words, bits), ([SYNC, IDLE, SYNC ^ 1, IDLE], [0, 1, 25, 2, 7, 7]));
    let mut words = [IDLE ^ 0x10, IDLE];
    assert_eq!(pocsag::mend_row(&mut words, &mut bits[..1]), Err(Refusal::Room));
    assert_eq!((words, bits), ([IDLE ^ 0x10, IDLE], [0, 1, 25, 2, 7, 7]));
    assert_eq!(pocsag::mend_row(&mut [], &mut []), Ok(()));
}

/// The page goes over the end of a batch. However the words are divided, the same comes of them.
#[test]
fn a_page_over_the_end_of_a_batch() {
    let mut words = vec![SYNC];
    words.extend([IDLE; 14]);
    words.extend([ADDRESS ^ 0x100, DIGITS_0417, SYNC, DIGITS_00419 ^ 0x0008_0002, IDLE]);
    for portion in 1..=words.len() {
        let mut reader = Reader::default();
        let mut memory = [7; 4];
        let mut pages = 0;
        for portion in words.chunks(portion) {
            let heard = reader.hear(portion, &mut memory);
            assert_eq!((heard.taken, heard.refusal), (portion.len(), None));
            if let Some(page) = heard.page {
                assert_eq!((page.address, page.function, page.mended), (1_234_567, 3, 3));
                assert_eq!(page.words, Ok(&[0xC7140, 0x91400][..]));
                pages += 1;
            }
        }
        assert_eq!((pages, memory[2..] == [7; 2], reader), (1, true, Reader { left: 14, ..Reader::default() }));
    }
}

#[test]
fn hearing_stops_where_something_is_told() {
    let mut reader = opened();
    let mut memory = [0; 4];
    let words = [DIGITS_0417, SYNC, IDLE ^ 1, IDLE, DIGITS_0417, IDLE];
    let heard = reader.hear(&words, &mut memory);
    assert_eq!((heard.taken, heard.refusal, heard.page), (3, Some(Refusal::BeyondRepair), None));
    let heard = reader.hear(&words[3..], &mut memory);
    assert_eq!((heard.taken, heard.refusal, heard.page), (1, None, lost(Refusal::BeyondRepair, 1)));
    assert_eq!(reader.hear(&words[4..], &mut memory), refused(Refusal::NoCall));
    assert_eq!(reader.hear(&words[5..], &mut memory), nothing(1));
    assert_eq!(reader.hear(&[], &mut memory), nothing(0));
    assert_eq!(reader, Reader { left: 12, ..Reader::default() });
}

#[test]
fn words_that_are_not_after_a_sync_word() {
    for left in [0, 17, u32::MAX] {
        for word in [IDLE, ADDRESS, DIGITS_0417] {
            let mut reader = Reader { left, ..Reader::default() };
            assert_eq!(reader.hear(&[word], &mut []), refused(Refusal::NoSync));
            assert_eq!(reader, Reader::default());
        }
        let mut reader = Reader { left, ..opened() };
        let heard = Heard { page: lost(Refusal::NoSync, 0), ..refused(Refusal::NoSync) };
        assert_eq!(reader.hear(&[IDLE], &mut []), heard);
        assert_eq!(reader, Reader::default());
    }
}

#[test]
fn a_sync_word_too_early_ends_a_page() {
    let mut reader = opened();
    assert_eq!(reader.hear(&[SYNC], &mut []), Heard { page: lost(Refusal::NoSync, 0), ..nothing(1) });
    assert_eq!(reader, Reader { left: 16, ..Reader::default() });
}

#[test]
fn a_page_without_words() {
    let mut reader = opened();
    assert!(reader.is_open());
    let heard = reader.hear(&[IDLE], &mut []);
    assert_eq!(heard, Heard { page: Some(NO_WORDS), ..nothing(1) });
    assert!(!reader.is_open());
}

#[test]
fn a_page_that_is_longer_than_the_memory() {
    let mut reader = Reader { left: 16, ..opened() };
    let mut memory = [0; 2];
    let words = [DIGITS_0417, DIGITS_00419, DIGITS_0417, DIGITS_0417, IDLE];
    let heard = reader.hear(&words, &mut memory);
    assert_eq!((heard.taken, heard.refusal, heard.page), (5, None, lost(Refusal::TooLong, 2)));
    assert_eq!(memory, [0xC7140, 0x91400]);
    // A memory that became shorter than the page.
    let mut reader = Reader { left: 16, words: 3, ..opened() };
    let heard = reader.hear(&[IDLE], &mut memory);
    assert_eq!(heard.page, lost(Refusal::TooLong, 3));
}

#[test]
fn the_close_loses_an_open_page() {
    let mut reader = Reader { words: 3, ..opened() };
    assert_eq!(reader.close(), lost(Refusal::NoSync, 3));
    assert_eq!((reader, reader.close()), (Reader::default(), None));
    let mut reader = Reader { words: 3, fault: 25, ..opened() };
    assert_eq!(reader.close(), lost(Refusal::BeyondRepair, 3));
}

#[test]
fn a_lost_page_tells_its_refusal() {
    let lost = Lost { refusal: Refusal::NoSync, words: 3 };
    assert_eq!(lost.source().and_then(|source| source.downcast_ref()), Some(&Refusal::NoSync));
    assert_eq!(lost.to_string(), format!("{}, after 3 words", Refusal::NoSync));
    assert_eq!(Refusal::from(lost), Refusal::NoSync);
}

#[test]
fn numeric_pages() {
    let words = [0x43210, 0x98765, 0xEDCBA, 0xCCC1F];
    for (set, text) in
        [(CharacterSet::Standard, b"0123456789?U -][1   "), (CharacterSet::Chinese, b"0123456789AB CDE1   ")]
    {
        let mut memory = [7; 21];
        let read = pocsag::read(Kind::Numeric(set), &words, &mut memory).unwrap();
        assert_eq!(read, Text { text, fill_at_end: 3 });
        assert_eq!(read.shown(), &text[..17]);
        assert_eq!(memory[20], 7);
        let zeros = pocsag::read(Kind::Numeric(set), &[0xC7140], &mut memory).unwrap();
        assert_eq!(zeros.shown(), b"0417");
        let none = pocsag::read(Kind::Numeric(set), &[], &mut []).unwrap();
        assert_eq!(none, Text { text: b"", fill_at_end: 0 });
    }
}

/// B is 42H, a 61H and y 79H, whose last bit begins the second word. ETX is 03H and EOT 04H, from the second bit of it on.
#[test]
fn texts() {
    let mut memory = [7; 6];
    let read = pocsag::read(Kind::Text, &[0xE70C2, 1], &mut memory).unwrap();
    assert_eq!(read, Text { text: b"Bay\0\0", fill_at_end: 2 });
    let read = pocsag::read(Kind::Text, &[0xE70C2, 1 | 3 << 1 | 4 << 8], &mut memory).unwrap();
    assert_eq!(read, Text { text: b"Bay\x03\x04", fill_at_end: 2 });
    let read = pocsag::read(Kind::Text, &[0xE70C2, 1 | 3 << 1 | 5 << 8], &mut memory).unwrap();
    assert_eq!((read.fill_at_end, read.shown()), (0, &b"Bay\x03\x05"[..]));
    assert_eq!(memory[5], 7);
}

#[test]
fn what_is_shown_of_a_text_that_no_reader_gives() {
    assert_eq!(Text { text: b"4 ", fill_at_end: 3 }.shown(), b"");
}

#[test]
fn words_that_are_not_read() {
    let mut memory = [7; 10];
    for kind in [Kind::Numeric(CharacterSet::Standard), Kind::Numeric(CharacterSet::Chinese), Kind::Text] {
        assert_eq!(pocsag::read(kind, &[0, 1 << 20], &mut memory[..0]), Err(Refusal::Damaged));
        assert_eq!(pocsag::read(kind, &[0, 0], &mut memory[..4]), Err(Refusal::Room));
        assert_eq!(memory, [7; 10]);
    }
}
