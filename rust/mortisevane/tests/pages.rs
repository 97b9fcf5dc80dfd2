//! Sums and numeric pages. The words are worked out by hand from Tables 39, 41, 42 and 60.

use mortisevane::numeric::{self, CharacterSet, Numbering, Page, PAGE_CHARACTERS, PAGE_WORDS};
use mortisevane::packet::{VECTOR_ALPHANUMERIC, VECTOR_NUMBERED, VECTOR_SPECIAL, VECTOR_STANDARD};
use mortisevane::{sums, Refusal};

const NO_NUMBERING: Numbering = Numbering { message_number: 0, retrieval: 0, special_format: 0 };

/// The columns of Table 39, by code.
const COLUMNS: [(CharacterSet, &[u8; 16]); 2] =
    [(CharacterSet::Standard, b"0123456789?U -]["), (CharacterSet::Chinese, b"0123456789AB CDE")];

#[test]
fn sums_of_words_and_characters() {
    // 00H + C5H + 01H = 198; 3 + 6 = 9; 63 - 9.
    assert_eq!(sums::six_bit(&[0x01C500]), 54);
    // 00H + B8H + 00H, 30H + 18H + 0DH, B1H + DBH + 00H: 665; 1023 - 665.
    assert_eq!(sums::ten_bit(&[0x00B800, 0x0D1830, 0x00DBB1]), 358);
    assert_eq!(sums::ten_bit(&[0x00BBFF, 0x0D1830, 0x00DBB1]), 358);
    // 30H + 34H + 31H + 37H = 204; 127 - 76.
    assert_eq!(sums::signature(b"0417"), 51);
    assert_eq!((sums::six_bit(&[]), sums::ten_bit(&[]), sums::signature(&[])), (63, 1023, 127));
}

#[test]
fn cases_10_and_11() {
    let mut memory = [0; PAGE_WORDS];
    for (text, before) in [(&b"0417"[..], 0x01C500), (b"417", 0x031C50)] {
        for kind in [VECTOR_STANDARD, VECTOR_SPECIAL] {
            for (set, _) in COLUMNS {
                let page = numeric::write(set, text, kind, NO_NUMBERING, &mut memory).unwrap();
                let sum = sums::six_bit(&[before]);
                assert_eq!((page.words, page.check), (&[before | sum >> 4][..], sum & 15));
            }
        }
    }
}

#[test]
fn both_sets_code_by_code() {
    for (set, column) in COLUMNS {
        for (code, character) in (0..).zip(*column) {
            // The word holds one code in bits 2 to 5 and three codes of 0, so its sum is four times the first.
            let text = [character, b'0', b'0', b'0'];
            let sum = 63 - 4 * code;
            let words = [code << 2 | sum >> 4];
            let mut memory = [0; PAGE_WORDS];
            let written = numeric::write(set, &text, VECTOR_STANDARD, NO_NUMBERING, &mut memory).unwrap();
            assert_eq!((written.words, written.check), (&words[..], sum & 15));
            let mut memory = [0; PAGE_CHARACTERS];
            let page = numeric::read(set, VECTOR_STANDARD, sum & 15, &words, &mut memory).unwrap();
            assert_eq!(page, Page { numbering: NO_NUMBERING, text: &text, spaces_at_end: 0 });
        }
    }
}

#[test]
fn characters_of_the_other_set_are_not_written() {
    let mut memory = [7; PAGE_WORDS];
    let mut told = |set, text: &[u8]| {
        let words = numeric::write(set, text, VECTOR_STANDARD, NO_NUMBERING, &mut memory).map(|page| page.words.len());
        assert_eq!(words.is_err(), memory == [7; PAGE_WORDS]);
        memory = [7; PAGE_WORDS];
        words
    };
    for (standard, chinese) in b"?U-][".iter().zip(b"ABCDE") {
        assert_eq!(told(CharacterSet::Standard, &[b'0', *standard]), Ok(1));
        assert_eq!(told(CharacterSet::Standard, &[b'0', *chinese]), Err(Refusal::Character));
        assert_eq!(told(CharacterSet::Chinese, &[b'0', *chinese]), Ok(1));
        assert_eq!(told(CharacterSet::Chinese, &[b'0', *standard]), Err(Refusal::Character));
    }
    for (set, column) in COLUMNS {
        for other in (0..=u8::MAX).filter(|byte| !column.contains(byte)) {
            assert_eq!(told(set, &[b'0', other]), Err(Refusal::Character));
        }
    }
}

/// Codes 0, B, 1, 7, C (the space: three bits of it end the first word, the fourth begins the second), F, 2 and three
/// spaces of filling. C0H + C6H + 11H, 5FH + 98H + 19H: 679, of which 167 = 2 * 64 + 39; 63 - 41 = 22 = 1 * 16 + 6.
#[test]
fn a_page_by_both_sets() {
    let words = [0x11C6C0 | 1, 0x19985F];
    for (set, text) in [(CharacterSet::Standard, b"0U17 [2"), (CharacterSet::Chinese, b"0B17 E2")] {
        let mut memory = [0; PAGE_WORDS];
        let written = numeric::write(set, text, VECTOR_STANDARD, NO_NUMBERING, &mut memory).unwrap();
        assert_eq!((written.words, written.check), (&words[..], 6));
        let mut memory = [0; PAGE_CHARACTERS];
        let page = numeric::read(set, VECTOR_STANDARD, 6, &words, &mut memory).unwrap();
        assert_eq!((page.text.len(), page.spaces_at_end, page.shown()), (10, 3, &text[..]));
        assert_eq!(&page.text[7..], b"   ");
    }
}

/// The sums, by hand:
///
/// - 0417: 00H + C5H + 01H = 198 = 3 * 64 + 6; 63 - 9 = 54 = 3 * 16 + 6.
/// - A space, 1, a space, 7: 70H + F0H + 01H = 353, of which 97 = 1 * 64 + 33; 63 - 34 = 29 = 1 * 16 + 13.
/// - 417: 50H + 1CH + 03H = 111 = 1 * 64 + 47; 63 - 48 = 15.
/// - A space, 4 and two spaces: 30H + 31H + 03H = 100 = 1 * 64 + 36; 63 - 37 = 26 = 1 * 16 + 10.
/// - Four spaces: 30H + 33H + 03H = 102 = 1 * 64 + 38; 63 - 39 = 24 = 1 * 16 + 8.
#[test]
fn spaces_at_the_end() {
    for (check, word, text, spaces) in [
        (6, 0x01C500 | 3, b"0417", 0),
        (13, 0x01F070 | 1, b" 1 7", 0),
        (15, 0x031C50, b"417 ", 1),
        (10, 0x033130 | 1, b" 4  ", 2),
        (8, 0x033330 | 1, b"    ", 4),
    ] {
        for (set, _) in COLUMNS {
            let mut memory = [0; PAGE_CHARACTERS];
            let page = numeric::read(set, VECTOR_STANDARD, check, &[word], &mut memory).unwrap();
            assert_eq!(page, Page { numbering: NO_NUMBERING, text, spaces_at_end: spaces });
            assert_eq!(page.shown(), &text[..4 - spaces]);
            // Filling and spaces of the sender are the same.
            let mut memory = [0; PAGE_WORDS];
            let written = numeric::write(set, page.shown(), VECTOR_STANDARD, NO_NUMBERING, &mut memory).unwrap();
            assert_eq!((written.words, written.check), (&[word][..], check));
        }
    }
}

/// N 1 and R 1; A, 0 and 4, two spaces, 0 and 2, and a space of filling. 04H + 29H + 10H, 98H + 41H + 18H: 302, of which
/// 46 = 0 * 64 + 46; 63 - 46 = 17 = 1 * 16 + 1. A page of eight spaces, N and R 0: 00H + 30H + 13H, 99H + 99H + 19H: 398,
/// of which 142 = 2 * 64 + 14; 63 - 16 = 47 = 2 * 16 + 15.
#[test]
fn spaces_at_the_end_of_numbered_pages() {
    let numbering = Numbering { message_number: 1, retrieval: 1, special_format: 0 };
    let set = CharacterSet::Chinese;
    let mut memory = [0; PAGE_CHARACTERS];
    let page = numeric::read(set, VECTOR_NUMBERED, 1, &[0x102904 | 1, 0x184198], &mut memory).unwrap();
    assert_eq!(page, Page { numbering, text: b"A04  02 ", spaces_at_end: 1 });
    assert_eq!(page.shown(), b"A04  02");
    let page = numeric::read(set, VECTOR_NUMBERED, 15, &[0x133000 | 2, 0x199999], &mut memory).unwrap();
    assert_eq!(page, Page { numbering: NO_NUMBERING, text: &[b' '; 8], spaces_at_end: 8 });
    assert_eq!(page.shown(), b"");
}

#[test]
fn what_is_shown_of_a_page_that_no_reader_gives() {
    let page = Page { numbering: NO_NUMBERING, text: b"4 ", spaces_at_end: 3 };
    assert_eq!(page.shown(), b"");
}

#[test]
fn case_12_a_numbered_page_of_two_words_holds_eight() {
    let numbering = Numbering { message_number: 63, retrieval: 1, special_format: 1 };
    let mut words = [0; PAGE_WORDS];
    let set = CharacterSet::Standard;
    let written = numeric::write(set, b"00000417", VECTOR_NUMBERED, numbering, &mut words).unwrap();
    assert_eq!(written.words.len(), 2);
    let mut text = [0; PAGE_CHARACTERS];
    let page = numeric::read(set, VECTOR_NUMBERED, written.check, written.words, &mut text).unwrap();
    assert_eq!(page, Page { numbering, text: b"00000417", spaces_at_end: 0 });
    assert_eq!(numeric::write(set, b"000000417", VECTOR_NUMBERED, numbering, &mut words).unwrap().words.len(), 3);
}

#[test]
fn texts_that_are_not_written() {
    let mut memory = [7; PAGE_WORDS];
    let mut refused = |text: &[u8], kind, numbering, room| {
        let told = numeric::write(CharacterSet::Standard, text, kind, numbering, &mut memory[..room]).unwrap_err();
        assert_eq!(memory, [7; PAGE_WORDS]);
        told
    };
    let too_large = Numbering { message_number: 64, ..NO_NUMBERING };
    assert_eq!(refused(b"1", VECTOR_ALPHANUMERIC, NO_NUMBERING, 8), Refusal::Packet);
    assert_eq!(refused(b"1", VECTOR_NUMBERED, too_large, 8), Refusal::Packet);
    assert_eq!(refused(b"1", VECTOR_STANDARD, Numbering { retrieval: 1, ..NO_NUMBERING }, 8), Refusal::Packet);
    assert_eq!(refused(&[b'1'; 42], VECTOR_STANDARD, NO_NUMBERING, 8), Refusal::TooLong);
    assert_eq!(refused(b"12a", VECTOR_STANDARD, NO_NUMBERING, 8), Refusal::Character);
    assert_eq!(refused(b"12345", VECTOR_STANDARD, NO_NUMBERING, 1), Refusal::Room);
    assert_eq!(refused(b"1", VECTOR_STANDARD, NO_NUMBERING, 0), Refusal::Room);
}

#[test]
fn words_that_are_not_read() {
    let mut memory = [7; PAGE_CHARACTERS];
    let mut refused = |kind, check, words: &[u32], room| {
        let told = numeric::read(CharacterSet::Standard, kind, check, words, &mut memory[..room]).unwrap_err();
        assert_eq!(memory, [7; PAGE_CHARACTERS]);
        told
    };
    assert_eq!(refused(VECTOR_ALPHANUMERIC, 6, &[0x01C503], 41), Refusal::Packet);
    assert_eq!(refused(VECTOR_STANDARD, 16 + 6, &[0x01C503], 41), Refusal::Packet);
    assert_eq!(refused(VECTOR_STANDARD, 6, &[], 41), Refusal::Size);
    assert_eq!(refused(VECTOR_STANDARD, 6, &[0x01C503; 9], 41), Refusal::Size);
    assert_eq!(refused(VECTOR_STANDARD, 6, &[0x21C503], 41), Refusal::Damaged);
    assert_eq!(refused(VECTOR_STANDARD, 6, &[0x01C502], 41), Refusal::Checksum);
    assert_eq!(refused(VECTOR_STANDARD, 6, &[0x01C503], 3), Refusal::Room);
}
