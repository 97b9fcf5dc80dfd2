//! A text cut, and one fragment read. The words are worked out by hand from Tables 44 and 45.

use mortisevane::fragment::{self, Heading, Marks, CUT_WORDS, FRAGMENT_CHARACTERS, FRAGMENT_WORDS, TEXT_CHARACTERS};
use mortisevane::Refusal;

/// "0417" with message number 5, R and M 0: F 3 and N 5 are 00B800, and K is 166H; the signature is 30H; the last cell is
/// fill.
const PAGE: [u32; 3] = [0x00B966, 0x0D1830, 0x00DBB1];
const MARKS: Marks = Marks { message_number: 5, retrieval: 0, mail_drop: 0 };

const HEADING: Heading = Heading {
    continued: false,
    fragment_number: 3,
    message_number: 5,
    retrieval: false,
    mail_drop: false,
    signature: 0x30,
    sum: 127,
    characters: 4,
};

#[test]
fn a_text_of_one_fragment() {
    let mut memory = [0; CUT_WORDS];
    assert!(fragment::cut(b"0417", MARKS, FRAGMENT_WORDS, &mut memory).unwrap().eq([PAGE]));
    assert_eq!(fragment::heading(&PAGE), Ok(HEADING));
    let mut text = [0; FRAGMENT_CHARACTERS];
    let read = fragment::read(&PAGE, &mut text).unwrap();
    assert_eq!((read.heading, read.text), (HEADING, &b"0417"[..]));
}

#[test]
fn a_text_of_several_fragments() {
    let marks = Marks { message_number: 63, retrieval: 1, mail_drop: 1 };
    let mut memory = [0; CUT_WORDS];
    let fragments = fragment::cut(b"ABCDEFGHI", marks, 2, &mut memory).unwrap();
    let mut text = [0; FRAGMENT_CHARACTERS];
    let mut numbers = Vec::new();
    let mut joined = Vec::new();
    for words in fragments {
        let read = fragment::read(words, &mut text).unwrap();
        let first = read.heading.is_first();
        assert_eq!((read.heading.retrieval, read.heading.mail_drop), (first, first));
        numbers.push((read.heading.fragment_number, read.heading.continued));
        joined.extend_from_slice(read.text);
    }
    // Two characters after the signature, then three at a time.
    assert_eq!(numbers, [(3, true), (0, true), (1, true), (2, false)]);
    assert_eq!(joined, b"ABCDEFGHI");
}

#[test]
fn the_memory_is_always_enough() {
    let mut memory = [0; CUT_WORDS];
    for largest in 2..=FRAGMENT_WORDS {
        assert!(fragment::cut(&[b'x'; TEXT_CHARACTERS], MARKS, largest, &mut memory).is_ok());
    }
    // Two words a fragment: the signature and 1,008 characters are 337 times three cells.
    assert_eq!(fragment::cut(&[b'x'; TEXT_CHARACTERS], MARKS, 2, &mut memory).unwrap().len(), 337);
    assert_eq!(fragment::cut(&[b'x'; TEXT_CHARACTERS], MARKS, 2, &mut memory[1..]).unwrap_err(), Refusal::Room);
}

#[test]
fn texts_that_are_not_cut() {
    let mut memory = [7; CUT_WORDS];
    let mut refused = |text: &[u8], marks, largest, room| {
        let told = fragment::cut(text, marks, largest, &mut memory[..room]).unwrap_err();
        assert_eq!(memory, [7; CUT_WORDS]);
        told
    };
    assert_eq!(refused(b"0417", Marks { message_number: 64, ..MARKS }, 85, CUT_WORDS), Refusal::Packet);
    for largest in [0, 1, 86, usize::MAX] {
        assert_eq!(refused(b"0417", MARKS, largest, CUT_WORDS), Refusal::Size);
    }
    assert_eq!(refused(&[b'x'; TEXT_CHARACTERS + 1], MARKS, 85, CUT_WORDS), Refusal::TooLong);
    assert_eq!(refused(b"04\x0317", MARKS, 85, CUT_WORDS), Refusal::Character);
    assert_eq!(refused(b"0417", MARKS, 85, 2), Refusal::Room);
}

#[test]
fn words_that_are_not_read() {
    let mut memory = [7; 4];
    let mut refused = |words: &[u32], room| {
        let told = fragment::read(words, &mut memory[..room]).unwrap_err();
        assert_eq!(memory, [7; 4]);
        told
    };
    let damaged = [PAGE[0], PAGE[1], PAGE[2] | 0x200000];
    let other = [PAGE[0] ^ 1, PAGE[1], PAGE[2]];
    for (words, refusal) in [
        (&[][..], Refusal::Size),
        (&PAGE[..1], Refusal::Size),
        (&[0; 86], Refusal::Size),
        (&damaged, Refusal::Damaged),
        (&other, Refusal::Checksum),
    ] {
        assert_eq!(refused(words, 4), refusal);
        assert_eq!(fragment::heading(words), Err(refusal));
    }
    assert_eq!(refused(&PAGE, 3), Refusal::Room);
}
