//! Numeric pages: characters of four bits in message words (S8.7.8.2; 01,
//! "Numeric pages"; 02, item 6).
//!
//! Tables 41 and 42 are each one row of bits, i0 of the first word first: K4 and
//! K5, then N, R and S where the page is numbered, then the characters. Every
//! number there stands with its lowest bit first.

use crate::numbers::{numbers, Numbers};
use crate::refusal::Refusal;
use crate::sums;
use crate::vector::{NUMBERED_NUMERIC, SPECIAL_NUMERIC, STANDARD_NUMERIC};

/// How a set of characters is chosen (02, item 6): the option of Table 39, which
/// is that of the People's Republic of China, is off or on.
pub const STANDARD_SET: u32 = 0;
pub const CHINESE_SET: u32 = 1;
/// Table 39 with the option off, by code; `?` stands for the spare code.
pub const STANDARD_CHARACTERS: &[u8; 16] = b"0123456789?U -][";
/// Table 39 with the option on, by code.
pub const CHINESE_CHARACTERS: &[u8; 16] = b"0123456789AB CDE";
/// The code of a space, which is the same in both sets.
const SPACE: u32 = 0xC;
const CHARACTER_BITS: usize = 4;

const WORD_BITS: usize = 21;
pub const MOST_WORDS: usize = 8;

/// K0 to K3 stand in the vector, K4 and K5 in the first word.
const VECTOR_CHECK_BITS: usize = 4;
const WORD_CHECK_BITS: usize = 2;

numbers! {
    /// What a numbered page has beside its characters (S8.8.7).
    pub struct Numbering {
        /// N.
        pub message_number: u32,
        /// R.
        pub retrieval: u32,
        /// S.
        pub special_format: u32,
    }
}

/// What is told of a page that was written into lent words.
#[derive(Clone, Copy, Debug, Default, PartialEq, Eq)]
pub struct Written {
    /// K0 to K3, for the vector.
    pub check: u32,
    /// How many words the page has.
    pub words: usize,
}

/// What is told of a page that was read into lent bytes.
#[derive(Clone, Copy, Debug, Default, PartialEq, Eq)]
pub struct PageRead {
    pub numbering: Numbering,
    /// How many characters the page has: all that its words have room for.
    pub characters: usize,
    /// How many of them are spaces at the end.
    pub spaces_at_end: usize,
}

/// The characters of a set, by code. A number that chooses neither is a field
/// too large.
pub fn characters_of(set: u32) -> Result<&'static [u8; 16], Refusal> {
    match set {
        STANDARD_SET => Ok(STANDARD_CHARACTERS),
        CHINESE_SET => Ok(CHINESE_CHARACTERS),
        _ => Err(Refusal::Packet),
    }
}

/// How many bits N, R and S have in pages of a kind, which is the vector's V:
/// none in Table 41.
type NumberingBits = [usize; Numbering::COUNT];

fn numbering_bits(kind: u32) -> Result<NumberingBits, Refusal> {
    match kind {
        STANDARD_NUMERIC | SPECIAL_NUMERIC => Ok([0, 0, 0]),
        NUMBERED_NUMERIC => Ok([6, 1, 1]),
        _ => Err(Refusal::Packet),
    }
}

/// How many characters have room in so many words, at least one.
fn room(widths: NumberingBits, words: usize) -> usize {
    let before = WORD_CHECK_BITS + widths.iter().sum::<usize>();
    (WORD_BITS * words - before) / CHARACTER_BITS
}

/// Writes the page into the first of the lent words and leaves the others as
/// they are. Unused characters are spaces, left-over bits 0.
pub fn write(
    set: u32,
    text: &[u8],
    kind: u32,
    numbering: Numbering,
    lent: &mut [u32],
) -> Result<Written, Refusal> {
    let by_code = characters_of(set)?;
    let widths = numbering_bits(kind)?;
    let mut row = head(widths, numbering)?;
    let words = (1..=MOST_WORDS)
        .find(|words| room(widths, *words) >= text.len())
        .ok_or(Refusal::TooLong)?;
    for character in text {
        row.extend(bits(code(by_code, *character)?, CHARACTER_BITS));
    }
    let page = lent.get_mut(..words).ok_or(Refusal::Room)?;
    for _ in text.len()..room(widths, words) {
        row.extend(bits(SPACE, CHARACTER_BITS));
    }
    row.resize(WORD_BITS * words, false);
    for (word, bits) in page.iter_mut().zip(row.chunks(WORD_BITS)) {
        *word = number(bits.iter().copied());
    }
    let check = sums::six_bit(page);
    page[0] |= check >> VECTOR_CHECK_BITS;
    Ok(Written {
        check: number(bits(check, VECTOR_CHECK_BITS)),
        words,
    })
}

/// The bits before the first character, with K as 0. A number that its bits
/// cannot hold is refused; where it has none, it can only be 0.
fn head(widths: NumberingBits, numbering: Numbering) -> Result<Vec<bool>, Refusal> {
    let mut row = vec![false; WORD_CHECK_BITS];
    for (number, width) in numbering.numbers().into_iter().zip(widths) {
        if number >> width != 0 {
            return Err(Refusal::Packet);
        }
        row.extend(bits(number, width));
    }
    Ok(row)
}

fn code(by_code: &[u8; 16], character: u8) -> Result<u32, Refusal> {
    let place = by_code.iter().position(|other| *other == character);
    place.map(|code| code as u32).ok_or(Refusal::Character)
}

/// Reads all the characters that the words have room for into the first of the
/// lent bytes, and leaves the others as they are.
pub fn read(
    set: u32,
    kind: u32,
    check: u32,
    words: &[u32],
    lent: &mut [u8],
) -> Result<PageRead, Refusal> {
    let by_code = characters_of(set)?;
    let widths = numbering_bits(kind)?;
    if check >> VECTOR_CHECK_BITS != 0 {
        return Err(Refusal::Packet);
    }
    if !(1..=MOST_WORDS).contains(&words.len()) {
        return Err(Refusal::Size);
    }
    if words.iter().any(|word| word >> WORD_BITS != 0) {
        return Err(Refusal::Damaged);
    }
    let mut row = words.iter().flat_map(|word| bits(*word, WORD_BITS));
    let high_check = take(&mut row, WORD_CHECK_BITS);
    if high_check << VECTOR_CHECK_BITS | check != sums::six_bit(words) {
        return Err(Refusal::Checksum);
    }
    let characters = room(widths, words.len());
    let text = lent.get_mut(..characters).ok_or(Refusal::Room)?;
    let numbering = widths.map(|width| take(&mut row, width));
    for character in text.iter_mut() {
        *character = by_code[take(&mut row, CHARACTER_BITS) as usize];
    }
    Ok(PageRead {
        numbering: Numbering::from_numbers(&mut numbering.into_iter()),
        characters,
        spaces_at_end: spaces_at_end(text),
    })
}

/// How many spaces stand after the last character that is none; without such a
/// character, all.
fn spaces_at_end(text: &[u8]) -> usize {
    match text.iter().rposition(|character| *character != b' ') {
        Some(last) => text.len() - 1 - last,
        None => text.len(),
    }
}

/// The lowest bits of a number, the lowest first.
fn bits(number: u32, width: usize) -> impl Iterator<Item = bool> {
    (0..width).map(move |place| number >> place & 1 == 1)
}

/// The number of these bits, the lowest first.
fn number(bits: impl Iterator<Item = bool>) -> u32 {
    let placed = bits.enumerate();
    placed.fold(0, |number, (place, bit)| number | u32::from(bit) << place)
}

/// The number of the row's next bits.
fn take(row: &mut impl Iterator<Item = bool>, width: usize) -> u32 {
    number(row.take(width))
}

#[cfg(test)]
mod tests {
    use super::*;

    const SETS: [u32; 2] = [STANDARD_SET, CHINESE_SET];
    const KINDS: [u32; 3] = [STANDARD_NUMERIC, SPECIAL_NUMERIC, NUMBERED_NUMERIC];
    const NO_NUMBERING: Numbering = numbering(0, 0, 0);
    /// What stands in the lent memory before.
    const WORD_BEFORE: u32 = 0xDEAD_BEEF;
    const BYTE_BEFORE: u8 = 0xA5;

    const fn numbering(message_number: u32, retrieval: u32, special_format: u32) -> Numbering {
        Numbering {
            message_number,
            retrieval,
            special_format,
        }
    }

    /// The check for the vector, and the words. Those that were lent beyond the
    /// page must stay as they were.
    #[track_caller]
    fn written(set: u32, text: &[u8], kind: u32, numbering: Numbering) -> (u32, Vec<u32>) {
        let mut lent = [WORD_BEFORE; MOST_WORDS + 1];
        let told = write(set, text, kind, numbering, &mut lent).unwrap();
        let (page, rest) = lent.split_at(told.words);
        assert!(rest.iter().all(|word| *word == WORD_BEFORE));
        (told.check, page.to_vec())
    }

    /// The numbering, the characters, and how many spaces stand at their end, with
    /// the same care for lent bytes.
    #[track_caller]
    fn characters(set: u32, kind: u32, check: u32, words: &[u32]) -> (Numbering, Vec<u8>, usize) {
        let mut lent = [BYTE_BEFORE; 50];
        let told = read(set, kind, check, words, &mut lent).unwrap();
        let (text, rest) = lent.split_at(told.characters);
        assert!(rest.iter().all(|byte| *byte == BYTE_BEFORE));
        (told.numbering, text.to_vec(), told.spaces_at_end)
    }

    /// What it is refused with; nothing may be written then.
    fn refused_page(
        set: u32,
        text: &[u8],
        kind: u32,
        numbering: Numbering,
        lent: usize,
    ) -> Refusal {
        let mut lent = vec![WORD_BEFORE; lent];
        let refusal = write(set, text, kind, numbering, &mut lent).unwrap_err();
        assert!(lent.iter().all(|word| *word == WORD_BEFORE));
        refusal
    }

    fn refused_words(set: u32, kind: u32, check: u32, words: &[u32], lent: usize) -> Refusal {
        let mut lent = vec![BYTE_BEFORE; lent];
        let refusal = read(set, kind, check, words, &mut lent).unwrap_err();
        assert!(lent.iter().all(|byte| *byte == BYTE_BEFORE));
        refusal
    }

    /// 01, proved example 10: 01C500 with K as 0. By hand: 00 + C5 + 01 = C6 =
    /// 11 000110; 3 + 6 = 001001; K = 11 0110. Both sets have the same digits.
    #[test]
    fn marked_case_10() {
        for set in SETS {
            for kind in [STANDARD_NUMERIC, SPECIAL_NUMERIC] {
                let page = written(set, b"0417", kind, NO_NUMBERING);
                assert_eq!(page, (0b0110, vec![0x01_C500 | 0b11]));
            }
        }
    }

    /// 01, proved example 11: 031C50. By hand: 50 + 1C + 03 = 6F = 01 101111;
    /// 1 + 2F = 110000; K = 00 1111.
    #[test]
    fn marked_case_11() {
        for set in SETS {
            let page = written(set, b"417", STANDARD_NUMERIC, NO_NUMBERING);
            assert_eq!(page, (0b1111, vec![0x03_1C50]));
        }
    }

    /// 01, proved example 12, and the titles of Tables 41 and 42.
    #[test]
    fn rooms() {
        let rooms = |kind| {
            let widths = numbering_bits(kind).unwrap();
            (1..=MOST_WORDS)
                .map(|words| room(widths, words))
                .collect::<Vec<usize>>()
        };
        assert_eq!(rooms(STANDARD_NUMERIC), [4, 10, 15, 20, 25, 31, 36, 41]);
        assert_eq!(rooms(SPECIAL_NUMERIC), [4, 10, 15, 20, 25, 31, 36, 41]);
        assert_eq!(rooms(NUMBERED_NUMERIC), [2, 8, 13, 18, 23, 29, 34, 39]);
    }

    /// An empty text is four spaces, 1100 each from i2 on: 033330. 30 + 33 + 03
    /// = 66 = 01 100110; 1 + 26 = 100111; K = 01 1000.
    #[test]
    fn empty_text() {
        for set in SETS {
            let page = written(set, b"", STANDARD_NUMERIC, NO_NUMBERING);
            assert_eq!(page, (0b1000, vec![0x03_3330 | 0b01]));
        }
    }

    /// The fifth character is 1111: e0 to e2 end the first word, e3 begins the
    /// second, where five spaces follow. 1C + 99 + 99 + 19 = 167, of which 67 =
    /// 01 100111; 1 + 27 = 101000; K = 01 0111.
    #[test]
    fn a_character_in_two_words() {
        for (set, text) in [(STANDARD_SET, b"0000["), (CHINESE_SET, b"0000E")] {
            let page = written(set, text, STANDARD_NUMERIC, NO_NUMBERING);
            assert_eq!(page, (0b0111, vec![0x1C_0000 | 0b01, 0x19_9999]));
        }
    }

    /// N = 5 from i2, R in i8, S in i9, 0 from i10, 4 from i14, 1 from i18; then
    /// 7 from i1 and four spaces. 14 + 01 + 05 + 8E + 99 + 19 = 15A, of which
    /// 5A = 01 011010; 1 + 1A = 011011; K = 10 0100.
    #[test]
    fn numbered_page() {
        for set in SETS {
            let page = written(set, b"0417", NUMBERED_NUMERIC, numbering(5, 1, 0));
            assert_eq!(page, (0b0100, vec![0x05_0114 | 0b10, 0x19_998E]));
            let (_, words) = written(set, b"", NUMBERED_NUMERIC, numbering(32, 0, 1));
            assert_eq!(words[0] & !0b11, 0x03_3280);
        }
    }

    /// Where the first bit of each character stands, word by word (Tables 41
    /// and 42, which differ in the first word only).
    const FIRST_WORD: [&[u32]; 2] = [&[2, 6, 10, 14, 18], &[10, 14, 18]];
    const OTHER_WORDS: [&[u32]; 7] = [
        &[1, 5, 9, 13, 17],
        &[0, 4, 8, 12, 16, 20],
        &[3, 7, 11, 15, 19],
        &[2, 6, 10, 14, 18],
        &[1, 5, 9, 13, 17],
        &[0, 4, 8, 12, 16, 20],
        &[3, 7, 11, 15],
    ];

    fn first_bits(first_word: &[u32]) -> Vec<(usize, u32)> {
        let words = [first_word].into_iter().chain(OTHER_WORDS).enumerate();
        words
            .flat_map(|(word, places)| places.iter().map(move |place| (word, *place)))
            .collect()
    }

    /// In a full page of 0s a 1 sets just the first bit of its character.
    #[track_caller]
    fn assert_places(set: u32, kind: u32, first_word: &[u32]) {
        let places = first_bits(first_word);
        for (character, (word, bit)) in places.iter().enumerate() {
            let mut text = vec![b'0'; places.len()];
            text[character] = b'1';
            let (_, mut words) = written(set, &text, kind, NO_NUMBERING);
            words[0] &= !0b11;
            let mut expected = vec![0; MOST_WORDS];
            expected[*word] = 1 << bit;
            assert_eq!(words, expected);
        }
    }

    #[test]
    fn every_place_of_the_tables() {
        for set in SETS {
            assert_places(set, STANDARD_NUMERIC, FIRST_WORD[0]);
            assert_places(set, NUMBERED_NUMERIC, FIRST_WORD[1]);
        }
    }

    /// These characters have the codes 0 to F in this order, both ways, and every
    /// other byte is refused. Before three 0s a code stands from i2 on, so with K
    /// as 0 the word is four times the code. That is under 64, so it is its own
    /// sum, and K is what it lacks of 63.
    #[track_caller]
    fn assert_set(set: u32, expected: &[u8; 16]) {
        for (code, character) in (0..).zip(*expected) {
            let text = vec![character, b'0', b'0', b'0'];
            let check = 63 - 4 * code;
            let (low, word) = (check % 16, 4 * code + check / 16);
            let page = written(set, &text, STANDARD_NUMERIC, NO_NUMBERING);
            assert_eq!(page, (low, vec![word]));
            let read = characters(set, STANDARD_NUMERIC, low, &[word]);
            assert_eq!(read, (NO_NUMBERING, text, 0));
        }
        for other in (0..=u8::MAX).filter(|byte| !expected.contains(byte)) {
            let refusal = refused_page(set, &[b'0', other], STANDARD_NUMERIC, NO_NUMBERING, 8);
            assert_eq!(refusal, Refusal::Character);
        }
    }

    /// Table 39, its column "Option off".
    #[test]
    fn characters_with_the_option_off() {
        assert_set(STANDARD_SET, b"0123456789?U -][");
    }

    /// Table 39, its column "Option on".
    #[test]
    fn characters_with_the_option_on() {
        assert_set(CHINESE_SET, b"0123456789AB CDE");
    }

    /// 02, item 6: "With the option on, A to E stand for the codes of `?`, `U`,
    /// `-`, `]`, `[`". A, B, D and E stand from i2, i6, i10 and i14 on, which is
    /// 03B6E8; of F three bits from i18 on, its last in i0 of the second word, where
    /// five spaces follow. E8 + B6 + 1F + 99 + 99 + 19 = 308, of which 08 = 00 001000;
    /// K = 11 0111.
    #[test]
    fn the_five_characters_that_the_option_changes() {
        let words = [0x1F_B6E8 | 0b11, 0x19_9999];
        for (set, text) in [(STANDARD_SET, b"?U-]["), (CHINESE_SET, b"ABCDE")] {
            let page = written(set, text, STANDARD_NUMERIC, NO_NUMBERING);
            assert_eq!(page, (0b0111, words.to_vec()));
            let read = characters(set, STANDARD_NUMERIC, 0b0111, &words);
            let with_spaces = [&text[..], b"     "].concat();
            assert_eq!(read, (NO_NUMBERING, with_spaces, 5));
        }
    }

    /// 02, item 6: "and these five are refused with 18"; with the option off A to E
    /// are, which Table 39 does not have then.
    #[test]
    fn each_set_refuses_the_five_of_the_other() {
        for (set, five) in [(CHINESE_SET, b"?U-]["), (STANDARD_SET, b"ABCDE")] {
            for character in *five {
                for place in 0..4 {
                    let mut text = *b"0417";
                    text[place] = character;
                    let refused = KINDS.map(|kind| refused_page(set, &text, kind, NO_NUMBERING, 8));
                    assert_eq!(refused, [Refusal::Character; 3]);
                }
            }
        }
    }

    /// The text has the characters of the set by code, over and over. The thirteenth
    /// is the space, so a text of 13 or of 29 characters ends with one of its own,
    /// and the spaces that fill the page follow.
    #[track_caller]
    fn assert_there_and_back(set: u32, kind: u32) {
        let by_code = characters_of(set).unwrap();
        let widths = numbering_bits(kind).unwrap();
        let numbers = match kind {
            NUMBERED_NUMERIC => numbering(63, 1, 1),
            _ => NO_NUMBERING,
        };
        for length in 0..=room(widths, MOST_WORDS) {
            let text: Vec<u8> = (0..length).map(|place| by_code[place % 16]).collect();
            let (check, words) = written(set, &text, kind, numbers);
            let fewest = (1..).find(|words| room(widths, *words) >= length);
            assert_eq!(Some(words.len()), fewest);
            let mut with_spaces = text;
            with_spaces.resize(room(widths, words.len()), b' ');
            let spaces = with_spaces.len() - length + usize::from(length % 16 == 13);
            let read = characters(set, kind, check, &words);
            assert_eq!(read, (numbers, with_spaces, spaces));
        }
    }

    /// 01: writing then reading gives the text and its spaces.
    #[test]
    fn there_and_back() {
        for set in SETS {
            for kind in KINDS {
                assert_there_and_back(set, kind);
            }
        }
    }

    /// The page is read so in both sets, which have the same digits and space.
    #[track_caller]
    fn assert_spaces(check: u32, words: &[u32], text: &[u8], spaces: usize) {
        for set in SETS {
            let read = characters(set, STANDARD_NUMERIC, check, words);
            assert_eq!(read, (NO_NUMBERING, text.to_vec(), spaces));
        }
    }

    /// "0417" is marked case 10. " 4 7" is C, 4, C and 7 from i2 on, 01F130: 30 +
    /// F1 + 01 = 122, of which 22 = 00 100010; K = 01 1101.
    #[test]
    fn no_space_at_the_end() {
        assert_spaces(0b0110, &[0x01_C503], b"0417", 0);
        assert_spaces(0b1101, &[0x01_F130 | 0b01], b" 4 7", 0);
    }

    /// "417" is marked case 11. "4 7" is 4, C, 7 and C from i2 on, 031F10: 10 + 1F +
    /// 03 = 32 = 00 110010; K = 00 1101. The space between 4 and 7 does not count.
    #[test]
    fn one_space_at_the_end() {
        assert_spaces(0b1111, &[0x03_1C50], b"417 ", 1);
        assert_spaces(0b1101, &[0x03_1F10], b"4 7 ", 1);
    }

    /// One word of spaces is the empty text. Of the fifth space in two words three
    /// bits, 100, stand from i18 on, and the last in i0 of the second word: 30 + 33 +
    /// 13 + 99 + 99 + 19 = 1C1, of which C1 = 11 000001; 3 + 1 = 000100; K = 11 1011.
    #[test]
    fn spaces_alone() {
        assert_spaces(0b1000, &[0x03_3331], b"    ", 4);
        let words = [0x13_3330 | 0b11, 0x19_9999];
        assert_spaces(0b1011, &words, b"          ", 10);
    }

    /// The sender's own spaces at the end are those that the page would be filled
    /// with. "04" is 0, 4, C and C from i2 on, 033100: 31 + 03 = 34 = 00 110100;
    /// K = 00 1011. After "0417", 01C500, a fifth character needs a second word: of
    /// the space three bits, 100, stand from i18 on and the last in i0, and five more
    /// fill the page. C5 + 11 + 99 + 99 + 19 = 221, of which 21 = 00 100001;
    /// K = 01 1110.
    #[test]
    fn own_spaces_and_filling() {
        for set in SETS {
            for text in ["04", "04 ", "04  "] {
                let page = written(set, text.as_bytes(), STANDARD_NUMERIC, NO_NUMBERING);
                assert_eq!(page, (0b1011, vec![0x03_3100]));
            }
            let page = written(set, b"0417 ", STANDARD_NUMERIC, NO_NUMBERING);
            assert_eq!(page, (0b1110, vec![0x11_C500 | 0b01, 0x19_9999]));
        }
        assert_spaces(0b1011, &[0x03_3100], b"04  ", 2);
        assert_spaces(0b1110, &[0x11_C501, 0x19_9999], b"0417      ", 6);
    }

    /// The words are those of `numbered_page`, and the head is no part of the text.
    #[test]
    fn spaces_of_a_numbered_page() {
        for set in SETS {
            let read = characters(set, NUMBERED_NUMERIC, 0b0100, &[0x05_0116, 0x19_998E]);
            assert_eq!(read, (numbering(5, 1, 0), b"0417    ".to_vec(), 4));
        }
    }

    /// i18 to i20 set and K right: C5 + 1D = E2 = 11 100010; 3 + 22 = 100101;
    /// K = 01 1010.
    #[test]
    fn left_over_bits_are_not_looked_at() {
        assert_spaces(0b1010, &[0x1D_C500 | 0b01], b"0417", 0);
    }

    /// A set that is neither is refused with 7, where all else is right as well as
    /// where every later question would refuse it.
    #[test]
    fn sets_that_are_neither() {
        let (long, damaged) = ([b'x'; 42], [0x20_0000; 9]);
        for set in [2, 3, u32::MAX] {
            for kind in KINDS {
                let refusal = refused_page(set, b"0417", kind, NO_NUMBERING, 8);
                assert_eq!(refusal, Refusal::Packet);
                let refusal = refused_page(set, &long, kind, NO_NUMBERING, 0);
                assert_eq!(refusal, Refusal::Packet);
                assert_eq!(refused_words(set, kind, 6, &damaged, 0), Refusal::Packet);
            }
            let refusal = refused_words(set, STANDARD_NUMERIC, 6, &[0x01_C503], 4);
            assert_eq!(refusal, Refusal::Packet);
        }
    }

    /// Each is refused with what comes first in 01's order, though all that
    /// comes later is wrong too.
    #[track_caller]
    fn assert_refused_pages(set: u32) {
        let refused = |text: &[u8], kind, numbering| refused_page(set, text, kind, numbering, 0);
        let long = [b'x'; 42];
        for kind in [0, 1, 2, 5, 6, 8, 11, u32::MAX] {
            assert_eq!(refused(&long, kind, NO_NUMBERING), Refusal::Packet);
        }
        for wrong in [(64, 0, 0), (0, 2, 0), (0, 0, 2), (u32::MAX, 1, 1)] {
            let wrong = numbering(wrong.0, wrong.1, wrong.2);
            assert_eq!(refused(&long, NUMBERED_NUMERIC, wrong), Refusal::Packet);
        }
        for kind in [STANDARD_NUMERIC, SPECIAL_NUMERIC] {
            for wrong in [(1, 0, 0), (0, 1, 0), (0, 0, 1), (u32::MAX, 0, 0)] {
                let wrong = numbering(wrong.0, wrong.1, wrong.2);
                assert_eq!(refused(&long, kind, wrong), Refusal::Packet);
            }
        }
        for (kind, length) in KINDS.into_iter().zip([41, 41, 39]) {
            let refusal = refused(&long[..length + 1], kind, NO_NUMBERING);
            assert_eq!(refusal, Refusal::TooLong);
            let refusal = refused(&long[..length], kind, NO_NUMBERING);
            assert_eq!(refusal, Refusal::Character);
            let refusal = refused_page(set, &vec![b'0'; length], kind, NO_NUMBERING, 7);
            assert_eq!(refusal, Refusal::Room);
            assert_eq!(refused(b"", kind, NO_NUMBERING), Refusal::Room);
        }
    }

    #[test]
    fn refused_pages() {
        for set in SETS {
            assert_refused_pages(set);
        }
    }

    #[track_caller]
    fn assert_refused_reads(set: u32) {
        let refused = |kind, check, words: &[u32]| refused_words(set, kind, check, words, 0);
        let damaged = [0x20_0000; 9];
        for kind in [0, 1, 2, 5, 6, 8, 11, u32::MAX] {
            assert_eq!(refused(kind, 6, &damaged), Refusal::Packet);
        }
        for kind in KINDS {
            for check in [16, 22, u32::MAX] {
                assert_eq!(refused(kind, check, &damaged), Refusal::Packet);
            }
            assert_eq!(refused(kind, 6, &damaged), Refusal::Size);
            assert_eq!(refused(kind, 6, &[]), Refusal::Size);
            for place in 21..32 {
                let damaged = [0x01_C503, 1 << place];
                assert_eq!(refused(kind, 6, &damaged), Refusal::Damaged);
                let damaged = [0x01_C503 | 1 << place];
                assert_eq!(refused(kind, 6, &damaged), Refusal::Damaged);
            }
        }
    }

    #[test]
    fn refused_reads() {
        for set in SETS {
            assert_refused_reads(set);
        }
    }

    /// The right check is 6 and the word 01C503 (marked case 10).
    #[test]
    fn wrong_checks() {
        for set in SETS {
            let refused = |check, word| refused_words(set, STANDARD_NUMERIC, check, &[word], 0);
            for check in (0..16).filter(|check| *check != 6) {
                assert_eq!(refused(check, 0x01_C503), Refusal::Checksum);
            }
            for changed in 0..21 {
                assert_eq!(refused(6, 0x01_C503 ^ 1 << changed), Refusal::Checksum);
            }
        }
    }

    #[test]
    fn too_few_bytes() {
        for set in SETS {
            for lent in 0..4 {
                let refusal = refused_words(set, STANDARD_NUMERIC, 6, &[0x01_C503], lent);
                assert_eq!(refusal, Refusal::Room);
            }
        }
    }
}
