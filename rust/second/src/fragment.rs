//! Fragments: a text in the message words of one call or of several (S8.7.8.3,
//! S8.8.5; 01, "Fragments").
//!
//! A fragment's first word tells about it (Tables 44 and 45). Each word after
//! it is three cells of seven bits, the first cell in the lowest bits. The cells
//! of all fragments in their order are the signature S, the text and the fill.

use std::ops::RangeInclusive;

use crate::layout::{field, Field};
use crate::numbers::numbers;
use crate::refusal::Refusal;
use crate::sums;

/// The first word. R and M stand there in a first fragment only; U and V, which
/// later ones have instead, are written 0 and not looked at.
const CHECK: Field = field(0, 10);
const CONTINUED: Field = field(10, 1);
const FRAGMENT_NUMBER: Field = field(11, 2);
const MESSAGE_NUMBER: Field = field(13, 6);
const RETRIEVAL: Field = field(19, 1);
const MAIL_DROP: Field = field(20, 1);

/// F of a first fragment; later ones have 0, 1, 2, 0 and so on.
pub const FIRST: u32 = 3;
const LATER: [u32; 3] = [0, 1, 2];

const WORD_BITS: u32 = 21;
/// The cells of every other word.
const CELLS: [Field; 3] = [field(0, 7), field(7, 7), field(14, 7)];
const LARGEST_CHARACTER: u8 = 0x7F;
/// Fill, and never text.
pub const ETX: u8 = 0x03;

/// How many words a fragment has.
pub const SIZES: RangeInclusive<usize> = 2..=85;
pub const LONGEST_TEXT: usize = 1_008;
/// In the largest fragment, where no cell is S: three in each word but the first.
pub const MOST_CHARACTERS: usize = 252;

numbers! {
    /// What a message has beside its text.
    pub struct Marks {
        /// N.
        pub message_number: u32,
        /// R.
        pub retrieval: u32,
        /// M.
        pub mail_drop: u32,
    }
}

numbers! {
    /// What a fragment has beside its text. R, M and S are 0 unless it is a
    /// first one.
    pub struct Heading {
        /// C.
        pub continued: u32,
        /// F.
        pub fragment_number: u32,
        /// N.
        pub message_number: u32,
        /// R.
        pub retrieval: u32,
        /// M.
        pub mail_drop: u32,
        /// S.
        pub signature: u32,
        /// All its cells, S and fill included, summed modulo 128.
        pub sum: u32,
    }
}

/// What is told of a fragment that was read.
#[derive(Clone, Copy, Debug, Default, PartialEq, Eq)]
pub struct FragmentRead {
    pub heading: Heading,
    /// How many characters its text has.
    pub characters: usize,
}

/// What is told of a text that was cut into lent words.
#[derive(Clone, Copy, Debug, Default, PartialEq, Eq)]
pub struct TextCut {
    pub fragments: usize,
    /// How many words all fragments have together.
    pub words: usize,
}

/// Writes the text's fragments, one after the other, into the first of the lent
/// words and leaves the others as they are. Each fragment but the last has the
/// largest size.
pub fn cut(
    text: &[u8],
    marks: Marks,
    largest: usize,
    lent: &mut [u32],
) -> Result<TextCut, Refusal> {
    let marks = in_their_bits(marks)?;
    if !SIZES.contains(&largest) {
        return Err(Refusal::Size);
    }
    if text.len() > LONGEST_TEXT {
        return Err(Refusal::TooLong);
    }
    if text.iter().any(|character| !is_text(*character)) {
        return Err(Refusal::Character);
    }
    let fragments = fragments(text, marks, largest);
    let words = fragments.concat();
    let row = lent.get_mut(..words.len()).ok_or(Refusal::Room)?;
    row.copy_from_slice(&words);
    Ok(TextCut {
        fragments: fragments.len(),
        words: words.len(),
    })
}

fn is_text(character: u8) -> bool {
    character <= LARGEST_CHARACTER && character != ETX
}

/// As they stand in the first word of a first fragment.
fn in_their_bits(marks: Marks) -> Result<u32, Refusal> {
    Ok(MESSAGE_NUMBER.hold(marks.message_number)?
        | RETRIEVAL.hold(marks.retrieval)?
        | MAIL_DROP.hold(marks.mail_drop)?)
}

/// The words of each fragment. There is at least one, since S needs a word.
fn fragments(text: &[u8], marks: u32, largest: usize) -> Vec<Vec<u32>> {
    let message = message(text);
    let shares = message.chunks(largest - 1);
    let last = shares.len() - 1;
    let fragment = |(place, share): (usize, &[u32])| {
        let first_word = first_word(place, place < last, marks);
        with_check(first_word, share)
    };
    shares.enumerate().map(fragment).collect()
}

/// A fragment of a first word with K as 0 and of the words after it.
fn with_check(first_word: u32, share: &[u32]) -> Vec<u32> {
    let mut words = [&[first_word], share].concat();
    words[0] |= sums::ten_bit(&words);
    words
}

/// One fragment by itself, whatever its message is: for whoever needs one that no
/// text is cut into. S stands in front of the characters in a first one, fill
/// after them up to the end of the last word. U and V of a later one are set
/// where R and M are; the sum is what the cells make it.
pub fn build(heading: &Heading, characters: &[u8]) -> Vec<u32> {
    let first_word = CONTINUED.put(heading.continued)
        | FRAGMENT_NUMBER.put(heading.fragment_number)
        | MESSAGE_NUMBER.put(heading.message_number)
        | RETRIEVAL.put(heading.retrieval)
        | MAIL_DROP.put(heading.mail_drop);
    let mut cells = Vec::new();
    if heading.fragment_number == FIRST {
        cells.push(heading.signature as u8);
    }
    cells.extend(characters);
    let words = cells.len().div_ceil(CELLS.len()).max(1);
    cells.resize(words * CELLS.len(), ETX);
    let share: Vec<u32> = cells.chunks(CELLS.len()).map(word).collect();
    with_check(first_word, &share)
}

/// All words of the message but the fragments' first ones.
fn message(text: &[u8]) -> Vec<u32> {
    let signature_and_text = 1 + text.len();
    let cells = signature_and_text.next_multiple_of(CELLS.len());
    let mut characters = text.to_vec();
    characters.resize(cells - 1, ETX);
    let signature = sums::signature(&characters) as u8;
    let cells = [&[signature], characters.as_slice()].concat();
    cells.chunks(CELLS.len()).map(word).collect()
}

fn word(cells: &[u8]) -> u32 {
    let places = CELLS.iter().zip(cells);
    places.fold(0, |word, (place, cell)| word | place.put(u32::from(*cell)))
}

/// The first word of the fragment in that place, with K as 0.
fn first_word(place: usize, continued: bool, marks: u32) -> u32 {
    let told = match place {
        0 => FRAGMENT_NUMBER.put(FIRST) | marks,
        _ => FRAGMENT_NUMBER.put(LATER[(place - 1) % LATER.len()]) | marks & MESSAGE_NUMBER.bits(),
    };
    CONTINUED.put(u32::from(continued)) | told
}

/// What a fragment has, and how many characters there are in its text.
pub fn heading(words: &[u32]) -> Result<FragmentRead, Refusal> {
    let (told, _) = take_apart(words)?;
    Ok(told)
}

/// As `heading`, and reads the text into the first of the lent bytes. The others
/// stay as they are.
pub fn read(words: &[u32], lent: &mut [u8]) -> Result<FragmentRead, Refusal> {
    let (told, text) = take_apart(words)?;
    let row = lent.get_mut(..text.len()).ok_or(Refusal::Room)?;
    row.copy_from_slice(&text);
    Ok(told)
}

fn take_apart(words: &[u32]) -> Result<(FragmentRead, Vec<u8>), Refusal> {
    check(words)?;
    let first_word = words[0];
    let cells = cells(&words[1..]);
    let sum: u32 = cells.iter().copied().map(u32::from).sum();
    let mut heading = Heading {
        continued: CONTINUED.of(first_word),
        fragment_number: FRAGMENT_NUMBER.of(first_word),
        message_number: MESSAGE_NUMBER.of(first_word),
        sum: sum % 128,
        ..Heading::default()
    };
    let mut characters = cells.as_slice();
    if heading.fragment_number == FIRST {
        heading.retrieval = RETRIEVAL.of(first_word);
        heading.mail_drop = MAIL_DROP.of(first_word);
        heading.signature = u32::from(cells[0]);
        characters = &cells[1..];
    }
    let mut text = characters.to_vec();
    text.retain(|character| *character != ETX);
    let characters = text.len();
    let told = FragmentRead {
        heading,
        characters,
    };
    Ok((told, text))
}

/// Whether the words are a fragment that came whole.
fn check(words: &[u32]) -> Result<(), Refusal> {
    if !SIZES.contains(&words.len()) {
        return Err(Refusal::Size);
    }
    if words.iter().any(|word| word >> WORD_BITS != 0) {
        return Err(Refusal::Damaged);
    }
    if CHECK.of(words[0]) != sums::ten_bit(words) {
        return Err(Refusal::Checksum);
    }
    Ok(())
}

fn cells(words: &[u32]) -> Vec<u8> {
    let cells_of = |word: &u32| CELLS.map(|cell| cell.of(*word) as u8);
    words.iter().flat_map(cells_of).collect()
}

#[cfg(test)]
mod tests {
    use super::*;

    const NO_MARKS: Marks = marks(0, 0, 0);
    /// What stands in the lent memory before.
    const WORD_BEFORE: u32 = 0xDEAD_BEEF;
    const BYTE_BEFORE: u8 = 0xA5;
    /// 1,008 characters in fragments of two words: 2 in the first, 3 in each of
    /// 335 more, and one is left: 337 fragments.
    const MOST_WORDS: usize = 674;

    const fn marks(message_number: u32, retrieval: u32, mail_drop: u32) -> Marks {
        Marks {
            message_number,
            retrieval,
            mail_drop,
        }
    }

    /// How many fragments there are, and all words. Those that were lent beyond
    /// them must stay as they were.
    #[track_caller]
    fn words_of(text: &[u8], marks: Marks, largest: usize) -> (usize, Vec<u32>) {
        let mut lent = [WORD_BEFORE; MOST_WORDS + 1];
        let told = cut(text, marks, largest, &mut lent).unwrap();
        let (words, rest) = lent.split_at(told.words);
        assert!(rest.iter().all(|word| *word == WORD_BEFORE));
        (told.fragments, words.to_vec())
    }

    /// The heading and the text, with the same care for lent bytes.
    #[track_caller]
    fn text_of(words: &[u32]) -> (Heading, Vec<u8>) {
        let mut lent = [BYTE_BEFORE; 260];
        let told = read(words, &mut lent).unwrap();
        assert_eq!(heading(words), Ok(told));
        let (text, rest) = lent.split_at(told.characters);
        assert!(rest.iter().all(|byte| *byte == BYTE_BEFORE));
        (told.heading, text.to_vec())
    }

    /// What it is refused with; nothing may be written then.
    #[track_caller]
    fn refused_cut(text: &[u8], marks: Marks, largest: usize, lent: usize) -> Refusal {
        let mut lent = vec![WORD_BEFORE; lent];
        let refusal = cut(text, marks, largest, &mut lent).unwrap_err();
        assert!(lent.iter().all(|word| *word == WORD_BEFORE));
        refusal
    }

    #[track_caller]
    fn refused_read(words: &[u32], lent: usize) -> Refusal {
        let mut lent = vec![BYTE_BEFORE; lent];
        let refusal = read(words, &mut lent).unwrap_err();
        assert!(lent.iter().all(|byte| *byte == BYTE_BEFORE));
        refusal
    }

    /// A text of that many characters, among them all but ETX.
    fn text(length: usize) -> Vec<u8> {
        let characters = (0..=LARGEST_CHARACTER).rev();
        let characters = characters.filter(|character| *character != ETX);
        characters.cycle().take(length).collect()
    }

    /// "ABC" as one fragment, N = 5 and R = 1. S: 41 + 42 + 43 + 03 + 03 = CC =
    /// 1 1001100, so 0110011 = 33. Words: 33 + 41 * 80 + 42 * 4000 = 10A0B3 and
    /// 43 + 03 * 80 + 03 * 4000 = 00C1C3. First word: F = 3 is 1800, N is A000,
    /// R is 80000: 08B800. K: 00 + B8 + 08, B3 + A0 + 10 and C3 + C1 + 00 are C0 +
    /// 163 + 184 = 3A7, and 3FF - 3A7 = 058.
    const ABC: [u32; 3] = [0x08_B858, 0x10_A0B3, 0x00_C1C3];

    #[test]
    fn one_fragment() {
        let fragments = words_of(b"ABC", marks(5, 1, 0), 85);
        assert_eq!(fragments, (1, ABC.to_vec()));
        let heading = Heading {
            continued: 0,
            fragment_number: 3,
            message_number: 5,
            retrieval: 1,
            mail_drop: 0,
            signature: 0x33,
            // 33 + CC = FF.
            sum: 0x7F,
        };
        assert_eq!(text_of(&ABC), (heading, b"ABC".to_vec()));
    }

    /// S: 03 + 03 = 06, so 79. Word: 79 + 03 * 80 + 03 * 4000 = 00C1F9. K: 00 +
    /// 18 + 00 + F9 + C1 + 00 = 1D2, and 3FF - 1D2 = 22D; 1800 + 22D = 1A2D.
    #[test]
    fn empty_text() {
        for largest in SIZES {
            let fragments = words_of(b"", NO_MARKS, largest);
            assert_eq!(fragments, (1, vec![0x00_1A2D, 0x00_C1F9]));
        }
        let (heading, text) = text_of(&[0x00_1A2D, 0x00_C1F9]);
        assert_eq!((heading.signature, heading.sum), (0x79, 0x7F));
        assert_eq!(text, b"");
    }

    /// "ABCD" as two fragments, with all marks as large as they can be. S: 41 +
    /// 42 + 43 + 44 + 03 = 10D = 10 0001101, so 1110010 = 72.
    /// First: 72 + 41 * 80 + 42 * 4000 = 10A0F2; C, F, N, R and M are all ones:
    /// 1FFC00. K: 00 + FC + 1F and F2 + A0 + 10 are 11B + 1A2 = 2BD, and 3FF - 2BD
    /// = 142.
    /// Second: 43 + 44 * 80 + 03 * 4000 = 00E243; C and F are 0, N is 07E000. K:
    /// 00 + E0 + 07 and 43 + E2 + 00 are E7 + 125 = 20C, and 3FF - 20C = 1F3.
    const ABCD: [[u32; 2]; 2] = [[0x1F_FD42, 0x10_A0F2], [0x07_E1F3, 0x00_E243]];

    #[test]
    fn two_fragments() {
        let fragments = words_of(b"ABCD", marks(63, 1, 1), 2);
        assert_eq!(fragments, (2, ABCD.concat()));
        let heading = Heading {
            continued: 1,
            fragment_number: 3,
            message_number: 63,
            retrieval: 1,
            mail_drop: 1,
            signature: 0x72,
            // 72 + 41 + 42 = F5.
            sum: 0x75,
        };
        assert_eq!(text_of(&ABCD[0]), (heading, b"AB".to_vec()));
        let heading = Heading {
            message_number: 63,
            // 43 + 44 + 03 = 8A.
            sum: 0x0A,
            ..Heading::default()
        };
        assert_eq!(text_of(&ABCD[1]), (heading, b"CD".to_vec()));
    }

    /// The same one by one, and a later one with nothing but fill, of which a
    /// fragment has at least a word. With C = 1, F = 2, N = 32, U and V it begins
    /// 1C1400. K: 00 + 14 + 1C and 83 + C1 + 00 are 30 + 144 = 174, and 3FF - 174
    /// = 28B.
    #[test]
    fn one_by_itself() {
        let (first, part) = text_of(&ABCD[0]);
        assert_eq!(build(&first, &part), ABCD[0]);
        let (second, part) = text_of(&ABCD[1]);
        assert_eq!(build(&second, &part), ABCD[1]);
        let heading = Heading {
            continued: 1,
            fragment_number: 2,
            message_number: 32,
            retrieval: 1,
            mail_drop: 1,
            ..Heading::default()
        };
        assert_eq!(build(&heading, b""), [0x1C_168B, 0x00_C183]);
    }

    /// C and F of eight fragments, 2 and then 3 characters in each.
    #[test]
    fn fragment_numbers() {
        let (fragments, words) = words_of(&[b'x'; 23], NO_MARKS, 2);
        assert_eq!(fragments, 8);
        let first_words = words.iter().step_by(2);
        let continued_and_number = first_words.map(|word| (word >> 10 & 1, word >> 11 & 3));
        let expected = [3, 0, 1, 2, 0, 1, 2].map(|number| (1, number));
        assert!(continued_and_number.eq(expected.into_iter().chain([(0, 0)])));
    }

    /// In a fragment of w words there is room for 3(w - 1) - 1 characters if it
    /// is the first one, else for 3(w - 1).
    #[test]
    fn sizes() {
        for (largest, length, fragments, words) in [
            // 2, then 3 each.
            (2, 1, 1, 2),
            (2, 2, 1, 2),
            (2, 3, 2, 4),
            (2, 5, 2, 4),
            (2, 6, 3, 6),
            (2, 1_007, 336, 672),
            (2, 1_008, 337, 674),
            // 5, then 6 each: 3 words and 2, 3 and 3, then 3, 3 and 2.
            (3, 2, 1, 2),
            (3, 3, 1, 3),
            (3, 5, 1, 3),
            (3, 6, 2, 5),
            (3, 8, 2, 5),
            (3, 9, 2, 6),
            (3, 11, 2, 6),
            (3, 12, 3, 8),
            // 248 + 249 * 3 = 995, and 13 more are in five words of three.
            (84, 248, 1, 84),
            (84, 249, 2, 86),
            (84, 1_008, 5, 4 * 84 + 6),
            // 251 + 252 * 3 = 1007.
            (85, 251, 1, 85),
            (85, 252, 2, 87),
            (85, 1_007, 4, 4 * 85),
            (85, 1_008, 5, 4 * 85 + 2),
        ] {
            let (cut, row) = words_of(&text(length), NO_MARKS, largest);
            assert_eq!(
                (cut, row.len()),
                (fragments, words),
                "{length} at {largest}"
            );
        }
    }

    /// Every fragment of every length, read back: the texts joined are the text.
    /// S is the complement of all other cells' sum, so that all cells give 7F.
    #[test]
    fn there_and_back() {
        for largest in [2, 3, 4, 7, 16, 84, 85] {
            for length in 0..=LONGEST_TEXT {
                let text = text(length);
                let (fragments, words) = words_of(&text, marks(42, 0, 1), largest);
                let mut joined = Vec::new();
                let mut sum = 0;
                for (place, fragment) in words.chunks(largest).enumerate() {
                    let (heading, part) = text_of(fragment);
                    assert_eq!(heading.continued, u32::from(place + 1 < fragments));
                    assert_eq!(heading.message_number, 42);
                    assert_eq!(heading.mail_drop, u32::from(place == 0));
                    assert!(length == 0 || !part.is_empty());
                    sum += heading.sum;
                    joined.extend(part);
                }
                assert_eq!((joined, sum % 128), (text, 0x7F));
            }
        }
    }

    /// F = 2 with C, U and V set and N = 32: 1C1400. Cells 03, 41 and 03 are
    /// 03 + 41 * 80 + 03 * 4000 = 00E083; 42, 03 and 00 are 42 + 03 * 80 = 0001C2.
    /// K: 00 + 14 + 1C, 83 + E0 + 00 and C2 + 01 + 00 are 30 + 163 + C3 = 256, and
    /// 3FF - 256 = 1A9. The sum: 03 + 41 + 03 + 42 + 03 + 00 = 8C.
    #[test]
    fn a_later_fragment_with_fill_anywhere() {
        let heading = Heading {
            continued: 1,
            fragment_number: 2,
            message_number: 32,
            sum: 0x0C,
            ..Heading::default()
        };
        let read = text_of(&[0x1C_15A9, 0x00_E083, 0x00_01C2]);
        assert_eq!(read, (heading, vec![0x41, 0x42, 0x00]));
    }

    /// S = 03 and two ETX: 03 + 03 * 80 + 03 * 4000 = 00C183. K: 18 + 83 + C1 =
    /// 15C, and 3FF - 15C = 2A3. With F = 0 it is three ETX: 144, so 2BB.
    #[test]
    fn nothing_but_fill() {
        let no_bytes = &mut [];
        let told = read(&[0x00_1AA3, 0x00_C183], no_bytes).unwrap();
        assert_eq!((told.heading.signature, told.heading.sum), (3, 9));
        assert_eq!(told.characters, 0);
        let told = read(&[0x00_02BB, 0x00_C183], no_bytes).unwrap();
        assert_eq!((told.heading.signature, told.heading.sum), (0, 9));
        assert_eq!(told.characters, 0);
    }

    /// Each is refused with what comes first in 01's order, though all that
    /// comes later is wrong too.
    #[test]
    fn refused_cuts() {
        let long = [0xFF; LONGEST_TEXT + 1];
        for wrong in [(64, 0, 0), (0, 2, 0), (0, 0, 2), (u32::MAX, 1, 1)] {
            let wrong = marks(wrong.0, wrong.1, wrong.2);
            assert_eq!(refused_cut(&long, wrong, 86, 0), Refusal::Packet);
        }
        for largest in [0, 1, 86, usize::MAX] {
            assert_eq!(refused_cut(&long, NO_MARKS, largest, 0), Refusal::Size);
        }
        for largest in SIZES {
            let refusal = refused_cut(&long, NO_MARKS, largest, 0);
            assert_eq!(refusal, Refusal::TooLong);
            let refusal = refused_cut(&long[1..], NO_MARKS, largest, 0);
            assert_eq!(refusal, Refusal::Character);
        }
        for wrong in [ETX, 0x80, 0x83, 0xFF] {
            for place in [0, 500, 1_007] {
                let mut text = text(LONGEST_TEXT);
                text[place] = wrong;
                assert_eq!(refused_cut(&text, NO_MARKS, 85, 0), Refusal::Character);
            }
        }
        for (length, largest, needed) in [(0, 85, 2), (6, 3, 5), (1_008, 2, 674), (1_008, 85, 342)]
        {
            for lent in [0, 1, needed - 1] {
                let refusal = refused_cut(&text(length), NO_MARKS, largest, lent);
                assert_eq!(refusal, Refusal::Room);
            }
        }
    }

    /// 01: a one-word fragment is refused 9.
    #[test]
    fn refused_reads() {
        for count in [0, 1, 86, 1_000] {
            assert_eq!(refused_read(&vec![u32::MAX; count], 0), Refusal::Size);
        }
        // 3FF - 18 = 3E7: K would be right.
        assert_eq!(refused_read(&[0x00_1BE7], 9), Refusal::Size);
        for place in 21..32 {
            for word in 0..3 {
                let mut words = ABC;
                words[word] |= 1 << place;
                assert_eq!(refused_read(&words, 9), Refusal::Damaged);
                words[0] ^= 1;
                assert_eq!(refused_read(&words, 0), Refusal::Damaged);
            }
        }
        for lent in 0..3 {
            assert_eq!(refused_read(&ABC, lent), Refusal::Room);
        }
    }

    #[test]
    fn any_bit_turned_is_noticed() {
        for word in 0..3 {
            for place in 0..21 {
                let mut words = ABC;
                words[word] ^= 1 << place;
                assert_eq!(refused_read(&words, 0), Refusal::Checksum);
                assert_eq!(heading(&words), Err(Refusal::Checksum));
            }
        }
        for other in (0..1024).filter(|check| *check != 0x058) {
            let words = [0x08_B800 | other, ABC[1], ABC[2]];
            assert_eq!(refused_read(&words, 9), Refusal::Checksum);
        }
    }
}
