//! The text of a page: numeric, or of seven-bit characters.
//!
//! "The words' bits stand one after the other, the lowest bit of each word first. A
//! numeric character is four bits, a text character seven, lowest bit first, over word
//! ends."

use super::word::MESSAGE_BITS;
use crate::numeric::{CHINESE_CHARACTERS, STANDARD_CHARACTERS};
use crate::refusal::Refusal;

/// What a page is read as: "kind 0 numeric in the standard set, 1 numeric in the Chinese
/// set, 2 seven-bit text".
pub const STANDARD_NUMERIC: u32 = 0;
pub const CHINESE_NUMERIC: u32 = 1;
pub const SEVEN_BIT: u32 = 2;

/// Seven-bit characters that fill up a text: NUL, ETX and EOT.
pub const TEXT_FILL: [u8; 3] = [0x00, 0x03, 0x04];
/// The one that fills up a numeric page.
pub const NUMERIC_FILL: u8 = b' ';

pub const NUMERIC_BITS: usize = 4;
pub const TEXT_BITS: usize = 7;

/// What is told of a page that was read into lent bytes.
#[derive(Clone, Copy, Debug, Default, PartialEq, Eq)]
pub struct TextRead {
    /// How many characters were written.
    pub characters: usize,
    /// How many of them at the end are fill.
    pub fill_at_end: usize,
}

/// The characters of a numeric kind, by code.
pub fn characters_of(kind: u32) -> Option<&'static [u8; 16]> {
    match kind {
        STANDARD_NUMERIC => Some(STANDARD_CHARACTERS),
        CHINESE_NUMERIC => Some(CHINESE_CHARACTERS),
        _ => None,
    }
}

/// "Refuses 7 for another kind, then 10 where a word is over 20 bits, and last 1 where
/// text is too short; it is then as it was."
pub fn read(kind: u32, words: &[u32], lent: &mut [u8]) -> Result<TextRead, Refusal> {
    if kind > SEVEN_BIT {
        return Err(Refusal::Packet);
    }
    if words.iter().any(|word| word >> MESSAGE_BITS != 0) {
        return Err(Refusal::Damaged);
    }
    let text = characters(kind, &row_of(words));
    let written = lent.get_mut(..text.len()).ok_or(Refusal::Room)?;
    written.copy_from_slice(&text);
    let fill = text.iter().rev().take_while(|byte| is_fill(kind, **byte));
    Ok(TextRead {
        characters: text.len(),
        fill_at_end: fill.count(),
    })
}

/// The bits of all words, one after the other.
fn row_of(words: &[u32]) -> Vec<bool> {
    let mut row = Vec::new();
    for word in words {
        for place in 0..MESSAGE_BITS {
            row.push(word >> place & 1 == 1);
        }
    }
    row
}

/// "Characters: 5 a word, or (20 n) div 7 of n words; bits left over (0 to 6) are not
/// looked at."
fn characters(kind: u32, row: &[bool]) -> Vec<u8> {
    match characters_of(kind) {
        Some(by_code) => {
            let codes = row.chunks_exact(NUMERIC_BITS).map(number_of);
            codes.map(|code| by_code[usize::from(code)]).collect()
        }
        None => row.chunks_exact(TEXT_BITS).map(number_of).collect(),
    }
}

/// The number of these bits, the lowest first.
fn number_of(bits: &[bool]) -> u8 {
    let from_highest = bits.iter().rev();
    from_highest.fold(0, |number, bit| 2 * number + u8::from(*bit))
}

/// "Spaces in a numeric page; NUL, ETX or EOT (00H, 03H, 04H) in a text, in any mixture."
fn is_fill(kind: u32, character: u8) -> bool {
    match kind {
        SEVEN_BIT => TEXT_FILL.contains(&character),
        _ => character == NUMERIC_FILL,
    }
}

#[cfg(test)]
mod tests {
    use super::*;

    /// What stands in the lent bytes before.
    const BEFORE: u8 = 0xA5;

    /// The characters, and how many of them at the end are fill. What was lent beyond them
    /// must stay.
    #[track_caller]
    fn text_of(kind: u32, words: &[u32]) -> (Vec<u8>, usize) {
        let mut lent = [BEFORE; 40];
        let told = read(kind, words, &mut lent).unwrap();
        let (text, rest) = lent.split_at(told.characters);
        assert!(rest.iter().all(|byte| *byte == BEFORE));
        (text.to_vec(), told.fill_at_end)
    }

    #[track_caller]
    fn assert_refused(kind: u32, words: &[u32], room: usize, refusal: Refusal) {
        let mut lent = vec![BEFORE; room];
        assert_eq!(read(kind, words, &mut lent), Err(refusal));
        assert!(lent.iter().all(|byte| *byte == BEFORE));
    }

    /// The codes 0, 4, 1, 7 and C from the lowest bit on. The zero before stays.
    #[test]
    fn a_numeric_page() {
        for kind in [STANDARD_NUMERIC, CHINESE_NUMERIC] {
            let page = (b"0417 ".to_vec(), 1);
            assert_eq!(text_of(kind, &[0xC_7140]), page);
            assert_eq!(text_of(kind, &[]), (vec![], 0));
            assert_eq!(text_of(kind, &[0xC_CCCC]), (b"     ".to_vec(), 5));
            let page = (b"     4 0  ".to_vec(), 2);
            assert_eq!(text_of(kind, &[0xC_CCCC, 0xC_C0C4]), page);
        }
    }

    #[test]
    fn both_sets() {
        let words = [0x4_3210, 0x9_8765, 0xE_DCBA, 0x0_000F];
        let (text, fill) = text_of(STANDARD_NUMERIC, &words);
        assert_eq!((&text[..16], fill), (&b"0123456789?U -]["[..], 0));
        let (text, fill) = text_of(CHINESE_NUMERIC, &words);
        assert_eq!((&text[..16], fill), (&b"0123456789AB CDE"[..], 0));
    }

    /// B is 42H, a is 61H, y is 79H, of which six bits, 39H, end the first word and one
    /// begins the second: 42H and 61H times 128 and 39H times 16384 are E70C2H. Two NULs
    /// follow, and five bits are left over.
    #[test]
    fn a_text_character_over_a_word_end() {
        let text = (b"Bay\0\0".to_vec(), 2);
        assert_eq!(text_of(SEVEN_BIT, &[0xE_70C2, 1]), text);
        assert_eq!(text_of(SEVEN_BIT, &[0xE_70C2]), (b"Ba".to_vec(), 0));
    }

    /// The five bits after the fifth character are not looked at.
    #[test]
    fn bits_that_are_left_over() {
        let text = (b"Bay\0\0".to_vec(), 2);
        assert_eq!(text_of(SEVEN_BIT, &[0xE_70C2, 1 | 0x1F << 15]), text);
    }

    /// EOT and ETX from the lowest bit on, then a NUL up to the first bit of the second
    /// word and two more: 04H and 03H times 128 are 184H.
    #[test]
    fn fill_of_any_mixture() {
        let text = (vec![4, 3, 0, 0, 0], 5);
        assert_eq!(text_of(SEVEN_BIT, &[0x0_0184, 0]), text);
        // A space is no fill in a text, and what stands before it is none either.
        let space = u32::from(b' ') << 7;
        let text = (vec![4, b' ', 0, 0, 0], 3);
        assert_eq!(text_of(SEVEN_BIT, &[4 | space, 0]), text);
        let text = (vec![0x7F, 0x7F], 0);
        assert_eq!(text_of(SEVEN_BIT, &[0xF_FFFF]), text);
    }

    #[test]
    fn how_many_characters() {
        for words in 0..7 {
            let row = vec![0; words];
            assert_eq!(text_of(STANDARD_NUMERIC, &row).0.len(), 5 * words);
            let characters = [0, 2, 5, 8, 11, 14, 17][words];
            assert_eq!(text_of(SEVEN_BIT, &row).0.len(), characters);
        }
    }

    /// 7 before 10, 10 before 1.
    #[test]
    fn refused_pages() {
        let over = 1 << 20;
        for kind in [3, 4, 1 << 31, u32::MAX] {
            assert_refused(kind, &[over], 0, Refusal::Packet);
            assert_refused(kind, &[], 5, Refusal::Packet);
        }
        for kind in [STANDARD_NUMERIC, CHINESE_NUMERIC, SEVEN_BIT] {
            assert_refused(kind, &[0, over], 0, Refusal::Damaged);
            assert_refused(kind, &[u32::MAX, 0], 20, Refusal::Damaged);
            assert_refused(kind, &[0xF_FFFF], 1, Refusal::Room);
        }
        assert_refused(STANDARD_NUMERIC, &[0], 4, Refusal::Room);
        assert_refused(SEVEN_BIT, &[0, 0], 4, Refusal::Room);
    }
}
