//! The sums by which a message is known to have come whole: the checksums K of
//! S8.8.6, and the signature S of a message's characters (01, "Fragments").

use crate::layout::{field, Field};

/// Table 60. What stands above i20 is no information bit.
const GROUPS: [Field; 3] = [field(0, 8), field(8, 8), field(16, 5)];

/// K itself is in the first word: two bits of it in a numeric message (Tables
/// 41 and 42), all ten in a fragment.
const NUMERIC_CHECK: Field = field(0, 2);
const FRAGMENT_CHECK: Field = field(0, 10);

/// The binary sum of a numeric message: its two highest bits of eight are added
/// to the six lowest.
const LOWEST: Field = field(0, 6);
const HIGHEST: Field = field(6, 2);

const TEN_BITS: Field = field(0, 10);
const SIGNATURE: Field = field(0, 7);

/// K of a numeric message.
pub fn six_bit(words: &[u32]) -> u32 {
    let sum = binary_sum(words, NUMERIC_CHECK);
    LOWEST.of(!(HIGHEST.of(sum) + LOWEST.of(sum)))
}

/// K of a fragment.
pub fn ten_bit(words: &[u32]) -> u32 {
    TEN_BITS.of(!binary_sum(words, FRAGMENT_CHECK))
}

/// S of all characters of a message.
pub fn signature(characters: &[u8]) -> u32 {
    SIGNATURE.of(!low_bits(characters.iter().copied().map(u32::from)))
}

/// All groups of all words, with K as 0.
fn binary_sum(words: &[u32], check: Field) -> u32 {
    let mut words = words.to_vec();
    if let Some(first) = words.first_mut() {
        *first &= !check.bits();
    }
    let groups_of = |word: &u32| GROUPS.map(|group| group.of(*word));
    low_bits(words.iter().flat_map(groups_of))
}

/// The sum's 32 lowest bits, which are more than any of the sums is made of.
fn low_bits(numbers: impl Iterator<Item = u32>) -> u32 {
    numbers.fold(0, u32::wrapping_add)
}

#[cfg(test)]
mod tests {
    use super::*;

    /// By hand. 01C500: 00 + C5 + 01 = C6 = 11 000110; 3 + 6 = 001001.
    /// 031C50: 50 + 1C + 03 = 6F = 01 101111; 1 + 2F = 110000.
    #[test]
    fn six_bits() {
        assert_eq!(six_bit(&[0x01_C500]), 0b11_0110);
        assert_eq!(six_bit(&[0x03_1C50]), 0b00_1111);
    }

    /// FC + 00 + 03 = FF = 11 111111; 3 + 3F = 1 000010, of which six bits stay.
    #[test]
    fn six_bits_of_a_sum_that_carries() {
        assert_eq!(six_bit(&[0x03_00FC]), 0b11_1101);
    }

    /// FC + FF + 1F and FF + FF + 1F: 21A + 21D = 437, of which 37 stays.
    #[test]
    fn six_bits_of_two_words() {
        assert_eq!(six_bit(&[0x1F_FFFF, 0x1F_FFFF]), 0b00_1000);
    }

    /// 00 + FC + 1F = 11B, and 21D for each word more: 338, then 555.
    #[test]
    fn ten_bits() {
        assert_eq!(ten_bit(&[0x1F_FFFF]), 0x2E4);
        assert_eq!(ten_bit(&[0x1F_FFFF; 2]), 0x0C7);
        assert_eq!(ten_bit(&[0x1F_FFFF; 3]), 0x2AA);
    }

    #[test]
    fn k_is_as_0() {
        for check in 0..4 {
            assert_eq!(six_bit(&[0x01_C500 | check]), 0b11_0110);
        }
        for check in 0..1024 {
            assert_eq!(ten_bit(&[0x1F_FC00 | check]), 0x2E4);
        }
        // Only the first word has a K.
        assert_ne!(six_bit(&[0, 1]), six_bit(&[0, 0]));
        assert_ne!(ten_bit(&[0, 1]), ten_bit(&[0, 0]));
    }

    #[test]
    fn bits_over_21_are_not_looked_at() {
        for place in 21..32 {
            assert_eq!(six_bit(&[0x01_C500 | 1 << place]), 0b11_0110);
            assert_eq!(ten_bit(&[0x1F_FFFF, 0x1F_FFFF | 1 << place]), 0x0C7);
        }
    }

    #[test]
    fn nothing_sums_to_0() {
        assert_eq!(six_bit(&[]), 0x3F);
        assert_eq!(ten_bit(&[]), 0x3FF);
        assert_eq!(signature(&[]), 0x7F);
    }

    /// 41 + 42 + 43 = C6 = 1 1000110; 03 + 03 = 06; FF + FF = 1FE = 11 1111110.
    #[test]
    fn signatures() {
        assert_eq!(signature(b"ABC"), 0b011_1001);
        assert_eq!(signature(&[0x03, 0x03]), 0b111_1001);
        assert_eq!(signature(&[0xFF, 0xFF]), 0b000_0001);
    }
}
