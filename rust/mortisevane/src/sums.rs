//! The sums that messages carry (S8.8.6, S8.7.8.3). Each takes any row, and refuses nothing.
//!
//! ```
//! use mortisevane::sums;
//!
//! // The page "0417": 00H + C5H + 01H is 198, folded 3 + 6, and of six bits the complement of 9 is 54.
//! assert_eq!(sums::six_bit(&[0x01C500]), 54);
//! // The two lowest bits of the first word are K's own.
//! assert_eq!(sums::six_bit(&[0x01C503]), 54);
//! // The text "0417" with a fill of ETX: 30H + 34H + 31H + 37H + 03H is 207, and of seven bits the complement is 48.
//! assert_eq!(sums::signature(b"0417\x03"), 48);
//! // Of no words at all the sum is 0, and K its complement.
//! assert_eq!(sums::ten_bit(&[]), 1023);
//! ```

/// K of a numeric page, 0 to 63. K0 to K3 belong into the vector, K4 and K5 into the first word, whose two lowest bits are
/// taken as 0.
pub fn six_bit(words: &[u32]) -> u32 {
    ask!(mortisevane_sum_six_bit(lent words))
}

/// K of a fragment, 0 to 1023. The ten lowest bits of its first word are taken as 0.
pub fn ten_bit(words: &[u32]) -> u32 {
    ask!(mortisevane_sum_ten_bit(lent words))
}

/// The signature of a text, 0 to 127. The fill belongs to the characters.
pub fn signature(characters: &[u8]) -> u32 {
    ask!(mortisevane_sum_signature(lent characters))
}
