//! Mending: the sent word that is nearest to a received one, found by trying.
//!
//! 02, item 5: "Of the 31 code bits at most two are changed, parity is then tested
//! (wrong parity is 25), and no two different sent words can come from one received
//! word under that rule."

use std::iter;

use super::word::{has_even_parity, remainder, FIRST_PLACE, LAST_PLACE};
use crate::refusal::Refusal;

/// A word that could be mended.
#[derive(Clone, Copy, Debug, PartialEq, Eq)]
pub struct Mended {
    pub word: u32,
    /// How many of its bits were changed: 0, 1 or 2.
    pub changed: u32,
}

/// How a word is mended: `mend`, or what is known to do the same.
pub type Mend = fn(u32) -> Result<Mended, Refusal>;

/// Every choice of at most two code bits, each as the word in which these alone are
/// ones: that of none, those of one, those of two.
pub fn choices() -> impl Iterator<Item = u32> {
    let places = || FIRST_PLACE..=LAST_PLACE;
    let ones = places().map(|place| 1 << place);
    let twos = places().flat_map(|lower| {
        let above = lower + 1..=LAST_PLACE;
        above.map(move |higher| 1 << lower | 1 << higher)
    });
    iter::once(0).chain(ones).chain(twos)
}

/// "Remainder 0: nothing is changed. Else, if one or two code bits have that
/// remainder, they are changed; else the word is refused 25. After that the parity
/// of all 32 bits must be even, else the word is refused 25."
pub fn mend(word: u32) -> Result<Mended, Refusal> {
    let choice = choices().find(|choice| remainder(word ^ choice) == 0);
    let choice = choice.ok_or(Refusal::BeyondRepair)?;
    let mended = Mended {
        word: word ^ choice,
        changed: choice.count_ones(),
    };
    match has_even_parity(mended.word) {
        true => Ok(mended),
        false => Err(Refusal::BeyondRepair),
    }
}

/// "Every word is mended where it stands, and bits[i] becomes the number of bits
/// changed, or 25 where the word is beyond repair, and then that word stays as it
/// came."
pub fn mend_row(mend: Mend, words: &mut [u32], bits: &mut [u32]) -> Result<(), Refusal> {
    if bits.len() < words.len() {
        return Err(Refusal::Room);
    }
    for (word, bits) in words.iter_mut().zip(bits) {
        match mend(*word) {
            Ok(mended) => (*word, *bits) = (mended.word, mended.changed),
            Err(refusal) => *bits = refusal.number(),
        }
    }
    Ok(())
}

#[cfg(test)]
mod tests {
    use std::collections::BTreeSet;

    use super::super::table;
    use super::super::word::{is_sent, IDLE, SYNC};
    use super::*;

    const BEYOND_REPAIR: Result<Mended, Refusal> = Err(Refusal::BeyondRepair);

    fn mended(word: u32, changed: u32) -> Result<Mended, Refusal> {
        Ok(Mended { word, changed })
    }

    /// 1, 31, and 31 times 30 by 2. No two leave the same, so that there is never more
    /// than one choice.
    #[test]
    fn every_choice_leaves_another_remainder() {
        let all: Vec<u32> = choices().collect();
        assert_eq!(all.len(), 1 + 31 + 465);
        assert!(all.iter().all(|choice| choice % 2 == 0));
        let remainders: BTreeSet<u32> = all.iter().map(|choice| remainder(*choice)).collect();
        assert_eq!(remainders.len(), all.len());
    }

    /// Up to two wrong code bits are mended. With the parity bit wrong too nothing is.
    #[test]
    fn up_to_two_wrong_bits() {
        for sent in [SYNC, IDLE, 0x8147_1A86] {
            for choice in choices() {
                assert_eq!(mend(sent ^ choice), mended(sent, choice.count_ones()));
                assert_eq!(mend(sent ^ choice ^ 1), BEYOND_REPAIR);
            }
        }
    }

    /// "The parity bit is never changed, so a lone wrong parity bit is 25 too."
    #[test]
    fn a_lone_wrong_parity_bit() {
        for sent in [SYNC, IDLE, 0, 0x8147_1A86] {
            assert_eq!(mend(sent), mended(sent, 0));
            assert_eq!(mend(sent ^ 1), BEYOND_REPAIR);
        }
        assert_eq!(mend(u32::MAX), mended(u32::MAX, 0));
        assert_eq!(mend(u32::MAX - 1), BEYOND_REPAIR);
    }

    /// x^13 leaves 185H, which is what x^8, x^7, x^2 and x^0 leave together: the five have
    /// no remainder, and with the parity bit 430BH is a sent word, as 0 is. Three of its
    /// code bits wrong in 0 are two from it, but the parity is then wrong. With the parity
    /// bit that is four wrong bits, and the word is mended to another than was sent.
    #[test]
    fn three_and_four_wrong_bits() {
        assert!(is_sent(0) && is_sent(0x430B));
        for wrong in [0x4300, 0x4208, 0x000A | 0x4000] {
            assert_eq!(mend(wrong), BEYOND_REPAIR);
            assert_eq!(mend(wrong | 1), mended(0x430B, 2));
        }
    }

    /// x^0, x^1 and x^2 leave 7, and so do no one or two: in the table of what single
    /// powers leave no two differ by 7, and none is 7.
    #[test]
    fn three_wrong_bits_far_from_every_other_word() {
        assert_eq!(table::entry(7), 0);
        assert_eq!(mend(SYNC ^ 0b1110), BEYOND_REPAIR);
        assert_eq!(mend(SYNC ^ 0b1111), BEYOND_REPAIR);
    }

    #[test]
    fn a_row_is_mended_where_it_stands() {
        let mut words = [SYNC, IDLE ^ 0x10, SYNC ^ 1, IDLE ^ 0x8000_0002];
        let mut bits = [7; 6];
        assert_eq!(mend_row(mend, &mut words, &mut bits), Ok(()));
        assert_eq!(words, [SYNC, IDLE, SYNC ^ 1, IDLE]);
        assert_eq!(bits, [0, 1, 25, 2, 7, 7]);
        assert_eq!(mend_row(mend, &mut [], &mut []), Ok(()));
    }

    #[test]
    fn a_row_with_too_few_places_stays() {
        let mut words = [IDLE ^ 0x10, IDLE];
        let mut bits = [7];
        let told = mend_row(mend, &mut words, &mut bits);
        assert_eq!(told, Err(Refusal::Room));
        assert_eq!((words, bits), ([IDLE ^ 0x10, IDLE], [7]));
    }
}
