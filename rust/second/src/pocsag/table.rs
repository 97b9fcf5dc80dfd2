//! The table by which a library may mend words, made from the generator by search.

use super::mending::choices;
use super::word::{remainder, FIRST_PLACE, LAST_PLACE};

/// "A table of 1,024 entries gives for each remainder the one or two wrong bits among
/// 31, or none."
pub const LENGTH: u32 = 1_024;

/// "The entry for remainder r is 0 if no one or two code bits have that remainder (also
/// for r = 0), else a + 32*b where a (1..31) is the place in the word of the lower wrong
/// bit and b is 0 (one bit) or the place of the higher one."
pub fn entry(of: u32) -> u32 {
    let mut wrong = choices().filter(|choice| *choice != 0);
    let Some(choice) = wrong.find(|choice| remainder(*choice) == of) else {
        return 0;
    };
    let is_wrong = |place: &u32| choice >> place & 1 == 1;
    let mut places = (FIRST_PLACE..=LAST_PLACE).filter(is_wrong);
    let mut next = || places.next().unwrap_or_default();
    let (lower, higher) = (next(), next());
    lower + 32 * higher
}

/// How many entries stand in a line of the table as it is written.
const IN_A_LINE: usize = 16;

/// All entries in their order, as the lines of a constant.
pub fn lines() -> Vec<String> {
    let entries: Vec<u32> = (0..LENGTH).map(entry).collect();
    let line = |entries: &[u32]| {
        let entries: Vec<String> = entries.iter().map(u32::to_string).collect();
        format!("    {},", entries.join(", "))
    };
    entries.chunks(IN_A_LINE).map(line).collect()
}

#[cfg(test)]
mod tests {
    use super::*;

    /// By hand: x^0, which is bit 1, leaves 1, and x^1 leaves 2, so that bits 1 and 2
    /// leave 3. x^10, bit 11, leaves 369H, and x^30, bit 31, leaves 3B4H. Both leave
    /// 0DDH together.
    #[test]
    fn entries_by_hand() {
        assert_eq!(entry(0), 0);
        assert_eq!(entry(1), 1);
        assert_eq!(entry(2), 2);
        assert_eq!(entry(3), 1 + 32 * 2);
        assert_eq!(entry(0x369), 11);
        assert_eq!(entry(0x3B4), 31);
        assert_eq!(entry(0x0DD), 11 + 32 * 31);
    }

    /// "The named bits have that remainder, and where none stands no one or two bits
    /// have it": 496 entries are not 0, as many as there are choices but for none.
    #[test]
    fn the_whole_table() {
        let entries: Vec<u32> = (0..LENGTH).map(entry).collect();
        let named = entries.iter().filter(|entry| **entry != 0).count();
        assert_eq!(named, 496);
        for (left, entry) in (0..).zip(entries) {
            let (lower, higher) = (entry % 32, entry / 32);
            let bits = 1 << lower | u32::from(higher != 0) << higher;
            assert!(entry == 0 || remainder(bits) == left);
            assert!(higher == 0 || lower < higher);
        }
    }

    /// By hand: x^0 to x^3 are bits 1 to 4. x^19 and x^27, which are bits 20 and 28, leave
    /// 3CFH and 3C2H, together DH; x^21 and x^26, bits 22 and 27, 1EEH and 1E1H, together
    /// FH. Of 7, BH and EH none are named.
    #[test]
    fn lines_of_sixteen() {
        let lines = lines();
        assert_eq!(lines.len(), 64);
        let first = "    0, 1, 2, 65, 3, 97, 98, 0, 4, 129, 130, 0, 131, 916, 0, 886,";
        assert_eq!(lines[0], first);
    }
}
