//! User addresses: the accepted ranges (Table 22 as 01 reads it) and the code
//! words that go over the air (Table 24).

use crate::refusal::Refusal;

/// The accepted ranges' classes, numbered in the order of 01's list.
#[derive(Clone, Copy, Debug, PartialEq, Eq)]
pub enum Class {
    Short = 1,
    InformationService = 2,
    Network = 3,
    Operator = 4,
    SetOneTwo = 5,
    SetOneThree = 6,
    SetOneFour = 7,
    SetTwoThreeCountry = 8,
    SetTwoThreeInformationService = 9,
}

impl Class {
    /// The class's place in 01's list, counted from 1.
    pub fn number(self) -> u32 {
        self as u32
    }
}

/// One row of accepted addresses; both ends belong to it.
#[derive(Clone, Copy, Debug)]
pub struct Range {
    pub from: u64,
    pub to: u64,
    pub class: Class,
}

const fn range(from: u64, to: u64, class: Class) -> Range {
    Range { from, to, class }
}

/// The accepted ranges (Table 22). The three rows of set 1-2 are one row here,
/// and so are the three information service rows of set 2-3, as in 01.
pub const RANGES: [Range; 9] = [
    range(1, 1_933_312, Class::Short),
    range(2_009_088, 2_025_471, Class::InformationService),
    range(2_025_472, 2_029_567, Class::Network),
    range(2_029_584, 2_029_599, Class::Operator),
    range(2_101_249, 1_075_843_072, Class::SetOneTwo),
    range(1_075_843_073, 2_149_584_896, Class::SetOneThree),
    range(2_149_584_897, 3_223_326_720, Class::SetOneFour),
    range(3_223_326_721, 3_923_326_750, Class::SetTwoThreeCountry),
    range(
        4_280_000_001,
        4_291_000_000,
        Class::SetTwoThreeInformationService,
    ),
];

/// The class of an accepted address; every other address is refused.
pub fn address_class(address: u64) -> Result<Class, Refusal> {
    // The rows rise, so the first that ends at or after the address is the
    // only one that can hold it.
    match RANGES.iter().find(|range| address <= range.to) {
        Some(range) if range.from <= address => Ok(range.class),
        _ => Err(Refusal::Range),
    }
}

/// The code words of an address.
#[derive(Clone, Copy, Debug, PartialEq, Eq)]
pub enum Words {
    /// A short address is a single word.
    Short(u32),
    /// A long address is two words, the lower part of the address first.
    Long { first: u32, second: u32 },
}

/// Table 24 adds this to a short address.
const SHORT_ADDRESS_SHIFT: u64 = 0x8000;
/// Each bank of long address words has this many words (Table 23).
const BANK_SIZE: u64 = 0x8000;
/// What Table 24 subtracts from the addresses of sets 1-2, 1-3 and 1-4.
const SET_ONE_ORIGIN: u64 = 0x1F_9001;
/// What Table 24 subtracts from the addresses of set 2-3.
const SET_TWO_ORIGIN: u64 = 0x1F_8FFF;
/// The second words of set 1-2 are counted downwards from here (Table 24, note 6).
const SET_ONE_TWO_TOP: u64 = 0x1F_FFFF;
/// The second words of sets 1-3 and 1-4 are counted upwards from here.
const SET_ONE_THREE_BASE: u64 = 0x1D_8000;
/// The second words of set 2-3 are counted upwards from here.
const SET_TWO_THREE_BASE: u64 = 0x1C_8000;

/// The first word of each bank of long address words (Table 23).
const BANK_ONE: u64 = 0x00_0001;
const BANK_TWO: u64 = 0x1F_7FFF;
const BANK_THREE: u64 = 0x1E_0001;
const BANK_FOUR: u64 = 0x1E_8001;

/// The code words of an accepted address (Table 24).
pub fn address_words(address: u64) -> Result<Words, Refusal> {
    let words = match address_class(address)? {
        Class::Short | Class::InformationService | Class::Network | Class::Operator => {
            Words::Short((address + SHORT_ADDRESS_SHIFT) as u32)
        }
        Class::SetOneTwo => {
            let distance = address - SET_ONE_ORIGIN;
            long(
                BANK_ONE + distance % BANK_SIZE,
                SET_ONE_TWO_TOP - distance / BANK_SIZE,
            )
        }
        Class::SetOneThree | Class::SetOneFour => {
            let distance = address - SET_ONE_ORIGIN;
            long(
                BANK_ONE + distance % BANK_SIZE,
                SET_ONE_THREE_BASE + distance / BANK_SIZE,
            )
        }
        Class::SetTwoThreeCountry | Class::SetTwoThreeInformationService => {
            let distance = address - SET_TWO_ORIGIN;
            long(
                BANK_TWO + distance % BANK_SIZE,
                SET_TWO_THREE_BASE + distance / BANK_SIZE,
            )
        }
    };
    Ok(words)
}

/// Both numbers are below 2^21 for every accepted address.
fn long(first: u64, second: u64) -> Words {
    Words::Long {
        first: first as u32,
        second: second as u32,
    }
}

/// The accepted address whose only word this is.
pub fn word_address(word: u32) -> Result<u64, Refusal> {
    let address = u64::from(word)
        .checked_sub(SHORT_ADDRESS_SHIFT)
        .ok_or(Refusal::Range)?;
    accept_if_words(address, Words::Short(word))
}

/// The accepted address whose first and second word these are.
pub fn pair_address(first: u32, second: u32) -> Result<u64, Refusal> {
    let address = pair_candidate(u64::from(first), u64::from(second)).ok_or(Refusal::Range)?;
    accept_if_words(address, Words::Long { first, second })
}

/// Table 24 read backwards: the banks of the two words name the set.
fn pair_candidate(first: u64, second: u64) -> Option<u64> {
    if in_bank(BANK_ONE, first) {
        let low = SET_ONE_ORIGIN + (first - BANK_ONE);
        if in_bank(BANK_TWO, second) {
            Some(low + (SET_ONE_TWO_TOP - second) * BANK_SIZE)
        } else if in_bank(BANK_THREE, second) || in_bank(BANK_FOUR, second) {
            Some(low + (second - SET_ONE_THREE_BASE) * BANK_SIZE)
        } else {
            None
        }
    } else if in_bank(BANK_TWO, first) && in_bank(BANK_THREE, second) {
        let low = SET_TWO_ORIGIN + (first - BANK_TWO);
        Some(low + (second - SET_TWO_THREE_BASE) * BANK_SIZE)
    } else {
        None
    }
}

fn in_bank(bank: u64, word: u64) -> bool {
    (bank..bank + BANK_SIZE).contains(&word)
}

/// Words that Table 24 would turn into an address of another set, or of none,
/// are nobody's: 1F7FFF, 1E0001 and 1F8000, 1E0001 are the two such pairs at
/// the border of sets 1-4 and 2-3 that 01 names.
fn accept_if_words(address: u64, words: Words) -> Result<u64, Refusal> {
    if address_words(address) == Ok(words) {
        Ok(address)
    } else {
        Err(Refusal::Range)
    }
}

#[cfg(test)]
mod tests {
    use super::*;

    fn words(first: u32, second: u32) -> Result<Words, Refusal> {
        Ok(Words::Long { first, second })
    }

    /// 01, proved examples 1 to 5.
    #[test]
    fn marked_cases() {
        assert_eq!(address_words(1), Ok(Words::Short(0x00_8001)));
        assert_eq!(address_words(1_933_312), Ok(Words::Short(0x1E_0000)));
        assert_eq!(address_words(2_101_249), words(0x00_0001, 0x1F_FFFE));
        assert_eq!(address_words(1_075_843_073), words(0x00_0001, 0x1E_0001));
        assert_eq!(address_words(3_223_326_721), words(0x1F_8001, 0x1E_0001));
    }

    /// The short rows' ends are the ends of Table 23's rows.
    #[test]
    fn short_rows_meet_the_word_ranges() {
        let ends = [
            (1, 1_933_312, 0x00_8001, 0x1E_0000),
            (2_009_088, 2_025_471, 0x1F_2800, 0x1F_67FF),
            (2_025_472, 2_029_567, 0x1F_6800, 0x1F_77FF),
            (2_029_584, 2_029_599, 0x1F_7810, 0x1F_781F),
        ];
        for (from, to, first_word, last_word) in ends {
            assert_eq!(address_words(from), Ok(Words::Short(first_word)));
            assert_eq!(address_words(to), Ok(Words::Short(last_word)));
        }
    }

    /// Sets 1-2, 1-3 and 1-4 fill their banks of Table 23 from end to end.
    #[test]
    fn long_rows_meet_the_word_ranges() {
        assert_eq!(address_words(2_101_249), words(0x00_0001, 0x1F_FFFE));
        assert_eq!(address_words(1_075_843_072), words(0x00_8000, 0x1F_7FFF));
        assert_eq!(address_words(1_075_843_073), words(0x00_0001, 0x1E_0001));
        assert_eq!(address_words(2_149_584_896), words(0x00_8000, 0x1E_8000));
        assert_eq!(address_words(2_149_584_897), words(0x00_0001, 0x1E_8001));
        assert_eq!(address_words(3_223_326_720), words(0x00_8000, 0x1F_0000));
        // Set 2-3 is not filled to its end by the rows in use, but the last
        // row of Table 22 ends where the banks do: 4297068542 would be
        // 1FFFFE, 1E8000.
        let distance = 4_297_068_542 - SET_TWO_ORIGIN;
        assert_eq!(BANK_TWO + distance % BANK_SIZE, 0x1F_FFFE);
        assert_eq!(SET_TWO_THREE_BASE + distance / BANK_SIZE, 0x1E_8000);
    }

    #[test]
    fn rows_in_order_and_with_their_class() {
        for (index, range) in RANGES.iter().enumerate() {
            assert!(range.from <= range.to);
            assert_eq!(range.class.number() as usize, index + 1);
            assert_eq!(address_class(range.from), Ok(range.class));
            assert_eq!(address_class(range.to), Ok(range.class));
        }
        assert!(RANGES.windows(2).all(|pair| pair[0].to < pair[1].from));
    }

    #[test]
    fn outside_every_row() {
        let refused = [
            0,
            1_933_313,
            1_998_849,
            2_009_087,
            2_029_568,
            2_029_583,
            2_029_600,
            2_031_614,
            2_101_248,
            3_923_326_751,
            4_280_000_000,
            4_291_000_001,
            4_297_068_542,
            5_370_810_366,
            u64::MAX,
        ];
        for address in refused {
            assert_eq!(address_class(address), Err(Refusal::Range), "{address}");
            assert_eq!(address_words(address), Err(Refusal::Range), "{address}");
        }
    }

    #[test]
    fn the_way_back_from_every_row() {
        for range in RANGES {
            let middle = range.from + (range.to - range.from) / 2;
            for address in [range.from, middle, range.to] {
                let back = match address_words(address).unwrap() {
                    Words::Short(word) => word_address(word),
                    Words::Long { first, second } => pair_address(first, second),
                };
                assert_eq!(back, Ok(address));
            }
        }
    }

    /// 01 names the two pairs at the border; the others are outside the banks.
    #[test]
    fn words_of_nobody() {
        let pairs = [
            (0x1F_7FFF, 0x1E_0001),
            (0x1F_8000, 0x1E_0001),
            (0x00_0000, 0x1F_FFFE),
            (0x00_8001, 0x1F_FFFE),
            (0x00_0001, 0x1F_FFFF),
            (0x00_0001, 0x1F_7FFE),
            (0x00_0001, 0x1F_0001),
            (0x1F_FFFE, 0x1E_8000),
            (0x1F_8001, 0x1E_8001),
            (u32::MAX, u32::MAX),
        ];
        for (first, second) in pairs {
            assert_eq!(pair_address(first, second), Err(Refusal::Range));
        }
        for word in [0, 0x8000, 0x1E_0001, 0x1F_7800, 0x1F_FFFF, u32::MAX] {
            assert_eq!(word_address(word), Err(Refusal::Range));
        }
        assert_eq!(pair_address(0x1F_8001, 0x1E_0001), Ok(3_223_326_721));
    }
}
