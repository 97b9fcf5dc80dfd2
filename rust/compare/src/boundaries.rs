//! Where the tables of the data sheet change their answer, and numbers near it.

use crate::random::Random;

/// Table 22, every row with those that 01 refuses.
pub const ADDRESS_ROWS: [(u64, u64); 21] = [
    (0, 0),
    (1, 1_933_312),
    (1_933_313, 1_998_848),
    (1_998_849, 2_009_087),
    (2_009_088, 2_025_471),
    (2_025_472, 2_029_567),
    (2_029_568, 2_029_583),
    (2_029_584, 2_029_599),
    (2_029_600, 2_031_614),
    (2_031_615, 2_101_248),
    (2_101_249, 102_101_250),
    (102_101_251, 402_101_250),
    (402_101_251, 1_075_843_072),
    (1_075_843_073, 2_149_584_896),
    (2_149_584_897, 3_223_326_720),
    (3_223_326_721, 3_923_326_750),
    (3_923_326_751, 4_280_000_000),
    (4_280_000_001, 4_285_000_000),
    (4_285_000_001, 4_290_000_000),
    (4_290_000_001, 4_291_000_000),
    (4_291_000_001, 4_297_068_542),
];

/// Table 23, every row.
pub const WORD_ROWS: [(u32, u32); 13] = [
    (0x00_0000, 0x00_0000),
    (0x00_0001, 0x00_8000),
    (0x00_8001, 0x1E_0000),
    (0x1E_0001, 0x1E_8000),
    (0x1E_8001, 0x1F_0000),
    (0x1F_0001, 0x1F_27FF),
    (0x1F_2800, 0x1F_67FF),
    (0x1F_6800, 0x1F_77FF),
    (0x1F_7800, 0x1F_780F),
    (0x1F_7810, 0x1F_781F),
    (0x1F_7820, 0x1F_7FFE),
    (0x1F_7FFF, 0x1F_FFFE),
    (0x1F_FFFF, 0x1F_FFFF),
];

/// The highest user address that S8.6.3 speaks of.
const HIGHEST_ADDRESS_NAMED: u64 = 5_370_810_366;

/// The ends of Table 22's rows and their neighbours, the numbers where a
/// number of digits ends, and the small addresses where the offsets matter.
pub fn addresses_near_ends() -> Vec<u64> {
    let mut ends: Vec<u64> = ADDRESS_ROWS.iter().flat_map(|row| [row.0, row.1]).collect();
    ends.extend([HIGHEST_ADDRESS_NAMED, 9_999_999, 9_999_999_999]);
    let mut near: Vec<u64> = ends
        .into_iter()
        .flat_map(|end| [end.saturating_sub(1), end, end + 1])
        .collect();
    near.extend(0..=8);
    near.sort_unstable();
    near.dedup();
    near
}

/// The ends of Table 23's rows and their neighbours, and numbers that are no
/// 21-bit words at all.
pub fn words_near_ends() -> Vec<u32> {
    let ends = WORD_ROWS.iter().flat_map(|row| [row.0, row.1]);
    let mut near: Vec<u32> = ends
        .flat_map(|end| [end.wrapping_sub(1), end, end + 1])
        .collect();
    near.extend([0x1C_8000, 0x1D_8000, 0x1E_7F47, 0x1E_7F48, 0x20_0001]);
    near.extend([0x8000_0000, 0x8000_8001, u32::MAX]);
    near.sort_unstable();
    near.dedup();
    near
}

/// An address of any kind a caller could come with: near an end, in a row, a
/// small one, or anything a text of ten digits can say.
pub fn likely_address(random: &mut Random, near_ends: &[u64]) -> u64 {
    match random.below(16) {
        0 => random.below(8),
        1..=4 => random.choose(near_ends),
        5..=10 => {
            let (from, to) = random.choose(&ADDRESS_ROWS);
            random.between(from, to)
        }
        11..=12 => random.below(2_200_000),
        13..=14 => random.below(5_000_000_000),
        _ => random.below(10_000_000_000),
    }
}
