//! Rows of words: good fragments, damaged ones and any words.

use second::fragment::{self, ETX, LONGEST_TEXT, SIZES};
use second::sums;

use crate::random::Random;

use super::cutting::{allowed_size, fitting_marks, seeded_text};

pub const WORD_BITS: u64 = 21;
pub const CELL_BITS: u64 = 7;
pub const CELLS_IN_WORD: usize = 3;
const CHECK_BITS: u64 = 10;
/// Beyond the largest fragment.
const LONGEST_ROW: u64 = 90;
/// Texts for one fragment have room in a few.
const A_FEW: usize = 5;

/// Words, and what sort of row they are.
pub struct Row {
    pub sort: &'static str,
    pub words: Vec<u32>,
}

pub const AS_CUT: &str = "as cut";
pub const OF_ANY_CELLS: &str = "of any cells";
pub const BIT_TURNED: &str = "a bit turned";
pub const OVER_21_BITS: &str = "a word over 21 bits";
pub const WORDS_LOST: &str = "words lost";
pub const ANOTHER_CHECK: &str = "another K";
pub const ANY_WORDS: &str = "any words";

/// Changes a fragment.
pub type Damage = fn(&mut Random, &mut Vec<u32>);

pub const DAMAGES: [(&str, Damage); 4] = [
    (BIT_TURNED, |random, words| turn_bit(random, words)),
    (OVER_21_BITS, |random, words| set_high_bit(random, words)),
    (WORDS_LOST, lose_words),
    (ANOTHER_CHECK, |random, words| change_check(random, words)),
];

pub fn seeded_row(random: &mut Random) -> Row {
    match random.below(16) {
        0..=4 => Row {
            sort: AS_CUT,
            words: fragment_as_cut(random),
        },
        5..=9 => Row {
            sort: OF_ANY_CELLS,
            words: fragment_of_any_cells(random),
        },
        10..=14 => damaged_fragment(random),
        _ => Row {
            sort: ANY_WORDS,
            words: any_words(random),
        },
    }
}

/// Half of the fragments are small, and the ends come often.
fn seeded_size(random: &mut Random) -> usize {
    match random.below(4) {
        0..=1 => random.between(2, 8) as usize,
        2 => random.choose(&[*SIZES.start(), *SIZES.end()]),
        _ => allowed_size(random),
    }
}

/// Any fragment of a text that the second program cuts.
fn fragment_as_cut(random: &mut Random) -> Vec<u32> {
    let largest = seeded_size(random);
    let cells = A_FEW * CELLS_IN_WORD * (largest - 1);
    let longest = LONGEST_TEXT.min(cells - 1);
    let length = random.between(0, longest as u64) as usize;
    let text = seeded_text(random, length);
    let mut row = [0; A_FEW * *SIZES.end()];
    let cut = fragment::cut(&text, fitting_marks(random), largest, &mut row);
    let cut = cut.expect("all of it is right");
    let place = random.below(cut.fragments as u64) as usize;
    let fragments = &mut row[..cut.words].chunks(largest);
    fragments.nth(place).expect("it is there").to_vec()
}

/// A first or a later fragment, with everything in its first word as it comes,
/// and ETX in some of its cells or in all.
fn fragment_of_any_cells(random: &mut Random) -> Vec<u32> {
    let words = seeded_size(random);
    let etx_once_in = random.choose(&[1, 2, 8, 8, 8, 1_000]);
    let mut row = vec![any_word(random)];
    row.resize_with(words, || word_of_cells(random, etx_once_in));
    set_check(&mut row);
    row
}

fn word_of_cells(random: &mut Random, etx_once_in: u64) -> u32 {
    let mut word = 0;
    for _ in 0..CELLS_IN_WORD {
        let cell = match random.once_in(etx_once_in) {
            true => u32::from(ETX),
            false => random.below(1 << CELL_BITS) as u32,
        };
        word = word << CELL_BITS | cell;
    }
    word
}

fn any_word(random: &mut Random) -> u32 {
    random.below(1 << WORD_BITS) as u32
}

pub fn set_check(words: &mut [u32]) {
    let check = sums::ten_bit(words);
    if let Some(first) = words.first_mut() {
        *first = *first >> CHECK_BITS << CHECK_BITS | check;
    }
}

/// It is named by its first damage; a quarter have a second one.
fn damaged_fragment(random: &mut Random) -> Row {
    let mut words = match random.below(2) {
        0 => fragment_as_cut(random),
        _ => fragment_of_any_cells(random),
    };
    let (sort, damage) = random.choose(&DAMAGES);
    damage(random, &mut words);
    while random.once_in(4) {
        let (_, another) = random.choose(&DAMAGES);
        another(random, &mut words);
    }
    Row { sort, words }
}

fn turn_bit(random: &mut Random, words: &mut [u32]) {
    if let Some(word) = any_of(random, words) {
        *word ^= 1 << random.below(WORD_BITS);
    }
}

fn set_high_bit(random: &mut Random, words: &mut [u32]) {
    if let Some(word) = any_of(random, words) {
        *word |= 1 << random.between(WORD_BITS, 31);
    }
}

fn any_of<'a>(random: &mut Random, words: &'a mut [u32]) -> Option<&'a mut u32> {
    let place = random.below(words.len().max(1) as u64) as usize;
    words.get_mut(place)
}

/// Some that stand side by side: the first, the last or others, or all.
fn lose_words(random: &mut Random, words: &mut Vec<u32>) {
    if words.is_empty() {
        return;
    }
    let from = random.below(words.len() as u64);
    let to = random.between(from + 1, words.len() as u64);
    words.drain(from as usize..to as usize);
}

fn change_check(random: &mut Random, words: &mut [u32]) {
    if let Some(first) = words.first_mut() {
        *first ^= random.between(1, (1 << CHECK_BITS) - 1) as u32;
    }
}

/// Every other row has the right K.
pub fn any_words(random: &mut Random) -> Vec<u32> {
    let words = random.between(0, LONGEST_ROW) as usize;
    let mut row = Vec::new();
    match random.below(3) {
        0 => row.resize_with(words, || random.number() as u32),
        1 => row.resize_with(words, || any_word(random)),
        _ => row.resize_with(words, || random.choose(&[0, 0x1F_FFFF])),
    }
    if random.once_in(2) {
        set_check(&mut row);
    }
    row
}
