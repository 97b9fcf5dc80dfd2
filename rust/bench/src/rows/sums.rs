//! The sums of messages.

use mortisevane::exports::*;
use second::sums;

use crate::measure::{side, Measure};
use crate::messages::counted;
use crate::told::told;

pub fn rows(measure: &mut Measure) {
    measure.group("sums");
    for words in [1, 8] {
        of_words(
            measure,
            "sum_six_bit",
            words,
            mortisevane_sum_six_bit,
            sums::six_bit,
        );
    }
    for words in [2, 85] {
        of_words(
            measure,
            "sum_ten_bit",
            words,
            mortisevane_sum_ten_bit,
            sums::ten_bit,
        );
    }
    for characters in [2, 1008] {
        signature(measure, characters);
    }
}

fn of_words(
    measure: &mut Measure,
    operation: &str,
    words: u32,
    export: unsafe extern "C" fn(*const u32, usize) -> u32,
    second: fn(&[u32]) -> u32,
) {
    let row: Vec<u32> = (0..words).map(|place| place * 99_991 % (1 << 21)).collect();
    measure.row(
        operation,
        &counted(words, "word"),
        side(
            row.clone(),
            |row| unsafe { export(row.as_ptr(), row.len()) },
            |_, sum| told(&[*sum]),
        ),
        side(row, |row| second(row), |_, sum| told(&[*sum])),
    );
}

fn signature(measure: &mut Measure, characters: usize) {
    let row: Vec<u8> = (0..characters)
        .map(|place| (place * 41 % 128) as u8)
        .collect();
    let second = sums::signature as fn(&[u8]) -> u32;
    measure.row(
        "sum_signature",
        &format!("{characters} characters"),
        side(
            row.clone(),
            |row| unsafe { mortisevane_sum_signature(row.as_ptr(), row.len()) },
            |_, sum| told(&[*sum]),
        ),
        side(
            (row, second),
            |(row, second)| second(row),
            |_, sum| told(&[*sum]),
        ),
    );
}
