//! Addresses and their words. Sixteen addresses, as many as a pager holds, have a group of their own.

use mortisevane::exports::*;
use second::address::{self, Class as SecondClass, Words as SecondWords};
use second::refusal::Refusal;

use super::capcodes::assign_address;
use crate::measure::{side, Measure, Told};
use crate::told::{answer, told, words_of};

/// The group of the sixteen addresses that the boards count too.
pub const SIXTEEN: &str = "sixteen addresses";

/// The list that boards/count.c includes: an address stands first in each of its rows.
const LIST: &str = include_str!("../../../../boards/sixteen-addresses.h");

fn sixteen() -> Vec<u64> {
    let rows = LIST.lines().filter_map(|line| line.strip_prefix("{ "));
    let firsts = rows.filter_map(|row| row.split(',').next());
    let addresses: Result<Vec<u64>, _> = firsts.map(str::parse).collect();
    addresses.expect("every row begins with an address")
}

pub fn rows(measure: &mut Measure) {
    measure.group("addresses");
    let addresses = [
        ("the first short one", 1),
        ("the last long one", 4_291_000_000),
        ("refused 5: of no range", 4_291_000_001),
    ];
    for (input, address) in addresses {
        class(measure, input, address);
    }
    for (input, address) in addresses {
        words(measure, input, address);
    }
    word(measure, "of a short address", 0x00_8001);
    word(measure, "refused 5: of no address", 0x1F_FFFF);
    pair(measure, "of set 1-2", 0x00_0001, 0x1F_FFFE);
    pair(measure, "of set 2-3", 0x1F_8001, 0x1E_0001);
    pair(measure, "refused 5: of no address", 0x1F_7FFF, 0x1E_0001);
    measure.group(SIXTEEN);
    let sixteen = sixteen();
    for &address in &sixteen {
        class(measure, &address.to_string(), address);
    }
    for &address in &sixteen {
        words(measure, &address.to_string(), address);
    }
    for &address in &sixteen {
        assign_address(measure, address);
    }
}

fn class(measure: &mut Measure, input: &str, number: u64) {
    let second = address::address_class as fn(u64) -> Result<SecondClass, Refusal>;
    measure.row(
        "address_class",
        input,
        side(
            number,
            |number| unsafe { mortisevane_address_class(*number) },
            |_, class| told(&words_of(class)),
        ),
        side(
            (number, second),
            |(number, second)| second(*number),
            |_, class| answer(class, |class| told(&[class.number()]), 1),
        ),
    );
}

fn words(measure: &mut Measure, input: &str, number: u64) {
    let second = address::address_words as fn(u64) -> Result<SecondWords, Refusal>;
    let tell = |words: &SecondWords| match *words {
        SecondWords::Short(word) => told(&[1, word, 0]),
        SecondWords::Long { first, second } => told(&[2, first, second]),
    };
    measure.row(
        "address_words",
        input,
        side(
            number,
            |number| unsafe { mortisevane_address_words(*number) },
            |_, words| told(&words_of(words)),
        ),
        side(
            (number, second),
            |(number, second)| second(*number),
            |_, words| answer(words, tell, 3),
        ),
    );
}

fn found(found: &Found) -> Told {
    vec![found.number.into(), found.address]
}

fn word(measure: &mut Measure, input: &str, word: u32) {
    let second = address::word_address as fn(u32) -> Result<u64, Refusal>;
    measure.row(
        "word_address",
        input,
        side(
            word,
            |word| unsafe { mortisevane_word_address(*word) },
            |_, address| found(address),
        ),
        side(
            (word, second),
            |(word, second)| second(*word),
            |_, address| answer(address, |address| vec![*address], 1),
        ),
    );
}

fn pair(measure: &mut Measure, input: &str, first_word: u32, second_word: u32) {
    let second = address::pair_address as fn(u32, u32) -> Result<u64, Refusal>;
    let words = (first_word, second_word);
    measure.row(
        "pair_address",
        input,
        side(
            words,
            |words| unsafe { mortisevane_pair_address(words.0, words.1) },
            |_, address| found(address),
        ),
        side(
            (words, second),
            |(words, second)| second(words.0, words.1),
            |_, address| answer(address, |address| vec![*address], 1),
        ),
    );
}

#[cfg(test)]
mod tests {
    use super::*;

    #[test]
    fn the_list_has_sixteen_addresses() {
        let sixteen = sixteen();
        assert_eq!(sixteen.len(), 16);
        assert_eq!(
            (sixteen[0], sixteen[2], sixteen[15]),
            (1, 1_933_312, 4_291_000_000)
        );
    }
}
