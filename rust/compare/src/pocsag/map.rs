//! A quick way to mend words: the choice of wrong bits for each remainder, which the second
//! program's search finds once. It is held to that search.

use std::sync::LazyLock;

use second::pocsag::mending::{self, choices, Mended};
use second::pocsag::word::{has_even_parity, remainder, sent_word};
use second::refusal::Refusal;

use crate::random::Random;

const REMAINDERS: usize = 1_024;
/// For each remainder the one choice of at most two code bits that leaves it, if there is.
static MAP: LazyLock<[Option<u32>; REMAINDERS]> = LazyLock::new(|| {
    let mut map = [None; REMAINDERS];
    for choice in choices() {
        map[remainder(choice) as usize] = Some(choice);
    }
    map
});

/// As the second program's search.
pub fn mend(word: u32) -> Result<Mended, Refusal> {
    let choice = MAP[remainder(word) as usize].ok_or(Refusal::BeyondRepair)?;
    let mended = Mended {
        word: word ^ choice,
        changed: choice.count_ones(),
    };
    match has_even_parity(mended.word) {
        true => Ok(mended),
        false => Err(Refusal::BeyondRepair),
    }
}

/// Holds the map to the search on words of every remainder, so many with the parity right and
/// as many with it wrong, and says on how many in all.
pub fn hold(seed: u64, of_each: u32) -> Result<usize, String> {
    let mut random = Random::new(seed);
    let mut held = 0;
    for left in 0..REMAINDERS as u32 {
        for turn in 0..2 * of_each {
            let sent = sent_word(random.below(1 << 21) as u32);
            let parity = turn % 2;
            let word = sent ^ left << 1 ^ parity;
            let (map, search) = (mend(word), mending::mend(word));
            if map != search {
                return Err(format!(
                    "{word:08X}: the map {map:X?}, the search {search:X?}"
                ));
            }
            held += 1;
        }
    }
    Ok(held)
}

#[cfg(test)]
mod tests {
    use super::*;

    #[test]
    fn the_map_mends_as_the_search_does() {
        assert_eq!(hold(1, 1), Ok(2 * REMAINDERS));
    }
}
