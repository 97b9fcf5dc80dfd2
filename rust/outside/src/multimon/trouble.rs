//! What goes wrong between the sender and the reader.

use second::pocsag::word::SYNC;

use crate::random::Random;

/// What goes wrong with the words of one transmission.
#[derive(Clone, Copy, Debug, PartialEq, Eq, PartialOrd, Ord)]
pub enum Trouble {
    None,
    /// One or two wrong code bits in every other word.
    Mendable,
    /// The parity bit is wrong in some words, alone or with one code bit.
    Parity,
    /// Three wrong code bits in some words.
    Three,
    /// As `Three`, in two or three words in succession.
    Runs,
    /// Three wrong code bits in some sync words and in no other word.
    Sync,
    /// Four to eight wrong bits in some words, or another word altogether.
    Many,
    /// Words that never arrive, or arrive twice.
    Lost,
    /// Nothing arrives after some word.
    Cut,
    /// All of these.
    All,
}

pub const TROUBLES: [Trouble; 10] = [
    Trouble::None,
    Trouble::Mendable,
    Trouble::Parity,
    Trouble::Three,
    Trouble::Runs,
    Trouble::Sync,
    Trouble::Many,
    Trouble::Lost,
    Trouble::Cut,
    Trouble::All,
];

/// The words that arrived, each with the place of the one that was sent.
#[derive(Default)]
pub struct Arrived {
    pub origins: Vec<usize>,
    pub words: Vec<u32>,
}

impl Trouble {
    /// They come in turn, and what can be mended twice as often.
    pub fn of(number: u64) -> Trouble {
        let place = number as usize % (TROUBLES.len() + 2);
        match place.checked_sub(TROUBLES.len()) {
            None => TROUBLES[place],
            Some(again) => TROUBLES[again],
        }
    }

    pub fn sentence(self) -> &'static str {
        match self {
            Trouble::None => "no wrong bit",
            Trouble::Mendable => "one or two wrong code bits",
            Trouble::Parity => "wrong parity bits",
            Trouble::Three => "three wrong code bits",
            Trouble::Runs => "the same in succession",
            Trouble::Sync => "sync words beyond repair",
            Trouble::Many => "four or more wrong bits",
            Trouble::Lost => "words lost or doubled",
            Trouble::Cut => "the end missing",
            Trouble::All => "all of these",
        }
    }

    pub fn arrived(self, random: &mut Random, sent: &[u32]) -> Arrived {
        let mut arrived = Arrived::default();
        // How many more words in succession are beyond repair.
        let mut run = 0;
        for (place, word) in sent.iter().enumerate() {
            let step = match self {
                Trouble::All => random.choose(&ALL),
                _ => self,
            };
            let mut put = |word| {
                arrived.origins.push(place);
                arrived.words.push(word);
            };
            if run > 0 {
                run -= 1;
                put(with_three(random, *word));
                continue;
            }
            match step {
                Trouble::Mendable if random.once_in(2) => put(with_code_bits(random, *word)),
                Trouble::Parity if random.once_in(8) => put(with_parity(random, *word)),
                Trouble::Three if random.once_in(15) => put(with_three(random, *word)),
                Trouble::Runs if random.once_in(30) => {
                    run = random.between(1, 2);
                    put(with_three(random, *word));
                }
                Trouble::Sync if *word == SYNC && random.once_in(2) => {
                    put(with_three(random, *word));
                }
                Trouble::Many if random.once_in(10) => put(with_many(random, *word)),
                Trouble::Lost if random.once_in(60) => {}
                Trouble::Lost if random.once_in(60) => [*word; 2].into_iter().for_each(put),
                _ => put(*word),
            }
        }
        if self == Trouble::Cut || self == Trouble::All && random.once_in(4) {
            let length = random.between(1, arrived.words.len() as u64) as usize;
            arrived.words.truncate(length);
            arrived.origins.truncate(length);
        }
        arrived
    }
}

/// In what mixture all of them come, word by word.
const ALL: [Trouble; 8] = [
    Trouble::None,
    Trouble::None,
    Trouble::Mendable,
    Trouble::Parity,
    Trouble::Runs,
    Trouble::Sync,
    Trouble::Many,
    Trouble::Lost,
];

/// So many different bits among these.
fn drawn_bits(random: &mut Random, count: u32, lowest: u64) -> u32 {
    let mut bits = 0_u32;
    while bits.count_ones() < count {
        bits |= 1 << random.between(lowest, 31);
    }
    bits
}

fn with_code_bits(random: &mut Random, word: u32) -> u32 {
    let count = random.choose(&[1, 2]);
    word ^ drawn_bits(random, count, 1)
}

fn with_parity(random: &mut Random, word: u32) -> u32 {
    let count = random.choose(&[0, 0, 1]);
    word ^ 1 ^ drawn_bits(random, count, 1)
}

fn with_three(random: &mut Random, word: u32) -> u32 {
    word ^ drawn_bits(random, 3, 1)
}

fn with_many(random: &mut Random, word: u32) -> u32 {
    match random.below(4) {
        0 => random.number() as u32,
        _ => {
            let count = random.choose(&[4, 4, 4, 5, 6, 7, 8]);
            word ^ drawn_bits(random, count, 0)
        }
    }
}

#[cfg(test)]
mod tests {
    use super::*;

    fn bits_wrong(trouble: Trouble) -> Vec<u32> {
        let sent: Vec<u32> = (0..2_000_u32)
            .map(|number| number.wrapping_mul(0x1234_5677))
            .collect();
        let arrived = trouble.arrived(&mut Random::new(1), &sent);
        let origins = arrived.origins.iter();
        let wrong = origins.zip(&arrived.words);
        wrong.map(|(origin, word)| sent[*origin] ^ word).collect()
    }

    #[test]
    fn what_each_does_to_words() {
        assert!(bits_wrong(Trouble::None).iter().all(|wrong| *wrong == 0));
        let wrong = bits_wrong(Trouble::Mendable);
        let is_mendable = |wrong: &u32| wrong & 1 == 0 && wrong.count_ones() <= 2;
        assert!(wrong.iter().all(is_mendable) && wrong.iter().any(|wrong| *wrong != 0));
        let wrong = bits_wrong(Trouble::Parity);
        let is_of_parity = |wrong: &u32| *wrong == 0 || wrong & 1 == 1 && wrong.count_ones() <= 2;
        assert!(wrong.iter().all(is_of_parity) && wrong.contains(&1));
        for trouble in [Trouble::Three, Trouble::Runs] {
            let wrong = bits_wrong(trouble);
            let is_three = |wrong: &u32| *wrong == 0 || wrong & 1 == 0 && wrong.count_ones() == 3;
            assert!(wrong.iter().all(is_three) && wrong.iter().any(|wrong| *wrong != 0));
        }
        // None of the words is the sync word.
        assert!(bits_wrong(Trouble::Sync).iter().all(|wrong| *wrong == 0));
        assert!(bits_wrong(Trouble::Lost).iter().all(|wrong| *wrong == 0));
    }

    #[test]
    fn words_that_are_lost_or_come_twice() {
        let arrived = Trouble::Lost.arrived(&mut Random::new(1), &[7; 2_000]);
        let origins = arrived.origins;
        assert!(origins.windows(2).any(|pair| pair[0] == pair[1]));
        assert!(origins.windows(2).any(|pair| pair[0] + 2 == pair[1]));
        assert!(origins.is_sorted());
        let arrived = Trouble::Cut.arrived(&mut Random::new(1), &[7; 2_000]);
        assert!(arrived.words.len() < 2_000);
    }

    #[test]
    fn sync_words_alone() {
        let sent = [SYNC, 5, SYNC, 5].repeat(50);
        let arrived = Trouble::Sync.arrived(&mut Random::new(1), &sent);
        let spoiled = sent.iter().zip(&arrived.words);
        let spoiled: Vec<u32> = spoiled.map(|(sent, word)| sent ^ word).collect();
        assert!(spoiled.iter().step_by(2).any(|wrong| *wrong != 0));
        assert!(spoiled.iter().skip(1).step_by(2).all(|wrong| *wrong == 0));
    }

    #[test]
    fn they_come_in_turn() {
        let turn: Vec<Trouble> = (0..12).map(Trouble::of).collect();
        assert_eq!(turn[..10], TROUBLES);
        assert_eq!(turn[10..], [Trouble::None, Trouble::Mendable]);
        assert_eq!(Trouble::of(12), Trouble::None);
    }
}
