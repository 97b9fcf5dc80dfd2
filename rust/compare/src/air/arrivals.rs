//! What the air makes of the fragments that a sender sends: which copies come, and which
//! of them come damaged. It loses, damages and repeats; a copy never comes after one of a
//! later fragment; and from one good arrival to the next at most two fragments have no
//! good copy.

use second::fragment;

use crate::fragments::rows::{Damage, DAMAGES};
use crate::random::Random;

/// So many fragments may have no good copy between two good arrivals.
const MOST_MISSING: usize = 2;
/// One, and three repeats.
const MOST_COPIES: u64 = 4;

/// A copy of a fragment that comes.
#[derive(Clone, Copy, Debug, PartialEq, Eq)]
pub struct Arrival {
    pub fragment: usize,
    pub is_good: bool,
    /// Of the first sending or of the second: where nothing but first fragments came, the
    /// sender begins again.
    pub sending: usize,
}

/// The arrivals of so many fragments, in their order. Of some texts the first ones are all
/// lost, of others the last ones.
pub fn seeded_arrivals(random: &mut Random, fragments: usize) -> Vec<Arrival> {
    let trouble_once_in = random.choose(&[2, 4, 8, 24, 1_000]);
    let mut arrivals = Vec::new();
    let (mut from, mut to) = (0, fragments);
    match random.below(8) {
        0 => arrivals.extend(copies(random, trouble_once_in, 0, 1)),
        1 => from = random.between(1, fragments as u64) as usize,
        2 => to = random.below(fragments as u64) as usize,
        _ => {}
    }
    let mut fades = false;
    for fragment in from..to {
        let trouble_once_in = match fragment + 1 == fragments {
            true => trouble_once_in.min(4),
            false => trouble_once_in,
        };
        let mut copies = match fades {
            true => Vec::new(),
            false => copies(random, trouble_once_in, fragment, 2),
        };
        // Where one is lost the next one often is.
        fades = !fades && copies.is_empty() && !random.once_in(4);
        let last_good = arrivals.iter().rfind(|arrival: &&Arrival| arrival.is_good);
        let must_come = last_good.is_some_and(|good| fragment - good.fragment > MOST_MISSING);
        if must_come && !copies.iter().any(|copy| copy.is_good) {
            copies.push(Arrival {
                fragment,
                is_good: true,
                sending: 2,
            });
        }
        arrivals.extend(copies);
    }
    arrivals
}

/// Those of one fragment that come: most often one, and it is good.
fn copies(
    random: &mut Random,
    trouble_once_in: u64,
    fragment: usize,
    sending: usize,
) -> Vec<Arrival> {
    let fates = match random.once_in(trouble_once_in) {
        false => vec![true],
        true => match random.below(8) {
            0 => Vec::new(),
            1 => vec![false; random.between(1, MOST_COPIES) as usize],
            2..=3 => vec![true; random.between(2, MOST_COPIES) as usize],
            4 => {
                let copies = random.between(1, MOST_COPIES);
                (0..copies).map(|_| random.once_in(2)).collect()
            }
            _ => {
                let mut one_good = vec![false; random.between(2, MOST_COPIES) as usize];
                let place = random.below(one_good.len() as u64);
                one_good[place as usize] = true;
                one_good
            }
        },
    };
    let arrival = |is_good| Arrival {
        fragment,
        is_good,
        sending,
    };
    fates.into_iter().map(arrival).collect()
}

/// Of another size.
const RESIZED: Damage = |random, words| words.resize(random.choose(&[0, 1, 1, 1, 86, 87]), 0);

/// A fragment so damaged that it is refused 9, 10 or 11.
pub fn damaged(random: &mut Random, words: &[u32]) -> Vec<u32> {
    loop {
        let mut damaged = words.to_vec();
        let damage = match random.below(4) {
            0 => RESIZED,
            _ => random.choose(&DAMAGES).1,
        };
        damage(random, &mut damaged);
        if fragment::heading(&damaged).is_err() {
            return damaged;
        }
    }
}

#[cfg(test)]
mod tests {
    use super::*;

    #[test]
    fn the_air_keeps_to_its_limits() {
        let mut random = Random::new(1);
        for fragments in (1..=12).cycle().take(20_000) {
            let arrivals = seeded_arrivals(&mut random, fragments);
            assert!(arrivals.iter().all(|arrival| arrival.fragment < fragments));
            assert!(arrivals.is_sorted_by_key(|arrival| arrival.fragment));
            let good = arrivals.iter().filter(|arrival| arrival.is_good);
            let good: Vec<usize> = good.map(|arrival| arrival.fragment).collect();
            let mut steps = good.windows(2).map(|pair| pair[1] - pair[0]);
            assert!(steps.all(|step| step <= 3), "{good:?}");
        }
    }
}
