//! Whole pages: drawn transmissions go as sound to multimon-ng and as words to the second
//! program, and what the two read is compared page by page.

mod audio;
mod counts;
mod decoder;
mod drawing;
mod listed;
mod pages;
mod shown;
mod trouble;
mod ways;

use std::collections::BTreeMap;

use crate::random::Random;
use counts::{Counts, Held};
use decoder::{Mode, Shown};
use drawing::Transmission;
use pages::{told_by_second, Page};
use ways::{Way, WAYS};

/// So many differences of an unknown kind are shown.
const SHOWN_UNKNOWN: usize = 3;

/// Compares so many transmissions. A page that multimon-ng shows otherwise than all the known ways
/// together would have it is of an unknown kind.
pub fn compare(
    program: &str,
    transmissions: u64,
    seed: u64,
    pocsag: Option<&str>,
) -> Result<(), String> {
    let mut random = Random::new(seed);
    let mut counts = Counts::default();
    let mut unknown = 0;
    for number in 0..transmissions {
        let sent = Transmission::drawn(&mut random, number);
        let told = told_by_second(&sent.words);
        let ours = told.handed_out();
        if ours != ways::read(&sent.words, &[]) {
            return Err(format!(
                "transmission {number}: without any way the pages differ"
            ));
        }
        if let Some(pocsag) = pocsag {
            listed::hold(pocsag, &sent.words, &told)?;
        }
        counts.add_transmission(&sent);
        let theirs = ways::read(&sent.words, &WAYS);
        match foretold(program, &sent, &theirs)? {
            Ok(()) => {
                for held in side_by_side(&ours, &theirs) {
                    counts.add(&sent, &held, &fewest_ways(&sent, &held));
                }
            }
            Err(difference) => {
                unknown += 1;
                if unknown <= SHOWN_UNKNOWN {
                    eprintln!("transmission {number} of seed {seed}: {difference}");
                }
            }
        }
    }
    println!(
        "{} beside the second program, seed {seed}:",
        decoder::version(program)?
    );
    print!("{}", counts.report());
    match pocsag {
        Some(pocsag) => {
            println!("\n{pocsag} lists every transmission as the second program reads it")
        }
        None => println!("\nno program that lists pages was compared"),
    }
    match unknown {
        0 if counts.is_enough() => Ok(()),
        0 => Err("some sort of page was never compared".to_string()),
        _ => Err(format!("{unknown} transmissions differ in an unknown way")),
    }
}

/// Whether multimon-ng shows these pages and no others, in both modes; the inner answer tells
/// what it shows instead.
fn foretold(
    program: &str,
    sent: &Transmission,
    pages: &[Page],
) -> Result<Result<(), String>, String> {
    for mode in [Mode::Standard, Mode::Numeric] {
        let due: Vec<Shown> = pages.iter().map(|page| shown::shown(page, mode)).collect();
        let shown = decoder::shown(program, sent, mode)?;
        if shown != due {
            let words: Vec<String> = sent
                .words
                .iter()
                .map(|word| format!("{word:08X}"))
                .collect();
            let words = words.join(" ");
            return Ok(Err(format!(
                "multimon-ng shows\n{shown:?}\nand not\n{due:?}\nof the words\n{words}"
            )));
        }
    }
    Ok(Ok(()))
}

/// The pages of both by the places of their address words.
fn side_by_side(ours: &[Page], theirs: &[Page]) -> Vec<Held> {
    let mut by_place: BTreeMap<usize, (Option<&Page>, Option<&Page>)> = BTreeMap::new();
    for page in ours {
        by_place.entry(page.place).or_default().0 = Some(page);
    }
    for page in theirs {
        by_place.entry(page.place).or_default().1 = Some(page);
    }
    let held = by_place.into_values().map(|pair| match pair {
        (Some(ours), Some(theirs)) if ours == theirs => Held::Alike(ours.clone()),
        (Some(ours), Some(theirs)) => Held::NotTheSame {
            ours: ours.clone(),
            theirs: theirs.clone(),
        },
        (Some(ours), None) => Held::OnlyOurs(ours.clone()),
        (None, Some(theirs)) => Held::OnlyTheirs(theirs.clone()),
        (None, None) => unreachable!("a place has the page of one of them"),
    });
    held.collect()
}

/// The first set of ways, of those with fewest, by which the page is read as multimon-ng does.
fn fewest_ways(sent: &Transmission, held: &Held) -> Vec<Way> {
    let (place, theirs) = match held {
        Held::Alike(_) => return Vec::new(),
        Held::OnlyOurs(page) => (page.place, None),
        Held::OnlyTheirs(page) => (page.place, Some(page)),
        Held::NotTheSame { theirs, .. } => (theirs.place, Some(theirs)),
    };
    let mut sets = ways::sets().into_iter();
    let fewest = sets.find(|ways| {
        let pages = ways::read(&sent.words, ways);
        let page = pages.iter().find(|page| page.place == place);
        page == theirs
    });
    fewest.expect("all ways together read as multimon-ng does")
}

#[cfg(test)]
mod tests {
    use super::*;

    fn page(place: usize, function: u32) -> Page {
        Page {
            place,
            address: 8,
            function,
            words: vec![5],
        }
    }

    #[test]
    fn pages_side_by_side() {
        let ours = [page(1, 0), page(5, 0), page(9, 0)];
        let theirs = [page(1, 0), page(3, 0), page(9, 1)];
        let held = side_by_side(&ours, &theirs);
        assert!(matches!(
            held[..],
            [
                Held::Alike(_),
                Held::OnlyTheirs(_),
                Held::OnlyOurs(_),
                Held::NotTheSame { .. }
            ]
        ));
    }

    /// In each transmission every page that differs is laid to some way, and over all of them
    /// every way alone makes a difference.
    #[test]
    fn every_way_makes_a_difference() {
        let mut random = Random::new(1);
        let mut found = Vec::new();
        for number in 0..600 {
            let sent = Transmission::drawn(&mut random, number);
            let ours = ways::read(&sent.words, &[]);
            let theirs = ways::read(&sent.words, &WAYS);
            for held in side_by_side(&ours, &theirs) {
                let ways = fewest_ways(&sent, &held);
                assert_eq!(ways.is_empty(), matches!(held, Held::Alike(_)));
                found.push(ways);
            }
        }
        for way in WAYS {
            assert!(found.contains(&vec![way]), "{way:?}");
        }
    }
}
