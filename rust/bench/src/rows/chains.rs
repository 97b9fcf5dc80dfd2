//! Chains, with 0 and with 7 others open.

use mortisevane::exports::*;
use second::chain::{Chains as SecondChains, Joined, Key, NotJoined, Record};
use second::refusal::Refusal;

use crate::measure::{side, Measure, Told};
use crate::messages::{fragments_of, numbered_fragments_of, text, MESSAGE_NUMBER};
use crate::told::{answer, bytes, told};

/// The address number whose chain is looked at; the others are of the addresses after it.
pub const ADDRESS: u32 = 3;

pub fn rows(measure: &mut Measure) {
    measure.group("chains");
    fresh(measure);
    for words in [2, FRAGMENT_WORDS] {
        for others in [0, 7] {
            steps(measure, words, others);
        }
    }
    refused(measure);
    drops(measure);
}

fn fresh(measure: &mut Measure) {
    let second = SecondChains::default as fn() -> SecondChains;
    measure.row(
        "chains_fresh",
        "",
        side(
            (),
            |_| unsafe { mortisevane_chains_fresh() },
            |_, chains| told_chains(chains),
        ),
        side(
            second,
            |second| second(),
            |_, chains| told_chains(&as_lent(chains)),
        ),
    );
}

/// A first fragment, one in the middle, the last, and a page of one fragment.
fn steps(measure: &mut Measure, words: usize, others: u32) {
    let characters = match words {
        2 => 8,
        _ => 3 * FRAGMENT_CHARACTERS - 1,
    };
    let fragments = fragments_of(&text(characters), words);
    let page = fragments_of(&text(3 * (words - 1) - 1), words);
    assert_eq!((fragments.len(), page.len()), (3, 1));
    assert!(fragments
        .iter()
        .chain(&page)
        .all(|fragment| fragment.len() == words));
    let open = others_open(others);
    let begun = after(&open, &fragments[..1]);
    let nearly_done = after(&open, &fragments[..2]);
    let input = |what: &str| format!("{what}, {words} words, {others} others open");
    step(measure, &input("a first fragment"), &open, &fragments[0]);
    step(measure, &input("one in the middle"), &begun, &fragments[1]);
    step(measure, &input("the last"), &nearly_done, &fragments[2]);
    step(measure, &input("a page of one fragment"), &open, &page[0]);
}

fn refused(measure: &mut Measure) {
    for words in [2, FRAGMENT_WORDS] {
        let characters = if words == 2 {
            8
        } else {
            3 * FRAGMENT_CHARACTERS - 1
        };
        let fragments = fragments_of(&text(characters), words);
        for others in [0, 7] {
            let begun = after(&others_open(others), &fragments[..1]);
            let input = |what: &str| format!("refused {what}, {words} words, {others} others open");
            let mut damaged = fragments[1].clone();
            damaged[words - 1] |= 1 << 21;
            step(measure, &input("10: the last word"), &begun, &damaged);
            let mut checksum = fragments[1].clone();
            checksum[0] ^= 1;
            step(measure, &input("11: K"), &begun, &checksum);
            step(measure, &input("14: not the next"), &begun, &fragments[2]);
        }
    }
    let first = &fragments_of(&text(8), 2)[0];
    let later = &fragments_of(&text(8), 2)[1];
    step(
        measure,
        "refused 13: no chain is open, 2 words",
        &others_open(0),
        later,
    );
    step(
        measure,
        "refused 13: 8 others open, 2 words",
        &others_open(8),
        later,
    );
    step(
        measure,
        "refused 12: 8 others open, 2 words",
        &others_open(8),
        first,
    );
    let large = &fragments_of(&text(TEXT_CHARACTERS), FRAGMENT_WORDS)[0];
    step(
        measure,
        "refused 12: 8 others open, 85 words",
        &others_open(8),
        large,
    );
    step(
        measure,
        "refused 2: of 8 open two have one key",
        &unsound(),
        first,
    );
}

/// Told by the last two of the records.
fn unsound() -> SecondChains {
    let mut chains = others_open(8);
    chains.slots[7].key = chains.slots[6].key;
    chains
}

fn drops(measure: &mut Measure) {
    let first = &fragments_of(&text(8), 2)[..1];
    for others in [0, 7] {
        let begun = after(&others_open(others), first);
        drop_chain(measure, &format!("{others} others open"), &begun);
    }
    drop_chain(measure, "refused 13: no chain is open", &others_open(0));
    drop_chain(measure, "refused 13: 8 others open", &others_open(8));
    drop_chain(measure, "refused 2: of 8 open two have one key", &unsound());
}

/// Chains of other addresses, each with its first fragment.
pub fn others_open(count: u32) -> SecondChains {
    let mut chains = SecondChains::default();
    let mut buffer = vec![0; CHAIN_BYTES];
    for other in 1..=count {
        let first = &numbered_fragments_of(&text(8), 2, MESSAGE_NUMBER)[0];
        let joined = chains.step(&mut buffer, ADDRESS + other, first);
        joined.expect("a slot is free");
    }
    chains
}

/// The chains after these fragments.
pub fn after(before: &SecondChains, fragments: &[Vec<u32>]) -> SecondChains {
    let mut chains = *before;
    let mut buffer = vec![0; CHAIN_BYTES];
    for fragment in fragments {
        let joined = chains.step(&mut buffer, ADDRESS, fragment);
        joined.expect("the fragment is the next");
    }
    chains
}

/// The second program's records as the library's.
pub fn as_lent(chains: &SecondChains) -> Chains {
    Chains {
        slots: chains.slots.map(|record: Record| Chain {
            is_open: record.is_open,
            address: record.key.address,
            message_number: record.key.message_number,
            next_fragment: record.next_fragment,
            sum: record.sum,
            characters: record.characters as Size,
        }),
    }
}

pub fn told_chains(chains: &Chains) -> Told {
    let record = |chain: &Chain| {
        let Chain {
            is_open,
            address,
            message_number,
            next_fragment,
            sum,
            characters,
        } = *chain;
        let small = told(&[is_open, address, message_number, next_fragment, sum]);
        [small, vec![characters as u64]].concat()
    };
    chains.slots.iter().flat_map(record).collect()
}

/// The step as a host in Rust writes it: the records are handed in, and those that come back are kept.
#[inline(always)]
pub fn stepped(chains: &mut Chains, buffer: &mut [u8], words: &[u32]) -> ChainAnswer {
    let (place, size) = (buffer.as_mut_ptr(), buffer.len());
    // SAFETY: both rows are lent as long as they are, and share no byte.
    let step = unsafe {
        mortisevane_chain_step(*chains, place, size, ADDRESS, words.as_ptr(), words.len())
    };
    *chains = step.chains;
    step.answer
}

pub fn step(measure: &mut Measure, input: &str, before: &SecondChains, words: &[u32]) {
    type Step = fn(&mut SecondChains, &mut [u8], u32, &[u32]) -> Result<Joined, NotJoined>;
    let second = SecondChains::step as Step;
    let buffer = vec![0xA5; CHAIN_BYTES];
    measure.row_of_state(
        "chain_step",
        input,
        side(
            (as_lent(before), buffer.clone()),
            |(chains, buffer)| stepped(chains, buffer, words),
            |(chains, buffer), answer| {
                [told_answer(answer), told_chains(chains), bytes(buffer)].concat()
            },
        ),
        side(
            (*before, buffer, second),
            |(chains, buffer, second)| second(chains, buffer, ADDRESS, words),
            |(chains, buffer, _), joined| {
                let answer = told_answer(&as_answer(joined));
                [answer, told_chains(&as_lent(chains)), bytes(buffer)].concat()
            },
        ),
    );
}

pub fn told_answer(answer: &ChainAnswer) -> Told {
    let ChainAnswer {
        number,
        lost,
        begun,
        retrieval,
        mail_drop,
        complete,
        slot,
        place,
        characters,
    } = *answer;
    let small = told(&[number, lost, begun, retrieval, mail_drop, complete]);
    [small, vec![slot as u64, place as u64, characters as u64]].concat()
}

/// What the second program tells, in the library's form.
pub fn as_answer(joined: &Result<Joined, NotJoined>) -> ChainAnswer {
    match joined {
        Err(refused) => ChainAnswer {
            number: refused.refusal.number(),
            lost: refused.lost.into(),
            ..ChainAnswer::default()
        },
        Ok(joined) => ChainAnswer {
            lost: joined.lost.into(),
            begun: joined.begun.is_some().into(),
            retrieval: joined.begun.map_or(0, |begun| begun.retrieval),
            mail_drop: joined.begun.map_or(0, |begun| begun.mail_drop),
            complete: joined.complete.is_some().into(),
            slot: joined.complete.map_or(0, |complete| complete.slot as Size),
            place: joined.complete.map_or(0, |complete| complete.place as Size),
            characters: joined.complete.map_or(0, |complete| complete.characters as Size),
            ..ChainAnswer::default()
        },
    }
}

fn drop_chain(measure: &mut Measure, input: &str, before: &SecondChains) {
    let second = SecondChains::give_up as fn(&mut SecondChains, Key) -> Result<(), Refusal>;
    let key = Key {
        address: ADDRESS,
        message_number: MESSAGE_NUMBER,
    };
    measure.row_of_state(
        "chain_drop",
        input,
        side(
            as_lent(before),
            |chains| {
                let Key {
                    address,
                    message_number,
                } = key;
                let drop = unsafe { mortisevane_chain_drop(*chains, address, message_number) };
                *chains = drop.chains;
                drop.number
            },
            |chains, number| [told(&[*number]), told_chains(chains)].concat(),
        ),
        side(
            (*before, second),
            |(chains, second)| second(chains, key),
            |(chains, _), dropped| {
                [
                    answer(dropped, |_| Told::new(), 0),
                    told_chains(&as_lent(chains)),
                ]
                .concat()
            },
        ),
    );
}
