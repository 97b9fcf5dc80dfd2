//! A text of 1,008 characters joined from fragments of 85 words, held against the second program and against a plain
//! copy of its bytes plus its sums.

use mortisevane::exports::*;
use second::chain::{Chains as SecondChains, Joined, NotJoined};
use second::fragment::ETX;
use second::sums;

use super::chains::{as_answer, as_lent, stepped, told_answer, told_chains, ADDRESS};
use crate::measure::{side, Measure, Told};
use crate::messages::{fragments_of, text};
use crate::told::bytes;

/// The row that has the aim of every operation; the others of this group have their own.
pub const AGAINST_SECOND: &str = "against the second program";

pub fn rows(measure: &mut Measure) {
    measure.group("joining");
    let text = text(TEXT_CHARACTERS);
    let fragments = fragments_of(&text, FRAGMENT_WORDS);
    against_second(measure, &fragments);
    against_copy(
        measure,
        "against a plain copy plus sums",
        &text,
        &fragments,
        plain_copy,
    );
    let input = "against memcpy plus the second program's sums";
    against_copy(measure, input, &text, &fragments, memcpy_and_sums);
}

type Step = fn(&mut SecondChains, &mut [u8], u32, &[u32]) -> Result<Joined, NotJoined>;

fn against_second(measure: &mut Measure, fragments: &[Vec<u32>]) {
    let second = SecondChains::step as Step;
    let buffer = vec![0xA5; CHAIN_BYTES];
    measure.row_of_state(
        "chain_step",
        AGAINST_SECOND,
        side(
            (Chains::default(), buffer.clone()),
            |(chains, buffer)| join(chains, buffer, fragments),
            |(chains, buffer), last| {
                [told_answer(last), told_chains(chains), bytes(buffer)].concat()
            },
        ),
        side(
            (SecondChains::default(), buffer, second),
            |(chains, buffer, second)| second_join(chains, buffer, fragments, *second),
            |(chains, buffer, _), last| {
                let answer = told_answer(&as_answer(last));
                [answer, told_chains(&as_lent(chains)), bytes(buffer)].concat()
            },
        ),
    );
}

/// The answer to the last fragment.
#[inline(always)]
fn join(chains: &mut Chains, buffer: &mut [u8], fragments: &[Vec<u32>]) -> ChainAnswer {
    let mut last = ChainAnswer::default();
    for fragment in fragments {
        last = stepped(chains, buffer, fragment);
    }
    last
}

#[inline(never)]
fn second_join(
    chains: &mut SecondChains,
    buffer: &mut [u8],
    fragments: &[Vec<u32>],
    step: Step,
) -> Result<Joined, NotJoined> {
    let mut last = Ok(Joined::default());
    for fragment in fragments {
        last = step(chains, buffer, ADDRESS, fragment);
    }
    last
}

/// What is told of a copy: how many characters there are, and whether all sums are right.
#[derive(Clone, Copy)]
struct Copied {
    characters: usize,
    is_whole: bool,
}

type CopyText = fn(&[Vec<u32>], &[u8], &mut [u8]) -> Copied;

fn against_copy(
    measure: &mut Measure,
    input: &str,
    text: &[u8],
    fragments: &[Vec<u32>],
    copy: CopyText,
) {
    let buffer = vec![0xA5; CHAIN_BYTES];
    let joined = |buffer: &[u8]| -> Told { bytes(&buffer[..text.len()]) };
    measure.row_of_state(
        "chain_step",
        input,
        side(
            (Chains::default(), buffer.clone()),
            |(chains, buffer)| join(chains, buffer, fragments),
            |(_, buffer), last| {
                let answer = vec![last.characters as u64, last.complete.into()];
                [answer, joined(buffer)].concat()
            },
        ),
        side(
            (buffer, copy),
            |(buffer, copy)| copy(fragments, text, buffer),
            |(buffer, _), copied| {
                let answer = vec![copied.characters as u64, copied.is_whole.into()];
                [answer, joined(buffer)].concat()
            },
        ),
    );
}

/// The sum of all characters of a message, its signature with them, modulo 128.
const WHOLE_SUM: u32 = 0x7F;
const CHECK: u32 = 0x3FF;

/// Each fragment's words are summed, and its cells unpacked, summed and copied. The first cell of all is the signature,
/// and fill is not text.
fn plain_copy(fragments: &[Vec<u32>], _: &[u8], copy: &mut [u8]) -> Copied {
    let (mut characters, mut sum, mut wrong_checks) = (0, 0, 0);
    let mut is_signature = true;
    for fragment in fragments {
        wrong_checks |= (fragment[0] ^ plain_check(fragment)) & CHECK;
        for word in &fragment[1..] {
            for cell in [word & 0x7F, word >> 7 & 0x7F, word >> 14 & 0x7F] {
                sum += cell;
                if !is_signature && cell != u32::from(ETX) {
                    copy[characters] = cell as u8;
                    characters += 1;
                }
                is_signature = false;
            }
        }
    }
    let is_whole = wrong_checks == 0 && sum & 0x7F == WHOLE_SUM;
    Copied {
        characters,
        is_whole,
    }
}

/// K of a fragment (S8.8.6).
fn plain_check(fragment: &[u32]) -> u32 {
    let groups = |word: u32| (word & 0xFF) + (word >> 8 & 0xFF) + (word >> 16 & 0x1F);
    let rest: u32 = fragment[1..].iter().copied().map(groups).sum();
    !(groups(fragment[0] & !CHECK) + rest) & CHECK
}

/// The text lies ready and is copied at once; only the sums look at the fragments.
fn memcpy_and_sums(fragments: &[Vec<u32>], text: &[u8], copy: &mut [u8]) -> Copied {
    copy[..text.len()].copy_from_slice(text);
    let is_right = |fragment: &Vec<u32>| fragment[0] & CHECK == sums::ten_bit(fragment);
    let signature = fragments[0][1] & 0x7F;
    // 1,008 characters and the signature need no fill but two cells of the last word.
    let fill = [ETX; 2];
    let checks = fragments.iter().all(is_right);
    let characters = (!sums::signature(text)).wrapping_add(!sums::signature(&fill));
    let is_whole = checks && signature.wrapping_add(characters) & 0x7F == WHOLE_SUM;
    Copied {
        characters: text.len(),
        is_whole,
    }
}
