//! What a frame means to send: the address, vector and message packets of its calls.

use second::call::Call;

use crate::random::Random;

use super::packets::{
    address, brings_words, is_numeric, message, span, vector, ADDRESS_UNUSED, LONG, PRIORITY,
    VECTOR_UNUSED, WORD_BITS,
};

/// In so many frames, one has all its packets, however many they are.
const WHOLE_FRAME_ONCE_IN: u64 = 80;

/// What a frame means to send of one call.
#[derive(Clone, Copy)]
struct Planned {
    call: Call,
    /// The vector's bits below its type.
    rest: u32,
}

/// Packets of several calls; in most frames the last ones do not come.
pub fn seeded_packets(random: &mut Random) -> Vec<u32> {
    let is_whole = random.once_in(WHOLE_FRAME_ONCE_IN);
    let mut packets = all_packets(random, is_whole);
    if !is_whole {
        packets.truncate(random.between(10, 25) as usize);
    }
    packets
}

/// In one of several orders. Of a large call only the first words come, unless the
/// frame is to be whole.
fn all_packets(random: &mut Random, is_whole: bool) -> Vec<u32> {
    let mut calls = seeded_calls(random);
    if is_whole {
        enlarge(random, &mut calls[0]);
    }
    let addresses: Vec<u32> = calls
        .iter()
        .map(|planned| address_of(random, planned))
        .collect();
    let vectors: Vec<u32> = calls
        .iter()
        .map(|planned| vector_of(random, planned))
        .collect();
    let mut words: Vec<(u32, u32)> = Vec::new();
    for planned in &calls {
        let most = match is_whole {
            true => usize::MAX,
            false => random.choose(&[4, 8]),
        };
        words.extend(words_of(&planned.call, most));
    }
    words.sort_unstable();
    words.dedup();
    let words = words.into_iter().map(|(phase, word)| {
        let bits = any_bits(random);
        message(phase, word, bits)
    });
    let words: Vec<u32> = words.collect();
    match random.below(8) {
        // As Table 55 has them, nearly.
        0..=2 => [addresses, vectors, words].concat(),
        3 => {
            let both = addresses.into_iter().zip(vectors);
            let both = both.flat_map(|(address, vector)| [address, vector]);
            both.chain(words).collect()
        }
        4 => [addresses, vectors, shuffled(random, words)].concat(),
        5 => {
            let vectors = shuffled(random, vectors);
            [addresses, vectors, shuffled(random, words)].concat()
        }
        // Words before the last vectors, and again after them.
        6 => {
            let (early, late) = vectors.split_at(vectors.len() / 2);
            let parts = [&addresses, early, &words, late, &words];
            parts.concat()
        }
        _ => {
            let rest = shuffled(random, [vectors, words].concat());
            let mut packets = addresses;
            for packet in rest {
                let place = random.between(1, packets.len() as u64) as usize;
                packets.insert(place, packet);
            }
            packets
        }
    }
}

/// Where the next vector and the next words of a phase go.
#[derive(Clone, Copy)]
struct Next {
    vector: u32,
    word: u32,
}

/// On one phase or on several, where the same word numbers are used again. The calls of
/// a group have the same words.
fn seeded_calls(random: &mut Random) -> Vec<Planned> {
    let count = random.choose(&[1, 2, 2, 3, 3, 3, 3, 4, 4, 4, 5, 6, 8, 9, 12]);
    let phases: &[u32] = random.choose(&[&[0][..], &[0, 2], &[0, 2], &[0, 1, 2, 3], &[3]]);
    let is_group = random.once_in(4);
    let first = random.between(2, 30) as u32;
    let mut next = [Next {
        vector: first,
        word: first + 2 * count as u32 + random.below(4) as u32,
    }; 4];
    let mut calls: Vec<Planned> = Vec::with_capacity(count);
    for _ in 0..count {
        let phase = random.choose(phases);
        let next = &mut next[phase as usize];
        let mut call = Call {
            phase,
            vector: next.vector,
            long_address: u32::from(random.once_in(3)),
            kind: random.choose(&[0, 1, 2, 2, 3, 3, 4, 5, 5, 5, 6, 7]),
            ..Call::default()
        };
        next.vector += 1 + call.long_address;
        if random.once_in(10) {
            call.vector = random.choose(&[0, 1, 2, 3, 85, 86, 86, 87, 87]);
        }
        let of_phase = calls.iter().map(|planned| planned.call);
        let of_phase: Vec<Call> = of_phase.filter(|other| other.phase == phase).collect();
        match of_phase.last() {
            Some(other) if is_group && !random.once_in(4) => {
                call.kind = other.kind;
                call.long_address = other.long_address;
                (call.words, call.start) = (other.words, other.start);
            }
            _ => set_span(random, &mut call, next.word, &of_phase),
        }
        if call.start == next.word {
            next.word = (next.word + call.words).min(88);
        }
        let check = random.below(16) as u32;
        let rest = match brings_words(call.kind) {
            true => span(call.kind, check, call.words, call.start),
            false => random.below(1 << 14) as u32,
        };
        calls.push(Planned { call, rest });
    }
    calls
}

/// To more words than a numeric call can have.
fn enlarge(random: &mut Random, planned: &mut Planned) {
    let call = &mut planned.call;
    call.kind = 5;
    call.words = random.between(9, 30) as u32;
    planned.rest = span(call.kind, 0, call.words, call.start);
}

/// Numeric calls have 1 to 8 words. Most words stand after all vectors; some are
/// shared with an earlier call of the phase, and some stand where they may not.
fn set_span(random: &mut Random, call: &mut Call, next: u32, earlier: &[Call]) {
    let last_before = call.vector + call.long_address;
    let few = random.between(1, 5) as u32;
    let numeric = is_numeric(call.kind);
    let most = if numeric { 8 } else { 85 };
    let words_from = |start: u32| 88_u32.saturating_sub(start) + call.long_address;
    (call.words, call.start) = match random.below(16) {
        0..=6 => (few, next),
        7..=9 => match earlier {
            [] => (few, next),
            earlier => {
                let with = random.choose(earlier);
                let words = random.choose(&[with.words.clamp(1, most), few]);
                (words, with.start)
            }
        },
        // Right after the vector, where others' vectors may stand.
        10 => (few, last_before + 1),
        // To the last word.
        11 => {
            let words = random.between(1, 8) as u32;
            (words, 88 + call.long_address - words)
        }
        // A long call's first word alone.
        12 if call.is_long() => (
            1,
            random.choose(&[0, 1, call.vector, last_before, 87, 88, 127]),
        ),
        13 => {
            let start = random.between(u64::from(last_before) + 1, 90) as u32;
            (words_from(start).clamp(1, most), start)
        }
        14 => bad_span(random, last_before, call.long_address),
        _ => (few, next),
    };
    // Those that few calls can have: the last word alone, and the most words.
    match call.vector {
        86..=87 if call.is_long() && random.once_in(2) => call.words = 1,
        2 if random.once_in(2) => (call.words, call.start) = (85, last_before + 1),
        _ => {}
    }
    call.start = call.start.min(127);
    if numeric {
        call.words = call.words.clamp(1, 8);
    }
}

/// Just outside of one limit.
fn bad_span(random: &mut Random, last_before: u32, is_long: u32) -> (u32, u32) {
    let words = 1 + is_long + random.below(4) as u32;
    match random.below(6) {
        0 => (0, last_before + 1),
        1 => (
            random.choose(&[86, 87, 127]),
            random.choose(&[3, last_before + 1]),
        ),
        2 => (words, last_before),
        3 => (
            words,
            last_before.saturating_sub(random.between(1, 4) as u32),
        ),
        4 => (words, 88 + is_long - words + 1),
        _ => (words, random.choose(&[88, 100, 127])),
    }
}

fn address_of(random: &mut Random, planned: &Planned) -> u32 {
    let index = any_index(random);
    let mut packet = address(planned.call.key(), index);
    if planned.call.is_long() {
        packet |= LONG;
    }
    if random.once_in(3) {
        packet |= PRIORITY;
    }
    packet | random.choose(&[0, ADDRESS_UNUSED])
}

/// Of an address: AI of one of the locations or of the temporary addresses.
pub fn any_index(random: &mut Random) -> u32 {
    random.choose(&[0x00, 0x80]) + random.below(16) as u32
}

fn vector_of(random: &mut Random, planned: &Planned) -> u32 {
    let packet = vector(planned.call.key(), planned.call.kind, planned.rest);
    packet | random.choose(&[0, VECTOR_UNUSED])
}

/// Phase and word number of the first words that it may have. A long call's short
/// message is followed by one, which is nobody's.
fn words_of(call: &Call, most: usize) -> Vec<(u32, u32)> {
    let words = match brings_words(call.kind) {
        true => call.words,
        false => call.long_address,
    };
    let first = (call.is_long() && words > 0).then_some(call.vector + 1);
    let rest = words.saturating_sub(call.long_address);
    let numbers = first
        .into_iter()
        .chain((0..rest).map(|word| call.start + word));
    let numbers = numbers.filter(|number| (2..=87).contains(number));
    numbers
        .take(most)
        .map(|number| (call.phase, number))
        .collect()
}

pub fn any_bits(random: &mut Random) -> u32 {
    match random.below(4) {
        0 => random.choose(&[0, WORD_BITS]),
        _ => random.number() as u32 & WORD_BITS,
    }
}

fn shuffled(random: &mut Random, mut packets: Vec<u32>) -> Vec<u32> {
    for place in (1..packets.len()).rev() {
        packets.swap(place, random.below(place as u64 + 1) as usize);
    }
    packets
}
