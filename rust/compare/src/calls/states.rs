//! Calls as a caller might hand them back: sound or not, and odd ones that no packet
//! makes of fresh calls.

use second::call::{Call, Calls, Key, MOST_CALLS, MOST_WORDS};

use crate::random::Random;

const LAST_WORD: u64 = 87;

pub fn altered(random: &mut Random, mut calls: Calls) -> Calls {
    let open = calls.open_calls().len();
    let any = random.below(MOST_CALLS as u64) as usize;
    let one = match open {
        0 => any,
        _ => random.below(open as u64) as usize,
    };
    match random.below(24) {
        0 => alter_number(random, &mut calls.calls[any]),
        1..=2 => alter_number(random, &mut calls.calls[one]),
        3 => {
            calls.size = random.choose(&[9, 100, 1 << 32, 1 << 63, usize::MAX]);
        }
        4..=5 => {
            fill(random, &mut calls, MOST_CALLS);
            calls.size = random.choose(&[8, 9, 1 << 32, usize::MAX]);
        }
        6..=7 => {
            let size = random.between(1, MOST_CALLS as u64) as usize;
            fill(random, &mut calls, size);
        }
        8 => {
            for call in &mut calls.calls[open..] {
                *call = any_call(random);
                alter_number(random, call);
            }
        }
        9 => calls.size = open.saturating_sub(1),
        10..=11 => {
            // Of one key are two now, unless it is the same.
            let key = calls.calls[one].key();
            let other = match random.once_in(2) {
                true => random.below(open.max(1) as u64) as usize,
                false => open.min(MOST_CALLS - 1),
            };
            calls.calls[other].phase = key.phase;
            calls.calls[other].vector = key.vector;
            calls.size = calls.size.max(other + 1);
        }
        12 => {
            let call = &mut calls.calls[one];
            call.has_vector = random.choose(&[2, 7, 1 << 31, u32::MAX]);
        }
        13 => {
            let call = &mut calls.calls[one];
            match random.below(5) {
                0 => call.kind = random.choose(&[8, 255, u32::MAX]),
                1 => call.priority = random.choose(&[2, 1 << 31]),
                2 => call.long_address = random.choose(&[2, 7, 1 << 31]),
                3 => call.address = random.choose(&[32, u32::MAX]),
                _ => call.check = random.choose(&[16, u32::MAX]),
            }
        }
        14 => calls.calls[one].area = calls.calls[any].area,
        15 => {
            let call = &mut calls.calls[one];
            call.area = call
                .area
                .wrapping_add(random.choose(&[8, 16, 1 << 31, 0xFFFF_FFF8]));
        }
        16..=18 => {
            let call = &mut calls.calls[one];
            call.vector = random.below(2) as u32;
            if !random.once_in(4) {
                give_span(random, call);
                call.words = random.between(1, 3) as u32;
                call.start = 2 + u32::from(call.is_long());
            }
        }
        19..=20 => {
            // A second call of the same words in the same area.
            let mut twin = calls.calls[one];
            twin.vector = twin.vector.saturating_sub(1);
            let other = open.min(MOST_CALLS - 1);
            calls.calls[other] = twin;
            calls.size = calls.size.max(other + 1);
        }
        21 => give_span(random, &mut calls.calls[one]),
        _ => break_span(random, &mut calls.calls[one]),
    }
    calls
}

/// So many are open, those that were not before with keys of their own.
fn fill(random: &mut Random, calls: &mut Calls, size: usize) {
    let open = calls.open_calls().len();
    for place in open..size {
        let mut call = any_call(random);
        let taken = |key: Key| calls.calls[..place].iter().any(|call| call.key() == key);
        while taken(call.key()) {
            call = any_call(random);
        }
        calls.calls[place] = call;
    }
    calls.size = open.max(size);
}

/// A sound one.
pub fn any_call(random: &mut Random) -> Call {
    let vector = match random.below(8) {
        0 => random.choose(&[0, 1, 85, 86, 87]),
        _ => random.below(LAST_WORD + 1) as u32,
    };
    let mut call = Call {
        phase: random.below(4) as u32,
        vector,
        address: random.below(32) as u32,
        priority: random.below(2) as u32,
        long_address: random.choose(&[0, 0, 1, 1, 2]),
        ..Call::default()
    };
    if !random.once_in(3) {
        give_span(random, &mut call);
    }
    call
}

/// As if its vector had come, in any area. It brought no words where none fit, and
/// now and then where some would; a vector of any type names some.
fn give_span(random: &mut Random, call: &mut Call) {
    call.has_vector = random.choose(&[1, 1, 1, 2]);
    call.check = random.below(16) as u32;
    call.area = random.below(8) as u32;
    let none_fit = u64::from(call.vector) + 1 > LAST_WORD;
    if none_fit || random.once_in(8) {
        call.kind = random.choose(&[1, 2]);
        call.words = 0;
        call.start = random.below(128) as u32;
    } else {
        call.kind = random.below(8) as u32;
        (call.words, call.start) = any_span(random, call);
    }
}

/// Words and b within the limits, where some are.
fn any_span(random: &mut Random, call: &Call) -> (u32, u32) {
    let is_long = u64::from(call.is_long());
    let last_before = u64::from(call.vector) + is_long;
    let most = (LAST_WORD - last_before + is_long).min(MOST_WORDS as u64);
    let words = match random.below(4) {
        0 => random.between(1, most),
        _ => random.between(1, most.min(3)),
    };
    let rest = words - is_long;
    let start = match rest {
        0 => random.choose(&[0, 87, 88, 127, 1 << 31, u64::from(u32::MAX)]),
        _ => random.between(last_before + 1, LAST_WORD + 1 - rest),
    };
    (words as u32, start as u32)
}

/// Its vector came, and its span is just outside of a limit, mostly; or it has no
/// words, though its vector brings some.
fn break_span(random: &mut Random, call: &mut Call) {
    give_span(random, call);
    let limit = call.vector + u32::from(call.is_long());
    match random.below(8) {
        0 => call.words = random.choose(&[86, 87, 1 << 31, u32::MAX]),
        1 => {
            call.words = call.words.max(2);
            call.start = limit;
        }
        2 => {
            call.words = call.words.max(2);
            call.start = limit.saturating_sub(random.between(1, 3) as u32);
        }
        3 => {
            call.words = random.between(2, 9) as u32;
            let rest = call.words - u32::from(call.is_long());
            call.start = 88 - rest + random.between(1, 2) as u32;
        }
        4 => {
            call.words = call.words.max(2);
            call.start = random.choose(&[88, 127, 1 << 31, u32::MAX - 1, u32::MAX]);
        }
        5 => {
            call.kind = random.choose(&[0, 3, 4, 5, 6, 7]);
            call.words = 0;
        }
        _ => {
            call.long_address = 1;
            call.vector = 87;
            call.words = random.choose(&[1, 1, 2]);
        }
    }
}

/// To one about its limit, or with high bits alone.
fn alter_number(random: &mut Random, call: &mut Call) {
    match random.below(5) {
        0 => call.phase = random.choose(&[0, 1, 2, 3, 4, 5, 1 << 31, u32::MAX]),
        1 => call.vector = random.choose(&[0, 1, 2, 86, 87, 88, 89, 1 << 31, u32::MAX]),
        2 => call.has_vector = random.choose(&[0, 1, 2, 1 << 31]),
        3 => call.words = random.choose(&[0, 1, 84, 85, 86, 1 << 31, u32::MAX]),
        _ => call.start = random.choose(&[0, 1, 3, 86, 87, 88, 1 << 31, u32::MAX]),
    }
}
