//! Packets of a frame, built as the data sheet's tables say.

use second::call::Key;
use second::vector::{NUMBERED_NUMERIC, SPECIAL_NUMERIC, STANDARD_NUMERIC};

/// e of vectors and messages (Tables 31 to 40).
pub const DAMAGED: u32 = 1 << 23;
/// Of an address packet (Table 30): PA, LA, TOA and the bits x.
pub const PRIORITY: u32 = 1 << 23;
pub const LONG: u32 = 1 << 20;
pub const TONE_ONLY: u32 = 1 << 7;
pub const ADDRESS_UNUSED: u32 = 0x0F_0000;
/// The bits x of every vector.
pub const VECTOR_UNUSED: u32 = 0x18_C000;

/// A message word has 21 bits.
pub const WORD_BITS: u32 = (1 << 21) - 1;

/// The ID, which is the word number of vectors and messages.
pub fn word_of(packet: u32) -> u32 {
    packet >> 24
}

pub fn phase_of(packet: u32) -> u32 {
    packet >> 21 & 3
}

/// V of a vector.
pub fn kind_of(packet: u32) -> u32 {
    packet >> 16 & 7
}

/// n of a vector with words as the number of them, and b.
pub fn span_of(packet: u32) -> (u32, u32) {
    let words = match is_numeric(kind_of(packet)) {
        true => (packet >> 7 & 7) + 1,
        false => packet >> 7 & 127,
    };
    (words, packet & 127)
}

/// AI of an address packet.
pub fn index_of(packet: u32) -> u32 {
    packet >> 8 & 255
}

/// WN of an address packet.
pub fn vector_place_of(packet: u32) -> u32 {
    packet & 127
}

pub fn address(key: Key, index: u32) -> u32 {
    1 << 24 | key.phase << 21 | index << 8 | key.vector
}

/// The last fourteen bits mean what the type says.
pub fn vector(key: Key, kind: u32, rest: u32) -> u32 {
    key.vector << 24 | key.phase << 21 | kind << 16 | rest
}

/// n and b of a vector with words. A numeric one has K too, and n from 1 to 8.
pub fn span(kind: u32, check: u32, words: u32, start: u32) -> u32 {
    match is_numeric(kind) {
        true => check << 10 | (words - 1) << 7 | start,
        false => words << 7 | start,
    }
}

pub fn is_numeric(kind: u32) -> bool {
    matches!(kind, STANDARD_NUMERIC | SPECIAL_NUMERIC | NUMBERED_NUMERIC)
}

/// Whether words come with a vector of the type: all but short instructions and
/// short messages. What is over 7 is no type.
pub fn brings_words(kind: u32) -> bool {
    matches!(kind, 0 | 3..=7)
}

pub fn message(phase: u32, word: u32, bits: u32) -> u32 {
    word << 24 | phase << 21 | bits
}
