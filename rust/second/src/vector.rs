//! Vector packets: what kind of call it is, and where its words stand (S8.7.3
//! to S8.7.7).

use std::ops::RangeInclusive;

use crate::heard::{check_word, FIRST_TEMPORARY, LAST_WORD, WORD_NUMBER};
use crate::layout::{field, packet, read, Field};
use crate::numbers::numbers;
use crate::refusal::Refusal;

/// The words where a vector can stand (S8.7.3).
pub const VECTOR_WORDS: RangeInclusive<u32> = 2..=LAST_WORD;

packet! {
    /// What all vector packets have (Tables 31, 33, 36 and 37). D15 and D14 are
    /// unused in all of them; what D13 to D0 hold depends on V.
    VectorHead, id WORD_NUMBER, unused 0x18_FFFF => {
        /// WN.
        word: field(24, 7),
        /// e.
        damaged: field(23, 1),
        /// p.
        phase: field(21, 2),
        /// V.
        kind: field(16, 3),
    }
}

numbers! {
    /// What a vector packet tells. What its kind does not bring is 0.
    pub struct Vector {
        pub word: u32,
        pub damaged: u32,
        pub phase: u32,
        pub kind: u32,
        pub span: Span,
        pub short_message: ShortMessage,
        pub instruction: Instruction,
    }
}

numbers! {
    /// Where the message words stand (S8.7.4, S8.7.6).
    pub struct Span {
        /// K, which only numeric vectors have.
        pub check: u32,
        /// How many words there are.
        pub words: u32,
        pub start: u32,
    }
}

numbers! {
    /// A short message or a tone (S8.7.5).
    pub struct ShortMessage {
        pub kind: u32,
        /// The codes of three numeric characters.
        pub first: u32,
        pub second: u32,
        pub third: u32,
        pub source: u32,
        pub retrieval: u32,
        pub message: u32,
        /// The twelve d bits of the spare type.
        pub unread: u32,
    }
}

numbers! {
    /// A short instruction (S8.7.7).
    pub struct Instruction {
        pub kind: u32,
        /// The address number of the temporary address.
        pub address: u32,
        pub frame: u32,
        /// The eleven d bits of the reserved types.
        pub unread: u32,
    }
}

/// Vector types V (Tables 32, 33 and 35, S8.7.7).
pub const SECURE: u32 = 0;
pub const SHORT_INSTRUCTION: u32 = 1;
pub const SHORT_MESSAGE: u32 = 2;
pub const STANDARD_NUMERIC: u32 = 3;
pub const SPECIAL_NUMERIC: u32 = 4;
pub const ALPHANUMERIC: u32 = 5;
pub const HEX_BINARY: u32 = 6;
pub const NUMBERED_NUMERIC: u32 = 7;

/// Table 31: K and n of a numeric vector; Table 36: n of the others; b in both.
const NUMERIC_CHECK: Field = field(10, 4);
const NUMERIC_WORDS: Field = field(7, 3);
const OTHER_WORDS: Field = field(7, 7);
const START: Field = field(0, 7);

/// Table 33: t, and Table 34: d by t.
const MESSAGE_TYPE: Field = field(0, 2);
const MESSAGE_DATA: Field = field(2, 12);
const FIRST_CHARACTER: Field = field(2, 4);
const SECOND_CHARACTER: Field = field(6, 4);
const THIRD_CHARACTER: Field = field(10, 4);
const SOURCE: Field = field(2, 3);
const MESSAGE_NUMBER: Field = field(5, 6);
const RETRIEVAL: Field = field(11, 1);

/// Table 37: i, and Table 38: d by i.
const INSTRUCTION_TYPE: Field = field(0, 3);
const INSTRUCTION_DATA: Field = field(3, 11);
const DESIGNATED_FRAME: Field = field(3, 7);
const TEMPORARY_INDEX: Field = field(10, 4);

/// Told whether it is damaged or not; what may be believed is another matter.
pub fn read_vector(packet: u32) -> Result<Vector, Refusal> {
    let head: VectorHead = read(packet)?;
    check_word(head.word, VECTOR_WORDS)?;
    let mut vector = Vector {
        word: head.word,
        damaged: head.damaged,
        phase: head.phase,
        kind: head.kind,
        ..Vector::default()
    };
    match head.kind {
        SHORT_INSTRUCTION => vector.instruction = instruction(packet),
        SHORT_MESSAGE => vector.short_message = short_message(packet),
        STANDARD_NUMERIC | SPECIAL_NUMERIC | NUMBERED_NUMERIC => vector.span = numeric_span(packet),
        // Secure, alphanumeric and hex/binary.
        _ => vector.span = other_span(packet),
    }
    Ok(vector)
}

/// S8.7.4: n is one less than the number of words.
fn numeric_span(packet: u32) -> Span {
    Span {
        check: NUMERIC_CHECK.of(packet),
        words: NUMERIC_WORDS.of(packet) + 1,
        start: START.of(packet),
    }
}

/// S8.7.6: n is the number of words.
fn other_span(packet: u32) -> Span {
    Span {
        check: 0,
        words: OTHER_WORDS.of(packet),
        start: START.of(packet),
    }
}

/// Table 34.
fn short_message(packet: u32) -> ShortMessage {
    let kind = MESSAGE_TYPE.of(packet);
    let nothing = ShortMessage {
        kind,
        ..ShortMessage::default()
    };
    match kind {
        0 => ShortMessage {
            first: FIRST_CHARACTER.of(packet),
            second: SECOND_CHARACTER.of(packet),
            third: THIRD_CHARACTER.of(packet),
            ..nothing
        },
        1 => ShortMessage {
            source: SOURCE.of(packet),
            ..nothing
        },
        2 => ShortMessage {
            source: SOURCE.of(packet),
            retrieval: RETRIEVAL.of(packet),
            message: MESSAGE_NUMBER.of(packet),
            ..nothing
        },
        _ => ShortMessage {
            unread: MESSAGE_DATA.of(packet),
            ..nothing
        },
    }
}

/// i of the instruction that assigns a temporary address (Table 38).
pub const TEMPORARY_ADDRESS: u32 = 0;

/// Table 38.
fn instruction(packet: u32) -> Instruction {
    let kind = INSTRUCTION_TYPE.of(packet);
    let nothing = Instruction {
        kind,
        ..Instruction::default()
    };
    match kind {
        TEMPORARY_ADDRESS => Instruction {
            address: FIRST_TEMPORARY + TEMPORARY_INDEX.of(packet),
            frame: DESIGNATED_FRAME.of(packet),
            ..nothing
        },
        _ => Instruction {
            unread: INSTRUCTION_DATA.of(packet),
            ..nothing
        },
    }
}

#[cfg(test)]
mod tests {
    use super::*;

    fn vector(packet: u32) -> Vector {
        read_vector(packet).expect("the ID is a vector's")
    }

    fn head(packet: u32) -> [u32; 4] {
        let vector = vector(packet);
        [vector.word, vector.damaged, vector.phase, vector.kind]
    }

    fn span(check: u32, words: u32, start: u32) -> Span {
        Span {
            check,
            words,
            start,
        }
    }

    #[test]
    fn heads() {
        assert_eq!(head(0x0E3B_E994), [14, 0, 1, 3]);
        assert_eq!(head(0x57E5_2A83), [87, 1, 3, 5]);
        assert_eq!(head(0x0240_0000), [2, 0, 2, 0]);
    }

    #[test]
    fn ids_of_no_vector() {
        for packet in [0x0000_0000, 0x0100_0000, 0x5800_0000, 0x8200_0000, u32::MAX] {
            assert_eq!(read_vector(packet), Err(Refusal::Packet));
        }
    }

    /// Table 31: K 1010, n 011, b 0010100; the unused bits are set.
    #[test]
    fn numeric() {
        for kind in [3, 4, 7] {
            let vector = vector(0x0E38_E994 | kind << 16);
            assert_eq!(vector.span, span(10, 4, 20));
            assert_eq!(vector.short_message, ShortMessage::default());
            assert_eq!(vector.instruction, Instruction::default());
        }
        assert_eq!(vector(0x0E03_0000).span, span(0, 1, 0));
        assert_eq!(vector(0x0E03_3FFF).span, span(15, 8, 127));
    }

    /// Table 36: n 1010101, b 0000011.
    #[test]
    fn secure_alphanumeric_and_hex() {
        for kind in [0, 5, 6] {
            let vector = vector(0x57E0_2A83 | kind << 16);
            assert_eq!(vector.span, span(0, 85, 3));
            assert_eq!(vector.short_message, ShortMessage::default());
            assert_eq!(vector.instruction, Instruction::default());
        }
        assert_eq!(vector(0x0200_0000).span, span(0, 0, 0));
        assert_eq!(vector(0x0205_FFFF).span, span(0, 127, 127));
    }

    #[track_caller]
    fn assert_short_message(packet: u32, told: ShortMessage) {
        let vector = vector(packet);
        assert_eq!(vector.short_message, told);
        assert_eq!(vector.span, Span::default());
        assert_eq!(vector.instruction, Instruction::default());
    }

    /// Table 34: c 1001, b 1100, a 0001; then S 101 with all s bits set; then
    /// s 01, R 1, N 101011, S 110; then the spare type.
    #[test]
    fn short_messages() {
        let nothing = ShortMessage::default();
        let characters = ShortMessage {
            first: 1,
            second: 12,
            third: 9,
            ..nothing
        };
        assert_short_message(0x0302_2704, characters);
        let source = ShortMessage {
            kind: 1,
            source: 5,
            ..nothing
        };
        assert_short_message(0x0302_3FF5, source);
        let numbered = ShortMessage {
            kind: 2,
            source: 6,
            retrieval: 1,
            message: 43,
            ..nothing
        };
        assert_short_message(0x0302_1D7A, numbered);
        let spare = ShortMessage {
            kind: 3,
            unread: 0xA5C,
            ..nothing
        };
        assert_short_message(0x031A_E973, spare);
    }

    /// Table 38: a 1010, f 1001101; then types without a meaning.
    #[test]
    fn instructions() {
        let instruction = |packet| {
            let vector = vector(packet);
            assert_eq!(vector.span, Span::default());
            assert_eq!(vector.short_message, ShortMessage::default());
            let told = vector.instruction;
            [told.kind, told.address, told.frame, told.unread]
        };
        assert_eq!(instruction(0x0301_2A68), [0, 26, 77, 0]);
        assert_eq!(instruction(0x0319_C000), [0, 16, 0, 0]);
        assert_eq!(instruction(0x0301_2D1F), [7, 0, 0, 0x5A3]);
        assert_eq!(instruction(0x0301_2D19), [1, 0, 0, 0x5A3]);
    }
}
