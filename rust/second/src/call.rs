//! Calls in a frame: whose the vectors and message words are (01, "Calls in a
//! frame"; S8.8.2).
//!
//! What is known of the open calls stands in their records, in the order in which
//! they were opened, and their words in a lent memory of eight areas.

use crate::heard::{self, check_word, Address, Message, LAST_WORD};
use crate::layout::read;
use crate::numbers::numbers;
use crate::refusal::Refusal;
use crate::vector::{
    read_vector, Span, ALPHANUMERIC, HEX_BINARY, NUMBERED_NUMERIC, SECURE, SPECIAL_NUMERIC,
    STANDARD_NUMERIC, VECTOR_WORDS,
};

pub const MOST_CALLS: usize = 8;
/// The most words that a call can have.
pub const MOST_WORDS: usize = 85;
/// Each area has room for the most words.
pub const MEMORY: usize = MOST_CALLS * MOST_WORDS;
/// Stands where a word is still to come: words have 21 bits.
pub const TO_COME: u32 = 1 << 21;

const LAST_PHASE: u32 = 3;

numbers! {
    /// What is known of a call. From `has_vector` on, all is 0 until its vector
    /// comes.
    pub struct Call {
        pub phase: u32,
        /// The word number of its vector.
        pub vector: u32,
        /// The address's number.
        pub address: u32,
        pub priority: u32,
        /// Any number but 0 is long.
        pub long_address: u32,
        /// Any number but 0 says that the vector has come.
        pub has_vector: u32,
        /// V.
        pub kind: u32,
        /// K, which only numeric vectors have.
        pub check: u32,
        /// b.
        pub start: u32,
        /// How many message words it has.
        pub words: u32,
        /// Which area of the memory is its own; there are eight.
        pub area: u32,
    }
}

/// What a call is known by in its frame.
#[derive(Clone, Copy, Debug, PartialEq, Eq)]
pub struct Key {
    pub phase: u32,
    pub vector: u32,
}

impl Call {
    /// Whose vector is still to come.
    fn awaiting_vector(address: &Address) -> Call {
        Call {
            phase: address.phase,
            vector: address.vector,
            address: address.address,
            priority: address.priority,
            long_address: address.long_address,
            ..Call::default()
        }
    }

    pub fn key(&self) -> Key {
        Key {
            phase: self.phase,
            vector: self.vector,
        }
    }

    pub fn has_vector(&self) -> bool {
        self.has_vector != 0
    }

    pub fn is_long(&self) -> bool {
        self.long_address != 0
    }

    /// Where its words begin in the memory.
    pub fn place(&self) -> usize {
        self.area as usize % MOST_CALLS * MOST_WORDS
    }

    /// Whether a span lies after the vector and ends by the last word. Of a long
    /// call the first word follows the vector, and b is where its rest begins, if
    /// it has any.
    pub fn is_span(&self, words: u32, start: u32) -> bool {
        if words == 0 || words as usize > MOST_WORDS {
            return false;
        }
        let lies_after = |before: u32, words: u32| {
            start > before && u64::from(start) + u64::from(words) - 1 <= u64::from(LAST_WORD)
        };
        if !self.is_long() {
            return lies_after(self.vector, words);
        }
        let first = self.vector + 1;
        let rest = words - 1;
        first <= LAST_WORD && (rest == 0 || lies_after(first, rest))
    }

    /// The numbers of its words in the frame, in the order of the message.
    pub fn word_numbers(&self) -> impl Iterator<Item = u32> {
        let first = (self.is_long() && self.words > 0).then_some(self.vector + 1);
        let rest = self.words - u32::from(first.is_some());
        let start = self.start;
        first
            .into_iter()
            .chain((0..rest).map(move |word| start + word))
    }

    /// Where in the memory it has the word of that number, if it is one of its.
    pub fn place_of(&self, phase: u32, word: u32) -> Option<usize> {
        if !self.has_vector() || self.phase != phase {
            return None;
        }
        let position = self.word_numbers().position(|number| number == word)?;
        Some(self.place() + position)
    }

    /// Whether its vector and each of its words have come.
    pub fn is_complete(&self, memory: &[u32]) -> bool {
        let mut places = (self.place()..).take(self.words as usize);
        self.has_vector() && places.all(|place| !is_lacking(memory, place))
    }

    /// Whether its span, once its vector has come, is within the limits. No words
    /// are a span only of a vector that brings none.
    fn has_sound_span(&self) -> bool {
        match self.words {
            0 => !brings_words(self.kind),
            words => self.is_span(words, self.start),
        }
    }

    fn is_sound(&self) -> bool {
        self.phase <= LAST_PHASE
            && self.vector <= LAST_WORD
            && (!self.has_vector() || self.has_sound_span())
    }
}

/// Whether a word of that place is still to come; after the memory's end is none.
fn is_lacking(memory: &[u32], place: usize) -> bool {
    memory.get(place).is_none_or(|word| *word >= TO_COME)
}

/// The records of all calls.
#[derive(Clone, Copy, Debug, Default, PartialEq, Eq)]
pub struct Calls {
    /// How many are open; more than there can be are as many as there can be.
    pub size: usize,
    pub calls: [Call; MOST_CALLS],
}

/// What is told of an address packet.
#[derive(Clone, Copy, Debug, PartialEq, Eq)]
pub struct Opened {
    /// The place of its call; a tone-only address has none.
    pub call: Option<usize>,
    pub fields: Address,
}

/// What is told of a vector or a message packet.
#[derive(Clone, Copy, Debug, PartialEq, Eq)]
pub enum Heard {
    Vector {
        /// The place of its call.
        call: usize,
        /// V.
        kind: u32,
        /// K.
        check: u32,
        /// Whether the call has no words to wait for.
        is_complete: bool,
    },
    Word {
        /// A bit for each call that was completed by it, bit 0 for the first.
        completed: u32,
    },
}

impl Calls {
    /// With these open, and nothing after them.
    pub fn of(open: &[Call]) -> Calls {
        let mut calls = Calls {
            size: open.len(),
            ..Calls::default()
        };
        calls.calls[..open.len()].copy_from_slice(open);
        calls
    }

    /// An address packet comes.
    pub fn open(&mut self, packet: u32) -> Result<Opened, Refusal> {
        self.check()?;
        let fields = heard::read_address(packet)?;
        if fields.tone_only == 1 {
            return Ok(Opened { call: None, fields });
        }
        let call = Call::awaiting_vector(&fields);
        if self.place_of(call.key()).is_some() {
            return Err(Refusal::OutOfTurn);
        }
        let place = self.open_calls().len();
        let free = self.calls.get_mut(place).ok_or(Refusal::Full)?;
        *free = call;
        self.size += 1;
        Ok(Opened {
            call: Some(place),
            fields,
        })
    }

    /// A vector or a message packet comes. Which of both it is, the open calls'
    /// keys tell.
    pub fn hear(&mut self, memory: &mut [u32], packet: u32) -> Result<Heard, Refusal> {
        self.check()?;
        let message: Message = read(packet)?;
        check_word(message.word, VECTOR_WORDS)?;
        if message.damaged == 1 {
            return Err(Refusal::Damaged);
        }
        let key = Key {
            phase: message.phase,
            vector: message.word,
        };
        match self.place_of(key) {
            Some(call) => self.hear_vector(memory, call, packet),
            None => self.hear_word(memory, &message),
        }
    }

    /// A bad span closes the call.
    fn hear_vector(
        &mut self,
        memory: &mut [u32],
        place: usize,
        packet: u32,
    ) -> Result<Heard, Refusal> {
        let vector = read_vector(packet)?;
        let Span {
            check,
            words,
            start,
        } = vector.span;
        let call = self.calls[place];
        if call.has_vector() {
            return Err(Refusal::OutOfTurn);
        }
        let has_words = brings_words(vector.kind);
        if has_words && !call.is_span(words, start) {
            self.close(place);
            return Err(Refusal::Size);
        }
        check_memory(memory)?;
        let before = self.open_calls().iter().filter(|call| call.has_vector());
        let call = Call {
            has_vector: 1,
            kind: vector.kind,
            check,
            start,
            words,
            area: before.count() as u32,
            ..call
        };
        self.calls[place] = call;
        memory[call.place()..][..words as usize].fill(TO_COME);
        Ok(Heard::Vector {
            call: place,
            kind: vector.kind,
            check,
            is_complete: !has_words,
        })
    }

    fn hear_word(&mut self, memory: &mut [u32], message: &Message) -> Result<Heard, Refusal> {
        let open = self.open_calls().iter().enumerate();
        let held: Vec<(usize, usize)> = open
            .filter_map(|(call, record)| {
                let place = record.place_of(message.phase, message.word)?;
                Some((call, place))
            })
            .collect();
        if held.is_empty() {
            return Err(Refusal::NoCall);
        }
        if held.iter().all(|(_, place)| !is_lacking(memory, *place)) {
            return Err(Refusal::OutOfTurn);
        }
        check_memory(memory)?;
        let mut completed = 0;
        for (call, place) in held.into_iter().rev() {
            if !is_lacking(memory, place) {
                continue;
            }
            memory[place] = message.bits;
            completed |= u32::from(self.calls[call].is_complete(memory)) << call;
        }
        Ok(Heard::Word { completed })
    }

    /// Closes all calls, and lists those of which something is missing.
    pub fn end_frame(&mut self, memory: &[u32]) -> Result<Calls, Refusal> {
        self.check()?;
        check_memory(memory)?;
        let open = self.open_calls().iter().copied();
        let incomplete: Vec<Call> = open.filter(|call| !call.is_complete(memory)).collect();
        *self = Calls::default();
        Ok(Calls::of(&incomplete))
    }

    /// In the order in which they were opened.
    pub fn open_calls(&self) -> &[Call] {
        &self.calls[..self.size.min(MOST_CALLS)]
    }

    /// The place of the open call of that key.
    pub fn place_of(&self, key: Key) -> Option<usize> {
        self.open_calls().iter().position(|call| call.key() == key)
    }

    /// What stands after it, open or not, moves up.
    fn close(&mut self, place: usize) {
        self.size = self.open_calls().len() - 1;
        self.calls[place..].rotate_left(1);
        self.calls[MOST_CALLS - 1] = Call::default();
    }

    /// Whether each open call is within its limits and has its key alone.
    pub fn is_sound(&self) -> bool {
        let in_place = |(place, call): (usize, &Call)| {
            call.is_sound() && self.place_of(call.key()) == Some(place)
        };
        self.open_calls().iter().enumerate().all(in_place)
    }

    fn check(&self) -> Result<(), Refusal> {
        match self.is_sound() {
            true => Ok(()),
            false => Err(Refusal::State),
        }
    }
}

/// Whether message words come with a vector of that type (Tables 32 and 35); with
/// what is no type none come.
fn brings_words(kind: u32) -> bool {
    matches!(
        kind,
        SECURE | STANDARD_NUMERIC | SPECIAL_NUMERIC | ALPHANUMERIC | HEX_BINARY | NUMBERED_NUMERIC
    )
}

fn check_memory(memory: &[u32]) -> Result<(), Refusal> {
    match memory.len() >= MEMORY {
        true => Ok(()),
        false => Err(Refusal::Room),
    }
}

#[cfg(test)]
mod tests {
    use super::*;

    const WORD_BEFORE: u32 = 0x0A_5A5A;
    const A: u32 = 0;
    const C: u32 = 2;

    /// Table 30: p, AI and WN.
    fn address(phase: u32, index: u32, word: u32) -> u32 {
        0x0100_0000 | phase << 21 | index << 8 | word
    }

    fn long_address(phase: u32, index: u32, word: u32) -> u32 {
        address(phase, index, word) | 0x10_0000
    }

    /// Table 36: WN, p, V, n and b.
    fn text_vector(phase: u32, word: u32, kind: u32, words: u32, start: u32) -> u32 {
        word << 24 | phase << 21 | kind << 16 | words << 7 | start
    }

    /// Table 31: n is one less than the number of words.
    fn numeric_vector(phase: u32, word: u32, check: u32, words: u32, start: u32) -> u32 {
        word << 24 | phase << 21 | 0x03_0000 | check << 10 | (words - 1) << 7 | start
    }

    /// Table 40.
    fn message(phase: u32, word: u32, bits: u32) -> u32 {
        word << 24 | phase << 21 | bits
    }

    fn vector(call: usize, kind: u32, check: u32) -> Result<Heard, Refusal> {
        Ok(Heard::Vector {
            call,
            kind,
            check,
            is_complete: kind == 1 || kind == 2,
        })
    }

    fn word(completed: u32) -> Result<Heard, Refusal> {
        Ok(Heard::Word { completed })
    }

    /// The calls and their memory.
    struct Receiver {
        calls: Calls,
        memory: Vec<u32>,
    }

    impl Receiver {
        fn fresh() -> Receiver {
            Receiver {
                calls: Calls::default(),
                memory: vec![WORD_BEFORE; 680],
            }
        }

        /// With an open call for each, short and on phase A, without its vector.
        fn with_vectors_at(words: &[u32]) -> Receiver {
            let mut receiver = Receiver::fresh();
            for word in words {
                receiver.open(address(A, 0, *word));
            }
            receiver
        }

        /// It must be accepted as the next call.
        #[track_caller]
        fn open(&mut self, packet: u32) {
            let place = self.calls.size;
            let opened = self.calls.open(packet).unwrap();
            assert_eq!(opened.call, Some(place));
            assert_eq!(self.calls.size, place + 1);
        }

        #[track_caller]
        fn open_in_vain(&mut self, packet: u32, refusal: Refusal) {
            let before = self.calls;
            assert_eq!(self.calls.open(packet), Err(refusal));
            assert_eq!(self.calls, before);
        }

        fn hear(&mut self, packet: u32) -> Result<Heard, Refusal> {
            self.calls.hear(&mut self.memory, packet)
        }

        #[track_caller]
        fn hear_in_vain(&mut self, packet: u32, refusal: Refusal) {
            let (calls, memory) = (self.calls, self.memory.clone());
            assert_eq!(self.hear(packet), Err(refusal));
            assert_eq!((self.calls, &self.memory), (calls, &memory));
        }

        /// The memory must hold these words, each row where it is said to begin,
        /// and elsewhere what was there before.
        #[track_caller]
        fn assert_holds(&self, rows: &[(usize, &[u32])]) {
            let mut memory = vec![WORD_BEFORE; self.memory.len()];
            for (place, words) in rows {
                memory[*place..][..words.len()].copy_from_slice(words);
            }
            assert_eq!(self.memory, memory);
        }
    }

    /// Packet by packet, with words that are each their own.
    #[test]
    fn tables_54_and_55() {
        let mut receiver = Receiver::fresh();
        let opened = receiver.calls.open(0x0100_0307).unwrap();
        assert_eq!(opened.call, Some(0));
        let fields = Address {
            address: 3,
            vector: 7,
            ..Address::default()
        };
        assert_eq!(opened.fields, fields);
        receiver.open(0x0100_0408);
        // Numeric, K 10, three words from 9 on.
        assert_eq!(receiver.hear(0x0703_2909), vector(0, 3, 10));
        // Block information words.
        receiver.hear_in_vain(0x0040_1234, Refusal::Packet);
        receiver.open_in_vain(0x0040_1234, Refusal::Packet);
        // Priority, long, a temporary address.
        receiver.open(0x01D0_810A);
        // Alphanumeric, four words from 12 on.
        assert_eq!(receiver.hear(0x0805_020C), vector(1, 5, 0));
        for (packet, completed) in [
            (0x0900_0901, 0),
            (0x0A1F_FFFF, 0),
            (0x0B00_0000, 1),
            (0x0C00_0C01, 0),
            (0x0D00_0C02, 0),
            (0x0E00_0C03, 0),
            (0x0F00_0C04, 2),
        ] {
            assert_eq!(receiver.hear(packet), word(completed));
        }
        // Hex/binary, three words, the second and third from phase-C word 14 on.
        assert_eq!(receiver.hear(0x0A46_018E), vector(2, 6, 0));
        assert_eq!(receiver.hear(0x0B40_0301), word(0));
        assert_eq!(receiver.hear(0x0E40_0302), word(0));
        assert_eq!(receiver.hear(0x0F40_0303), word(4));
        let first = Call {
            phase: 0,
            vector: 7,
            address: 3,
            priority: 0,
            long_address: 0,
            has_vector: 1,
            kind: 3,
            check: 10,
            start: 9,
            words: 3,
            area: 0,
        };
        let second = Call {
            vector: 8,
            address: 4,
            kind: 5,
            check: 0,
            start: 12,
            words: 4,
            area: 1,
            ..first
        };
        let third = Call {
            phase: 2,
            vector: 10,
            address: 17,
            priority: 1,
            long_address: 1,
            has_vector: 1,
            kind: 6,
            check: 0,
            start: 14,
            words: 3,
            area: 2,
        };
        let calls = Calls::of(&[first, second, third]);
        assert_eq!(receiver.calls, calls);
        let places = [first, second, third].map(|call| call.place());
        assert_eq!(places, [0, 85, 170]);
        receiver.assert_holds(&[
            (0, &[0x901, 0x1F_FFFF, 0]),
            (85, &[0xC01, 0xC02, 0xC03, 0xC04]),
            (170, &[0x301, 0x302, 0x303]),
        ]);
        let incomplete = receiver.calls.end_frame(&receiver.memory);
        assert_eq!(incomplete, Ok(Calls::default()));
        assert_eq!(receiver.calls, Calls::default());
    }

    /// A bit is set for each of them that is completed.
    #[test]
    fn group_pages_share_words() {
        let mut receiver = Receiver::with_vectors_at(&[5, 6, 7]);
        assert_eq!(receiver.hear(text_vector(A, 5, 5, 3, 20)), vector(0, 5, 0));
        assert_eq!(receiver.hear(text_vector(A, 6, 5, 2, 21)), vector(1, 5, 0));
        assert_eq!(receiver.hear(message(A, 21, 21)), word(0));
        // The third comes late, and the word is for it alone.
        assert_eq!(receiver.hear(text_vector(A, 7, 5, 2, 21)), vector(2, 5, 0));
        receiver.hear_in_vain(message(C, 21, 9), Refusal::NoCall);
        assert_eq!(receiver.hear(message(A, 21, 9)), word(0));
        receiver.hear_in_vain(message(A, 21, 9), Refusal::OutOfTurn);
        assert_eq!(receiver.hear(message(A, 22, 22)), word(6));
        assert_eq!(receiver.hear(message(A, 20, 20)), word(1));
        receiver.assert_holds(&[(0, &[20, 21, 22]), (85, &[21, 22]), (170, &[9, 22])]);
    }

    /// A long call's first word follows its vector, whatever b is.
    #[test]
    fn the_first_word_of_a_long_call() {
        for start in [0, 1, 10, 11, 87, 127] {
            let mut receiver = Receiver::fresh();
            receiver.open(long_address(A, 1, 10));
            let packet = numeric_vector(A, 10, 0, 1, start);
            assert_eq!(receiver.hear(packet), vector(0, 3, 0));
            if start > 11 && start < 88 {
                receiver.hear_in_vain(message(A, start, 1), Refusal::NoCall);
            }
            assert_eq!(receiver.hear(message(A, 11, 0)), word(1));
            receiver.assert_holds(&[(0, &[0])]);
        }
    }

    /// The vector of another call stands in the middle of a span.
    #[test]
    fn vector_places_come_before_spans() {
        let mut receiver = Receiver::with_vectors_at(&[5, 7]);
        assert_eq!(receiver.hear(text_vector(A, 5, 5, 3, 6)), vector(0, 5, 0));
        assert_eq!(receiver.hear(text_vector(A, 7, 5, 1, 30)), vector(1, 5, 0));
        receiver.hear_in_vain(text_vector(A, 7, 5, 1, 30), Refusal::OutOfTurn);
        assert_eq!(receiver.hear(message(A, 6, 1)), word(0));
        assert_eq!(receiver.hear(message(A, 8, 2)), word(0));
        receiver.assert_holds(&[(0, &[1, TO_COME, 2]), (85, &[TO_COME])]);
    }

    #[test]
    fn vectors_without_words() {
        for kind in [1, 2] {
            for packet in [address(A, 0, 9), long_address(A, 0, 9)] {
                let mut receiver = Receiver::fresh();
                receiver.open(packet);
                // All that would be b, n and K is set.
                let packet = text_vector(A, 9, kind, 127, 127);
                assert_eq!(receiver.hear(packet), vector(0, kind, 0));
                let call = receiver.calls.calls[0];
                assert_eq!((call.has_vector, call.kind), (1, kind));
                assert_eq!((call.check, call.start, call.words), (0, 0, 0));
                receiver.hear_in_vain(message(A, 10, 0), Refusal::NoCall);
                receiver.assert_holds(&[]);
                let incomplete = receiver.calls.end_frame(&receiver.memory);
                assert_eq!(incomplete, Ok(Calls::default()));
            }
        }
    }

    /// The limits of a span: vector, n and b of the last that fit and of the first
    /// that do not.
    #[test]
    fn spans() {
        let is_span = |long_address, vector, words, start| {
            let call = Call {
                vector,
                long_address,
                ..Call::default()
            };
            call.is_span(words, start)
        };
        for (vector, words, start) in [(2, 85, 3), (10, 1, 11), (86, 1, 87), (10, 7, 81)] {
            assert!(is_span(0, vector, words, start));
        }
        for (vector, words, start) in [
            (2, 0, 3),
            (0, 86, 1),
            (2, 85, 4),
            (10, 1, 10),
            (10, 1, 9),
            (86, 1, 88),
            (10, 8, 81),
            (10, 2, u32::MAX),
        ] {
            assert!(!is_span(0, vector, words, start));
        }
        for (vector, words, start) in [
            (2, 85, 4),
            (86, 1, 0),
            (10, 2, 12),
            (10, 8, 81),
            (10, 1, u32::MAX),
        ] {
            assert!(is_span(1, vector, words, start));
        }
        for (vector, words, start) in [
            (2, 0, 4),
            (0, 86, 2),
            (87, 1, 88),
            (87, 2, 87),
            (10, 2, 11),
            (10, 2, 10),
            (10, 9, 81),
        ] {
            assert!(!is_span(1, vector, words, start));
        }
    }

    /// The calls after it move up, and stay in the order in which they were opened.
    #[test]
    fn a_bad_span_closes_its_call() {
        let mut receiver = Receiver::with_vectors_at(&[5, 6, 7]);
        receiver.calls.calls[7].address = 9;
        assert_eq!(receiver.hear(text_vector(A, 7, 5, 1, 20)), vector(2, 5, 0));
        let [first, _, third, ..] = receiver.calls.calls;
        let told = receiver.hear(text_vector(A, 6, 5, 1, 6));
        assert_eq!(told, Err(Refusal::Size));
        let mut calls = Calls::of(&[first, third]);
        calls.calls[6].address = 9;
        assert_eq!(receiver.calls, calls);
        receiver.assert_holds(&[(0, &[TO_COME])]);
        receiver.open(address(A, 0, 4));
        let fourth = receiver.calls.calls[2];
        // One had its vector before.
        assert_eq!(receiver.hear(text_vector(A, 5, 5, 1, 21)), vector(0, 5, 0));
        let first = receiver.calls.calls[0];
        assert_eq!((first.area, third.area), (1, 0));
        let incomplete = receiver.calls.end_frame(&receiver.memory).unwrap();
        let calls = Calls::of(&[first, third, fourth]);
        assert_eq!(incomplete, calls);
    }

    /// It is not read: neither its span nor what kind it is.
    #[test]
    fn damaged_packets() {
        let mut receiver = Receiver::with_vectors_at(&[5]);
        let error = 1 << 23;
        receiver.hear_in_vain(text_vector(A, 5, 5, 0, 0) | error, Refusal::Damaged);
        receiver.hear_in_vain(text_vector(A, 5, 2, 0, 0) | error, Refusal::Damaged);
        receiver.hear_in_vain(message(C, 5, 0) | error, Refusal::Damaged);
        assert_eq!(receiver.hear(text_vector(A, 5, 5, 1, 6)), vector(0, 5, 0));
        receiver.hear_in_vain(text_vector(A, 5, 5, 0, 0), Refusal::OutOfTurn);
        receiver.hear_in_vain(message(A, 6, 0) | error, Refusal::Damaged);
        assert_eq!(receiver.hear(message(A, 6, 0)), word(1));
        receiver.hear_in_vain(message(A, 6, 0) | error, Refusal::Damaged);
    }

    #[test]
    fn tone_only_addresses_open_nothing() {
        let mut receiver = Receiver::with_vectors_at(&[2, 3, 4, 5, 6, 7, 8, 9]);
        let before = receiver.calls;
        for word in [2, 9, 88, 127] {
            let opened = receiver.calls.open(address(C, 7, word) | 0x80).unwrap();
            let fields = Address {
                phase: 2,
                address: 7,
                tone_only: 1,
                ..Address::default()
            };
            assert_eq!(opened, Opened { call: None, fields });
            assert_eq!(receiver.calls, before);
        }
    }

    /// 7 before 8, 8 before 14, 14 before 12.
    #[test]
    fn refused_addresses() {
        let mut receiver = Receiver::with_vectors_at(&[0, 1, 4, 5, 6, 7, 8, 87]);
        receiver.open_in_vain(address(A, 16, 88), Refusal::Packet);
        receiver.open_in_vain(message(A, 2, 0), Refusal::Packet);
        receiver.open_in_vain(address(A, 16, 8), Refusal::Address);
        receiver.open_in_vain(address(A, 0, 8), Refusal::OutOfTurn);
        receiver.open_in_vain(address(C, 0, 8), Refusal::Full);
        let mut receiver = Receiver::with_vectors_at(&[8]);
        receiver.open(address(C, 0, 8));
    }

    /// 7, 10, 14, 9, 17, and the memory last of all.
    #[test]
    fn refused_packets() {
        let mut receiver = Receiver::with_vectors_at(&[5, 6]);
        assert_eq!(receiver.hear(text_vector(A, 6, 5, 2, 7)), vector(1, 5, 0));
        assert_eq!(receiver.hear(message(A, 7, 7)), word(0));
        for length in [679, 86, 1, 0] {
            receiver.memory.truncate(length);
            for packet in [0, 0x0100_0000, 0x5800_0000, 0x8500_0000, u32::MAX] {
                receiver.hear_in_vain(packet, Refusal::Packet);
            }
            receiver.hear_in_vain(message(A, 7, 0) | 1 << 23, Refusal::Damaged);
            receiver.hear_in_vain(text_vector(A, 6, 5, 0, 0), Refusal::OutOfTurn);
            receiver.hear_in_vain(message(A, 9, 0), Refusal::NoCall);
            receiver.hear_in_vain(message(A, 8, 0), Refusal::Room);
            receiver.hear_in_vain(text_vector(A, 5, 2, 0, 0), Refusal::Room);
            receiver.hear_in_vain(text_vector(A, 5, 5, 1, 9), Refusal::Room);
            let again = match length {
                0 => Refusal::Room,
                _ => Refusal::OutOfTurn,
            };
            receiver.hear_in_vain(message(A, 7, 0), again);
            let mut calls = receiver.calls;
            assert_eq!(calls.end_frame(&receiver.memory), Err(Refusal::Room));
            assert_eq!(calls, receiver.calls);
        }
        let told = receiver.hear(text_vector(A, 5, 5, 0, 9));
        assert_eq!(told, Err(Refusal::Size));
    }

    /// In the order in which they were opened; one without its vector is incomplete.
    #[test]
    fn incomplete_calls() {
        let mut receiver = Receiver::with_vectors_at(&[5, 6, 7, 8]);
        for (word, start) in [(8, 9), (6, 9), (7, 10)] {
            assert!(receiver.hear(text_vector(A, word, 5, 1, start)).is_ok());
        }
        assert_eq!(receiver.hear(message(A, 9, 0)), word(0b1010));
        let [first, _, third, ..] = receiver.calls.calls;
        let incomplete = Calls::of(&[first, third]);
        let told = receiver.calls.end_frame(&receiver.memory);
        assert_eq!(told, Ok(incomplete));
        assert_eq!(receiver.calls, Calls::default());
    }

    fn sound() -> Calls {
        let mut receiver = Receiver::with_vectors_at(&[5, 6, 7]);
        receiver.open(long_address(C, 0, 5));
        assert!(receiver.hear(text_vector(A, 6, 5, 4, 9)).is_ok());
        assert!(receiver.hear(text_vector(C, 5, 5, 4, 9)).is_ok());
        receiver.calls
    }

    fn altered(changes: &[fn(&mut Calls)]) -> Vec<Calls> {
        let alter = |change: &fn(&mut Calls)| {
            let mut calls = sound();
            change(&mut calls);
            calls
        };
        changes.iter().map(alter).collect()
    }

    #[test]
    fn unsound_states() {
        for calls in altered(&[
            |calls| calls.calls[0].phase = 4,
            |calls| calls.calls[3].phase = u32::MAX,
            |calls| calls.calls[0].vector = 88,
            |calls| calls.calls[0].vector = u32::MAX,
            |calls| calls.calls[0].vector = 7,
            |calls| calls.calls[1].words = 86,
            |calls| calls.calls[1].words = 0,
            |calls| (calls.calls[1].words, calls.calls[1].kind) = (0, 0),
            |calls| (calls.calls[1].words, calls.calls[1].kind) = (0, 7),
            |calls| (calls.calls[3].words, calls.calls[3].has_vector) = (0, 2),
            |calls| (calls.calls[1].start, calls.calls[1].kind) = (6, 2),
            |calls| calls.calls[1].start = 6,
            |calls| calls.calls[1].start = 85,
            |calls| calls.calls[1].start = u32::MAX,
            |calls| calls.calls[3].start = 6,
            |calls| calls.calls[3].start = 86,
            |calls| calls.calls[3].vector = 87,
            |calls| {
                calls.calls[7] = calls.calls[0];
                calls.size = 9;
            },
        ]) {
            let mut receiver = Receiver {
                calls,
                memory: Vec::new(),
            };
            receiver.open_in_vain(0, Refusal::State);
            receiver.hear_in_vain(0, Refusal::State);
            let mut after = calls;
            assert_eq!(after.end_frame(&[]), Err(Refusal::State));
            assert_eq!(after, calls);
        }
    }

    /// What no packet makes of fresh calls, but is within the limits.
    #[test]
    fn odd_states() {
        for mut calls in altered(&[
            |calls| calls.size = 5,
            |calls| calls.calls[4].phase = 4,
            |calls| calls.calls[4] = calls.calls[0],
            |calls| calls.calls[0].words = 86,
            |calls| calls.calls[0].vector = 0,
            |calls| (calls.calls[1].words, calls.calls[1].kind) = (0, 1),
            |calls| (calls.calls[1].words, calls.calls[1].kind) = (0, 2),
            |calls| (calls.calls[1].words, calls.calls[1].kind) = (0, 8),
            |calls| (calls.calls[1].words, calls.calls[1].has_vector) = (0, 0),
            |calls| calls.calls[1].kind = 2,
            |calls| calls.calls[1].area = u32::MAX,
            |calls| calls.calls[1].kind = 8,
            |calls| calls.calls[1].has_vector = 2,
            |calls| calls.calls[1].priority = 2,
            |calls| calls.calls[1].address = 32,
            |calls| calls.calls[3].long_address = 2,
            |calls| calls.calls[3].area = 0,
        ]) {
            let size = calls.size;
            let opened = calls.open(address(3, 0, 30)).unwrap();
            assert_eq!((opened.call, calls.size), (Some(size), size + 1));
        }
        // More than eight are eight.
        let mut calls = sound();
        for (place, call) in calls.calls.iter_mut().enumerate() {
            call.vector = 10 + place as u32;
            call.has_vector = 0;
        }
        calls.size = usize::MAX;
        assert_eq!(calls.open(address(A, 0, 5)), Err(Refusal::Full));
        let mut memory = vec![WORD_BEFORE; 680];
        let told = calls.hear(&mut memory, text_vector(A, 11, 5, 0, 0));
        assert_eq!((told, calls.size), (Err(Refusal::Size), 7));
    }

    /// The area is its remainder by eight, and two may share it: the one opened last
    /// takes the word, and the other then lacks it no more.
    #[test]
    fn a_shared_area() {
        let mut receiver = Receiver::with_vectors_at(&[5, 6]);
        assert!(receiver.hear(text_vector(A, 5, 5, 1, 9)).is_ok());
        assert!(receiver.hear(text_vector(A, 6, 5, 1, 9)).is_ok());
        receiver.calls.calls[0].area = 9;
        assert_eq!(receiver.calls.calls[0].place(), 85);
        assert_eq!(receiver.hear(message(A, 9, 4)), word(2));
        receiver.assert_holds(&[(0, &[TO_COME]), (85, &[4])]);
    }

    /// The eighth vector's call has the last area, and fills it.
    #[test]
    fn a_longer_memory_keeps_its_rest() {
        let mut receiver = Receiver::fresh();
        receiver.memory.resize(700, WORD_BEFORE);
        receiver.open(address(C, 0, 2));
        for word in 2..9 {
            receiver.open(address(A, 0, word));
            assert!(receiver.hear(text_vector(A, word, 2, 0, 0)).is_ok());
        }
        assert_eq!(receiver.hear(text_vector(C, 2, 5, 85, 3)), vector(0, 5, 0));
        receiver.assert_holds(&[(595, &[TO_COME; 85])]);
        for number in (4..=87).rev() {
            assert_eq!(receiver.hear(message(C, number, number)), word(0));
        }
        assert_eq!(receiver.hear(message(C, 3, 3)), word(1));
        let words: Vec<u32> = (3..=87).collect();
        receiver.assert_holds(&[(595, &words)]);
    }
}
