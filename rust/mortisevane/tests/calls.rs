//! Calls: the frame of Tables 54 and 55, and what is refused.

use mortisevane::calls::{Call, Calls, HeardVector, CALLS, CALL_WORDS};
use mortisevane::chains::{Chains, CHAIN_BYTES};
use mortisevane::fragment::{self, Marks};
use mortisevane::numeric::{self, CharacterSet, Numbering, PAGE_CHARACTERS};
use mortisevane::packet::{VECTOR_ALPHANUMERIC, VECTOR_SHORT, VECTOR_STANDARD};
use mortisevane::Refusal;

const PHASE_A: u32 = 0;
const PHASE_C: u32 = 2;
const DAMAGED: u32 = 1 << 23;
const TONE_ONLY: u32 = 1 << 7;

/// Table 30.
fn address(phase: u32, long_address: u32, address: u32, vector: u32) -> u32 {
    0x01 << 24 | phase << 21 | long_address << 20 | address << 8 | vector
}

/// Table 31: a standard numeric vector.
fn numeric_vector(word: u32, phase: u32, check: u32, words: u32, start: u32) -> u32 {
    word << 24 | phase << 21 | VECTOR_STANDARD << 16 | check << 10 | (words - 1) << 7 | start
}

/// Table 36: an alphanumeric vector.
fn text_vector(word: u32, phase: u32, words: u32, start: u32) -> u32 {
    word << 24 | phase << 21 | VECTOR_ALPHANUMERIC << 16 | words << 7 | start
}

/// Table 40.
fn message(word: u32, phase: u32, bits: u32) -> u32 {
    word << 24 | phase << 21 | bits
}

/// A frame as it comes, and the pages that are complete in it: the address number, the kind, K and the words.
#[derive(Default)]
struct Frame {
    calls: Calls,
    memory: Vec<u32>,
    pages: Vec<(u32, u32, u32, Vec<u32>)>,
}

impl Frame {
    fn new() -> Frame {
        Frame { memory: vec![0x15A5A5; CALL_WORDS], ..Frame::default() }
    }

    fn opens(&mut self, packet: u32, place: usize) {
        assert_eq!(self.calls.open(packet).unwrap().call, Some(place));
    }

    fn hear(&mut self, packet: u32) -> Result<Option<HeardVector>, Refusal> {
        let heard = self.calls.hear(&mut self.memory, packet)?;
        for page in heard.completed {
            self.pages.push((page.call.address, page.call.kind, page.call.check, page.words.to_vec()));
        }
        Ok(heard.vector)
    }

    /// Refused with the memory as it was, and the calls too.
    fn refuses(&mut self, packet: u32, refusal: Refusal) {
        let (calls, memory) = (self.calls, self.memory.clone());
        assert_eq!(self.hear(packet), Err(refusal));
        assert_eq!((self.calls, &self.memory), (calls, &memory));
    }
}

/// The words of a text of one fragment.
fn one_fragment(text: &[u8], words: &mut [u32]) {
    let mut memory = [0; 85];
    let mut fragments = fragment::cut(text, Marks::default(), 85, &mut memory).unwrap();
    words.copy_from_slice(fragments.next().expect("a text has a fragment"));
}

#[test]
fn the_three_calls_of_tables_54_and_55() {
    let mut numeric_words = [0; 3];
    let (text, numbering) = (b"0417 0418 00419", Numbering::default());
    let written = numeric::write(CharacterSet::Standard, text, VECTOR_STANDARD, numbering, &mut numeric_words);
    let check = written.unwrap().check;
    let (mut second, mut third) = ([0; 4], [0; 3]);
    one_fragment(b"Bay 12 B", &mut second);
    one_fragment(b"Urgnt", &mut third);

    let mut frame = Frame::new();
    frame.opens(address(PHASE_A, 0, 4, 7), 0);
    frame.opens(address(PHASE_A, 0, 5, 8), 1);
    let vector = HeardVector { call: 0, kind: VECTOR_STANDARD, check };
    assert_eq!(frame.hear(numeric_vector(7, PHASE_A, check, 3, 9)), Ok(Some(vector)));
    // Block information words are no call's.
    frame.refuses(0x0040_2001, Refusal::Packet);
    frame.refuses(0x0040_4002, Refusal::Packet);
    frame.opens(address(PHASE_C, 1, 1, 10), 2);
    assert!(frame.hear(text_vector(8, PHASE_A, 4, 12)).unwrap().is_some());
    for (word, bits) in (9..).zip(numeric_words.into_iter().chain(second)) {
        assert_eq!(frame.hear(message(word, PHASE_A, bits)), Ok(None));
    }
    // The first word of a long call stands right after its vector, and the vector says where the second is.
    assert!(frame.hear(text_vector(10, PHASE_C, 3, 14)).unwrap().is_some());
    for (word, bits) in [11, 14, 15].into_iter().zip(third) {
        assert_eq!(frame.hear(message(word, PHASE_C, bits)), Ok(None));
    }

    let complete = [
        (4, VECTOR_STANDARD, check, numeric_words.to_vec()),
        (5, VECTOR_ALPHANUMERIC, 0, second.to_vec()),
        (1, VECTOR_ALPHANUMERIC, 0, third.to_vec()),
    ];
    assert_eq!(frame.pages, complete);
    assert_eq!(texts(&frame), ["0417 0418 00419", "Bay 12 B", "Urgnt"]);
    assert!(frame.calls.end_frame(&frame.memory).unwrap().open_calls().is_empty());
    assert_eq!(frame.calls, Calls::fresh());
}

/// What a person reads.
fn texts(frame: &Frame) -> Vec<String> {
    let mut chains = Chains::default();
    let mut buffer = vec![0; CHAIN_BYTES];
    let mut page = [0; PAGE_CHARACTERS];
    let texts = frame.pages.iter().map(|(address, kind, check, words)| match *kind {
        VECTOR_STANDARD => {
            numeric::read(CharacterSet::Standard, *kind, *check, words, &mut page).unwrap().shown().to_vec()
        }
        _ => chains.fragment(&mut buffer, *address, words).unwrap().text.expect("it has one fragment").to_vec(),
    });
    texts.map(|text| String::from_utf8(text).expect("a page is ASCII")).collect()
}

#[test]
fn one_word_may_complete_two_calls() {
    let mut frame = Frame::new();
    frame.opens(address(PHASE_A, 0, 6, 3), 0);
    frame.opens(address(PHASE_A, 0, 7, 4), 1);
    frame.hear(text_vector(3, PHASE_A, 1, 5)).unwrap();
    frame.hear(text_vector(4, PHASE_A, 1, 5)).unwrap();
    frame.hear(message(5, PHASE_A, 0x1FFFFF)).unwrap();
    let page = |address| (address, VECTOR_ALPHANUMERIC, 0, vec![0x1FFFFF]);
    assert_eq!(frame.pages, [page(6), page(7)]);
}

#[test]
fn a_vector_without_words_completes_its_call() {
    let mut frame = Frame::new();
    frame.opens(address(PHASE_A, 0, 6, 3), 0);
    frame.hear(3 << 24 | VECTOR_SHORT << 16).unwrap();
    assert_eq!(frame.pages, [(6, VECTOR_SHORT, 0, vec![])]);
}

#[test]
fn a_tone_only_address_opens_no_call() {
    let mut calls = Calls::fresh();
    let opened = calls.open(address(PHASE_C, 0, 3, 0) | TONE_ONLY).unwrap();
    assert_eq!((opened.call, opened.address.address, opened.address.phase), (None, 3, PHASE_C));
    assert_eq!(calls, Calls::fresh());
}

#[test]
fn the_end_of_a_frame_tells_what_is_incomplete() {
    let mut frame = Frame::new();
    frame.opens(address(PHASE_A, 0, 6, 3), 0);
    frame.opens(address(PHASE_A, 0, 7, 4), 1);
    frame.opens(address(PHASE_A, 0, 8, 5), 2);
    frame.hear(text_vector(4, PHASE_A, 1, 6)).unwrap();
    frame.hear(message(6, PHASE_A, 1)).unwrap();
    // A state goes through plain numbers and comes back the same.
    let kept = (frame.calls.size, frame.calls.calls);
    frame.calls = Calls { size: kept.0, calls: kept.1 };
    assert_eq!(frame.calls.open_calls().len(), 3);
    let incomplete = frame.calls.end_frame(&frame.memory).unwrap();
    let numbers: Vec<u32> = incomplete.open_calls().iter().map(|call| call.address).collect();
    assert_eq!(numbers, [6, 8]);
}

#[test]
fn addresses_that_are_refused() {
    let mut calls = Calls::fresh();
    for vector in 0..CALLS as u32 {
        calls.open(address(PHASE_A, 0, 1, 10 + vector)).unwrap();
    }
    let full = calls;
    let unsound = Calls { size: 1, calls: [Call { phase: 4, ..Call::default() }; 8] };
    for (mut state, packet, refusal) in [
        (unsound, 0, Refusal::State),
        (full, 0, Refusal::Packet),
        (full, address(PHASE_A, 0, 0x10, 88), Refusal::Packet),
        (full, address(PHASE_A, 0, 0x10, 87), Refusal::Address),
        (full, address(PHASE_A, 0, 2, 17), Refusal::OutOfTurn),
        (full, address(PHASE_A, 0, 2, 18), Refusal::Full),
    ] {
        let before = state;
        assert_eq!(state.open(packet), Err(refusal));
        assert_eq!(state, before);
    }
    assert_eq!(unsound.clone().end_frame(&[0; CALL_WORDS]), Err(Refusal::State));
}

#[test]
fn vectors_and_words_that_are_refused() {
    let mut frame = Frame::new();
    frame.opens(address(PHASE_A, 0, 6, 3), 0);
    frame.refuses(text_vector(3, PHASE_A, 1, 5) | DAMAGED, Refusal::Damaged);
    frame.refuses(text_vector(3, PHASE_C, 1, 5), Refusal::NoCall);
    frame.refuses(0x5800_0000, Refusal::Packet);
    frame.hear(text_vector(3, PHASE_A, 2, 5)).unwrap();
    frame.refuses(text_vector(3, PHASE_A, 2, 5), Refusal::OutOfTurn);
    frame.hear(message(5, PHASE_A, 1)).unwrap();
    frame.refuses(message(5, PHASE_A, 1), Refusal::OutOfTurn);
    frame.refuses(message(7, PHASE_A, 1), Refusal::NoCall);

    let mut unsound = frame.calls;
    unsound.calls[0].vector = 88;
    assert_eq!(unsound.hear(&mut frame.memory, message(6, PHASE_A, 1)).unwrap_err(), Refusal::State);
}

#[test]
fn a_span_outside_the_frame_closes_its_call() {
    let mut frame = Frame::new();
    frame.opens(address(PHASE_A, 0, 6, 3), 0);
    frame.opens(address(PHASE_A, 0, 7, 4), 1);
    assert_eq!(frame.hear(text_vector(3, PHASE_A, 2, 87)), Err(Refusal::Size));
    let numbers: Vec<u32> = frame.calls.open_calls().iter().map(|call| call.address).collect();
    assert_eq!(numbers, [7]);
}

#[test]
fn the_memory_is_asked_last() {
    let mut calls = Calls::fresh();
    calls.open(address(PHASE_A, 0, 6, 3)).unwrap();
    let opened = calls;
    let mut short = [7; CALL_WORDS - 1];
    assert_eq!(calls.hear(&mut short, text_vector(3, PHASE_A, 1, 5)).unwrap_err(), Refusal::Room);
    assert_eq!(calls.hear(&mut [], text_vector(3, PHASE_A, 1, 5)).unwrap_err(), Refusal::Room);
    assert_eq!(calls.end_frame(&short), Err(Refusal::Room));
    assert_eq!((calls, short), (opened, [7; CALL_WORDS - 1]));
}

#[test]
fn the_words_of_a_record_that_no_state_has() {
    let record = Call { words: u32::MAX, area: u32::MAX, ..Call::default() };
    assert_eq!(record.words_in(&[0; CALL_WORDS]), None);
    let first = Call { words: 2, ..Call::default() };
    assert_eq!(first.words_in(&[4, 5, 6]), Some(&[4, 5][..]));
    assert_eq!(first.words_in(&[4]), None);
}
