//! Calls in a frame.

use mortisevane::exports::*;
use second::call::{Call as SecondCall, Calls as SecondCalls, Heard, Opened};
use second::numbers::Numbers;
use second::refusal::Refusal;

use crate::measure::{side, Measure, Told};
use crate::told::{from_words, told, words_of};

/// An address packet of user address 0 in phase A (Table 30).
pub fn address_packet(vector: u32) -> u32 {
    0x01 << 24 | vector
}

/// An alphanumeric vector packet in phase A (Table 36).
pub fn vector_packet(vector: u32, words: u32, start: u32) -> u32 {
    vector << 24 | VECTOR_ALPHANUMERIC << 16 | words << 7 | start
}

/// A message packet in phase A (Table 40).
pub fn message_packet(word: u32) -> u32 {
    word << 24 | 0x15_5555
}

/// The same packet in another phase, which is in the same place in all three.
pub fn in_phase(phase: u32, packet: u32) -> u32 {
    phase << 21 | packet
}

/// The calls of a frame and their memory.
#[derive(Clone)]
pub struct Frame {
    pub calls: SecondCalls,
    pub memory: Vec<u32>,
}

impl Frame {
    /// With calls whose vectors are awaited at these words.
    pub fn with_vectors_at(vectors: impl IntoIterator<Item = u32>) -> Frame {
        Frame::opened_by(vectors.into_iter().map(address_packet))
    }

    pub fn opened_by(packets: impl IntoIterator<Item = u32>) -> Frame {
        let mut frame = Frame {
            calls: SecondCalls::default(),
            memory: vec![0; CALL_WORDS],
        };
        for packet in packets {
            let opened = frame.calls.open(packet);
            opened.expect("a call is free");
        }
        frame
    }

    /// After these packets.
    pub fn after(mut self, packets: impl IntoIterator<Item = u32>) -> Frame {
        for packet in packets {
            let heard = self.calls.hear(&mut self.memory, packet);
            heard.expect("the packet belongs to a call");
        }
        self
    }

    /// With so many calls that share the words from 10 to 87: a page for a group. Their vectors have come.
    pub fn of_group(calls: u32) -> Frame {
        let vectors = 2..2 + calls;
        Frame::with_vectors_at(vectors.clone())
            .after(vectors.map(|vector| vector_packet(vector, 78, 10)))
    }

    /// With eight calls, of which the last awaits its vector at word 2, and the others words 10 to 87.
    pub fn awaiting_last_vector() -> Frame {
        let heard = (3..10).map(|vector| vector_packet(vector, 78, 10));
        Frame::with_vectors_at([3, 4, 5, 6, 7, 8, 9, 2]).after(heard)
    }

    /// With two calls in each of the four phases, of words 4 to 87 all, of which only the last has not come.
    pub fn of_all_phases() -> Frame {
        let in_all = |packet: u32| (0..4).map(move |phase| in_phase(phase, packet));
        let addresses = [2, 3].map(address_packet).into_iter().flat_map(in_all);
        let vectors = [2, 3].map(|vector| vector_packet(vector, 84, 4));
        let words = (4..87).map(message_packet);
        let packets = vectors.into_iter().chain(words).flat_map(in_all);
        Frame::opened_by(addresses).after(packets)
    }

    /// With one call of all 85 words, and so many others that await their words 60 to 87.
    pub fn of_largest(others: u32) -> Frame {
        let rest = 3..3 + others;
        let mut packets = vec![vector_packet(2, 85, 3)];
        packets.extend(rest.clone().map(|vector| vector_packet(vector, 28, 60)));
        Frame::with_vectors_at([2].into_iter().chain(rest)).after(packets)
    }
}

pub fn rows(measure: &mut Measure) {
    measure.group("calls");
    fresh(measure);
    opens(measure);
    vectors(measure);
    words(measure);
    refused_words(measure);
    ends(measure);
    place(measure);
}

fn fresh(measure: &mut Measure) {
    let second = SecondCalls::default as fn() -> SecondCalls;
    measure.row(
        "calls_fresh",
        "",
        side(
            (),
            |_| unsafe { mortisevane_calls_fresh() },
            |_, calls| told_calls(calls),
        ),
        side(
            second,
            |second| second(),
            |_, calls| told_calls(&as_lent(calls)),
        ),
    );
}

fn opens(measure: &mut Measure) {
    let packet = address_packet(40);
    open(measure, "0 open", &Frame::with_vectors_at([]), packet);
    open(
        measure,
        "7 open, their vectors awaited",
        &Frame::with_vectors_at(2..9),
        packet,
    );
    open(
        measure,
        "7 open, their words awaited",
        &Frame::of_group(7),
        packet,
    );
    open(
        measure,
        "tone-only, 7 open",
        &Frame::of_group(7),
        packet | 0x80,
    );
    open(
        measure,
        "refused 7: another packet, 7 open",
        &Frame::of_group(7),
        0x0200_0000,
    );
    open(
        measure,
        "refused 14: open already, 7 open",
        &Frame::of_group(7),
        address_packet(8),
    );
    open(measure, "refused 12: 8 open", &Frame::of_group(8), packet);
}

fn vectors(measure: &mut Measure) {
    let one = Frame::with_vectors_at([2]);
    let (small, large) = (vector_packet(2, 1, 3), vector_packet(2, 85, 3));
    hear(measure, "a vector of 1 word, its call alone", &one, small);
    hear(measure, "a vector of 85 words, its call alone", &one, large);
    let short_message = 2 << 24 | VECTOR_SHORT << 16;
    hear(
        measure,
        "a vector without words, its call alone",
        &one,
        short_message,
    );
    let eight = Frame::awaiting_last_vector();
    hear(
        measure,
        "a vector of 85 words, 7 others open",
        &eight,
        large,
    );
    let none = vector_packet(2, 0, 3);
    hear(
        measure,
        "refused 9: a vector of 0 words, 7 others open",
        &eight,
        none,
    );
    let again = vector_packet(9, 78, 10);
    hear(
        measure,
        "refused 14: a vector again, 8 open",
        &Frame::of_group(8),
        again,
    );
}

fn words(measure: &mut Measure) {
    let one = Frame::with_vectors_at([2]).after([vector_packet(2, 2, 3)]);
    hear(
        measure,
        "a word, to the one call open, of 2 words",
        &one,
        message_packet(3),
    );
    let largest = Frame::of_largest(0);
    hear(
        measure,
        "a word, to the one call open, of 85 words",
        &largest,
        message_packet(3),
    );
    let nearly = largest.after((3..87).map(message_packet));
    hear(
        measure,
        "the word that completes 85 words, its call alone",
        &nearly,
        message_packet(87),
    );
    let largest = Frame::of_largest(7);
    hear(
        measure,
        "a word, to one of 8 calls",
        &largest,
        message_packet(20),
    );
    let group = Frame::of_group(8);
    hear(measure, "a word, to 8 calls", &group, message_packet(10));
    let nearly = group.after((10..87).map(message_packet));
    hear(
        measure,
        "the word that completes 8 calls of 78 words",
        &nearly,
        message_packet(87),
    );
}

fn refused_words(measure: &mut Measure) {
    let group = Frame::of_group(8);
    let none = Frame::with_vectors_at([]);
    hear(
        measure,
        "refused 7: another packet, 8 open",
        &group,
        0x5800_0000,
    );
    hear(
        measure,
        "refused 10: a word in error, 8 open",
        &group,
        message_packet(10) | 1 << 23,
    );
    hear(
        measure,
        "refused 17: a word of no call, 0 open",
        &none,
        message_packet(10),
    );
    hear(
        measure,
        "refused 17: a word of no call, 8 open",
        &group,
        in_phase(1, message_packet(10)),
    );
    let again = group.after([message_packet(87)]);
    hear(
        measure,
        "refused 14: a word again, 8 open",
        &again,
        message_packet(87),
    );
}

fn ends(measure: &mut Measure) {
    end(measure, "0 open", &Frame::with_vectors_at([]));
    end(
        measure,
        "8 open, their vectors awaited",
        &Frame::with_vectors_at(2..10),
    );
    let lacking_last = Frame::of_group(8).after((10..87).map(message_packet));
    end(
        measure,
        "8 open, each without the last of 78 words",
        &lacking_last,
    );
    let complete = lacking_last.after([message_packet(87)]);
    end(measure, "8 open, all complete, of 78 words", &complete);
    let mut unsound = Frame::of_group(8);
    unsound.calls.calls[7].phase = 4;
    end(measure, "refused 2: the last of 8 open", &unsound);
}

fn place(measure: &mut Measure) {
    let call = Frame::of_group(8).calls.calls[7];
    let second = SecondCall::place as fn(&SecondCall) -> usize;
    measure.row(
        "call_place",
        "",
        side(
            as_lent_call(&call),
            |call| unsafe { mortisevane_call_place(*call) },
            |_, place| vec![*place as u64],
        ),
        side(
            (call, second),
            |(call, second)| second(call),
            |_, place| vec![*place as u64],
        ),
    );
}

fn as_lent_call(call: &SecondCall) -> Call {
    from_words(&call.numbers())
}

/// The second program's records as the library's.
pub fn as_lent(calls: &SecondCalls) -> Calls {
    Calls {
        size: calls.size as Size,
        calls: calls.calls.map(|call| as_lent_call(&call)),
    }
}

fn told_calls(calls: &Calls) -> Told {
    let records = calls.calls.iter().flat_map(|call| told(&words_of(call)));
    [calls.size as u64].into_iter().chain(records).collect()
}

pub fn open(measure: &mut Measure, input: &str, frame: &Frame, packet: u32) {
    let second = SecondCalls::open as fn(&mut SecondCalls, u32) -> Result<Opened, Refusal>;
    measure.row_of_state(
        "call_open",
        input,
        side(
            as_lent(&frame.calls),
            |calls| {
                let opening = unsafe { mortisevane_call_open(*calls, packet) };
                *calls = opening.calls;
                opening.answer
            },
            |calls, opened| {
                let CallOpened {
                    number,
                    opened,
                    call,
                    fields,
                } = *opened;
                let answer = vec![number.into(), opened.into(), call as u64];
                [answer, told(&words_of(&fields)), told_calls(calls)].concat()
            },
        ),
        side(
            (frame.calls, second),
            |(calls, second)| second(calls, packet),
            |(calls, _), opened| [told_opened(opened), told_calls(&as_lent(calls))].concat(),
        ),
    );
}

fn told_opened(opened: &Result<Opened, Refusal>) -> Told {
    match opened {
        Err(refusal) => [told(&[refusal.number()]), vec![0; 8]].concat(),
        Ok(Opened { call, fields }) => {
            let opened = vec![0, call.is_some().into(), call.unwrap_or(0) as u64];
            [opened, told(&fields.numbers())].concat()
        }
    }
}

pub fn hear(measure: &mut Measure, input: &str, frame: &Frame, packet: u32) {
    type Hear = fn(&mut SecondCalls, &mut [u32], u32) -> Result<Heard, Refusal>;
    let second = SecondCalls::hear as Hear;
    let Frame { calls, memory } = frame;
    measure.row_of_state(
        "call_hear",
        input,
        side(
            (as_lent(calls), memory.clone()),
            |(calls, memory)| {
                let (place, size) = (memory.as_mut_ptr(), memory.len());
                let hearing = unsafe { mortisevane_call_hear(*calls, place, size, packet) };
                *calls = hearing.calls;
                hearing.answer
            },
            |(calls, memory), heard| {
                let CallHeard {
                    number,
                    is_vector,
                    call,
                    kind,
                    check,
                    completed,
                } = *heard;
                let answer = vec![number.into(), is_vector.into(), call as u64];
                let rest = told(&[kind, check, completed]);
                [answer, rest, told_calls(calls), told(memory)].concat()
            },
        ),
        side(
            (*calls, memory.clone(), second),
            |(calls, memory, second)| second(calls, memory, packet),
            |(calls, memory, _), heard| {
                [told_heard(heard), told_calls(&as_lent(calls)), told(memory)].concat()
            },
        ),
    );
}

fn told_heard(heard: &Result<Heard, Refusal>) -> Told {
    match *heard {
        Err(refusal) => [told(&[refusal.number()]), vec![0; 5]].concat(),
        Ok(Heard::Word { completed }) => vec![0, 0, 0, 0, 0, completed.into()],
        Ok(Heard::Vector {
            call,
            kind,
            check,
            is_complete,
        }) => {
            let completed = u64::from(is_complete) << call;
            vec![0, 1, call as u64, kind.into(), check.into(), completed]
        }
    }
}

pub fn end(measure: &mut Measure, input: &str, frame: &Frame) {
    type End = fn(&mut SecondCalls, &[u32]) -> Result<SecondCalls, Refusal>;
    let second = SecondCalls::end_frame as End;
    let Frame { calls, memory } = frame;
    let memory = memory.as_slice();
    measure.row_of_state(
        "call_end",
        input,
        side(
            as_lent(calls),
            |calls| {
                let end = unsafe { mortisevane_call_end(*calls, memory.as_ptr(), memory.len()) };
                *calls = end.calls;
                (end.number, end.incomplete)
            },
            |calls, (number, incomplete)| {
                [told(&[*number]), told_calls(incomplete), told_calls(calls)].concat()
            },
        ),
        side(
            (*calls, second),
            |(calls, second)| second(calls, memory),
            |(calls, _), incomplete| {
                let number = incomplete.err().map_or(0, Refusal::number);
                let incomplete = incomplete.unwrap_or_default();
                let (incomplete, calls) = (as_lent(&incomplete), as_lent(calls));
                [told(&[number]), told_calls(&incomplete), told_calls(&calls)].concat()
            },
        ),
    );
}
