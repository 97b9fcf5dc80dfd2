//! Runs that the documents name, with what they say of them.

use second::call::{Call, Calls, MEMORY, TO_COME};
use second::heard::Address;

use crate::exchange;
use crate::host::{MortisevaneHeard, MortisevaneOpened};

use super::events::{Event, Receiver, Told};

struct Named {
    name: &'static str,
    packets: Vec<(u32, Told)>,
    /// The words that the memory holds before the end of the frame, each row where it
    /// begins; elsewhere it is as it was.
    rows: Vec<(usize, Vec<u32>)>,
    incomplete: Vec<Call>,
}

const WORD_BEFORE: u32 = 0x15_A5A5;
const ADDRESS_ID: u32 = 1;

/// Shows each name when the library agrees; what the documents say is asked of the
/// second program.
pub fn compare(exchange: &[String]) -> Result<usize, String> {
    let mut compared = 0;
    for named in named_runs() {
        compared += exchange::compare(exchange, events_of(&named)?.into_iter())?;
        println!("  {}", named.name);
    }
    Ok(compared)
}

/// Also says where the second program answers other than the documents.
fn events_of(named: &Named) -> Result<Vec<Event>, String> {
    let name = named.name;
    let mut memory = vec![WORD_BEFORE; MEMORY];
    let (mut receiver, fresh) = Receiver::fresh(memory.clone());
    receiver.looks_at_all = true;
    let mut events = vec![fresh];
    for (packet, told) in &named.packets {
        let calls = receiver.calls;
        let event = match packet >> 24 {
            ADDRESS_ID => receiver.open(calls, *packet),
            _ => receiver.hear(calls, MEMORY, *packet),
        };
        if event.second.told != *told {
            let second = &event.second.told;
            return Err(format!("{name}: {packet:08X} is answered with {second:?}"));
        }
        events.push(event);
    }
    for (place, row) in &named.rows {
        memory[*place..][..row.len()].copy_from_slice(row);
    }
    let calls = receiver.calls;
    let end = receiver.end_frame(calls, MEMORY);
    let ended = Told::Ended {
        number: 0,
        incomplete: Box::new(Calls::of(&named.incomplete)),
    };
    if end.second.told != ended || end.second.part != memory {
        return Err(format!("{name}: the frame ends with {:?}", end.second));
    }
    events.push(end);
    Ok(events)
}

fn opened(call: usize, fields: Address) -> Told {
    Told::Opened(MortisevaneOpened {
        number: 0,
        opened: 1,
        call,
        fields,
    })
}

fn vector(call: usize, kind: u32, check: u32) -> Told {
    Told::Heard(MortisevaneHeard {
        is_vector: 1,
        call,
        kind,
        check,
        ..Default::default()
    })
}

fn word(completed: u32) -> Told {
    Told::Heard(MortisevaneHeard {
        completed,
        ..Default::default()
    })
}

fn refused(number: u32) -> Told {
    Told::Heard(MortisevaneHeard {
        number,
        ..Default::default()
    })
}

/// Of a short address on phase A.
fn short(address: u32, vector: u32) -> Address {
    Address {
        address,
        vector,
        ..Address::default()
    }
}

fn named_runs() -> [Named; 3] {
    [
        tables_54_and_55(),
        vector_place_before_span(),
        order_after_a_bad_span(),
    ]
}

/// The eighteen packets: calls 1 and 2 on phase A, the long call 3 on phase C, whose
/// second and third word are phase-C words 14 and 15.
fn tables_54_and_55() -> Named {
    let third = Address {
        phase: 2,
        long_address: 1,
        ..short(1, 10)
    };
    let packets = vec![
        (0x0100_0407, opened(0, short(4, 7))),
        (0x0100_0508, opened(1, short(5, 8))),
        // Standard numeric, K 6, three words from 9 on.
        (0x0703_1909, vector(0, 3, 6)),
        // Block information words are no calls'.
        (0x0040_2001, refused(7)),
        (0x0040_4002, refused(7)),
        (0x0150_010A, opened(2, third)),
        // Alphanumeric, four words from 12 on.
        (0x0805_020C, vector(1, 5, 0)),
        (0x0910_0001, word(0)),
        (0x0A00_0002, word(0)),
        (0x0B1F_FFFF, word(0b001)),
        (0x0C01_0001, word(0)),
        (0x0D01_0002, word(0)),
        (0x0E01_0003, word(0)),
        (0x0F01_0004, word(0b010)),
        // Alphanumeric, three words, the second of which is 14.
        (0x0A45_018E, vector(2, 5, 0)),
        (0x0B42_0001, word(0)),
        (0x0E42_0002, word(0)),
        (0x0F42_0003, word(0b100)),
    ];
    Named {
        name: "the three calls of Tables 54 and 55",
        packets,
        rows: vec![
            (0, vec![0x10_0001, 0x00_0002, 0x1F_FFFF]),
            (85, vec![0x01_0001, 0x01_0002, 0x01_0003, 0x01_0004]),
            (170, vec![0x02_0001, 0x02_0002, 0x02_0003]),
        ],
        incomplete: Vec::new(),
    }
}

/// Word 7 is in the first call's span, and the second call's vector.
fn vector_place_before_span() -> Named {
    let packets = vec![
        (0x0100_0005, opened(0, short(0, 5))),
        (0x0100_0107, opened(1, short(1, 7))),
        // Hex/binary, three words from 6 on.
        (0x0506_0186, vector(0, 6, 0)),
        (0x0600_0006, word(0)),
        (0x0706_008A, vector(1, 6, 0)),
        (0x0800_0008, word(0)),
        (0x0706_008A, refused(14)),
        (0x0A00_000A, word(0b10)),
    ];
    let incomplete = Call {
        vector: 5,
        has_vector: 1,
        kind: 6,
        start: 6,
        words: 3,
        ..Call::default()
    };
    Named {
        name: "a vector place is looked at before the spans",
        packets,
        rows: vec![(0, vec![6, TO_COME, 8]), (85, vec![0x0A])],
        incomplete: vec![incomplete],
    }
}

/// The second of three calls is closed, and a fourth is opened.
fn order_after_a_bad_span() -> Named {
    let packets = vec![
        (0x0100_0005, opened(0, short(0, 5))),
        (0x0100_0106, opened(1, short(1, 6))),
        (0x0100_0207, opened(2, short(2, 7))),
        // Its one word would be 6, its vector.
        (0x0605_0086, refused(9)),
        (0x0605_0094, refused(17)),
        (0x0100_0308, opened(2, short(3, 8))),
        // A word of the third call, which is the second now.
        (0x0705_0114, vector(1, 5, 0)),
        (0x1400_0001, word(0)),
    ];
    let awaiting = |address, vector| Call {
        address,
        vector,
        ..Call::default()
    };
    let third = Call {
        has_vector: 1,
        kind: 5,
        start: 20,
        words: 2,
        ..awaiting(2, 7)
    };
    Named {
        name: "the order at the end of the frame after a bad span",
        packets,
        rows: vec![(0, vec![1, TO_COME])],
        incomplete: vec![awaiting(0, 5), third, awaiting(3, 8)],
    }
}

#[cfg(test)]
mod tests {
    use super::*;

    #[test]
    fn the_second_program_answers_as_the_documents_say() {
        for named in named_runs() {
            assert!(events_of(&named).is_ok(), "{}", named.name);
        }
    }
}
