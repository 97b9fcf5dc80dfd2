//! The cases that start-ups must bring.

use second::layout::{data_of, id_of, DATA_BITS, ID_PLACE};
use second::packet::may_send;

use crate::counted::Cases;

use super::changes::{Happening, StartUp};
use super::laws::LAWS;
use super::lists::{data_sum, kind_of, LONGEST};

/// What a case is called, and whether a start-up is one of it. Each law is a case too.
type Case = (&'static str, fn(&StartUp) -> bool);

const CASES: &[Case] = &[
    // The part ID and the list.
    ("a part ID without data bits", |start_up| {
        data_of(start_up.part_id) == 0
    }),
    ("a part ID with all data bits", |start_up| {
        data_of(start_up.part_id) == DATA_BITS
    }),
    ("40 packets", |start_up| start_up.sent.len() == LONGEST),
    ("a packet without data bits", |start_up| {
        start_up.sent.iter().any(|packet| data_of(*packet) == 0)
    }),
    ("the same packet next to itself", |start_up| {
        neighbours(start_up, |one, next| one == next)
    }),
    ("the same data bits next to each other", |start_up| {
        neighbours(start_up, |one, next| {
            one != next && data_of(one) == data_of(next) && data_of(one) != 0
        })
    }),
    ("eight frame assignments of the same frames", |start_up| {
        let mut eights = start_up.sent.windows(8);
        eights.any(are_frame_assignments)
    }),
    ("nothing reaches the decoder", |start_up| {
        start_up.reached.is_empty() && !start_up.sent.is_empty()
    }),
    // Another order.
    ("an empty list in another order", |start_up| {
        is_reordered(start_up) && start_up.sent.is_empty()
    }),
    ("an order that differs", |start_up| {
        is_reordered(start_up) && start_up.sent != start_up.reached
    }),
    ("two packets that change places", |start_up| {
        is_reordered(start_up) && differing(start_up) == 2
    }),
    ("more than ten packets out of their places", |start_up| {
        is_reordered(start_up) && differing(start_up) > 10
    }),
    // Two or three times.
    ("a packet twice, next to itself", |start_up| {
        is_repeated(start_up, |block, places| {
            block == 1 && places.len() == 2 && places[0] == places[1]
        })
    }),
    ("a packet twice, ten or more between", |start_up| {
        is_repeated(start_up, |block, places| {
            block == 1 && places.len() == 2 && places[0] + 10 <= places[1]
        })
    }),
    ("a packet three times", |start_up| {
        is_repeated(start_up, |block, places| block == 1 && places.len() == 3)
    }),
    ("a block twice, next to itself", |start_up| {
        is_repeated(start_up, |block, places| {
            block > 1 && places.len() == 2 && places[0] == places[1]
        })
    }),
    ("a block twice, others between", |start_up| {
        is_repeated(start_up, |block, places| {
            block > 1 && places.len() == 2 && places[0] < places[1]
        })
    }),
    ("a block three times", |start_up| {
        is_repeated(start_up, |block, places| block > 1 && places.len() == 3)
    }),
    // Two lists joined.
    ("two empty lists", |start_up| {
        is_joined(start_up, |first, second| first == 0 && second == 0)
    }),
    ("an empty list before another", |start_up| {
        is_joined(start_up, |first, second| first == 0 && second > 0)
    }),
    ("an empty list after another", |start_up| {
        is_joined(start_up, |first, second| first > 0 && second == 0)
    }),
    ("two lists of packets", |start_up| {
        is_joined(start_up, |first, second| first > 0 && second > 0)
    }),
    // One packet changed.
    ("the first packet changed", |start_up| {
        is_changed(start_up, |place, length, _| place == 0 && length > 1)
    }),
    ("the last packet changed", |start_up| {
        is_changed(start_up, |place, length, _| {
            place + 1 == length && length > 1
        })
    }),
    ("a packet between others changed", |start_up| {
        is_changed(start_up, |place, length, _| place > 0 && place + 1 < length)
    }),
    ("the only packet changed", |start_up| {
        is_changed(start_up, |_, length, _| length == 1)
    }),
    ("one bit changed", |start_up| {
        is_changed(start_up, |_, _, bits| bits.count_ones() == 1)
    }),
    ("all 24 bits changed", |start_up| {
        is_changed(start_up, |_, _, bits| bits == DATA_BITS)
    }),
    ("changed to what may not be sent", |start_up| {
        changed_packet(start_up).is_some_and(|packet| may_send(packet).is_err())
    }),
    ("changed to what may be sent", |start_up| {
        changed_packet(start_up).is_some_and(|packet| may_send(packet).is_ok())
    }),
    // One packet missing.
    ("data bits missing", |start_up| {
        is_missing(start_up, |packet, _, _| data_of(packet) != 0)
    }),
    ("the first packet missing", |start_up| {
        is_missing(start_up, |packet, place, length| {
            data_of(packet) != 0 && place == 0 && length > 1
        })
    }),
    ("the last packet missing", |start_up| {
        is_missing(start_up, |packet, place, length| {
            data_of(packet) != 0 && place + 1 == length && length > 1
        })
    }),
    ("the only packet missing", |start_up| {
        is_missing(start_up, |packet, _, length| {
            data_of(packet) != 0 && length == 1
        })
    }),
    ("a packet without data bits missing", |start_up| {
        is_missing(start_up, |packet, _, length| {
            data_of(packet) == 0 && length > 1
        })
    }),
    ("the only packet missing, without data bits", |start_up| {
        is_missing(start_up, |packet, _, length| {
            data_of(packet) == 0 && length == 1
        })
    }),
    // Another ID.
    ("an ID of another kind", |start_up| {
        is_other_id(start_up, |sent, reached| {
            kind_of(reached).is_some() && kind_of(sent) != kind_of(reached)
        })
    }),
    ("another ID of the same kind", |start_up| {
        is_other_id(start_up, |sent, reached| kind_of(sent) == kind_of(reached))
    }),
    ("an ID under which nothing may be sent", |start_up| {
        is_other_id(start_up, |_, reached| kind_of(reached).is_none())
    }),
    ("an ID that one bit makes another", |start_up| {
        is_other_id(start_up, |sent, reached| (sent ^ reached).count_ones() == 1)
    }),
    // Changes that cancel.
    ("neighbours changed", |start_up| {
        are_both_changed(start_up, |[one, other], _| one + 1 == other)
    }),
    ("two packets changed, ten or more between", |start_up| {
        are_both_changed(start_up, |[one, other], _| one + 10 < other)
    }),
    ("one bit of two packets changed", |start_up| {
        are_both_changed(start_up, |_, bits| bits.count_ones() == 1)
    }),
    ("all bits of two packets changed", |start_up| {
        are_both_changed(start_up, |_, bits| bits == DATA_BITS)
    }),
    // Blocks.
    ("sent once, reached never", |start_up| times(start_up, 1, 0)),
    ("sent once, reached once", |start_up| times(start_up, 1, 1)),
    ("sent once, reached twice", |start_up| times(start_up, 1, 2)),
    ("sent once, reached three times", |start_up| {
        times(start_up, 1, 3)
    }),
    ("sent twice, reached never", |start_up| {
        times(start_up, 2, 0)
    }),
    ("sent twice, reached once", |start_up| times(start_up, 2, 1)),
    ("sent twice, reached twice", |start_up| {
        times(start_up, 2, 2)
    }),
    ("sent twice, reached three times", |start_up| {
        times(start_up, 2, 3)
    }),
    ("sent three times, reached never", |start_up| {
        times(start_up, 3, 0)
    }),
    ("sent three times, reached once", |start_up| {
        times(start_up, 3, 1)
    }),
    ("sent three times, reached twice", |start_up| {
        times(start_up, 3, 2)
    }),
    ("sent three times, reached three times", |start_up| {
        times(start_up, 3, 3)
    }),
    ("a block more than three times", |start_up| {
        is_block(start_up, |_, sent, reached| sent.max(reached) > 3)
    }),
    ("a block that cancels, both even or both odd", |start_up| {
        is_block(start_up, |block, sent, reached| {
            data_sum(block) == 0 && sent % 2 == reached % 2
        })
    }),
    ("a block that cancels, one even and one odd", |start_up| {
        is_block(start_up, |block, sent, reached| {
            data_sum(block) == 0 && sent % 2 != reached % 2
        })
    }),
    ("a block of data bits that cancel", |start_up| {
        is_block(start_up, |block, sent, reached| {
            let has_data = block.iter().any(|packet| data_of(*packet) != 0);
            has_data && data_sum(block) == 0 && sent % 2 != reached % 2
        })
    }),
    // The checksum changed.
    ("one bit of the checksum changed", |start_up| {
        is_checksum_changed(start_up, |_, bits| bits.count_ones() == 1)
    }),
    ("all bits of the checksum changed", |start_up| {
        is_checksum_changed(start_up, |_, bits| bits == DATA_BITS)
    }),
    ("the checksum of an empty list changed", |start_up| {
        is_checksum_changed(start_up, |length, _| length == 0)
    }),
];

/// Whether that holds of a packet that is sent and the next one.
fn neighbours(start_up: &StartUp, is_it: fn(u32, u32) -> bool) -> bool {
    let mut pairs = start_up.sent.windows(2);
    pairs.any(|pair| is_it(pair[0], pair[1]))
}

/// Whether they are those of all ranges in order, with the same frames in each.
fn are_frame_assignments(packets: &[u32]) -> bool {
    let all = (0x20..=0x27).map(|id| id << ID_PLACE | data_of(packets[0]));
    packets.iter().copied().eq(all)
}

fn is_reordered(start_up: &StartUp) -> bool {
    matches!(start_up.happening, Happening::Reordered)
}

/// At how many places another packet arrives than was sent.
fn differing(start_up: &StartUp) -> usize {
    let pairs = start_up.sent.iter().zip(&start_up.reached);
    pairs.filter(|(sent, reached)| sent != reached).count()
}

/// By the length of the block, and the places of its copies.
fn is_repeated(start_up: &StartUp, is_it: fn(usize, &[usize]) -> bool) -> bool {
    match &start_up.happening {
        Happening::Repeated { block, places } => is_it(block.len(), places),
        _ => false,
    }
}

/// By the lengths of both lists.
fn is_joined(start_up: &StartUp, is_it: fn(usize, usize) -> bool) -> bool {
    match start_up.happening {
        Happening::Joined { first } => is_it(first, start_up.sent.len() - first),
        _ => false,
    }
}

/// By the packet's place, the length of the list, and the bits.
fn is_changed(start_up: &StartUp, is_it: fn(usize, usize, u32) -> bool) -> bool {
    match start_up.happening {
        Happening::Changed { place, bits } => is_it(place, start_up.sent.len(), bits),
        _ => false,
    }
}

/// The one packet that is changed, as it arrives.
fn changed_packet(start_up: &StartUp) -> Option<u32> {
    match start_up.happening {
        Happening::Changed { place, .. } => Some(start_up.reached[place]),
        _ => None,
    }
}

/// By the packet, its place, and the length of the list.
fn is_missing(start_up: &StartUp, is_it: fn(u32, usize, usize) -> bool) -> bool {
    match start_up.happening {
        Happening::Missing { place } => is_it(start_up.sent[place], place, start_up.sent.len()),
        _ => false,
    }
}

/// By the ID that is sent, and that which arrives.
fn is_other_id(start_up: &StartUp, is_it: fn(u32, u32) -> bool) -> bool {
    match start_up.happening {
        Happening::OtherId { place } => {
            let packets = [&start_up.sent, &start_up.reached];
            let [sent, reached] = packets.map(|packets| id_of(packets[place]));
            is_it(sent, reached)
        }
        _ => false,
    }
}

/// By the places of the packets, and the bits.
fn are_both_changed(start_up: &StartUp, is_it: fn([usize; 2], u32) -> bool) -> bool {
    match start_up.happening {
        Happening::BothChanged { places, bits } => is_it(places, bits),
        _ => false,
    }
}

/// By the block, how often it is sent, and how often it arrives.
fn is_block(start_up: &StartUp, is_it: impl Fn(&[u32], usize, usize) -> bool) -> bool {
    match &start_up.happening {
        Happening::Blocks {
            block,
            sent,
            reached,
        } => is_it(block, *sent, *reached),
        _ => false,
    }
}

/// Of a block whose data bits do not cancel.
fn times(start_up: &StartUp, times_sent: usize, times_reached: usize) -> bool {
    is_block(start_up, |block, sent, reached| {
        data_sum(block) != 0 && (sent, reached) == (times_sent, times_reached)
    })
}

/// By the length of the list, and the bits.
fn is_checksum_changed(start_up: &StartUp, is_it: fn(usize, u32) -> bool) -> bool {
    match start_up.happening {
        Happening::ChecksumChanged { bits } => is_it(start_up.sent.len(), bits),
        _ => false,
    }
}

/// None of them yet.
pub fn none() -> Cases {
    let others = CASES.iter().map(|(name, _)| *name);
    Cases::named(LAWS.into_iter().chain(others))
}

/// Counts a start-up.
pub fn note(cases: &mut Cases, start_up: &StartUp) {
    let law = start_up.happening.number();
    let laws = (0..LAWS.len()).map(|number| number == law);
    let others = CASES.iter().map(|(_, is_it)| is_it(start_up));
    cases.note(laws.chain(others));
}
