//! Packets to be read: all IDs in turn, each with data bits of every sort.

use second::heard::AddressPacket;
use second::layout::{Kind, Layout, DATA_BITS, ID_PLACE};
use second::packet::SENT;

use crate::random::Random;

const DATA_WIDTH: usize = ID_PLACE as usize;

/// Every ID that a packet can have.
pub fn every_id() -> impl Iterator<Item = u32> {
    0x00..=0xFF
}

/// Packets with the IDs in turn, so that each has as many data words.
pub fn packets(
    ids: Vec<u32>,
    words_for_each: usize,
    seed: u64,
) -> impl Iterator<Item = u32> + Send {
    let mut random = Random::new(seed);
    (0..words_for_each * ids.len()).map(move |index| {
        let id = ids[index % ids.len()];
        let data = match fixed_data(index / ids.len()) {
            Some(data) => data,
            None => seeded_data(&mut random, id),
        };
        id << ID_PLACE | data
    })
}

/// First of all no bit, all bits, and each bit alone.
fn fixed_data(round: usize) -> Option<u32> {
    match round {
        0 => Some(0),
        1 => Some(DATA_BITS),
        _ if round - 2 < DATA_WIDTH => Some(1 << (round - 2)),
        _ => None,
    }
}

/// Half are any bits, and half fit a table: the ID's own, if it has one, but
/// for one printed bit now and then, or that of another ID.
fn seeded_data(random: &mut Random, id: u32) -> u32 {
    match random.below(16) {
        0..=7 => any_data(random),
        8..=12 => fitting_data(random, id),
        13..=14 => nearly_fitting_data(random, id),
        _ => {
            let table = random.choose(&SENT);
            table_data(random, &table)
        }
    }
}

fn any_data(random: &mut Random) -> u32 {
    random.number() as u32 & DATA_BITS
}

fn fitting_data(random: &mut Random, id: u32) -> u32 {
    if AddressPacket::LAYOUT.has_id(id) && random.once_in(2) {
        return address_data(random);
    }
    match table_of(id) {
        Some(table) => table_data(random, table),
        None => any_data(random),
    }
}

/// One bit is not as printed, where the ID has a table that prints data bits.
fn nearly_fitting_data(random: &mut Random, id: u32) -> u32 {
    let data = fitting_data(random, id);
    let printed = table_of(id).map_or(0, Layout::printed);
    let places: Vec<u32> = (0..ID_PLACE)
        .filter(|place| printed >> place & 1 == 1)
        .collect();
    if places.is_empty() {
        return data;
    }
    data ^ 1 << random.choose(&places)
}

fn table_of(id: u32) -> Option<&'static Layout> {
    SENT.iter().find(|table| table.has_id(id))
}

/// Any numbers that fit the fields: the bits that are not printed are theirs.
fn table_data(random: &mut Random, table: &Layout) -> u32 {
    (any_data(random) & !table.printed()) | (table.ones & DATA_BITS)
}

/// An address packet's data: AI (D15 to D8) and WN (D6 to D0) are mostly those
/// of an address and of a word in the frame, and else near them (Table 30).
fn address_data(random: &mut Random) -> u32 {
    let index = if random.once_in(4) {
        random.choose(&[0x0F, 0x10, 0x7F, 0x80, 0x8F, 0x90, 0xFF])
    } else {
        random.choose(&[0x00, 0x80]) + random.below(16) as u32
    };
    let word = if random.once_in(4) {
        random.choose(&[0, 1, 2, 86, 87, 88, 127])
    } else {
        random.below(88) as u32
    };
    any_data(random) & 0xFF_0080 | index << 8 | word
}

#[cfg(test)]
mod tests {
    use super::*;

    #[test]
    fn each_id_equally_often() {
        let mut counts = [0; 256];
        for packet in packets(every_id().collect(), 100, 1) {
            counts[(packet >> ID_PLACE) as usize] += 1;
        }
        assert_eq!(counts, [100; 256]);
    }

    /// Of the packets that the host may send, a good part is of the right form
    /// and a good part is not.
    #[test]
    fn both_sorts_are_common() {
        for table in &SENT[1..] {
            let ids = every_id().filter(|id| table.has_id(*id)).collect();
            let packets: Vec<u32> = packets(ids, 10_000, 1).collect();
            let fitting = packets.iter().filter(|packet| table.fits(**packet)).count();
            let share = fitting as f64 / packets.len() as f64;
            assert!((0.15..0.85).contains(&share), "{table:?}: {share}");
        }
    }
}
