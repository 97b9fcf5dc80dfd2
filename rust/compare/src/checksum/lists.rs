//! Part IDs, and lists of packets that the host may send, none of them a checksum.

use std::ops::RangeInclusive;

use second::layout::{data_of, Kind, DATA_BITS, ID_PLACE};
use second::packet::{FrameAssignment, PART_ID, SENT};

use crate::random::Random;

/// How many packets a list has at most.
pub const LONGEST: usize = 40;

/// The IDs of the receiver settings, which go with any data bits.
const RECEIVER_SETTINGS: RangeInclusive<u32> = 0x10..=0x19;

/// Any data bits, now and then none or all of them, or those of the PCD5008.
pub fn seeded_part_id(random: &mut Random) -> u32 {
    let data = match random.below(16) {
        0 => random.choose(&[0, DATA_BITS]),
        1 => 0x00_0106,
        _ => any_data(random),
    };
    PART_ID << ID_PLACE | data
}

/// A list of one of these lengths, often the least or the greatest of them.
pub fn seeded_list(random: &mut Random, lengths: RangeInclusive<usize>) -> Vec<u32> {
    let (least, most) = (*lengths.start(), *lengths.end());
    let length = match random.below(8) {
        0 => least,
        1 => most,
        _ => random.between(least as u64, most as u64) as usize,
    };
    let mut list = Vec::new();
    while list.len() < length {
        match random.below(64) {
            0 => list.extend(frame_assignments(random)),
            1..=4 if !list.is_empty() => {
                let earlier = random.choose(&list);
                list.push(like(random, earlier));
            }
            _ => list.push(seeded_packet(random)),
        }
    }
    list.truncate(length);
    list
}

/// A packet of any kind that is summed, now and then without data bits.
pub fn seeded_packet(random: &mut Random) -> u32 {
    let any = random.number() as u32;
    let kind = random.below(SENT.len() as u64) as usize;
    let packet = match kind {
        // The checksum's place is that of the receiver settings, which have no table.
        0 => receiver_setting(random, data_of(any)),
        _ => (any & !SENT[kind].printed()) | SENT[kind].ones,
    };
    match random.below(12) {
        0 => packet & !DATA_BITS,
        _ => packet,
    }
}

/// Of all packets that are summed these alone go with any data bits.
pub fn receiver_setting(random: &mut Random, data: u32) -> u32 {
    let (least, most) = (*RECEIVER_SETTINGS.start(), *RECEIVER_SETTINGS.end());
    let id = random.between(u64::from(least), u64::from(most)) as u32;
    id << ID_PLACE | data
}

/// The same packet, or one with its data bits.
fn like(random: &mut Random, packet: u32) -> u32 {
    match random.below(4) {
        0 => packet,
        _ => receiver_setting(random, data_of(packet)),
    }
}

/// All eight with the same frames, as a pager has them whose collapse is 4 or less.
fn frame_assignments(random: &mut Random) -> impl Iterator<Item = u32> {
    let frames = match random.below(2) {
        0 => 1 << random.below(16),
        _ => any_data(random),
    };
    let table = FrameAssignment::LAYOUT;
    let ones = table.ones | frames & !table.printed();
    (0..8).map(move |range| ones | range << ID_PLACE)
}

fn any_data(random: &mut Random) -> u32 {
    data_of(random.number() as u32)
}

/// The XOR of the packets' data bits.
pub fn data_sum(packets: &[u32]) -> u32 {
    let data = packets.iter().map(|packet| data_of(*packet));
    data.fold(0, |sum, data| sum ^ data)
}

/// The packets, each after a space.
pub fn hexadecimal(packets: &[u32]) -> String {
    let packets = packets.iter().map(|packet| format!(" {packet:08X}"));
    packets.collect()
}

/// Which kind of packet the host may send under the ID, if any.
pub fn kind_of(id: u32) -> Option<usize> {
    if RECEIVER_SETTINGS.contains(&id) {
        return Some(SENT.len());
    }
    SENT.iter().position(|table| table.has_id(id))
}

#[cfg(test)]
mod tests {
    use std::collections::BTreeSet;

    use super::*;
    use second::layout::id_of;
    use second::packet::{may_send, CHECKSUM};

    #[test]
    fn lists_are_of_all_that_may_be_sent_but_checksums() {
        let mut random = Random::new(1);
        let mut ids = BTreeSet::new();
        for _ in 0..1_000 {
            let list = seeded_list(&mut random, 2..=LONGEST);
            assert!((2..=LONGEST).contains(&list.len()));
            for packet in list {
                assert_eq!(may_send(packet), Ok(()), "{packet:08X}");
                ids.insert(id_of(packet));
            }
        }
        let may_be_sent = (0x00..=0xFF).filter(|id| may_send(id << ID_PLACE).is_ok());
        assert!(ids.into_iter().eq(may_be_sent.filter(|id| *id != CHECKSUM)));
    }

    #[test]
    fn every_data_bit_comes() {
        let mut random = Random::new(1);
        let packets = seeded_list(&mut random, 10_000..=10_000);
        let set = packets.iter().fold(0, |bits, packet| bits | packet);
        let clear = packets.iter().fold(0, |bits, packet| bits | !packet);
        assert_eq!((data_of(set), data_of(clear)), (DATA_BITS, DATA_BITS));
    }

    #[test]
    fn some_packets_have_no_data_bits() {
        let mut random = Random::new(1);
        let packets = seeded_list(&mut random, 10_000..=10_000);
        let empty = packets.iter().filter(|packet| data_of(**packet) == 0);
        assert!((500..2_000).contains(&empty.count()));
    }

    #[test]
    fn part_ids() {
        let mut random = Random::new(1);
        let mut part_ids = (0..1_000).map(|_| seeded_part_id(&mut random));
        assert!(part_ids.all(|packet| id_of(packet) == PART_ID));
    }

    #[test]
    fn kinds() {
        assert_eq!(kind_of(0x80), kind_of(0x8F));
        assert_eq!(kind_of(0x10), kind_of(0x19));
        // That of each table, the receiver settings, and none.
        let kinds: BTreeSet<_> = (0x00..=0xFF).map(kind_of).collect();
        assert_eq!(kinds.len(), SENT.len() + 2);
        for id in 0x00..=0xFF {
            let may_be_sent = may_send(id << ID_PLACE).is_ok();
            assert_eq!(kind_of(id).is_some(), may_be_sent, "{id:02X}");
        }
    }

    #[test]
    fn sums() {
        assert_eq!(data_sum(&[]), 0);
        assert_eq!(
            data_sum(&[0x0101_0090, 0x0200_0001, 0x0300_0011]),
            0x01_0080
        );
        assert_eq!(data_sum(&[0x2000_2000, 0x2100_2000]), 0);
    }
}
