//! Start-ups: what the host sends, what happens to it on its way, and what reaches the
//! decoder.

use std::array;

use second::layout::{data_of, id_of, DATA_BITS, ID_PLACE};

use crate::random::Random;

use super::lists::{
    data_sum, hexadecimal, receiver_setting, seeded_list, seeded_packet, seeded_part_id, LONGEST,
};

pub struct StartUp {
    pub part_id: u32,
    /// What the host sends, without its closing checksum.
    pub sent: Vec<u32>,
    pub happening: Happening,
    /// What reaches the decoder before the closing checksum.
    pub reached: Vec<u32>,
}

/// What one of the laws is about. A place is that of a packet in what is sent.
pub enum Happening {
    /// All packets arrive, in any order.
    Reordered,
    /// A block is sent two or three times, and of two copies none arrives, of three one.
    Repeated {
        block: Vec<u32>,
        /// For each copy, how many of the other packets are sent before it.
        places: Vec<usize>,
    },
    /// All arrive as they were sent, and the first so many of them are a list of their own.
    Joined { first: usize },
    /// These bits of one packet's data arrive changed.
    Changed { place: usize, bits: u32 },
    /// One packet does not arrive.
    Missing { place: usize },
    /// One packet arrives with another ID that is summed.
    OtherId { place: usize },
    /// The same bits of two packets' data arrive changed.
    BothChanged { places: [usize; 2], bits: u32 },
    /// A block is sent so many times, and arrives whole so many times.
    Blocks {
        block: Vec<u32>,
        sent: usize,
        reached: usize,
    },
    /// These bits of the closing checksum's data arrive changed, all else as it was sent.
    ChecksumChanged { bits: u32 },
}

impl Happening {
    pub fn in_words(&self) -> String {
        match self {
            Happening::Reordered => "they arrive in any order".to_string(),
            Happening::Repeated { block, places } => {
                let (block, times) = (hexadecimal(block), places.len());
                format!("the block{block} is sent {times} times")
            }
            Happening::Joined { first } => format!("the first {first} are a list of their own"),
            Happening::Changed { place, bits } => {
                format!("data bits {bits:06X} of packet {place} arrive changed")
            }
            Happening::Missing { place } => format!("packet {place} does not arrive"),
            Happening::OtherId { place } => format!("packet {place} arrives with another ID"),
            Happening::BothChanged { places, bits } => {
                let [one, other] = places;
                format!("data bits {bits:06X} of packets {one} and {other} arrive changed")
            }
            Happening::Blocks {
                block,
                sent,
                reached,
            } => {
                let block = hexadecimal(block);
                format!("the block{block} is sent {sent} times and arrives {reached} times")
            }
            Happening::ChecksumChanged { bits } => {
                format!("data bits {bits:06X} of the checksum arrive changed")
            }
        }
    }
}

/// What is sent, what happens to it, and what reaches the decoder.
type Way = (Vec<u32>, Happening, Vec<u32>);

const WAYS: [fn(&mut Random) -> Way; 9] = [
    reordered,
    repeated,
    joined,
    changed,
    missing,
    other_id,
    both_changed,
    blocks,
    checksum_changed,
];

/// Each happening is as likely as any other.
pub fn seeded_start_up(random: &mut Random) -> StartUp {
    let part_id = seeded_part_id(random);
    let way = random.choose(&WAYS);
    let (sent, happening, reached) = way(random);
    StartUp {
        part_id,
        sent,
        happening,
        reached,
    }
}

impl StartUp {
    /// The two lists that are joined, where that is what happens.
    pub fn parts(&self) -> Vec<&[u32]> {
        match self.happening {
            Happening::Joined { first } => vec![&self.sent[..first], &self.sent[first..]],
            _ => Vec::new(),
        }
    }

    /// The host's closing checksum, as it reaches the decoder.
    pub fn arriving(&self, closing: u32) -> u32 {
        match self.happening {
            Happening::ChecksumChanged { bits } => closing ^ bits,
            _ => closing,
        }
    }
}

fn reordered(random: &mut Random) -> Way {
    let sent = seeded_list(random, 0..=LONGEST);
    let mut reached = sent.clone();
    match random.below(4) {
        0 if !sent.is_empty() => {
            let [one, other] = array::from_fn(|_| seeded_place(random, sent.len()));
            reached.swap(one, other);
        }
        1 if !sent.is_empty() => {
            let late = reached.remove(seeded_place(random, sent.len()));
            reached.push(late);
        }
        2 => reached.reverse(),
        _ => shuffle(random, &mut reached),
    }
    (sent, Happening::Reordered, reached)
}

fn shuffle(random: &mut Random, packets: &mut [u32]) {
    for place in 1..packets.len() {
        packets.swap(place, random.below(place as u64 + 1) as usize);
    }
}

fn repeated(random: &mut Random) -> Way {
    let length = random.choose(&[1, 1, 2, 3, 5]);
    let block = seeded_list(random, length..=length);
    let times = random.choose(&[2, 2, 3]);
    let others = seeded_list(random, 0..=LONGEST - times * length);
    let mut places = seeded_places(random, times, others.len());
    if random.once_in(4) {
        places = vec![places[0]; times];
    }
    let sent = with_copies(&others, &block, &places);
    let arriving = match times {
        2 => Vec::new(),
        _ => vec![random.choose(&places)],
    };
    let reached = with_copies(&others, &block, &arriving);
    (sent, Happening::Repeated { block, places }, reached)
}

/// Where so many copies stand among so many other packets.
fn seeded_places(random: &mut Random, copies: usize, others: usize) -> Vec<usize> {
    let places = (0..copies).map(|_| random.below(others as u64 + 1) as usize);
    let mut places: Vec<usize> = places.collect();
    places.sort();
    places
}

/// The other packets, and a copy of the block at each of the places among them.
fn with_copies(others: &[u32], block: &[u32], places: &[usize]) -> Vec<u32> {
    let mut packets = Vec::new();
    let mut from = 0;
    for place in places {
        packets.extend(&others[from..*place]);
        packets.extend(block);
        from = *place;
    }
    packets.extend(&others[from..]);
    packets
}

fn joined(random: &mut Random) -> Way {
    let lists: [Vec<u32>; 2] = array::from_fn(|_| seeded_list(random, 0..=LONGEST / 2));
    let first = lists[0].len();
    let sent = lists.concat();
    (sent.clone(), Happening::Joined { first }, sent)
}

fn changed(random: &mut Random) -> Way {
    let sent = seeded_list(random, 1..=LONGEST);
    let place = seeded_place(random, sent.len());
    let bits = seeded_bits(random);
    let mut reached = sent.clone();
    reached[place] ^= bits;
    (sent, Happening::Changed { place, bits }, reached)
}

/// Every second time the packet is one without data bits.
fn missing(random: &mut Random) -> Way {
    let mut sent = seeded_list(random, 1..=LONGEST);
    let place = seeded_place(random, sent.len());
    if random.once_in(2) {
        sent[place] &= !DATA_BITS;
    }
    let mut reached = sent.clone();
    reached.remove(place);
    (sent, Happening::Missing { place }, reached)
}

fn other_id(random: &mut Random) -> Way {
    let sent = seeded_list(random, 1..=LONGEST);
    let place = seeded_place(random, sent.len());
    let mut reached = sent.clone();
    reached[place] = with_other_id(random, sent[place]);
    (sent, Happening::OtherId { place }, reached)
}

/// Every second time the ID is that of a packet that the host may send, else any that is
/// summed.
fn with_other_id(random: &mut Random, packet: u32) -> u32 {
    loop {
        let id = match random.below(2) {
            0 => id_of(seeded_packet(random)),
            _ => random.between(0x01, 0xFF) as u32,
        };
        if id != id_of(packet) && is_summed(id) {
            return id << ID_PLACE | data_of(packet);
        }
    }
}

/// All but the checksum and the special packets (S8.4.2).
fn is_summed(id: u32) -> bool {
    !matches!(id, 0x00 | 0x1C..=0x1F)
}

fn both_changed(random: &mut Random) -> Way {
    let sent = seeded_list(random, 2..=LONGEST);
    let one = random.below(sent.len() as u64 - 1) as usize;
    let other = match random.below(2) {
        0 => one + 1,
        _ => random.between(one as u64 + 1, sent.len() as u64 - 1) as usize,
    };
    let bits = seeded_bits(random);
    let mut reached = sent.clone();
    reached[one] ^= bits;
    reached[other] ^= bits;
    let places = [one, other];
    (sent, Happening::BothChanged { places, bits }, reached)
}

fn blocks(random: &mut Random) -> Way {
    let block = seeded_block(random);
    let (times_sent, times_reached) = match random.below(8) {
        0 => (random.below(8) as usize, random.below(8) as usize),
        _ => (random.between(1, 3) as usize, random.below(4) as usize),
    };
    let others = seeded_list(random, 0..=LONGEST - times_sent * block.len());
    let [sent, reached] = [times_sent, times_reached].map(|copies| {
        let places = seeded_places(random, copies, others.len());
        with_copies(&others, &block, &places)
    });
    let happening = Happening::Blocks {
        block,
        sent: times_sent,
        reached: times_reached,
    };
    (sent, happening, reached)
}

/// Every third block has a last packet with which its data bits cancel.
fn seeded_block(random: &mut Random) -> Vec<u32> {
    let mut block = seeded_list(random, 1..=4);
    if random.once_in(3) {
        let sum = data_sum(&block);
        block.push(receiver_setting(random, sum));
    }
    block
}

fn checksum_changed(random: &mut Random) -> Way {
    let sent = seeded_list(random, 0..=LONGEST);
    let bits = seeded_bits(random);
    (sent.clone(), Happening::ChecksumChanged { bits }, sent)
}

/// Often the first or the last.
fn seeded_place(random: &mut Random, length: usize) -> usize {
    match random.below(4) {
        0 => 0,
        1 => length - 1,
        _ => random.below(length as u64) as usize,
    }
}

/// Data bits to change: one, all 24 or any.
fn seeded_bits(random: &mut Random) -> u32 {
    match random.below(4) {
        0..=1 => 1 << random.below(u64::from(ID_PLACE)),
        2 => DATA_BITS,
        _ => random.between(1, u64::from(DATA_BITS)) as u32,
    }
}

#[cfg(test)]
mod tests {
    use super::*;
    use second::packet::may_send;

    /// The laws say nothing of other start-ups.
    #[test]
    fn start_ups_are_as_the_laws_suppose() {
        let mut random = Random::new(1);
        for _ in 0..20_000 {
            let start_up = seeded_start_up(&mut random);
            let StartUp { sent, reached, .. } = &start_up;
            let shown = format!("{sent:08X?} {reached:08X?}");
            assert!(sent.len() <= LONGEST, "{shown}");
            let all = [&sent[..], reached].concat();
            let mut ids = all.iter().map(|packet| id_of(*packet));
            assert!(
                ids.all(|id| matches!(id, 0x01..=0x1B | 0x20..=0xFF)),
                "{shown}"
            );
            assert!(sent.iter().all(|packet| may_send(*packet).is_ok()));
            assert!(is_as_supposed(&start_up), "{shown}");
        }
    }

    fn is_as_supposed(start_up: &StartUp) -> bool {
        let StartUp { sent, reached, .. } = start_up;
        match &start_up.happening {
            Happening::Reordered => sorted(sent) == sorted(reached),
            Happening::Repeated { block, places } => {
                let two_more = [reached, block, block].map(|packets| &packets[..]).concat();
                matches!(places.len(), 2 | 3) && sorted(sent) == sorted(&two_more)
            }
            Happening::Joined { first } => *first <= sent.len() && sent == reached,
            Happening::Changed { place, bits } => {
                differences(sent, reached) == [(*place, *bits)] && is_data(*bits)
            }
            Happening::Missing { place } => {
                let [before, after] = [&sent[..*place], &sent[*place + 1..]];
                *reached == [before, after].concat()
            }
            Happening::OtherId { place } => match differences(sent, reached)[..] {
                [(other, bits)] => other == *place && data_of(bits) == 0,
                _ => false,
            },
            Happening::BothChanged { places, bits } => {
                differences(sent, reached) == places.map(|place| (place, *bits)) && is_data(*bits)
            }
            Happening::Blocks {
                block,
                sent: times_sent,
                reached: times_reached,
            } => {
                let sent = [&sent[..], &block.repeat(*times_reached)].concat();
                let reached = [&reached[..], &block.repeat(*times_sent)].concat();
                sorted(&sent) == sorted(&reached)
            }
            Happening::ChecksumChanged { bits } => sent == reached && is_data(*bits),
        }
    }

    fn sorted(packets: &[u32]) -> Vec<u32> {
        let mut packets = packets.to_vec();
        packets.sort();
        packets
    }

    /// Whether some data bits are set, and none of the ID.
    fn is_data(bits: u32) -> bool {
        bits != 0 && bits <= DATA_BITS
    }

    /// The places at which two lists differ, and the bits in which they do.
    fn differences(sent: &[u32], reached: &[u32]) -> Vec<(usize, u32)> {
        assert_eq!(sent.len(), reached.len());
        let bits = sent
            .iter()
            .zip(reached)
            .map(|(sent, reached)| sent ^ reached);
        let places = bits.enumerate();
        places.filter(|(_, bits)| *bits != 0).collect()
    }

    #[test]
    fn copies_stand_whole_in_their_places() {
        let with = |places: &[usize]| with_copies(&[1, 2, 3], &[8, 9], places);
        assert_eq!(with(&[]), [1, 2, 3]);
        assert_eq!(with(&[0, 0]), [8, 9, 8, 9, 1, 2, 3]);
        assert_eq!(with(&[0, 2, 3]), [8, 9, 1, 2, 8, 9, 3, 8, 9]);
    }

    #[test]
    fn what_arrives_of_a_checksum() {
        let start_up = |happening| StartUp {
            part_id: 0xFF00_0106,
            sent: vec![],
            happening,
            reached: vec![],
        };
        let closing = 0x0000_0106;
        assert_eq!(start_up(Happening::Reordered).arriving(closing), closing);
        let bits = 0x80_0006;
        let changed = start_up(Happening::ChecksumChanged { bits });
        assert_eq!(changed.arriving(closing), 0x0080_0100);
    }
}
