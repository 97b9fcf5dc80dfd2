//! What the decoder sends: status, address and message packets, which are only
//! read (S8.4.9, S8.7). Vectors have a module of their own.

use std::ops::RangeInclusive;

use crate::layout::{field, packet, read};
use crate::numbers::numbers;
use crate::refusal::Refusal;

/// The packet IDs (Table 3). Vectors and messages have their word number as ID.
pub const ADDRESS: u32 = 0x01;
pub const STATUS: u32 = 0x7F;
pub(crate) const WORD_NUMBER: u32 = 0x00;

/// The last word of a frame (S8.7.3).
pub(crate) const LAST_WORD: u32 = 87;
/// The words where a message can stand (S8.7.8).
pub const MESSAGE_WORDS: RangeInclusive<u32> = 3..=LAST_WORD;

/// Address numbers (01): 0 to 15 are the user addresses, 16 to 31 the temporary.
pub const FIRST_TEMPORARY: u32 = 16;

packet! {
    /// The status packet (Table 12).
    Status, id STATUS, unused 0x00_302A => {
        /// FIV.
        frame_valid: field(23, 1),
        /// f.
        frame: field(16, 7),
        /// SM.
        synchronous: field(15, 1),
        /// LB.
        low_battery: field(14, 1),
        /// c.
        cycle: field(8, 4),
        /// SMU.
        synchronous_update: field(7, 1),
        /// LBU.
        low_battery_update: field(6, 1),
        /// MT.
        minute: field(4, 1),
        /// EOF.
        end_of_frame: field(2, 1),
        /// BOE.
        overflow: field(0, 1),
    }
}

packet! {
    /// The address packet as its bits stand (Table 30).
    AddressPacket, id ADDRESS, unused 0x0F_0000 => {
        /// PA.
        priority: field(23, 1),
        /// p.
        phase: field(21, 2),
        /// LA.
        long_address: field(20, 1),
        /// AI.
        index: field(8, 8),
        /// TOA.
        tone_only: field(7, 1),
        /// WN.
        word: field(0, 7),
    }
}

numbers! {
    /// What an address packet tells.
    pub struct Address {
        pub priority: u32,
        pub phase: u32,
        pub long_address: u32,
        /// The address number, 0 to 31.
        pub address: u32,
        pub tone_only: u32,
        /// The word number of the vector; 0 where none will come.
        pub vector: u32,
    }
}

packet! {
    /// A message packet (Table 40).
    Message, id WORD_NUMBER => {
        /// WN.
        word: field(24, 7),
        /// e.
        damaged: field(23, 1),
        /// p.
        phase: field(21, 2),
        /// i.
        bits: field(0, 21),
    }
}

pub fn read_status(packet: u32) -> Result<Status, Refusal> {
    read(packet)
}

/// A word number that no frame has is refused (7) before an index that no
/// address has (8). A tone-only address has no vector, so its WN means nothing.
pub fn read_address(packet: u32) -> Result<Address, Refusal> {
    let bits: AddressPacket = read(packet)?;
    let vector = if bits.tone_only == 1 { 0 } else { bits.word };
    if vector > LAST_WORD {
        return Err(Refusal::Packet);
    }
    Ok(Address {
        priority: bits.priority,
        phase: bits.phase,
        long_address: bits.long_address,
        address: address_number(bits.index)?,
        tone_only: bits.tone_only,
        vector,
    })
}

/// AI counts the user addresses from 00H and the temporary ones from 80H (S8.7.2).
fn address_number(index: u32) -> Result<u32, Refusal> {
    match index {
        0x00..=0x0F => Ok(index),
        0x80..=0x8F => Ok(FIRST_TEMPORARY + (index - 0x80)),
        _ => Err(Refusal::Address),
    }
}

pub fn read_message(packet: u32) -> Result<Message, Refusal> {
    let message: Message = read(packet)?;
    check_word(message.word, MESSAGE_WORDS)?;
    Ok(message)
}

/// A packet whose ID is a word number that its kind cannot have is of no such kind.
pub(crate) fn check_word(word: u32, words: RangeInclusive<u32>) -> Result<(), Refusal> {
    if words.contains(&word) {
        Ok(())
    } else {
        Err(Refusal::Packet)
    }
}

#[cfg(test)]
mod tests {
    use super::*;
    use crate::numbers::Numbers;

    /// Table 12, with the unused bits now set and now clear.
    #[test]
    fn status() {
        let told = |packet| read_status(packet).map(|status| status.numbers());
        assert_eq!(told(0x7FCD_B5AC), Ok(vec![1, 77, 1, 0, 5, 1, 0, 0, 1, 0]));
        assert_eq!(told(0x7F32_4A53), Ok(vec![0, 50, 0, 1, 10, 0, 1, 1, 0, 1]));
        assert_eq!(told(0x7F00_302A), Ok(vec![0; 10]));
        assert_eq!(told(0x7ECD_B5AC), Err(Refusal::Packet));
        assert_eq!(told(0xFF32_4A53), Err(Refusal::Packet));
    }

    /// Table 30.
    #[test]
    fn address() {
        let told = |packet| read_address(packet).map(|address| address.numbers());
        assert_eq!(told(0x01D5_0F57), Ok(vec![1, 2, 1, 15, 0, 87]));
        assert_eq!(told(0x0120_0002), Ok(vec![0, 1, 0, 0, 0, 2]));
        assert_eq!(told(0x010F_8000), Ok(vec![0, 0, 0, 16, 0, 0]));
        assert_eq!(told(0x0170_8F03), Ok(vec![0, 3, 1, 31, 0, 3]));
    }

    /// S8.7.2: WN is invalid if TOA is set.
    #[test]
    fn tone_only_address() {
        for word in [0x80, 0x82, 0xD7, 0xD8, 0xFF] {
            let address = read_address(0x0100_8A00 | word).unwrap();
            assert_eq!(address.numbers(), [0, 0, 0, 26, 1, 0]);
        }
    }

    #[test]
    fn refused_addresses() {
        for packet in [0x0000_0002, 0x0200_0002, 0x8100_0002] {
            assert_eq!(read_address(packet), Err(Refusal::Packet));
        }
        // Word 88 is told before an index of no address.
        for packet in [0x0100_0058, 0x0100_007F, 0x0100_1058] {
            assert_eq!(read_address(packet), Err(Refusal::Packet));
        }
        for packet in [
            0x0100_1057,
            0x0100_10D8,
            0x0100_7F02,
            0x0100_9002,
            0x0100_FF02,
        ] {
            assert_eq!(read_address(packet), Err(Refusal::Address));
        }
    }

    /// Table 40.
    #[test]
    fn message() {
        let told = |packet| read_message(packet).map(|message| message.numbers());
        assert_eq!(told(0x03B5_5555), Ok(vec![3, 1, 1, 0x15_5555]));
        assert_eq!(told(0x574A_AAAA), Ok(vec![87, 0, 2, 0x0A_AAAA]));
        for packet in [0x0000_0000, 0x02B5_5555, 0x58B5_5555, 0x83B5_5555, u32::MAX] {
            assert_eq!(told(packet), Err(Refusal::Packet));
        }
    }
}
