//! The packets that are built and read, and those that the host may send
//! (01, "Packets and the handshake").

use crate::layout::{field, id_of, packet, Kind, Layout};
use crate::refusal::Refusal;

/// The packet IDs (S8.3.7; Table 3 for the part ID).
pub const CHECKSUM: u32 = 0x00;
const CONFIGURATION: u32 = 0x01;
const CONTROL: u32 = 0x02;
const ALL_FRAME_MODE: u32 = 0x03;
const RECEIVER_LINES: u32 = 0x0F;
/// Also 1BH.
const SHUT_DOWN: u32 = 0x1A;
/// To 27H.
const FRAME_ASSIGNMENT: u32 = 0x20;
const ADDRESS_ENABLE: u32 = 0x78;
/// To 8FH.
const USER_ADDRESS: u32 = 0x80;
pub const PART_ID: u32 = 0xFF;

packet! {
    /// The checksum packet (Table 9).
    Checksum, id CHECKSUM => {
        /// CV.
        value: field(0, 24),
    }
}

packet! {
    /// The configuration packet (Table 5).
    Configuration, id CONFIGURATION => {
        /// OFD, by Table 4.
        oscillator: field(16, 2),
        /// SP, by Table 6.
        polarity: field(8, 2),
        /// SME.
        synchronous_mode: field(7, 1),
        /// MOT.
        maximum_off_time: field(6, 1),
        /// COD.
        clock_output_disable: field(5, 1),
        /// MTE.
        minute_timer: field(4, 1),
        /// LBP.
        low_battery_polarity: field(3, 1),
    }
}

packet! {
    /// The control packet (Table 11).
    Control, id CONTROL => {
        /// FF, a bit for each of frames 0 to 7.
        forced_frames: field(16, 8),
        /// SPM.
        single_phase: field(14, 1),
        /// PS, by Table 10.
        phase: field(12, 2),
        /// SBI.
        block_information: field(6, 1),
        /// MTC.
        minute_timer_clear: field(4, 1),
        /// ON.
        on: field(0, 1),
    }
}

packet! {
    /// The all frame mode packet (Table 56).
    AllFrameMode, id ALL_FRAME_MODE => {
        /// DAF.
        decrement: field(23, 1),
        /// FAF.
        force: field(22, 1),
        /// DTA, a bit for each temporary address.
        decrement_temporary: field(0, 16),
    }
}

packet! {
    /// The receiver line control packet (Table 19).
    ReceiverLines, id RECEIVER_LINES => {
        /// FRS, a bit for each of lines S0 to S7.
        forced: field(8, 8),
        /// CLS, a bit for each line.
        settings: field(0, 8),
    }
}

packet! {
    /// A receiver shut-down setting packet (Tables 20 and 21).
    ShutDown, id SHUT_DOWN => {
        /// s: 0 for shut-down 1, 1 for shut-down 2.
        setting: field(24, 1),
        /// SE.
        enable: field(23, 1),
        /// LBC.
        low_battery_check: field(19, 1),
        /// CLS, a bit for each of lines S0 to S7.
        lines: field(8, 8),
        /// ST. S8.5.8.1 calls 0 no valid time, but no refusal of 01 is for that.
        time: field(0, 6),
    }
}

packet! {
    /// A frame assignment packet (Tables 28 and 29).
    FrameAssignment, id FRAME_ASSIGNMENT => {
        /// f.
        range: field(24, 3),
        /// AF, a bit for each of the range's sixteen frames.
        frames: field(0, 16),
    }
}

packet! {
    /// A user address assignment packet (Table 26).
    UserAddress, id USER_ADDRESS => {
        /// a.
        location: field(24, 4),
        /// LA.
        long_address: field(22, 1),
        /// TOA.
        tone_only: field(21, 1),
        /// A.
        word: field(0, 21),
    }
}

packet! {
    /// The user address enable packet (Table 27).
    AddressEnable, id ADDRESS_ENABLE => {
        /// UAE, a bit for each location.
        enabled: field(0, 16),
    }
}

packet! {
    /// The part ID packet (Table 8), which the decoder sends.
    PartId, id PART_ID => {
        /// MDL.
        model: field(22, 2),
        /// CID.
        compatibility: field(8, 14),
        /// REV.
        revision: field(0, 8),
    }
}

/// The tables of the packets that the host sends.
pub const SENT: [Layout; 9] = [
    Checksum::LAYOUT,
    Configuration::LAYOUT,
    Control::LAYOUT,
    AllFrameMode::LAYOUT,
    ReceiverLines::LAYOUT,
    ShutDown::LAYOUT,
    FrameAssignment::LAYOUT,
    UserAddress::LAYOUT,
    AddressEnable::LAYOUT,
];

/// Whether the host may send these 32 bits: never under an ID that is reserved
/// or special (S8.3.7), 10H to 19H with any data bits (01), and all others as
/// their table prints them.
pub fn may_send(packet: u32) -> Result<(), Refusal> {
    let allowed = match id_of(packet) {
        0x04..=0x0E | 0x1C..=0x1F | 0x28..=0x77 | 0x79..=0x7F | 0x90..=0xFF => false,
        0x10..=0x19 => true,
        _ => SENT.iter().any(|layout| layout.fits(packet)),
    };
    if allowed {
        Ok(())
    } else {
        Err(Refusal::Packet)
    }
}

#[cfg(test)]
mod tests {
    use std::fmt::Debug;

    use super::*;
    use crate::layout::{build, read};

    /// Builds the packet from its fields and reads them back.
    #[track_caller]
    fn both_ways<K: Kind + Copy + Debug + PartialEq>(numbers: &[u32], packet: u32) {
        assert_eq!(numbers.len(), K::COUNT);
        let fields = K::from_numbers(&mut numbers.iter().copied());
        assert_eq!(build(&fields), Ok(packet));
        assert_eq!(read(packet), Ok(fields));
    }

    /// Worked out from the tables, bit by bit.
    #[test]
    fn tables() {
        both_ways::<Checksum>(&[0x40_0116], 0x0040_0116);
        both_ways::<Configuration>(&[2, 1, 1, 0, 1, 0, 1], 0x0102_01A8);
        both_ways::<Configuration>(&[1, 2, 0, 1, 0, 1, 0], 0x0101_0250);
        both_ways::<Control>(&[0x84, 1, 2, 1, 0, 1], 0x0284_6041);
        both_ways::<Control>(&[0x01, 0, 1, 0, 1, 0], 0x0201_1010);
        both_ways::<AllFrameMode>(&[1, 0, 0x8001], 0x0380_8001);
        both_ways::<AllFrameMode>(&[0, 1, 0], 0x0340_0000);
        both_ways::<ReceiverLines>(&[0xA5, 0x3C], 0x0F00_A53C);
        both_ways::<ShutDown>(&[1, 1, 1, 0x5A, 0x3F], 0x1B88_5A3F);
        both_ways::<ShutDown>(&[0, 1, 0, 0x01, 1], 0x1A80_0101);
        both_ways::<FrameAssignment>(&[5, 0x2000], 0x2500_2000);
        both_ways::<UserAddress>(&[0, 0, 0, 0x00_84D2], 0x8000_84D2);
        both_ways::<UserAddress>(&[15, 1, 0, 0x1F_FFFE], 0x8F5F_FFFE);
        both_ways::<UserAddress>(&[3, 0, 1, 1], 0x8320_0001);
        both_ways::<AddressEnable>(&[0x8001], 0x7800_8001);
        both_ways::<PartId>(&[0, 1, 6], 0xFF00_0106);
        both_ways::<PartId>(&[2, 0x2001, 0x80], 0xFFA0_0180);
    }

    /// Every field as large as it can be, then one larger.
    #[track_caller]
    fn fullest<K: Kind + Copy + Debug + PartialEq>(largest: &[u32], packet: u32) {
        both_ways::<K>(largest, packet);
        for place in 0..largest.len() {
            for wrong in [largest[place] + 1, u32::MAX] {
                let mut numbers = largest.to_vec();
                numbers[place] = wrong;
                let fields = K::from_numbers(&mut numbers.into_iter());
                assert_eq!(build(&fields), Err(Refusal::Packet));
            }
        }
    }

    #[test]
    fn largest_fields() {
        fullest::<Checksum>(&[0xFF_FFFF], 0x00FF_FFFF);
        fullest::<Configuration>(&[3, 3, 1, 1, 1, 1, 1], 0x0103_03F8);
        fullest::<Control>(&[0xFF, 1, 3, 1, 1, 1], 0x02FF_7051);
        fullest::<AllFrameMode>(&[1, 1, 0xFFFF], 0x03C0_FFFF);
        fullest::<ReceiverLines>(&[0xFF, 0xFF], 0x0F00_FFFF);
        fullest::<ShutDown>(&[1, 1, 1, 0xFF, 0x3F], 0x1B88_FF3F);
        fullest::<FrameAssignment>(&[7, 0xFFFF], 0x2700_FFFF);
        fullest::<UserAddress>(&[15, 1, 1, 0x1F_FFFF], 0x8F7F_FFFF);
        fullest::<AddressEnable>(&[0xFFFF], 0x7800_FFFF);
        fullest::<PartId>(&[3, 0x3FFF, 0xFF], 0xFFFF_FFFF);
    }

    /// `zeros` are the data bits that the kind's table prints as 0.
    #[track_caller]
    fn zeros_are_looked_at<K: Kind + Debug + PartialEq>(packet: u32, zeros: u32) {
        assert!(read::<K>(packet).is_ok());
        for place in 0..24 {
            let changed = packet ^ 1 << place;
            let printed = zeros >> place & 1 == 1;
            assert_eq!(read::<K>(changed).is_err(), printed);
            if K::LAYOUT.ones != PartId::LAYOUT.ones {
                assert_eq!(may_send(changed).is_err(), printed);
            }
        }
    }

    #[test]
    fn printed_zeros() {
        zeros_are_looked_at::<Checksum>(0x0012_3456, 0);
        zeros_are_looked_at::<Configuration>(0x0103_03F8, 0xFC_FC07);
        zeros_are_looked_at::<Control>(0x0200_0000, 0x00_8FAE);
        zeros_are_looked_at::<AllFrameMode>(0x0340_0000, 0x3F_0000);
        zeros_are_looked_at::<ReceiverLines>(0x0F00_A53C, 0xFF_0000);
        zeros_are_looked_at::<ShutDown>(0x1B88_5A3F, 0x77_00C0);
        zeros_are_looked_at::<FrameAssignment>(0x2500_2000, 0xFF_0000);
        zeros_are_looked_at::<UserAddress>(0x8F5F_FFFE, 0x80_0000);
        zeros_are_looked_at::<AddressEnable>(0x7800_8001, 0xFF_0000);
        zeros_are_looked_at::<PartId>(0xFF00_0106, 0);
    }

    /// The IDs of S8.3.7 that are neither reserved nor special.
    #[test]
    fn ids_that_may_be_sent() {
        let mut allowed: Vec<u32> = (0x00..=0x03).collect();
        allowed.extend(0x0F..=0x1B);
        allowed.extend(0x20..=0x27);
        allowed.push(0x78);
        allowed.extend(0x80..=0x8F);
        let sent = (0x00..=0xFF).filter(|id| may_send(id << 24).is_ok());
        assert_eq!(sent.collect::<Vec<u32>>(), allowed);
    }

    /// 01: receiver settings go as they are, though their tables print zeros.
    #[test]
    fn any_data_bits() {
        let free = (0x00..=0xFF).filter(|id| may_send(id << 24 | 0xFF_FFFF).is_ok());
        let mut expected = vec![0x00];
        expected.extend(0x10..=0x19);
        assert_eq!(free.collect::<Vec<u32>>(), expected);
    }
}
