//! The mirror of the decoder: what its checksum register holds, and whether it
//! is talking (S8.4.2; 01, "Packets and the handshake").

use crate::layout::{build, data_of, id_of, DATA_BITS};
use crate::numbers::numbers;
use crate::packet::{Checksum, CHECKSUM, PART_ID};
use crate::refusal::Refusal;

numbers! {
    pub struct Mirror {
        /// 24 bits; more are no state of a decoder.
        pub register: u32,
        /// 0 is silent, any other number is talking.
        pub talking: u32,
    }
}

const SILENT: u32 = 0;
const TALKING: u32 = 1;

/// The mirror of a decoder that was reset and told its part ID.
pub fn reset(packet: u32) -> Result<Mirror, Refusal> {
    if id_of(packet) != PART_ID {
        return Err(Refusal::Packet);
    }
    Ok(Mirror {
        register: data_of(packet),
        talking: SILENT,
    })
}

/// The mirror after one packet, whatever its 32 bits.
pub fn step(mirror: Mirror, packet: u32) -> Result<Mirror, Refusal> {
    check(mirror)?;
    Ok(after(mirror, packet))
}

/// The mirror after one packet after the other.
pub fn run(mirror: Mirror, packets: &[u32]) -> Result<Mirror, Refusal> {
    check(mirror)?;
    let packets = packets.iter();
    Ok(packets.fold(mirror, |mirror, &packet| after(mirror, packet)))
}

/// The checksum packet that makes a silent decoder talk.
pub fn closing(mirror: Mirror) -> Result<u32, Refusal> {
    check(mirror)?;
    build(&Checksum {
        value: mirror.register,
    })
}

fn check(mirror: Mirror) -> Result<(), Refusal> {
    if mirror.register > DATA_BITS {
        return Err(Refusal::State);
    }
    Ok(())
}

fn after(mirror: Mirror, packet: u32) -> Mirror {
    match id_of(packet) {
        CHECKSUM if mirror.talking != SILENT => mirror,
        CHECKSUM if data_of(packet) == mirror.register => Mirror {
            talking: TALKING,
            ..mirror
        },
        // A wrong checksum is not summed, and neither are the special packets.
        CHECKSUM | 0x1C..=0x1F => Mirror {
            talking: SILENT,
            ..mirror
        },
        _ => Mirror {
            register: mirror.register ^ data_of(packet),
            talking: SILENT,
        },
    }
}

#[cfg(test)]
mod tests {
    use super::*;

    fn mirror(register: u32, talking: u32) -> Mirror {
        Mirror { register, talking }
    }

    /// 01, proved example 9.
    #[test]
    fn marked_case() {
        let silent = reset(0xFF00_0106).unwrap();
        assert_eq!(silent, mirror(0x00_0106, 0));
        let silent = step(silent, 0x0100_0010).unwrap();
        assert_eq!(silent, mirror(0x00_0116, 0));
        let silent = step(silent, 0x0340_0000).unwrap();
        assert_eq!(silent, mirror(0x40_0116, 0));
        assert_eq!(closing(silent), Ok(0x0040_0116));
        assert_eq!(step(silent, 0x0040_0116), Ok(mirror(0x40_0116, 1)));
    }

    #[test]
    fn resets() {
        assert_eq!(reset(0xFFFF_FFFF), Ok(mirror(0xFF_FFFF, 0)));
        for packet in [0xFE00_0106, 0x7F00_0106, 0x0000_0106] {
            assert_eq!(reset(packet), Err(Refusal::Packet));
        }
    }

    #[test]
    fn checksums() {
        let silent = mirror(0x12_3456, 0);
        assert_eq!(step(silent, 0x0012_3456), Ok(mirror(0x12_3456, 1)));
        assert_eq!(step(silent, 0x0012_3457), Ok(silent));
        for talking in [1, 5, u32::MAX] {
            let talking = mirror(0x12_3456, talking);
            for packet in [0x0012_3456, 0x0012_3457, 0] {
                assert_eq!(step(talking, packet), Ok(talking));
            }
        }
    }

    /// The special packets are not summed, but they do end the talking.
    #[test]
    fn special_packets() {
        for id in 0x1C..=0x1F {
            let after = step(mirror(0x12_3456, 5), id << 24 | 0xFF_FFFF);
            assert_eq!(after, Ok(mirror(0x12_3456, 0)));
        }
        for id in [0x1B, 0x20] {
            let after = step(mirror(0x12_3456, 1), id << 24 | 0xFF_FFFF);
            assert_eq!(after, Ok(mirror(0xED_CBA9, 0)));
        }
    }

    /// The ID is never part of the sum, whatever it is.
    #[test]
    fn any_32_bits_are_summed() {
        for id in [0x01, 0x04, 0x7F, 0x90, 0xFF] {
            let after = step(mirror(0x00_FF00, 1), id << 24 | 0x0F_F00F);
            assert_eq!(after, Ok(mirror(0x0F_0F0F, 0)));
        }
    }

    #[test]
    fn registers_over_24_bits() {
        for register in [0x0100_0000, 0x8000_0106, u32::MAX] {
            for talking in [0, 1, 5] {
                let wrong = mirror(register, talking);
                assert_eq!(step(wrong, 0), Err(Refusal::State));
                assert_eq!(run(wrong, &[]), Err(Refusal::State));
                assert_eq!(closing(wrong), Err(Refusal::State));
            }
        }
        assert_eq!(closing(mirror(0xFF_FFFF, 7)), Ok(0x00FF_FFFF));
    }

    #[test]
    fn runs() {
        let start = mirror(0x00_0106, 0);
        assert_eq!(run(start, &[]), Ok(start));
        assert_eq!(run(mirror(1, 5), &[]), Ok(mirror(1, 5)));
        let packets = [0x0100_0010, 0x0340_0000, 0x0040_0116, 0];
        assert_eq!(run(start, &packets), Ok(mirror(0x40_0116, 1)));
    }
}
