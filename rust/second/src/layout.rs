//! How a packet's 32 bits are divided (Table 1: D31 to D24 are the ID, D23 to
//! D0 the data bits), said once for those who build it and those who read it.
//! Message words are divided into fields in the same way.

use crate::numbers::Numbers;
use crate::refusal::Refusal;

/// The ID stands in the highest byte (S8.3.5).
pub const ID_PLACE: u32 = 24;
pub const DATA_BITS: u32 = (1 << ID_PLACE) - 1;

pub fn id_of(packet: u32) -> u32 {
    packet >> ID_PLACE
}

pub fn data_of(packet: u32) -> u32 {
    packet & DATA_BITS
}

/// Bits that stand side by side and are one number.
#[derive(Clone, Copy, Debug)]
pub struct Field {
    /// Where the lowest bit stands: n for Dn.
    place: u32,
    /// How many bits there are, at most 24.
    width: u32,
}

pub const fn field(place: u32, width: u32) -> Field {
    Field { place, width }
}

impl Field {
    /// The largest number that fits.
    pub const fn largest(self) -> u32 {
        (1 << self.width) - 1
    }

    pub const fn bits(self) -> u32 {
        self.largest() << self.place
    }

    pub const fn of(self, packet: u32) -> u32 {
        (packet >> self.place) & self.largest()
    }

    /// A number that fits, in its bits.
    pub const fn put(self, number: u32) -> u32 {
        number << self.place
    }

    /// A number in its bits; one that does not fit is refused.
    pub fn hold(self, number: u32) -> Result<u32, Refusal> {
        if number > self.largest() {
            return Err(Refusal::Packet);
        }
        Ok(self.put(number))
    }
}

/// A table of bit assignments. A bit is in one field, or unused (x), or the
/// table prints it as 0 or 1.
#[derive(Clone, Copy, Debug)]
pub struct Layout {
    /// The bits that the table prints as 1.
    pub ones: u32,
    /// The bits that the table marks x: they are not looked at.
    pub unused: u32,
    pub fields: &'static [Field],
}

impl Layout {
    /// The bits that the table prints as 0 or 1.
    pub fn printed(&self) -> u32 {
        let free = |bits, field: &Field| bits | field.bits();
        !self.fields.iter().fold(self.unused, free)
    }

    /// Whether every printed bit is as printed; those of the ID are among them.
    pub fn fits(&self, packet: u32) -> bool {
        packet & self.printed() == self.ones
    }

    /// Whether packets of this table can have the ID.
    pub fn has_id(&self, id: u32) -> bool {
        ((id << ID_PLACE) ^ self.ones) & self.printed() & !DATA_BITS == 0
    }
}

/// The fields of a kind of packet: one number for each field of its layout.
pub trait Kind: Numbers {
    const LAYOUT: Layout;
}

/// The packet with these fields; one that is too large for its bits is refused.
pub fn build<K: Kind>(fields: &K) -> Result<u32, Refusal> {
    let numbers = fields.numbers();
    let mut held = K::LAYOUT.fields.iter().zip(numbers);
    held.try_fold(K::LAYOUT.ones, |packet, (field, number)| {
        Ok(packet | field.hold(number)?)
    })
}

/// The fields of a packet; one of another kind is refused, and so is one with
/// a bit that is not as the table prints it.
pub fn read<K: Kind>(packet: u32) -> Result<K, Refusal> {
    if !K::LAYOUT.fits(packet) {
        return Err(Refusal::Packet);
    }
    let fields = K::LAYOUT.fields.iter();
    Ok(K::from_numbers(&mut fields.map(|field| field.of(packet))))
}

/// Declares a kind of packet by its table: the ID, and for each field its place
/// and width. Where a part of the ID is a field, `id` has 0 there.
macro_rules! packet {
    (
        $(#[$about:meta])*
        $name:ident, id $id:expr $(, unused $unused:expr)? => {
            $($(#[$meaning:meta])* $field:ident: $place:expr,)*
        }
    ) => {
        $crate::numbers::numbers! {
            $(#[$about])*
            pub struct $name {
                $($(#[$meaning])* pub $field: u32,)*
            }
        }

        impl $crate::layout::Kind for $name {
            const LAYOUT: $crate::layout::Layout = $crate::layout::Layout {
                ones: $id << $crate::layout::ID_PLACE,
                unused: 0 $(| $unused)?,
                fields: &[$($place),*],
            };
        }
    };
}

pub(crate) use packet;

#[cfg(test)]
mod tests {
    use super::*;

    packet! {
        /// ID A0H or A1H; D23 to D12 and D8 are printed as 0, D3 to D0 are unused.
        Sample, id 0xA0, unused 0xF => {
            low_id: field(24, 1),
            three: field(9, 3),
            four: field(4, 4),
        }
    }

    const SAMPLE: Sample = Sample {
        low_id: 1,
        three: 5,
        four: 9,
    };

    #[test]
    fn built_and_read() {
        assert_eq!(build(&SAMPLE), Ok(0xA100_0A90));
        assert_eq!(read(0xA100_0A90), Ok(SAMPLE));
        assert_eq!(read(0xA100_0A9F), Ok(SAMPLE));
    }

    #[test]
    fn printed_bits_are_looked_at() {
        assert_eq!(Sample::LAYOUT.printed(), 0xFEFF_F100);
        for printed in (0..32).filter(|place| 0xFEFF_F100_u32 >> place & 1 == 1) {
            let packet = 0xA100_0A90 ^ 1 << printed;
            assert_eq!(read::<Sample>(packet), Err(Refusal::Packet));
        }
    }

    #[test]
    fn fields_too_large() {
        for wrong in [8, 1 << 31, u32::MAX] {
            let fields = Sample {
                three: wrong,
                ..SAMPLE
            };
            assert_eq!(build(&fields), Err(Refusal::Packet));
        }
    }

    #[test]
    fn ids_of_a_layout() {
        let ids: Vec<u32> = (0..256).filter(|id| Sample::LAYOUT.has_id(*id)).collect();
        assert_eq!(ids, [0xA0, 0xA1]);
    }
}
