//! The kinds of packets, each with the exports that build and read it.

use std::fmt::Debug;

use second::heard::{self, Address, AddressPacket, Message, Status, MESSAGE_WORDS};
use second::layout::{self, Kind};
use second::numbers::Numbers;
use second::packet::{
    AddressEnable, AllFrameMode, Checksum, Configuration, Control, FrameAssignment, PartId,
    ReceiverLines, ShutDown, UserAddress,
};
use second::refusal::Refusal;
use second::vector::{self, Vector, VECTOR_WORDS};

/// Fields that the library reads from a packet.
pub trait Readable: Numbers + Copy + Debug + Default + PartialEq + Send {
    const NAME: &'static str;
    /// The export that reads it.
    const READER: u8;

    /// Whether a packet of this kind can have the ID.
    fn has_id(id: u32) -> bool;
    /// What the second program reads.
    fn read(packet: u32) -> Result<Self, Refusal>;
}

/// Fields that the library makes a packet of, too.
pub trait Buildable: Readable + Kind {
    /// The export that builds it.
    const BUILDER: u8;
}

macro_rules! readable {
    ($kind:ident, $name:literal, $reader:literal, $has_id:expr, $read:path) => {
        impl Readable for $kind {
            const NAME: &'static str = $name;
            const READER: u8 = $reader;

            fn has_id(id: u32) -> bool {
                let has_id: fn(u32) -> bool = $has_id;
                has_id(id)
            }

            fn read(packet: u32) -> Result<Self, Refusal> {
                $read(packet)
            }
        }
    };
}

macro_rules! buildable {
    ($($kind:ident, $name:literal, $builder:literal, $reader:literal;)*) => {$(
        readable!($kind, $name, $reader, |id| $kind::LAYOUT.has_id(id), layout::read);

        impl Buildable for $kind {
            const BUILDER: u8 = $builder;
        }
    )*};
}

buildable! {
    Checksum, "checksum", 10, 20;
    Configuration, "configuration", 11, 21;
    Control, "control", 12, 22;
    AllFrameMode, "all frame mode", 13, 23;
    ReceiverLines, "receiver lines", 14, 24;
    ShutDown, "shut-down", 15, 25;
    FrameAssignment, "frame assignment", 16, 26;
    UserAddress, "user address", 17, 27;
    AddressEnable, "address enable", 18, 28;
    PartId, "part ID", 19, 29;
}

readable!(
    Status,
    "status",
    30,
    |id| Status::LAYOUT.has_id(id),
    heard::read_status
);
readable!(
    Address,
    "address",
    31,
    |id| AddressPacket::LAYOUT.has_id(id),
    heard::read_address
);
readable!(
    Vector,
    "vector",
    32,
    |id| VECTOR_WORDS.contains(&id),
    vector::read_vector
);
readable!(
    Message,
    "message",
    33,
    |id| MESSAGE_WORDS.contains(&id),
    heard::read_message
);
