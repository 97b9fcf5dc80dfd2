//! The decoder's packets of 32 bits: built from their fields, and read (S8.3 to S8.8).
//!
//! A packet is a plain `u32`, the ID in its highest byte. Each kind is a struct of its fields. A field is a `u32`, a flag
//! too, so that one too large for its bits is refused and not cut. The same ID means one thing to the decoder and another
//! from it, so the caller says by the type which packet it is.
//!
//! ```
//! use mortisevane::packet::{self, Brings, Configuration, Span, Vector};
//! use mortisevane::Refusal;
//!
//! let configuration = Configuration { oscillator: 1, synchronous_mode: 1, minute_timer: 1, ..Configuration::default() };
//! assert_eq!(configuration.build(), Ok(0x0101_0090));
//! assert_eq!(Configuration::read(0x0101_0090), Ok(configuration));
//! assert_eq!(Configuration { oscillator: 4, ..configuration }.build(), Err(Refusal::Packet));
//!
//! // A numeric vector at word 7: K is 6, and its one word is word 9.
//! let vector = Vector::read(0x0703_1809)?;
//! assert_eq!(vector.brings(), Brings::Words(Span { check: 6, words: 1, start: 9 }));
//!
//! // 04H to 0EH are never to be sent.
//! assert_eq!(packet::may_send(0x0400_0000), Err(Refusal::Packet));
//! # Ok::<(), Refusal>(())
//! ```

use crate::refusal::{told, Refusal};

#[doc(inline)]
pub use crate::exports::{
    Address, AddressEnable, AllFrameMode, Checksum, Configuration, Control, FrameAssignment, Instruction, Message, PartId,
    ReceiverLines, ShortMessage, ShutDown, Span, Status, UserAddress, Vector,
};
#[doc(inline)]
pub use crate::exports::{
    INSTRUCTION_TEMPORARY, PACKET_ADDRESS, PACKET_ADDRESS_ENABLE, PACKET_ALL_FRAME_MODE, PACKET_CHECKSUM,
    PACKET_CONFIGURATION, PACKET_CONTROL, PACKET_DATA_1600, PACKET_DATA_3200, PACKET_FIRST_FRAMES,
    PACKET_FIRST_MESSAGE, PACKET_FIRST_SPECIAL, PACKET_FIRST_USER_ADDRESS, PACKET_FIRST_VECTOR, PACKET_LAST_FRAMES,
    PACKET_LAST_SPECIAL, PACKET_LAST_USER_ADDRESS, PACKET_LAST_WORD, PACKET_PART_ID, PACKET_RECEIVER_LINES,
    PACKET_RECEIVER_OFF, PACKET_SHUT_DOWN_1, PACKET_SHUT_DOWN_2, PACKET_STATUS, PACKET_SYNC_1600, PACKET_SYNC_3200,
    PACKET_WARM_UP_1, PACKET_WARM_UP_2, PACKET_WARM_UP_3, PACKET_WARM_UP_4, PACKET_WARM_UP_5, SHORT_MESSAGE_CHARACTERS,
    SHORT_MESSAGE_NUMBERED, SHORT_MESSAGE_SOURCE, SHORT_MESSAGE_SPARE, VECTOR_ALPHANUMERIC, VECTOR_HEX,
    VECTOR_INSTRUCTION, VECTOR_NUMBERED, VECTOR_SECURE, VECTOR_SHORT, VECTOR_SPECIAL, VECTOR_STANDARD,
};

macro_rules! built {
    ($($fields:ident $build:ident)*) => {$(
        impl $fields {
            /// The packet that has these fields.
            ///
            /// Refuses [`Refusal::Packet`]: a field too large for its bits.
            pub fn build(self) -> Result<u32, Refusal> {
                let fields = self;
                let built = ask!($build(fields));
                told(built.number, built.packet.bits)
            }
        }
    )*};
}

macro_rules! read {
    ($($fields:ident $read:ident $refuses:literal)*) => {$(
        impl $fields {
            /// The fields of a packet.
            ///
            #[doc = concat!("Refuses [`Refusal::Packet`]: ", $refuses, ".")]
            pub fn read(packet: u32) -> Result<Self, Refusal> {
                let read = ask!($read(packet));
                told(read.number, read.fields)
            }
        }
    )*};
}

built! {
    Checksum mortisevane_build_checksum
    Configuration mortisevane_build_configuration
    Control mortisevane_build_control
    AllFrameMode mortisevane_build_all_frame_mode
    ReceiverLines mortisevane_build_receiver_lines
    ShutDown mortisevane_build_shut_down
    FrameAssignment mortisevane_build_frame_assignment
    UserAddress mortisevane_build_user_address
    AddressEnable mortisevane_build_address_enable
    PartId mortisevane_build_part_id
}

read! {
    Checksum mortisevane_read_checksum "another packet"
    Configuration mortisevane_read_configuration "another packet, or a bit set that its table prints as 0"
    Control mortisevane_read_control "another packet, or a bit set that its table prints as 0"
    AllFrameMode mortisevane_read_all_frame_mode "another packet, or a bit set that its table prints as 0"
    ReceiverLines mortisevane_read_receiver_lines "another packet, or a bit set that its table prints as 0"
    ShutDown mortisevane_read_shut_down "another packet, or a bit set that its table prints as 0"
    FrameAssignment mortisevane_read_frame_assignment "another packet, or a bit set that its table prints as 0"
    UserAddress mortisevane_read_user_address "another packet, or a bit set that its table prints as 0"
    AddressEnable mortisevane_read_address_enable "another packet, or a bit set that its table prints as 0"
    PartId mortisevane_read_part_id "another packet"
    Status mortisevane_read_status "another packet"
    Address mortisevane_read_address "another packet, or a vector's word number over 87. \
        Then [`Refusal::Address`]: an index of no address"
    Vector mortisevane_read_vector "another packet. \
        Whether an ID of 02H to 57H is a vector only the [calls](crate::calls) tell"
    Message mortisevane_read_message "another packet. \
        Whether an ID of 03H to 57H is a message word only the [calls](crate::calls) tell"
}

/// What a vector brings, by its type.
#[derive(Clone, Copy, Debug, PartialEq, Eq)]
pub enum Brings {
    /// Message words: numeric, alphanumeric, hex/binary and secure vectors.
    Words(Span),
    /// A short message, or a tone alone.
    ShortMessage(ShortMessage),
    /// A short instruction.
    Instruction(Instruction),
}

impl Vector {
    /// What the vector brings: of its three structs the one that its type has.
    pub fn brings(&self) -> Brings {
        match self.kind {
            VECTOR_SHORT => Brings::ShortMessage(self.short_message),
            VECTOR_INSTRUCTION => Brings::Instruction(self.instruction),
            _ => Brings::Words(self.span),
        }
    }
}

/// Whether the host may send a packet.
///
/// Refuses [`Refusal::Packet`].
pub fn may_send(packet: u32) -> Result<(), Refusal> {
    told(ask!(mortisevane_may_send(packet)), ())
}
