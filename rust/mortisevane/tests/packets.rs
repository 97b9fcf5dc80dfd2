//! Packets, each worked out by hand from its table in docs/datasheet.md.

use std::fmt::Debug;

use mortisevane::packet::{
    self, Address, AddressEnable, AllFrameMode, Brings, Checksum, Configuration, Control, FrameAssignment, Instruction,
    Message, PartId, ReceiverLines, ShortMessage, ShutDown, Span, Status, UserAddress, Vector, INSTRUCTION_TEMPORARY,
    SHORT_MESSAGE_CHARACTERS, VECTOR_ALPHANUMERIC, VECTOR_INSTRUCTION, VECTOR_SHORT, VECTOR_STANDARD,
};
use mortisevane::Refusal;

struct Sent<F> {
    build: fn(F) -> Result<u32, Refusal>,
    read: fn(u32) -> Result<F, Refusal>,
}

impl<F: Copy + Debug + PartialEq> Sent<F> {
    fn there_and_back(&self, fields: F, packet: u32) -> &Self {
        assert_eq!((self.build)(fields), Ok(packet));
        assert_eq!((self.read)(packet), Ok(fields));
        assert_eq!(packet::may_send(packet), Ok(()));
        self
    }

    fn refused(&self, large: F, other: u32) {
        assert_eq!((self.build)(large), Err(Refusal::Packet));
        assert_eq!((self.read)(other), Err(Refusal::Packet));
    }
}

#[test]
fn table_9_checksum() {
    Sent { build: Checksum::build, read: Checksum::read }
        .there_and_back(Checksum { value: 0x018544 }, 0x0001_8544)
        .refused(Checksum { value: 0x100_0000 }, 0x0101_8544);
}

#[test]
fn table_5_configuration() {
    let fields = Configuration {
        oscillator: 3,
        polarity: 2,
        synchronous_mode: 0,
        maximum_off_time: 1,
        clock_output_disable: 1,
        minute_timer: 0,
        low_battery_polarity: 1,
    };
    Sent { build: Configuration::build, read: Configuration::read }
        .there_and_back(fields, 0x0103_0268)
        .refused(Configuration { minute_timer: 2, ..fields }, 0x0103_0269);
}

#[test]
fn table_11_control() {
    let fields =
        Control { forced_frames: 0x81, single_phase: 1, phase: 2, block_information: 1, minute_timer_clear: 1, on: 1 };
    Sent { build: Control::build, read: Control::read }
        .there_and_back(fields, 0x0281_6051)
        .refused(Control { forced_frames: 0x100, ..fields }, 0x0281_6053);
}

#[test]
fn table_56_all_frame_mode() {
    let fields = AllFrameMode { decrement: 1, force: 0, decrement_temporary: 0x8001 };
    Sent { build: AllFrameMode::build, read: AllFrameMode::read }
        .there_and_back(fields, 0x0380_8001)
        .there_and_back(AllFrameMode { force: 1, ..AllFrameMode::default() }, 0x0340_0000)
        .refused(AllFrameMode { force: 2, ..fields }, 0x03A0_8001);
}

#[test]
fn table_19_receiver_lines() {
    let fields = ReceiverLines { forced: 0xA5, settings: 0x5A };
    Sent { build: ReceiverLines::build, read: ReceiverLines::read }
        .there_and_back(fields, 0x0F00_A55A)
        .refused(ReceiverLines { settings: 0x100, ..fields }, 0x0F01_A55A);
}

#[test]
fn table_21_shut_down() {
    let fields = ShutDown { setting: 1, enable: 1, low_battery_check: 1, lines: 0xC3, time: 0x3F };
    Sent { build: ShutDown::build, read: ShutDown::read }
        .there_and_back(fields, 0x1B88_C33F)
        .there_and_back(ShutDown { setting: 0, ..fields }, 0x1A88_C33F)
        .refused(ShutDown { time: 0x40, ..fields }, 0x1B88_C37F);
}

#[test]
fn table_29_frame_assignment() {
    Sent { build: FrameAssignment::build, read: FrameAssignment::read }
        .there_and_back(FrameAssignment { range: 7, frames: 8 }, 0x2700_0008)
        .refused(FrameAssignment { range: 8, frames: 8 }, 0x2701_0008);
}

#[test]
fn table_26_user_address() {
    let fields = UserAddress { location: 15, long_address: 1, tone_only: 1, word: 0x1FFFFE };
    Sent { build: UserAddress::build, read: UserAddress::read }
        .there_and_back(fields, 0x8F7F_FFFE)
        .refused(UserAddress { location: 16, ..fields }, 0x8FFF_FFFE);
}

#[test]
fn table_27_address_enable() {
    Sent { build: AddressEnable::build, read: AddressEnable::read }
        .there_and_back(AddressEnable { enabled: 0x8001 }, 0x7800_8001)
        .refused(AddressEnable { enabled: 0x1_0000 }, 0x7801_8001);
}

/// The decoder sends it, and the host never does.
#[test]
fn table_8_part_id() {
    let fields = PartId { model: 0, compatibility: 1, revision: 6 };
    assert_eq!(fields.build(), Ok(0xFF00_0106));
    assert_eq!(PartId::read(0xFF00_0106), Ok(fields));
    assert_eq!(PartId { model: 4, ..fields }.build(), Err(Refusal::Packet));
    assert_eq!(PartId::read(0x7F00_0106), Err(Refusal::Packet));
    assert_eq!(packet::may_send(0xFF00_0106), Err(Refusal::Packet));
}

#[test]
fn table_2_what_may_be_sent() {
    // Receiver settings have any data bits; special and reserved packets are never sent.
    assert_eq!(packet::may_send(0x10FF_FFFF), Ok(()));
    for packet in [0x0400_0000, 0x1C00_0000, 0x2800_0000, 0x7900_0000, 0x9000_0000, 0x0200_0002] {
        assert_eq!(packet::may_send(packet), Err(Refusal::Packet));
    }
}

#[test]
fn table_12_status() {
    let status = Status {
        frame_valid: 1,
        frame: 125,
        synchronous: 1,
        low_battery: 0,
        cycle: 10,
        synchronous_update: 1,
        low_battery_update: 0,
        minute: 1,
        end_of_frame: 1,
        overflow: 0,
    };
    assert_eq!(Status::read(0x7FFD_8A94), Ok(status));
    // With every bit set whose value is not guaranteed.
    assert_eq!(Status::read(0x7FFD_BABE), Ok(status));
    assert_eq!(Status::read(0xFFFD_8A94), Err(Refusal::Packet));
}

#[test]
fn table_30_address() {
    let address = Address { priority: 1, phase: 2, long_address: 1, address: 31, tone_only: 0, vector: 87 };
    assert_eq!(Address::read(0x01D0_8F57), Ok(address));
    // No vector comes for a tone-only address, whatever stands in its place.
    assert_eq!(Address::read(0x0100_03FF), Ok(Address { address: 3, tone_only: 1, ..Address::default() }));
    assert_eq!(Address::read(0x0100_0058), Err(Refusal::Packet));
    assert_eq!(Address::read(0x0100_1005), Err(Refusal::Address));
}

#[test]
fn tables_31_and_36_vectors_with_words() {
    let numeric = Vector::read(0x0703_1909).unwrap();
    assert_eq!((numeric.word, numeric.damaged, numeric.phase, numeric.kind), (7, 0, 0, VECTOR_STANDARD));
    assert_eq!(numeric.brings(), Brings::Words(Span { check: 6, words: 3, start: 9 }));
    let text = Vector::read(0x08E5_020C).unwrap();
    assert_eq!((text.word, text.damaged, text.phase, text.kind), (8, 1, 3, VECTOR_ALPHANUMERIC));
    assert_eq!(text.brings(), Brings::Words(Span { check: 0, words: 4, start: 12 }));
    for packet in [0x0103_1909, 0x5803_1909] {
        assert_eq!(Vector::read(packet), Err(Refusal::Packet));
    }
}

#[test]
fn tables_33_and_37_vectors_without_words() {
    let short = Vector::read(0x0802_0C84).unwrap();
    let kind = SHORT_MESSAGE_CHARACTERS;
    let characters = ShortMessage { kind, first: 1, second: 2, third: 3, ..ShortMessage::default() };
    assert_eq!((short.kind, short.brings()), (VECTOR_SHORT, Brings::ShortMessage(characters)));
    let instruction = Vector::read(0x0901_1668).unwrap();
    let temporary = Instruction { kind: INSTRUCTION_TEMPORARY, address: 16 + 5, frame: 77, unread: 0 };
    assert_eq!((instruction.kind, instruction.brings()), (VECTOR_INSTRUCTION, Brings::Instruction(temporary)));
}

#[test]
fn table_40_message() {
    assert_eq!(Message::read(0x0BC2_0001), Ok(Message { word: 11, damaged: 1, phase: 2, bits: 0x020001 }));
    for packet in [0x0242_0001, 0x5842_0001] {
        assert_eq!(Message::read(packet), Err(Refusal::Packet));
    }
}
