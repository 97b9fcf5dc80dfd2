//! Packets: built, read, and whether they may be sent. Each builder and each reader has an input that it accepts and
//! one that it refuses.

use mortisevane::exports::*;
use second::layout::{build, read, Kind};
use second::numbers::Numbers;
use second::refusal::Refusal;
use second::{heard, packet, vector};

use crate::measure::{side, Measure};
use crate::told::{answer_of_numbers, from_words, told, words_of};

pub fn rows(measure: &mut Measure) {
    measure.group("packets");
    builders(measure);
    readers_of_sent(measure);
    readers_of_heard(measure);
    let sent = [
        ("a checksum", 0x0012_3456),
        ("a receiver setting", 0x19FF_FFFF),
        ("a user address", 0x8F5F_FFFE),
        ("an address enable, the last of the kinds", 0x7800_8001),
        ("refused 7: a bit that is printed as 0", 0x8FDF_FFFE),
        ("refused 7: a reserved ID", 0x0400_0000),
    ];
    for (input, bits) in sent {
        let (export, second) = (mortisevane_may_send, packet::may_send);
        packet_row(measure, "may_send", input, bits, export, second);
    }
}

/// Rows of builders: the export, the second program's kind of packet, and fields that are accepted.
macro_rules! builders {
    ($measure:ident: $($export:ident $kind:ident $numbers:expr;)*) => {
        $(building::<_, $kind>($measure, stringify!($export), $export, &$numbers);)*
    };
}

fn builders(measure: &mut Measure) {
    use second::packet::*;
    builders! {
        measure:
        mortisevane_build_checksum Checksum [0xFF_FFFF];
        mortisevane_build_configuration Configuration [3, 2, 1, 1, 1, 1, 1];
        mortisevane_build_control Control [255, 1, 3, 1, 1, 1];
        mortisevane_build_all_frame_mode AllFrameMode [1, 1, 0xFFFF];
        mortisevane_build_receiver_lines ReceiverLines [255, 255];
        mortisevane_build_shut_down ShutDown [1, 1, 1, 255, 63];
        mortisevane_build_frame_assignment FrameAssignment [7, 0xFFFF];
        mortisevane_build_user_address UserAddress [15, 1, 1, 0x1F_FFFF];
        mortisevane_build_address_enable AddressEnable [0xFFFF];
        mortisevane_build_part_id PartId [3, 0x3FFF, 255];
    }
}

/// The fields as given, and with the last too large.
fn building<L: Copy, K: Kind + Clone>(
    measure: &mut Measure,
    export_name: &str,
    export: unsafe extern "C" fn(L) -> Built,
    numbers: &[u32],
) {
    let mut refused = numbers.to_vec();
    refused[numbers.len() - 1] = u32::MAX;
    let inputs = [
        ("accepted", numbers),
        ("refused 7: its last field too large", &refused),
    ];
    for (input, numbers) in inputs {
        let fields = K::from_numbers(&mut numbers.iter().copied());
        measure.row(
            operation(export_name),
            input,
            side(
                from_words::<L>(numbers),
                |fields| unsafe { export(*fields) },
                |_, built| told(&words_of(built)),
            ),
            side(
                (fields, build::<K> as fn(&K) -> Result<u32, Refusal>),
                |(fields, second)| second(fields),
                |_, built| answer_of_numbers(built),
            ),
        );
    }
}

/// An export's name as the tables have it.
fn operation(export_name: &str) -> &str {
    export_name.trim_start_matches("mortisevane_")
}

/// Rows of readers: the export, the second program's function, a packet that is accepted, and the bits that make it
/// refused.
macro_rules! readers {
    ($measure:ident: $($export:ident $second:expr, $accepted:literal ^ $wrong:expr;)*) => {
        $(reading($measure, stringify!($export), $export, $second, $accepted, $wrong);)*
    };
}

fn readers_of_sent(measure: &mut Measure) {
    use second::packet::*;
    readers! {
        measure:
        mortisevane_read_checksum read::<Checksum>, 0x0012_3456 ^ 1 << 24;
        mortisevane_read_configuration read::<Configuration>, 0x0103_03F8 ^ 1;
        mortisevane_read_control read::<Control>, 0x02FF_7051 ^ 2;
        mortisevane_read_all_frame_mode read::<AllFrameMode>, 0x0340_FFFF ^ 1 << 16;
        mortisevane_read_receiver_lines read::<ReceiverLines>, 0x0F00_A53C ^ 1 << 16;
        mortisevane_read_shut_down read::<ShutDown>, 0x1B88_5A3F ^ 1 << 6;
        mortisevane_read_frame_assignment read::<FrameAssignment>, 0x2500_2000 ^ 1 << 16;
        mortisevane_read_user_address read::<UserAddress>, 0x8F5F_FFFE ^ 1 << 23;
        mortisevane_read_address_enable read::<AddressEnable>, 0x7800_8001 ^ 1 << 16;
        mortisevane_read_part_id read::<PartId>, 0xFF00_0106 ^ 1 << 24;
    }
}

fn readers_of_heard(measure: &mut Measure) {
    readers! {
        measure:
        mortisevane_read_status heard::read_status, 0x7FFF_CFD5 ^ 1 << 31;
        mortisevane_read_message heard::read_message, 0x574A_AAAA ^ 1 << 31;
    }
    let addresses = [
        ("accepted", 0x0170_8F03),
        ("refused 7: word 88", 0x0170_8F58),
        ("refused 8: an index of no address", 0x0170_7F03),
    ];
    for (input, bits) in addresses {
        let (export, second) = (mortisevane_read_address, heard::read_address);
        packet_row(measure, "read_address", input, bits, export, second);
    }
    let vectors = [
        ("numeric", 0x0E3B_E994),
        ("alphanumeric", 0x57E5_2A83),
        ("a short message of characters", 0x0302_2704),
        ("a numbered short message", 0x0302_1D7A),
        ("a temporary address", 0x0301_2A68),
        ("refused 7: another packet", 0x5800_0000),
    ];
    for (input, bits) in vectors {
        let (export, second) = (mortisevane_read_vector, vector::read_vector);
        packet_row(measure, "read_vector", input, bits, export, second);
    }
}

fn reading<L: Copy, F: Numbers>(
    measure: &mut Measure,
    export_name: &str,
    export: unsafe extern "C" fn(u32) -> L,
    second: fn(u32) -> Result<F, Refusal>,
    accepted: u32,
    wrong_bit: u32,
) {
    let name = operation(export_name);
    packet_row(measure, name, "accepted", accepted, export, second);
    let input = "refused 7: another packet, or a bit printed as 0";
    packet_row(measure, name, input, accepted ^ wrong_bit, export, second);
}

fn packet_row<L: Copy, F: Numbers>(
    measure: &mut Measure,
    operation: &str,
    input: &str,
    packet: u32,
    export: unsafe extern "C" fn(u32) -> L,
    second: fn(u32) -> Result<F, Refusal>,
) {
    measure.row(
        operation,
        input,
        side(
            packet,
            |packet| unsafe { export(*packet) },
            |_, fields| told(&words_of(fields)),
        ),
        side(
            packet,
            |packet| second(*packet),
            |_, fields| answer_of_numbers(fields),
        ),
    );
}
