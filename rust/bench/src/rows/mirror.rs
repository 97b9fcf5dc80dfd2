//! The mirror of the decoder.

use mortisevane::exports::*;
use second::mirror::{self, Mirror as SecondMirror};
use second::refusal::Refusal;

use crate::measure::{side, Measure};
use crate::told::{answer_of_numbers, told, words_of};

pub fn rows(measure: &mut Measure) {
    measure.group("mirror");
    reset(measure, "accepted", 0xFF00_0106);
    reset(measure, "refused 7: another packet", 0x7F00_0106);
    let silent = (0x40_0116, 0);
    step(measure, "a packet that is summed", silent, 0x0100_0010);
    step(
        measure,
        "the checksum that makes it talk",
        silent,
        0x0040_0116,
    );
    step(measure, "a special packet", silent, 0x1C00_0000);
    step(
        measure,
        "refused 2: a register over 24 bits",
        (1 << 24, 0),
        0x0100_0010,
    );
    run(measure, "1 packet", silent, 1);
    run(measure, "1000 packets", silent, 1000);
    run(
        measure,
        "refused 2: a register over 24 bits, 1000 packets",
        (1 << 24, 0),
        1000,
    );
    closing(measure, "accepted", silent);
    closing(measure, "refused 2: a register over 24 bits", (1 << 24, 0));
}

fn reset(measure: &mut Measure, input: &str, packet: u32) {
    let second = mirror::reset as fn(u32) -> Result<SecondMirror, Refusal>;
    measure.row(
        "mirror_reset",
        input,
        side(
            packet,
            |packet| unsafe { mortisevane_mirror_reset(*packet) },
            |_, mirrored| told(&words_of(mirrored)),
        ),
        side(
            (packet, second),
            |(packet, second)| second(*packet),
            |_, mirrored| answer_of_numbers(mirrored),
        ),
    );
}

/// The library's mirror and the second program's, of register and whether it is talking. The library answers a refusal
/// with the mirror as it was, the second program with the refusal alone.
fn mirrors((register, talking): (u32, u32)) -> (Mirror, SecondMirror) {
    (
        Mirror { register, talking },
        SecondMirror { register, talking },
    )
}

fn mirrored(before: SecondMirror, after: &Result<SecondMirror, Refusal>) -> Vec<u64> {
    let number = after.err().map_or(0, Refusal::number);
    let mirror = after.unwrap_or(before);
    told(&[number, mirror.register, mirror.talking])
}

fn step(measure: &mut Measure, input: &str, before: (u32, u32), packet: u32) {
    let (own, other) = mirrors(before);
    let second = mirror::step as fn(SecondMirror, u32) -> Result<SecondMirror, Refusal>;
    measure.row(
        "mirror_step",
        input,
        side(
            (own, packet),
            |(mirror, packet)| unsafe { mortisevane_mirror_step(*mirror, *packet) },
            |_, mirrored| told(&words_of(mirrored)),
        ),
        side(
            (other, packet, second),
            |(mirror, packet, second)| second(*mirror, *packet),
            |_, after| mirrored(other, after),
        ),
    );
}

/// Packets of every ID, one after the other.
fn run(measure: &mut Measure, input: &str, before: (u32, u32), packets: u32) {
    let (own, other) = mirrors(before);
    let packets: Vec<u32> = (0..packets)
        .map(|place| ((place % 256) << 24) | (place * 4_099))
        .collect();
    let packets = packets.as_slice();
    type Run = fn(SecondMirror, &[u32]) -> Result<SecondMirror, Refusal>;
    let second = mirror::run as Run;
    measure.row(
        "mirror_run",
        input,
        side(
            (own, packets),
            |(mirror, packets)| unsafe {
                mortisevane_mirror_run(*mirror, packets.as_ptr(), packets.len())
            },
            |_, mirrored| told(&words_of(mirrored)),
        ),
        side(
            (other, packets, second),
            |(mirror, packets, second)| second(*mirror, packets),
            |_, after| mirrored(other, after),
        ),
    );
}

fn closing(measure: &mut Measure, input: &str, before: (u32, u32)) {
    let (own, other) = mirrors(before);
    let second = mirror::closing as fn(SecondMirror) -> Result<u32, Refusal>;
    measure.row(
        "mirror_closing",
        input,
        side(
            own,
            |mirror| unsafe { mortisevane_mirror_closing(*mirror) },
            |_, built| told(&words_of(built)),
        ),
        side(
            (other, second),
            |(mirror, second)| second(*mirror),
            |_, built| answer_of_numbers(built),
        ),
    );
}
