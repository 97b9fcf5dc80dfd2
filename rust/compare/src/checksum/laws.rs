//! The laws of the handshake, each in its own words: what the closing checksum leaves, by
//! what happened to the host's packets on their way and by nothing else.

use second::layout::data_of;
use second::mirror::Mirror;

use crate::host::Told;

use super::changes::{Happening, StartUp};
use super::lists::{data_sum, hexadecimal};

/// A start-up, and what was answered in it.
pub struct Seen {
    pub start_up: StartUp,
    /// After the reset, on both sides.
    pub start: Told<Mirror>,
    /// Of each packet that was sent.
    pub may_send: Vec<Told<()>>,
    /// The host's mirror after all that it sent.
    pub host: Told<Mirror>,
    /// The mirrors after two lists that are joined, each alone after the reset.
    pub parts: Vec<Told<Mirror>>,
    /// The host's closing checksum.
    pub closing: Told<u32>,
    /// The decoder after all that reached it, and the closing checksum as it arrived.
    pub decoder: Told<Mirror>,
}

/// What the laws are called, in the order of `number`.
pub const LAWS: [&str; 9] = [
    "another order",
    "twice or three times",
    "two lists joined",
    "one packet changed",
    "one packet missing",
    "another ID",
    "changes that cancel",
    "blocks sent again",
    "the checksum changed",
];

impl Happening {
    /// The place of its law among all.
    pub fn number(&self) -> usize {
        match self {
            Happening::Reordered => 0,
            Happening::Repeated { .. } => 1,
            Happening::Joined { .. } => 2,
            Happening::Changed { .. } => 3,
            Happening::Missing { .. } => 4,
            Happening::OtherId { .. } => 5,
            Happening::BothChanged { .. } => 6,
            Happening::Blocks { .. } => 7,
            Happening::ChecksumChanged { .. } => 8,
        }
    }
}

impl Seen {
    /// Whether the decoder talks in the end.
    pub fn talks(&self) -> bool {
        self.decoder.fields.talking != 0
    }

    fn is_refused(&self) -> bool {
        let mirrors = [self.start, self.host, self.decoder];
        let mut mirrors = mirrors.iter().chain(&self.parts);
        mirrors.any(|mirror| mirror.number != 0) || self.closing.number != 0
    }
}

/// Says how a start-up breaks its law, if it does.
pub fn judge(seen: &Seen) -> Result<(), String> {
    match fault(seen) {
        None => Ok(()),
        Some(fault) => {
            let law = LAWS[seen.start_up.happening.number()];
            Err(format!("{law}: {fault}{}", shown(seen)))
        }
    }
}

fn fault(seen: &Seen) -> Option<&'static str> {
    if seen.is_refused() {
        return Some("a reset, a run or a closing is refused");
    }
    if seen.may_send.iter().any(|packet| packet.number != 0) {
        return Some("a packet is sent that may not be sent");
    }
    if seen.start.fields != after_reset(seen.start_up.part_id) {
        return Some("the reset does not leave a silent decoder with the part ID's data bits");
    }
    if !is_register_due(seen) {
        return Some("the register is another one");
    }
    match (talks_by_law(&seen.start_up), seen.talks()) {
        (true, false) => Some("the decoder is silent, though it is to talk"),
        (false, true) => Some("the decoder talks, though it is to be silent"),
        _ => None,
    }
}

fn after_reset(part_id: u32) -> Mirror {
    Mirror {
        register: data_of(part_id),
        talking: 0,
    }
}

/// Another order leaves the same register, and so does what was sent without its first two
/// copies. Two lists joined have the effects of both.
fn is_register_due(seen: &Seen) -> bool {
    let host = seen.host.fields.register;
    let effect = |register| seen.start.fields.register ^ register;
    match seen.start_up.happening {
        Happening::Reordered | Happening::Repeated { .. } => seen.decoder.fields.register == host,
        Happening::Joined { .. } => {
            let parts = seen.parts.iter().map(|part| effect(part.fields.register));
            parts.fold(0, |both, part| both ^ part) == effect(host)
        }
        _ => true,
    }
}

/// Whether the decoder is to talk after the closing checksum.
fn talks_by_law(start_up: &StartUp) -> bool {
    match &start_up.happening {
        Happening::Reordered
        | Happening::Repeated { .. }
        | Happening::Joined { .. }
        | Happening::OtherId { .. }
        | Happening::BothChanged { .. } => true,
        Happening::Changed { .. } | Happening::ChecksumChanged { .. } => false,
        Happening::Missing { place } => data_of(start_up.sent[*place]) == 0,
        Happening::Blocks {
            block,
            sent,
            reached,
        } => sent % 2 == reached % 2 || data_sum(block) == 0,
    }
}

fn shown(seen: &Seen) -> String {
    let start_up = &seen.start_up;
    let closing = seen.closing.fields;
    let Mirror { register, talking } = seen.decoder.fields;
    let parts = seen.parts.iter().map(|part| part.fields.register);
    let parts = parts.map(|register| format!("\n  register of one list {register:06X}"));
    format!(
        "\n  part ID {:08X}\n  sent{}, closed by {closing:08X}\n  {}\n  reached{}, closed by \
         {:08X}\n  host's register {:06X}\n  decoder's register {register:06X}, talking \
         {talking}{}",
        start_up.part_id,
        hexadecimal(&start_up.sent),
        start_up.happening.in_words(),
        hexadecimal(&start_up.reached),
        start_up.arriving(closing),
        seen.host.fields.register,
        parts.collect::<String>()
    )
}

#[cfg(test)]
mod tests {
    use std::collections::BTreeSet;

    use super::*;
    use crate::checksum::changes::seeded_start_up;
    use crate::checksum::events::seeded_events;
    use crate::random::Random;
    use second::layout::id_of;

    fn start_up(sent: &[u32], happening: Happening) -> StartUp {
        StartUp {
            part_id: 0xFF00_0106,
            sent: sent.to_vec(),
            happening,
            reached: Vec::new(),
        }
    }

    #[test]
    fn who_is_to_talk() {
        let (place, bits) = (1, 1);
        let sent = [0x8000_84D2, 0x7800_0001, 0x7800_0000];
        let talks = |happening| talks_by_law(&start_up(&sent, happening));
        assert!(talks(Happening::Reordered));
        assert!(talks(Happening::Joined { first: 1 }));
        assert!(talks(Happening::OtherId { place }));
        let places = [0, 1];
        assert!(talks(Happening::BothChanged { places, bits }));
        assert!(!talks(Happening::Changed { place, bits }));
        assert!(!talks(Happening::ChecksumChanged { bits }));
        assert!(!talks(Happening::Missing { place }));
        assert!(talks(Happening::Missing { place: 2 }));
        let (block, places) = (vec![sent[0]], vec![0, 1]);
        assert!(talks(Happening::Repeated { block, places }));
    }

    #[test]
    fn which_blocks_are_noticed() {
        let talks = |block: &[u32], sent, reached| {
            let block = block.to_vec();
            talks_by_law(&start_up(
                &[],
                Happening::Blocks {
                    block,
                    sent,
                    reached,
                },
            ))
        };
        for (sent, reached) in [(1, 1), (1, 3), (3, 1), (2, 0), (0, 2), (2, 4)] {
            assert!(talks(&[0x8000_84D2], sent, reached), "{sent} {reached}");
        }
        for (sent, reached) in [(1, 0), (1, 2), (2, 1), (2, 3), (3, 0), (0, 1)] {
            assert!(!talks(&[0x8000_84D2], sent, reached), "{sent} {reached}");
            assert!(talks(&[0x2000_2000, 0x2100_2000], sent, reached));
            assert!(talks(&[0x7800_0000], sent, reached));
        }
    }

    /// Makes a right answer wrong, and the same wrong answer right again.
    type Turn = fn(&mut Seen);

    #[track_caller]
    fn assert_told(seen: &mut Seen, turn: Turn, fault: &str) {
        assert_eq!(judge(seen), Ok(()));
        turn(seen);
        let told = judge(seen).expect_err("the answer is wrong");
        turn(seen);
        let law = LAWS[seen.start_up.happening.number()];
        assert!(told.starts_with(&format!("{law}: {fault}")), "{told}");
        let part_id = format!("\n  part ID {:08X}\n", seen.start_up.part_id);
        assert!(told.contains(&part_id), "{told}");
    }

    const REFUSED: &str = "a reset, a run or a closing is refused";
    const NO_RESET: &str = "the reset does not leave";
    const OTHER_REGISTER: &str = "the register is another one";

    /// What may go wrong in every start-up, and what is told of it.
    const WRONG: [(Turn, &str); 6] = [
        (|seen| seen.start.number ^= 7, REFUSED),
        (|seen| seen.host.number ^= 2, REFUSED),
        (|seen| seen.closing.number ^= 2, REFUSED),
        (|seen| seen.decoder.number ^= 2, REFUSED),
        (|seen| seen.start.fields.register ^= 1, NO_RESET),
        (|seen| seen.start.fields.talking ^= 1, NO_RESET),
    ];

    /// Where one register must be the same as the other.
    const WRONG_OF_TWO: [(Turn, &str); 2] = [
        (|seen| seen.host.fields.register ^= 1 << 23, OTHER_REGISTER),
        (|seen| seen.decoder.fields.register ^= 1, OTHER_REGISTER),
    ];

    const WRONG_OF_JOINED: [(Turn, &str); 5] = [
        (|seen| seen.host.fields.register ^= 1 << 23, OTHER_REGISTER),
        (|seen| seen.parts[0].fields.register ^= 1, OTHER_REGISTER),
        (
            |seen| seen.parts[1].fields.register ^= 1 << 12,
            OTHER_REGISTER,
        ),
        (|seen| seen.parts[0].number ^= 2, REFUSED),
        (|seen| seen.parts[1].number ^= 2, REFUSED),
    ];

    /// As for whoever looks for the fault.
    #[test]
    fn a_break_is_told_in_full() {
        let mut wrong = seen_by(
            &Make {
                sum: right_sum,
                fits: |_, _| true,
            },
            StartUp {
                reached: vec![0x8000_84D3, 0x7800_0001],
                ..start_up(
                    &[0x8000_84D2, 0x7800_0001],
                    Happening::Changed { place: 0, bits: 1 },
                )
            },
        );
        let told = "one packet changed: the decoder talks, though it is to be silent
  part ID FF000106
  sent 800084D2 78000001, closed by 000085D5
  data bits 000001 of packet 0 arrive changed
  reached 800084D3 78000001, closed by 000085D5
  host's register 0085D5
  decoder's register 0085D4, talking 1";
        assert_eq!(judge(&wrong), Err(told.to_string()));
        wrong.start_up.happening = Happening::Joined { first: 1 };
        wrong.parts = vec![wrong.host, wrong.decoder];
        let told = judge(&wrong).expect_err("the lists have other registers");
        let parts = "\n  register of one list 0085D5\n  register of one list 0085D4";
        assert!(told.ends_with(parts), "{told}");
    }

    #[test]
    fn every_wrong_answer_is_told() {
        for mut seen in seeded_events(1, 2_000).filter_map(|event| event.seen) {
            let wrong_registers = match seen.start_up.happening {
                Happening::Reordered | Happening::Repeated { .. } => &WRONG_OF_TWO[..],
                Happening::Joined { .. } => &WRONG_OF_JOINED,
                _ => &[],
            };
            for (turn, fault) in WRONG.iter().chain(wrong_registers) {
                assert_told(&mut seen, *turn, fault);
            }
            let fault = match seen.talks() {
                true => "the decoder is silent, though it is to talk",
                false => "the decoder talks, though it is to be silent",
            };
            assert_told(&mut seen, |seen| seen.decoder.fields.talking ^= 1, fault);
            if !seen.may_send.is_empty() {
                let fault = "a packet is sent that may not be sent";
                assert_told(&mut seen, |seen| seen.may_send[0].number ^= 7, fault);
            }
        }
    }

    /// The register after a packet.
    type Sum = fn(u32, u32) -> u32;
    /// Whether a checksum is that of the register.
    type Fits = fn(u32, u32) -> bool;

    /// A decoder of any make.
    struct Make {
        sum: Sum,
        fits: Fits,
    }

    fn right_sum(register: u32, packet: u32) -> u32 {
        register ^ data_of(packet)
    }

    fn right_fit(register: u32, checksum: u32) -> bool {
        register == checksum
    }

    /// The numbers of the laws that are broken where host and decoder are of that make.
    fn broken(make: Make) -> Vec<usize> {
        let mut random = Random::new(1);
        let seen = (0..5_000).map(|_| seen_by(&make, seeded_start_up(&mut random)));
        let broken = seen.filter(|seen| judge(seen).is_err());
        let laws: BTreeSet<usize> = broken
            .map(|seen| seen.start_up.happening.number())
            .collect();
        laws.into_iter().collect()
    }

    fn seen_by(make: &Make, start_up: StartUp) -> Seen {
        let accepted = |register, talking| Told {
            number: 0,
            fields: Mirror { register, talking },
        };
        let start = data_of(start_up.part_id);
        let run = |packets: &[u32]| packets.iter().copied().fold(start, make.sum);
        let (host, decoder) = (run(&start_up.sent), run(&start_up.reached));
        let parts = start_up.parts().into_iter();
        let parts = parts.map(|part| accepted(run(part), 0)).collect();
        let talks = (make.fits)(decoder, start_up.arriving(host));
        Seen {
            start: accepted(start, 0),
            may_send: Vec::new(),
            host: accepted(host, 0),
            parts,
            closing: Told {
                number: 0,
                fields: host,
            },
            decoder: accepted(decoder, u32::from(talks)),
            start_up,
        }
    }

    /// Each law is broken by one of these decoders, and by none that is right.
    #[test]
    fn wrong_decoders_break_the_laws() {
        let (sum, fits): (Sum, Fits) = (right_sum, right_fit);
        assert_eq!(broken(Make { sum, fits }), [0; 0]);
        let sums: [(Sum, &[usize]); 6] = [
            // The sum of numbers does not look at the order, but nothing undoes itself.
            (|sum, packet| data_of(sum + data_of(packet)), &[1, 2, 6, 7]),
            // The register is turned by one bit before each packet.
            (
                |sum, packet| data_of(sum << 1 | sum >> 23) ^ data_of(packet),
                &[0, 1, 2, 4, 6, 7],
            ),
            // Bits that are set once stay set.
            (|sum, packet| sum | data_of(packet), &[1, 2, 3, 4, 6, 7]),
            // The highest data bit is left out.
            (|sum, packet| sum ^ packet & 0x7F_FFFF, &[3]),
            // The ID is summed.
            (
                |sum, packet| right_sum(sum, packet) ^ id_of(packet),
                &[4, 5, 7],
            ),
            // Only the last packet counts.
            (|_, packet| data_of(packet), &[0, 1, 2, 3, 4, 6, 7]),
        ];
        for (place, (sum, laws)) in sums.into_iter().enumerate() {
            assert_eq!(broken(Make { sum, fits }), laws, "{place}");
        }
        let fits: [(Fits, &[usize]); 3] = [
            (|_, _| true, &[3, 4, 7, 8]),
            (|_, _| false, &[0, 1, 2, 4, 5, 6, 7]),
            // The highest bit of the checksum is not looked at.
            (|sum, checksum| (sum ^ checksum) << 9 == 0, &[3, 8]),
        ];
        for (place, (fits, laws)) in fits.into_iter().enumerate() {
            assert_eq!(broken(Make { sum, fits }), laws, "{place}");
        }
    }
}
