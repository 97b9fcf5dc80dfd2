//! The mirror of the decoder: its checksum register, and whether it is talking (S8.4.2).
//!
//! ```
//! use mortisevane::{Mirror, Refusal};
//!
//! let mut mirror = Mirror::reset(0xFF00_0106)?;
//! mirror.run(&[0x0100_0010, 0x0340_0000])?;
//! assert_eq!(mirror.register, 0x400116);
//! assert!(!mirror.is_talking());
//!
//! mirror.step(mirror.closing()?)?;
//! assert!(mirror.is_talking());
//!
//! // The mirror is two numbers: a caller may keep them, and an unsound register is refused.
//! let mut kept = Mirror { register: 0x100_0000, ..mirror };
//! assert_eq!(kept.step(0), Err(Refusal::State));
//! # Ok::<(), Refusal>(())
//! ```

use crate::refusal::{told, Refusal};

#[doc(inline)]
pub use crate::exports::Mirror;

impl Mirror {
    /// The mirror of a decoder that was reset and told its part ID: the register is that packet's 24 data bits, and the
    /// decoder is not talking.
    ///
    /// Refuses [`Refusal::Packet`]: another packet.
    pub fn reset(packet: u32) -> Result<Mirror, Refusal> {
        let reset = ask!(mortisevane_mirror_reset(packet));
        told(reset.number, reset.mirror)
    }

    /// Whether the decoder sends more than its part ID.
    pub fn is_talking(&self) -> bool {
        self.talking != 0
    }

    /// The host sent a packet, any 32 bits.
    ///
    /// Refuses [`Refusal::State`], a register over 24 bits; the mirror is then as it was.
    pub fn step(&mut self, packet: u32) -> Result<(), Refusal> {
        let mirror = *self;
        let after = ask!(mortisevane_mirror_step(mirror, packet));
        *self = after.mirror;
        told(after.number, ())
    }

    /// The host sent these packets, one after the other.
    ///
    /// Refuses [`Refusal::State`], a register over 24 bits; the mirror is then as it was.
    pub fn run(&mut self, packets: &[u32]) -> Result<(), Refusal> {
        let mirror = *self;
        let after = ask!(mortisevane_mirror_run(mirror, lent packets));
        *self = after.mirror;
        told(after.number, ())
    }

    /// The checksum packet that makes the decoder talk: to be sent last of a set-up, and stepped through as every other.
    ///
    /// Refuses [`Refusal::State`]: a register over 24 bits.
    pub fn closing(&self) -> Result<u32, Refusal> {
        let mirror = *self;
        let built = ask!(mortisevane_mirror_closing(mirror));
        told(built.number, built.packet.bits)
    }
}
