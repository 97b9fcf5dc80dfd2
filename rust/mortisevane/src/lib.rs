//! Mortisevane: host logic for belt pagers built round the PCD5008 FLEX decoder, safe to call from Rust.
//!
//! What stands between the decoder's 32-bit packets and the page that a person reads is written in Rattle, a language in
//! which every function is proved to meet its contract. This crate links that library and adds no rule of its own: it
//! turns pointers and lengths into slices, and the number of a refusal into a [`Result`].
//!
//! Two rules run through all of it. A page and a CAPCODE are characters, so their zeros stay: `0417` is not `417`. And
//! every input gets an answer: a value, or one of the twenty-three refusals of [`Refusal`].
//!
//! | module | what it is for |
//! |---|---|
//! | [`address`] | addresses, their classes and their words |
//! | [`capcode`] | the text on a pager's label, and the phase and base frame that it assigns |
//! | [`frames`] | the frames that a pager listens to, the wait for a temporary address |
//! | [`packet`] | the decoder's packets, built from fields and read |
//! | [`mirror`] | the checksum handshake: whether the decoder is talking |
//! | [`sums`] | the sums that messages carry |
//! | [`numeric`] | numeric pages in either set of characters, text to words and back, and the spaces at the end of a text |
//! | [`fragment`] | a text cut into fragments, one fragment read |
//! | [`chains`] | fragments joined to texts |
//! | [`calls`] | which message words of a frame belong to which page |
//! | [`pocsag`] | pages of the older POCSAG code: words mended, pages read from batches, and their text |
//!
//! There is no allocation and no hidden state. Memory is lent as slices, and the states ([`Mirror`], [`Chains`],
//! [`Calls`], [`pocsag::Reader`]) are plain numbers that a caller may keep anywhere and hand back: an unsound one is refused,
//! [`Refusal::State`], and no reader is unsound. `Default` makes fresh chains, calls and readers; a mirror begins with
//! [`Mirror::reset`].
//!
//! In this documentation "01" is the paper that defines the pager host, and "02" the list of later change requests; S8.x
//! and Table n are the PCD5008 data sheet's.
//!
//! # A start-up
//!
//! What the host sends to a decoder that was just reset, for a pager with the CAPCODE `E0001234`
//! (the repository's docs/start-up.md has each packet and the register after it):
//!
//! ```
//! use mortisevane::address::{self, Words};
//! use mortisevane::frames::{self, Listener};
//! use mortisevane::packet::{self, AddressEnable, Configuration, Control, UserAddress};
//! use mortisevane::{Capcode, Mirror, Refusal};
//!
//! # fn main() -> Result<(), Refusal> {
//! // The decoder told its part ID.
//! let mut mirror = Mirror::reset(0xFF00_0106)?;
//! assert_eq!(mirror.register, 0x00_0106);
//!
//! let capcode: Capcode = "E0001234".parse()?;
//! let heard = frames::listened(&[Listener::from(capcode)])?;
//! assert!(heard.iter().eq([13, 29, 45, 61, 77, 93, 109, 125]));
//! let Words::Short(word) = address::words(capcode.address())? else { panic!("it is a short address") };
//! assert_eq!(word, 0x0084D2);
//!
//! // Oscillator within 150 ppm, status at each change of synchronous mode, minute timer.
//! let configuration = Configuration { oscillator: 1, synchronous_mode: 1, minute_timer: 1, ..Configuration::default() };
//! let mut sent = vec![configuration.build()?];
//! for assignment in heard.assignments() {
//!     sent.push(assignment.build()?);
//! }
//! sent.push(UserAddress { location: 0, word, ..UserAddress::default() }.build()?);
//! sent.push(AddressEnable { enabled: 1 }.build()?);
//! sent.push(Control { on: 1, ..Control::default() }.build()?);
//! assert_eq!(sent, [
//!     0x0101_0090, 0x2000_2000, 0x2100_2000, 0x2200_2000, 0x2300_2000, 0x2400_2000, 0x2500_2000, 0x2600_2000,
//!     0x2700_2000, 0x8000_84D2, 0x7800_0001, 0x0200_0001,
//! ]);
//!
//! for packet in sent {
//!     packet::may_send(packet)?;
//!     mirror.step(packet)?;
//!     assert!(!mirror.is_talking());
//! }
//! let closing = mirror.closing()?;
//! assert_eq!(closing, 0x0001_8544);
//! mirror.step(closing)?;
//! assert!(mirror.is_talking());
//! # Ok(())
//! # }
//! ```

#![no_std]
#![deny(missing_docs)]
#![deny(clippy::undocumented_unsafe_blocks)]

#[macro_use]
mod ask;

pub mod address;
pub mod calls;
pub mod capcode;
pub mod chains;
pub mod exports;
pub mod fragment;
pub mod frames;
pub mod mirror;
pub mod numeric;
pub mod packet;
pub mod pocsag;
pub mod refusal;
pub mod sums;

#[doc(no_inline)]
pub use calls::Calls;
#[doc(no_inline)]
pub use capcode::Capcode;
#[doc(no_inline)]
pub use chains::Chains;
#[doc(no_inline)]
pub use mirror::Mirror;
#[doc(no_inline)]
pub use refusal::Refusal;
