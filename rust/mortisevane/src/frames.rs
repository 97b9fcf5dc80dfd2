//! The frames that a pager listens to, and the wait for a temporary address (S8.6.7, S8.8.4).
//!
//! ```
//! use mortisevane::frames::{self, Listener};
//! use mortisevane::Refusal;
//!
//! let heard = frames::listened(&[Listener { frame: 3, collapse: 5 }])?;
//! assert!(heard.iter().eq([3, 35, 67, 99]));
//! assert_eq!(heard.count, 4);
//! // Packet 27H has frames 0 to 15.
//! assert_eq!(heard.assignments()[7].build(), Ok(0x2700_0008));
//!
//! assert_eq!(frames::wait(120, 3), Ok(11));
//! assert_eq!(frames::wait(3, 3), Ok(128));
//! assert_eq!(frames::wait(128, 3), Err(Refusal::Packet));
//! assert_eq!(frames::wait(259, 3), Err(Refusal::Packet));
//! # Ok::<(), Refusal>(())
//! ```

use crate::exports::Listeners;
use crate::packet::FrameAssignment;
use crate::refusal::{told, Refusal};

#[doc(inline)]
pub use crate::exports::Listener;

/// The frames listened to.
#[derive(Clone, Copy, Debug, Default, PartialEq, Eq, Hash)]
pub struct Frames {
    /// How many there are, 0 to 128.
    pub count: u32,
    /// The frame bits of packets 20H to 27H: bit j of the one at place i is frame 16 (7 - i) + j (Table 28).
    pub masks: [u16; 8],
}

impl Frames {
    /// Whether a frame is listened to. One over 127 never is.
    pub fn contains(&self, frame: u32) -> bool {
        let packet = 7_u32.checked_sub(frame / 16);
        packet.is_some_and(|packet| self.masks[packet as usize] >> (frame % 16) & 1 == 1)
    }

    /// The frames, in their order.
    pub fn iter(&self) -> impl Iterator<Item = u32> + '_ {
        (0..128).filter(|frame| self.contains(*frame))
    }

    /// The fields of the eight frame assignment packets, 20H first.
    pub fn assignments(&self) -> [FrameAssignment; 8] {
        core::array::from_fn(|place| FrameAssignment { range: place as u32, frames: self.masks[place].into() })
    }
}

/// The frames that a pager with these addresses listens to; with none it listens to none.
///
/// Refuses [`Refusal::Packet`], a frame over 127 or a collapse over 5 among the first sixteen, and then
/// [`Refusal::Size`], more than sixteen addresses.
pub fn listened(listeners: &[Listener]) -> Result<Frames, Refusal> {
    let mut places = Listeners { count: u32::try_from(listeners.len()).unwrap_or(u32::MAX), ..Listeners::default() };
    for (place, listener) in places.listeners.iter_mut().zip(listeners) {
        *place = *listener;
    }
    let frames = ask!(mortisevane_frames_listened(places));
    told(frames.number, Frames { count: frames.count, masks: frames.masks })
}

/// The wait from the present frame until the designated one comes next, 1 to 128 frames. To the present frame itself it
/// is 128, for its coming in the following cycle is meant (S8.8.4).
///
/// Refuses [`Refusal::Packet`]: a frame over 127.
pub fn wait(from: u32, to: u32) -> Result<u32, Refusal> {
    let wait = ask!(mortisevane_frames_wait(from, to));
    told(wait.number, wait.frames)
}
