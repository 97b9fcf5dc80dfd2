//! The frames a pager listens to (S8.6.7) and the wait for a temporary address.

use crate::capcode::{LARGEST_COLLAPSE, LARGEST_FRAME};
use crate::refusal::Refusal;

/// The decoder has 16 user address locations (S8.6.6).
pub const MOST_LISTENERS: usize = 16;
/// Frame assignment packets 20H to 27H, of 16 frames each.
pub const MASKS: usize = 8;

/// One address's base frame and collapse value.
#[derive(Clone, Copy, Debug, Default, PartialEq, Eq)]
pub struct Listener {
    pub frame: u32,
    pub collapse: u32,
}

/// The masks of packets 20H to 27H, in that order, and how many bits are marked.
#[derive(Clone, Copy, Debug, PartialEq, Eq)]
pub struct FramesListened {
    pub masks: [u16; MASKS],
    pub count: u32,
}

/// For each collapse value, the frames of a listener of base frame 0, one bit
/// a frame: ones that stand 2^collapse bits apart.
const FRAMES_FROM_ZERO: [u128; LARGEST_COLLAPSE as usize + 1] = [
    u128::MAX,
    u128::MAX / 0x3,
    u128::MAX / 0xF,
    u128::MAX / 0xFF,
    u128::MAX / 0xFFFF,
    u128::MAX / 0xFFFF_FFFF,
];

/// Merges the frames of the first `count` listeners into the eight masks. A
/// listener that is looked at and has no meaning is told first (7), then that
/// there are too many (9).
pub fn frames_listened(
    listeners: &[Listener; MOST_LISTENERS],
    count: u32,
) -> Result<FramesListened, Refusal> {
    let mut marked = 0_u128;
    for listener in listeners.iter().take(count as usize) {
        marked |= frames_of(*listener)?;
    }
    if count as usize > MOST_LISTENERS {
        return Err(Refusal::Size);
    }
    Ok(FramesListened {
        masks: masks_of(marked),
        count: marked.count_ones(),
    })
}

/// The frames f with f mod 2^collapse equal to base mod 2^collapse, bit f for
/// frame f.
fn frames_of(listener: Listener) -> Result<u128, Refusal> {
    if listener.frame > LARGEST_FRAME || listener.collapse > LARGEST_COLLAPSE {
        return Err(Refusal::Packet);
    }
    let distance = 1_u32 << listener.collapse;
    Ok(FRAMES_FROM_ZERO[listener.collapse as usize] << (listener.frame % distance))
}

/// Table 28: the first packet holds the highest frames.
fn masks_of(marked: u128) -> [u16; MASKS] {
    let mut masks = [0; MASKS];
    for (packet, mask) in masks.iter_mut().enumerate() {
        *mask = (marked >> (16 * (MASKS - 1 - packet))) as u16;
    }
    masks
}

/// How many frames it is from frame `from` to the next occurrence of frame `to`: later in this cycle,
/// or else in the following one (S8.8.4).
pub fn frames_wait(from: u32, to: u32) -> Result<u32, Refusal> {
    if from > LARGEST_FRAME || to > LARGEST_FRAME {
        return Err(Refusal::Packet);
    }
    let occurrence = if to > from { to } else { to + 128 };
    Ok(occurrence - from)
}

#[cfg(test)]
mod tests {
    use super::*;

    fn row(first: &[(u32, u32)]) -> [Listener; MOST_LISTENERS] {
        let mut listeners = [Listener::default(); MOST_LISTENERS];
        for (listener, &(frame, collapse)) in listeners.iter_mut().zip(first) {
            *listener = Listener { frame, collapse };
        }
        listeners
    }

    /// Reads Table 28 bit by bit: packet 20H + i, bit j is frame 16 (7 - i) + j.
    fn frames_in(masks: [u16; MASKS]) -> Vec<usize> {
        (0..128)
            .filter(|frame| masks[7 - frame / 16] >> (frame % 16) & 1 == 1)
            .collect()
    }

    fn listened(first: &[(u32, u32)]) -> Vec<usize> {
        let answer = frames_listened(&row(first), first.len() as u32).unwrap();
        let frames = frames_in(answer.masks);
        assert_eq!(answer.count as usize, frames.len());
        frames
    }

    /// 01, proved example 8 (and S8.6.2).
    #[test]
    fn base_3_collapse_5() {
        assert_eq!(listened(&[(3, 5)]), [3, 35, 67, 99]);
    }

    /// The example of S8.6.7.
    #[test]
    fn base_3_collapse_4() {
        assert_eq!(listened(&[(3, 4)]), [3, 19, 35, 51, 67, 83, 99, 115]);
    }

    #[test]
    fn every_listener_by_the_rule() {
        for frame in 0..=LARGEST_FRAME {
            for collapse in 0..=LARGEST_COLLAPSE {
                let distance = 1 << collapse;
                let expected: Vec<usize> = (0..128)
                    .filter(|other| other % distance == frame as usize % distance)
                    .collect();
                assert_eq!(listened(&[(frame, collapse)]), expected);
            }
        }
    }

    #[test]
    fn packets_by_table_28() {
        let answer = frames_listened(&row(&[(127, 5), (0, 5)]), 2).unwrap();
        assert_eq!(
            answer.masks,
            [0x8000, 0x0001, 0x8000, 0x0001, 0x8000, 0x0001, 0x8000, 0x0001]
        );
        assert_eq!(answer.count, 8);
    }

    #[test]
    fn merging() {
        assert_eq!(listened(&[]), []);
        assert_eq!(listened(&[(3, 5), (35, 5)]), [3, 35, 67, 99]);
        assert_eq!(listened(&[(3, 5), (19, 5)]), listened(&[(3, 4)]));
        assert_eq!(listened(&[(9, 0)]).len(), 128);
    }

    #[test]
    fn refused_rows() {
        let good = [(0, 0); MOST_LISTENERS];
        assert_eq!(frames_listened(&row(&good), 17), Err(Refusal::Size));
        assert_eq!(frames_listened(&row(&good), u32::MAX), Err(Refusal::Size));
        for wrong in [(128, 0), (0, 6), (255, 255)] {
            let mut bad = good;
            bad[15] = wrong;
            assert_eq!(frames_listened(&row(&bad), 16), Err(Refusal::Packet));
            assert_eq!(frames_listened(&row(&bad), 17), Err(Refusal::Packet));
            // A listener that is not counted is not looked at.
            assert!(frames_listened(&row(&bad), 15).is_ok());
        }
    }

    #[test]
    fn waits() {
        assert_eq!(frames_wait(3, 5), Ok(2));
        assert_eq!(frames_wait(5, 3), Ok(126));
        assert_eq!(frames_wait(127, 0), Ok(1));
        assert_eq!(frames_wait(0, 127), Ok(127));
        for frame in 0..=LARGEST_FRAME {
            assert_eq!(frames_wait(frame, frame), Ok(128));
        }
        assert_eq!(frames_wait(128, 0), Err(Refusal::Packet));
        assert_eq!(frames_wait(0, 128), Err(Refusal::Packet));
    }
}
