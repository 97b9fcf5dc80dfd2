//! Frames listened to, and the wait.

use mortisevane::exports::*;
use second::frames::{self, FramesListened, Listener as SecondListener, MOST_LISTENERS};
use second::refusal::Refusal;

use crate::measure::{side, Measure, Told};
use crate::told::{answer, told, words_of};

pub fn rows(measure: &mut Measure) {
    measure.group("frames");
    wait(measure, "from 127 to 3", 127, 3);
    wait(measure, "from 13 to 13", 13, 13);
    wait(measure, "refused 7: to 128", 3, 128);
    let listeners = core::array::from_fn(|place| SecondListener {
        frame: 7 * place as u32,
        collapse: place as u32 % 6,
    });
    listened(measure, "1 address", listeners, 1);
    listened(measure, "16 addresses", listeners, 16);
    let mut wrong = listeners;
    wrong[15].collapse = 6;
    listened(measure, "refused 7: the last of 16", wrong, 16);
    listened(measure, "refused 9: 17 addresses", listeners, 17);
}

fn wait(measure: &mut Measure, input: &str, from: u32, to: u32) {
    let second = frames::frames_wait as fn(u32, u32) -> Result<u32, Refusal>;
    measure.row(
        "frames_wait",
        input,
        side(
            (from, to),
            |(from, to)| unsafe { mortisevane_frames_wait(*from, *to) },
            |_, wait| told(&words_of(wait)),
        ),
        side(
            (from, to, second),
            |(from, to, second)| second(*from, *to),
            |_, wait| answer(wait, |frames| told(&[*frames]), 1),
        ),
    );
}

type SecondListeners = [SecondListener; MOST_LISTENERS];

fn listened(measure: &mut Measure, input: &str, listeners: SecondListeners, count: u32) {
    type Listen = fn(&SecondListeners, u32) -> Result<FramesListened, Refusal>;
    let second = frames::frames_listened as Listen;
    let given = Listeners {
        listeners: listeners.map(|SecondListener { frame, collapse }| Listener { frame, collapse }),
        count,
    };
    let tell = |frames: &FramesListened| told_frames(frames.count, &frames.masks);
    measure.row(
        "frames_listened",
        input,
        side(
            given,
            |listeners| unsafe { mortisevane_frames_listened(*listeners) },
            |_, frames| {
                let number = vec![frames.number.into()];
                [number, told_frames(frames.count, &frames.masks)].concat()
            },
        ),
        side(
            (listeners, count, second),
            |(listeners, count, second)| second(listeners, *count),
            |_, frames| answer(frames, tell, 9),
        ),
    );
}

fn told_frames(count: u32, masks: &[u16]) -> Told {
    let masks = masks.iter().copied().map(u64::from);
    [u64::from(count)].into_iter().chain(masks).collect()
}
