//! The cases that runs must bring.

use second::fragment::LONGEST_TEXT;

use crate::counted::Cases;

use super::seen::{Other, Seen};

/// What a case is called, and whether a run is one of it.
type Case = (&'static str, fn(&Seen) -> bool);

const CASES: &[Case] = &[
    // The sender's text.
    ("an empty text", |run| run.sender.text.is_empty()),
    ("one fragment", |run| run.sender.last() == 0),
    ("two fragments", |run| run.sender.last() == 1),
    ("more than five fragments", |run| run.sender.last() > 4),
    ("1,008 characters", |run| {
        run.sender.text.len() == LONGEST_TEXT
    }),
    // What is handed out.
    ("handed out never", |run| run.handed_out.is_empty()),
    ("handed out once", |run| run.handed_out.len() == 1),
    ("handed out more than once", |run| run.handed_out.len() > 1),
    ("an empty text handed out", |run| {
        is_handed_out(run) && run.sender.text.is_empty()
    }),
    ("two fragments handed out", |run| {
        is_handed_out(run) && run.sender.last() == 1
    }),
    ("more than five fragments handed out", |run| {
        is_handed_out(run) && run.sender.last() > 4
    }),
    ("1,008 characters handed out", |run| {
        is_handed_out(run) && run.sender.text.len() == LONGEST_TEXT
    }),
    ("handed out from the last slot", |run| {
        run.slots.contains(&7)
    }),
    // What is lost.
    ("nothing arrives good", |run| run.good.is_empty()),
    ("the first lost, a later one not", |run| {
        run.times(0) == 0 && !run.good.is_empty()
    }),
    ("a middle fragment lost", |run| {
        let mut middle = run.middle();
        let came = |fragment| run.times(fragment) > 0;
        came(0) && came(run.sender.last()) && middle.any(|fragment| !came(fragment))
    }),
    ("the last alone lost", |run| {
        let mut before = 0..run.sender.last();
        let all_before_come = before.all(|fragment| run.times(fragment) == 1);
        all_before_come && run.sender.last() > 0 && run.times(run.sender.last()) == 0
    }),
    ("a gap of one", |run| run.gaps().any(|gap| gap == 1)),
    ("a gap of two", |run| run.gaps().any(|gap| gap == 2)),
    ("more than two lost before the first good one", |run| {
        run.good.first().is_some_and(|first| *first > 2)
    }),
    ("more than two lost after the last good one", |run| {
        run.good
            .last()
            .is_some_and(|last| run.sender.last() - last > 2)
    }),
    // What is repeated.
    ("the first repeated", |run| {
        run.sender.last() > 0 && run.times(0) > 1
    }),
    ("a middle one repeated", |run| {
        run.middle().any(|fragment| run.times(fragment) > 1)
    }),
    ("the last repeated", |run| {
        run.sender.last() > 0 && run.times(run.sender.last()) > 1
    }),
    ("a page of one fragment repeated", |run| {
        run.sender.last() == 0 && run.times(0) > 1
    }),
    ("handed out, the first repeated", |run| {
        is_handed_out(run) && run.sender.last() > 0 && run.times(0) > 1
    }),
    ("handed out, the last repeated", |run| {
        is_handed_out(run) && run.sender.last() > 0 && run.times(run.sender.last()) > 1
    }),
    ("all come, a middle one repeated: never handed out", |run| {
        let all_came = (0..=run.sender.last()).all(|fragment| run.times(fragment) > 0);
        all_came && run.handed_out.is_empty()
    }),
    ("four good ones of one fragment", |run| {
        (0..=run.sender.last()).any(|fragment| run.times(fragment) > 3)
    }),
    (
        "the first again, all later ones of its sending lost",
        |run| run.began_again && run.sender.last() > 0,
    ),
    ("handed out after the first came again", |run| {
        run.began_again && run.sender.last() > 0 && is_handed_out(run)
    }),
    // What is damaged.
    ("damaged by 9", |run| is_damaged_by(run, 9)),
    ("damaged by 10", |run| is_damaged_by(run, 10)),
    ("damaged by 11", |run| is_damaged_by(run, 11)),
    ("handed out, damaged by 9 beside it", |run| {
        is_handed_out(run) && is_damaged_by(run, 9)
    }),
    ("handed out, damaged by 10 beside it", |run| {
        is_handed_out(run) && is_damaged_by(run, 10)
    }),
    ("handed out, damaged by 11 beside it", |run| {
        is_handed_out(run) && is_damaged_by(run, 11)
    }),
    ("a fragment damaged whenever it comes", |run| {
        let mut damaged = run.damaged.iter();
        damaged.any(|(fragment, _)| run.times(*fragment) == 0)
    }),
    // Other traffic, all of it while the sender's chain is open but where that is said.
    ("the address with another N begun", |run| {
        meanwhile(run, |run, other| has_address(run, other) && is_begun(other))
    }),
    ("the address with another N goes on", |run| {
        meanwhile(run, |run, other| has_address(run, other) && is_grown(other))
    }),
    ("the address with another N complete", |run| {
        meanwhile(run, |run, other| {
            has_address(run, other) && is_complete(other)
        })
    }),
    ("the address with another N lost", |run| {
        meanwhile(run, |run, other| has_address(run, other) && is_lost(other))
    }),
    ("N with another address begun", |run| {
        meanwhile(run, |run, other| has_number(run, other) && is_begun(other))
    }),
    ("N with another address goes on", |run| {
        meanwhile(run, |run, other| has_number(run, other) && is_grown(other))
    }),
    ("N with another address complete", |run| {
        meanwhile(run, |run, other| {
            has_number(run, other) && is_complete(other)
        })
    }),
    ("N with another address lost", |run| {
        meanwhile(run, |run, other| has_number(run, other) && is_lost(other))
    }),
    ("the sender's words for another address", |run| {
        meanwhile(run, |_, other| other.is_sent_words && is_joined(other))
    }),
    ("the sender's words for an address over 31", |run| {
        meanwhile(run, |_, other| other.is_sent_words && is_refused(other, 8))
    }),
    ("another key dropped", |run| {
        meanwhile(run, |_, other| other.is_drop && other.told.number == 0)
    }),
    ("another key dropped, not open", |run| {
        meanwhile(run, |_, other| other.is_drop && other.told.number == 13)
    }),
    ("no key dropped", |run| {
        meanwhile(run, |_, other| {
            other.is_drop && matches!(other.told.number, 7 | 8)
        })
    }),
    ("damaged words for the address", |run| {
        meanwhile(run, |run, other| {
            other.key.address == run.sender.key.address && is_damaged(other)
        })
    }),
    ("damaged words for another address", |run| {
        meanwhile(run, |run, other| {
            other.key.address != run.sender.key.address && is_damaged(other)
        })
    }),
    ("too few bytes lent", |run| {
        meanwhile(run, |_, other| is_refused(other, 1))
    }),
    ("another key not open", |run| {
        meanwhile(run, |_, other| is_refused(other, 13))
    }),
    ("no slot for another key", |run| {
        meanwhile(run, |_, other| is_refused(other, 12))
    }),
    ("another text's signature wrong", |run| {
        meanwhile(run, |_, other| is_refused(other, 16))
    }),
    ("the key dropped, none open", |run| {
        let mut others = run.others.iter();
        others.any(|other| other.is_drop && other.key == run.sender.key)
    }),
    ("a key dropped when all slots are taken", |run| {
        let mut others = run.others.iter();
        others.any(|other| other.is_drop && other.told.number == 0 && is_full(other))
    }),
];

fn is_handed_out(run: &Seen) -> bool {
    !run.handed_out.is_empty()
}

fn is_damaged_by(run: &Seen, number: u32) -> bool {
    run.damaged.iter().any(|(_, by)| *by == number)
}

/// Whether such a thing came while the sender's chain was open.
fn meanwhile(run: &Seen, is_it: fn(&Seen, &Other) -> bool) -> bool {
    let is_open = |other: &Other| other.before.slot_of(run.sender.key).is_some();
    let mut others = run.others.iter();
    others.any(|other| is_open(other) && is_it(run, other))
}

/// Of another N.
fn has_address(run: &Seen, other: &Other) -> bool {
    other.key.address == run.sender.key.address && other.key != run.sender.key
}

/// Of another address.
fn has_number(run: &Seen, other: &Other) -> bool {
    other.key.message_number == run.sender.key.message_number && other.key != run.sender.key
}

fn is_refused(other: &Other, number: u32) -> bool {
    !other.is_drop && other.told.number == number
}

fn is_joined(other: &Other) -> bool {
    is_refused(other, 0)
}

fn is_begun(other: &Other) -> bool {
    is_joined(other) && other.told.begun == 1
}

fn is_grown(other: &Other) -> bool {
    is_joined(other) && (other.told.begun, other.told.complete) == (0, 0)
}

/// After several fragments.
fn is_complete(other: &Other) -> bool {
    is_joined(other) && (other.told.begun, other.told.complete) == (0, 1)
}

fn is_lost(other: &Other) -> bool {
    other.told.lost == 1
}

fn is_damaged(other: &Other) -> bool {
    !other.is_drop && matches!(other.told.number, 9..=11)
}

fn is_full(other: &Other) -> bool {
    other.before.first_free().is_none()
}

/// None of them yet.
pub fn none() -> Cases {
    Cases::named(CASES.iter().map(|(name, _)| *name))
}

/// Counts a run.
pub fn note(cases: &mut Cases, run: &Seen) {
    cases.note(CASES.iter().map(|(_, is_it)| is_it(run)));
}
