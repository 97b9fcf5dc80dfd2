//! The cases that streams must bring.

use second::pocsag::mending::Mended;
use second::pocsag::reader::{Ended, Page, Reader, Told};
use second::pocsag::word::Meaning;
use second::refusal::Refusal;

use crate::counted::Cases;

use super::events::{Event, Happening};
use super::laws::Stream;
use super::map;

/// One word that came to a reader.
struct Step {
    before: Reader,
    mended: Result<Mended, Refusal>,
    told: Told,
    after: Reader,
    /// How many words are lent.
    room: usize,
}

/// What a case of a word is called, and whether a word is one of it.
type StepCase = (&'static str, fn(&Step) -> bool);

const STEP_CASES: &[StepCase] = &[
    // Where a sync word must come.
    ("a sync word, whole", |step| step.is_sync_due(0)),
    ("a sync word with one wrong bit", |step| step.is_sync_due(1)),
    ("a sync word with two wrong bits", |step| {
        step.is_sync_due(2)
    }),
    ("a sync word after more than 16 to come", |step| {
        step.is_sync() && step.before.left > 16
    }),
    ("a sync word in a page, which goes on", |step| {
        step.is_sync() && step.awaits_sync() && step.is_open() && step.fault() == 0
    }),
    ("a sync word in a page with a fault", |step| {
        step.is_sync() && step.awaits_sync() && step.is_open() && step.fault() != 0
    }),
    ("an idle word for a sync word", |step| {
        step.lacks_sync(26) && step.is_idle()
    }),
    ("an address word for a sync word", |step| {
        step.lacks_sync(26) && step.is_address()
    }),
    ("a message word for a sync word", |step| {
        step.lacks_sync(26) && step.is_message()
    }),
    ("a word beyond repair for a sync word", |step| {
        step.lacks_sync(25)
    }),
    ("another word after more than 16 to come", |step| {
        step.lacks_sync(26) && step.before.left > 16
    }),
    ("no sync word, a page ends", |step| {
        step.lacks_sync(26) && step.ends(26, 0)
    }),
    ("no sync word, a page of fault 15 ends", |step| {
        step.lacks_sync(26) && step.ends(26, 15)
    }),
    ("no sync word, a page of fault 25 ends", |step| {
        step.lacks_sync(26) && step.ends(25, 25)
    }),
    ("beyond repair for a sync word, a page ends", |step| {
        step.lacks_sync(25) && step.ends(26, 0)
    }),
    (
        "beyond repair for a sync word, a page of fault 25 ends",
        |step| step.lacks_sync(25) && step.ends(25, 25),
    ),
    // Words beyond repair within a batch.
    ("beyond repair, no page open", |step| {
        step.is_beyond_repair() && !step.is_open()
    }),
    ("beyond repair in a page", |step| {
        step.is_beyond_repair() && step.is_open() && step.fault() == 0
    }),
    ("beyond repair in a page of fault 15", |step| {
        step.is_beyond_repair() && step.is_open() && step.fault() == 15
    }),
    ("beyond repair in a page of fault 25", |step| {
        step.is_beyond_repair() && step.is_open() && step.fault() == 25
    }),
    ("beyond repair in a page of another fault", |step| {
        step.is_beyond_repair() && step.is_open() && step.has_another_fault()
    }),
    ("beyond repair as the last of a batch", |step| {
        step.is_beyond_repair() && step.before.left == 1
    }),
    // Sync words too early.
    ("a sync word too early, no page open", |step| {
        step.is_early_sync() && !step.is_open()
    }),
    ("a sync word too early, a page ends", |step| {
        step.is_early_sync() && step.ends(26, 0)
    }),
    ("a sync word too early, a page of fault 15 ends", |step| {
        step.is_early_sync() && step.ends(26, 15)
    }),
    ("a sync word too early, a page of fault 25 ends", |step| {
        step.is_early_sync() && step.ends(25, 25)
    }),
    ("a sync word for the last word of a batch", |step| {
        step.is_early_sync() && step.before.left == 1
    }),
    ("a sync word after a sync word", |step| {
        step.is_early_sync() && step.before.left == 16
    }),
    // Idle words.
    ("an idle word, no page open", |step| {
        step.is_idle_in_batch() && !step.is_open()
    }),
    ("an idle word with a wrong bit", |step| {
        step.is_idle_in_batch() && step.changed() > 0
    }),
    ("an idle word hands out a page of no words", |step| {
        step.is_idle_in_batch() && step.hands_out(|words, _| words == 0)
    }),
    ("an idle word hands out a page of one word", |step| {
        step.is_idle_in_batch() && step.hands_out(|words, _| words == 1)
    }),
    ("an idle word hands out a page of over 16 words", |step| {
        step.is_idle_in_batch() && step.hands_out(|words, _| words > 16)
    }),
    (
        "an idle word hands out a page that fills its memory",
        |step| step.is_idle_in_batch() && step.hands_out(|words, room| words > 0 && words == room),
    ),
    ("an idle word ends a page of fault 15", |step| {
        step.is_idle_in_batch() && step.ends(15, 15)
    }),
    ("an idle word ends a page of fault 25", |step| {
        step.is_idle_in_batch() && step.ends(25, 25)
    }),
    ("an idle word ends a page of another fault", |step| {
        step.is_idle_in_batch() && step.has_another_fault() && step.ended_with(25)
    }),
    (
        "an idle word ends a page of more words than are lent",
        |step| step.is_idle_in_batch() && step.ends(15, 0),
    ),
    // Address words.
    ("an address word, no page open", |step| {
        step.opens() && !step.is_open()
    }),
    ("an address word hands out a page", |step| {
        step.opens() && step.ends(0, 0)
    }),
    ("an address word ends a page of fault 15", |step| {
        step.opens() && step.ends(15, 15)
    }),
    ("an address word ends a page of fault 25", |step| {
        step.opens() && step.ends(25, 25)
    }),
    ("an address word with one wrong bit", |step| {
        step.opens() && step.changed() == 1
    }),
    ("an address word with two wrong bits", |step| {
        step.opens() && step.changed() == 2
    }),
    ("an address word at place 0", opens_at::<16>),
    ("an address word at place 1", opens_at::<15>),
    ("an address word at place 2", opens_at::<14>),
    ("an address word at place 3", opens_at::<13>),
    ("an address word at place 4", opens_at::<12>),
    ("an address word at place 5", opens_at::<11>),
    ("an address word at place 6", opens_at::<10>),
    ("an address word at place 7", opens_at::<9>),
    ("an address word at place 8", opens_at::<8>),
    ("an address word at place 9", opens_at::<7>),
    ("an address word at place 10", opens_at::<6>),
    ("an address word at place 11", opens_at::<5>),
    ("an address word at place 12", opens_at::<4>),
    ("an address word at place 13", opens_at::<3>),
    ("an address word at place 14", opens_at::<2>),
    ("an address word at place 15", opens_at::<1>),
    ("an address word of function 0", opens_with::<0>),
    ("an address word of function 1", opens_with::<1>),
    ("an address word of function 2", opens_with::<2>),
    ("an address word of function 3", opens_with::<3>),
    // Message words.
    ("a message word of no page", |step| step.refused(17)),
    ("a message word of no page, which is not all zero", |step| {
        step.refused(17) && step.before.page != Page::default()
    }),
    ("a message word stored, whole", |step| {
        step.stores() && step.changed() == 0
    }),
    ("a message word stored with one wrong bit", |step| {
        step.stores() && step.changed() == 1
    }),
    ("a message word stored with two wrong bits", |step| {
        step.stores() && step.changed() == 2
    }),
    ("a message word stored as the first", |step| {
        step.stores() && step.before.page.words == 0
    }),
    ("a message word stored after a sync word", |step| {
        step.stores() && step.before.left == 16
    }),
    ("a message word stored in the last place", |step| {
        step.stores() && step.after.page.words == step.room
    }),
    ("mended bits over the largest number", |step| {
        step.stores()
            && step
                .before
                .page
                .mended
                .checked_add(step.changed())
                .is_none()
    }),
    ("a message word with no room", |step| {
        step.has_no_room() && step.before.page.words == step.room
    }),
    ("a message word with nothing lent", |step| {
        step.has_no_room() && step.room == 0
    }),
    ("a message word after more words than are lent", |step| {
        step.has_no_room() && step.before.page.words > step.room
    }),
    ("a message word in a page of fault 15", |step| {
        step.passes() && step.fault() == 15
    }),
    ("a message word in a page of fault 25", |step| {
        step.passes() && step.fault() == 25
    }),
    ("a message word in a page of another fault", |step| {
        step.passes() && step.has_another_fault()
    }),
    // Readers that were made up.
    ("stored in a page that is open by another number", |step| {
        step.stores() && step.before.page.is_open > 1
    }),
    ("a page that is open by another number ends", |step| {
        step.told.ended.is_some() && step.before.page.is_open > 1
    }),
    ("no page ends where one not all zero is closed", |step| {
        let closed = !step.is_open() && step.before.page != Page::default();
        closed && (step.is_idle_in_batch() || step.is_early_sync() || step.lacks_sync(26))
    }),
];

fn opens_at<const LEFT: u32>(step: &Step) -> bool {
    step.opens() && step.before.left == LEFT
}

fn opens_with<const FUNCTION: u32>(step: &Step) -> bool {
    step.opens() && step.after.page.function == FUNCTION
}

impl Step {
    fn awaits_sync(&self) -> bool {
        !(1..=16).contains(&self.before.left)
    }

    fn is_open(&self) -> bool {
        self.before.page.is_open != 0
    }

    fn fault(&self) -> u32 {
        self.before.page.fault
    }

    fn has_another_fault(&self) -> bool {
        self.is_open() && !matches!(self.fault(), 0 | 15 | 25)
    }

    fn meaning(&self) -> Option<Meaning> {
        self.mended.ok().map(|mended| Meaning::of(mended.word))
    }

    fn changed(&self) -> u32 {
        self.mended.map_or(0, |mended| mended.changed)
    }

    fn is_sync(&self) -> bool {
        self.meaning() == Some(Meaning::Sync)
    }

    fn is_sync_due(&self, changed: u32) -> bool {
        self.is_sync() && self.awaits_sync() && self.changed() == changed
    }

    fn is_early_sync(&self) -> bool {
        self.is_sync() && !self.awaits_sync()
    }

    fn is_idle(&self) -> bool {
        self.meaning() == Some(Meaning::Idle)
    }

    fn is_idle_in_batch(&self) -> bool {
        self.is_idle() && !self.awaits_sync()
    }

    fn is_address(&self) -> bool {
        matches!(self.meaning(), Some(Meaning::Address { .. }))
    }

    fn is_message(&self) -> bool {
        matches!(self.meaning(), Some(Meaning::Message { .. }))
    }

    fn refused(&self, number: u32) -> bool {
        self.told
            .refusal
            .is_some_and(|refusal| refusal.number() == number)
    }

    fn lacks_sync(&self, number: u32) -> bool {
        self.awaits_sync() && self.refused(number)
    }

    fn is_beyond_repair(&self) -> bool {
        !self.awaits_sync() && self.refused(25)
    }

    fn ended_with(&self, number: u32) -> bool {
        let number_of = |ended: Ended| ended.refusal.map_or(0, Refusal::number);
        self.told
            .ended
            .is_some_and(|ended| number_of(ended) == number)
    }

    /// A page of that fault ends with that number.
    fn ends(&self, number: u32, fault: u32) -> bool {
        self.ended_with(number) && self.fault() == fault
    }

    /// By the words of the page and those that are lent.
    fn hands_out(&self, is_it: fn(usize, usize) -> bool) -> bool {
        self.ends(0, 0) && is_it(self.before.page.words, self.room)
    }

    fn opens(&self) -> bool {
        self.is_address() && !self.awaits_sync()
    }

    /// A message word comes to a page within a batch.
    fn continues(&self) -> bool {
        self.is_message() && !self.awaits_sync() && self.is_open()
    }

    fn stores(&self) -> bool {
        self.continues() && self.after.page.words > self.before.page.words
    }

    fn has_no_room(&self) -> bool {
        self.continues() && self.fault() == 0 && self.after.page.fault == 15
    }

    fn passes(&self) -> bool {
        self.continues() && self.fault() != 0
    }
}

/// What a case of words that come together, or of a close, is called, and whether an event is
/// one of it.
type EventCase = (&'static str, fn(&Event) -> bool);

const EVENT_CASES: &[EventCase] = &[
    ("no words", |event| came(event) == Some(0)),
    ("no words after more than 16 to come", |event| {
        came(event) == Some(0) && event.second.reader.left > 16
    }),
    ("several words, nothing told", |event| {
        came(event) > Some(1)
            && event.second.told.number == 0
            && event.second.told.page.is_ended == 0
    }),
    ("several words, the first tells", |event| {
        came(event) > Some(1) && event.second.told.taken == 1
    }),
    ("several words, one between tells", |event| {
        let taken = event.second.told.taken;
        taken > 1 && came(event) > Some(taken)
    }),
    ("several words, the last tells", |event| {
        let told = &event.second.told;
        let tells = told.number != 0 || told.page.is_ended == 1;
        tells && told.taken > 1 && came(event) == Some(told.taken)
    }),
    ("over two batches taken", |event| {
        event.second.told.taken > 34
    }),
    ("closed, no page open", |event| {
        closed(event, |page| page.is_open == 0)
    }),
    ("closed, no page open, not all zero", |event| {
        closed(event, |page| page.is_open == 0 && *page != Page::default())
    }),
    ("closed, a page open", |event| {
        closed(event, |page| page.is_open != 0 && page.fault == 0)
    }),
    ("closed, a page of fault 15 open", |event| {
        closed(event, |page| page.is_open != 0 && page.fault == 15)
    }),
    ("closed, a page of fault 25 open", |event| {
        closed(event, |page| page.is_open != 0 && page.fault == 25)
    }),
    ("closed, a page of another fault open", |event| {
        closed(event, |page| {
            page.is_open != 0 && !matches!(page.fault, 0 | 15 | 25)
        })
    }),
    ("closed, a page open by another number", |event| {
        closed(event, |page| page.is_open > 1)
    }),
];

/// How many words came, if it is no close.
fn came(event: &Event) -> Option<usize> {
    match &event.happening {
        Happening::Hear { words, .. } => Some(words.len()),
        Happening::Close { .. } => None,
    }
}

fn closed(event: &Event, is_it: fn(&Page) -> bool) -> bool {
    match &event.happening {
        Happening::Hear { .. } => false,
        Happening::Close { reader } => is_it(&reader.page),
    }
}

/// What a case of a stream is called, and whether a stream is one of it.
type StreamCase = (&'static str, fn(&Stream) -> bool);

const STREAM_CASES: &[StreamCase] = &[
    ("a page is due", |stream| {
        stream.has_its_pages_due() && stream.sent.len() == 1
    }),
    ("several pages are due", |stream| {
        stream.has_its_pages_due() && stream.sent.len() > 1
    }),
    ("pages are due, each word mended", |stream| {
        let is_whole = |word: &u32| map::mend(*word).is_ok_and(|mended| mended.changed == 0);
        stream.has_its_pages_due() && !stream.words.iter().any(is_whole)
    }),
    ("a page over the end of a batch is due", |stream| {
        let is_long = |words: usize| words > 16;
        stream.has_its_pages_due() && stream.sent.iter().any(|page| is_long(page.words.len()))
    }),
    (
        "mendable, but the memory is too short for a page",
        |stream| stream.is_undisturbed && stream.is_mendable && !stream.has_its_pages_due(),
    ),
    ("not mendable, undisturbed", |stream| {
        stream.is_undisturbed && !stream.sent.is_empty() && !stream.is_mendable
    }),
    ("undisturbed from a reader that was made up", |stream| {
        stream.is_undisturbed && stream.start != Reader::default()
    }),
    ("disturbed", |stream| !stream.is_undisturbed),
];

/// None of them yet.
pub fn none() -> Cases {
    let steps = STEP_CASES.iter().map(|(name, _)| *name);
    let events = EVENT_CASES.iter().map(|(name, _)| *name);
    let streams = STREAM_CASES.iter().map(|(name, _)| *name);
    Cases::named(steps.chain(events).chain(streams))
}

/// Counts an event, with each word that was taken and with the stream that it ends.
pub fn note(cases: &mut Cases, event: &Event) {
    for step in steps_of(event) {
        cases.note(STEP_CASES.iter().map(|(_, is_it)| is_it(&step)));
    }
    let no_step = STEP_CASES.iter().map(|_| false);
    let of_event = EVENT_CASES.iter().map(|(_, is_it)| is_it(event));
    let of_stream = STREAM_CASES.iter().map(|(_, is_it)| {
        let stream = event.stream.as_deref();
        stream.is_some_and(is_it)
    });
    cases.note(no_step.chain(of_event).chain(of_stream));
}

/// The words that were taken, one by one.
fn steps_of(event: &Event) -> Vec<Step> {
    let Happening::Hear {
        reader,
        words,
        lent,
    } = &event.happening
    else {
        return Vec::new();
    };
    let (mut reader, mut lent) = (*reader, lent.clone());
    let taken = &words[..event.second.told.taken];
    let steps = taken.iter().map(|word| {
        let before = reader;
        let heard = reader.hear_mended(map::mend, &[*word], &mut lent);
        Step {
            before,
            mended: map::mend(*word),
            told: heard.told,
            after: reader,
            room: lent.len(),
        }
    });
    steps.collect()
}
