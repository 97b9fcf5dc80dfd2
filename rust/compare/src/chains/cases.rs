//! The cases that runs must bring.

use second::chain::{Chains, Key, Record, BUFFER, LAST_ADDRESS, LAST_MESSAGE_NUMBER};
use second::fragment::{self, FragmentRead, FIRST, LONGEST_TEXT, SIZES};

use crate::counted::Cases;
use crate::host::MortisevaneChain;

use super::events::{Event, Happening};

/// What a case is called, and whether an event is one of it.
type Case = (&'static str, fn(&Seen) -> bool);

const CASES: &[Case] = &[
    // Steps that are refused, and with what else wrong.
    ("8,063 bytes", |seen| {
        seen.refused(1) && seen.lent() == BUFFER - 1
    }),
    ("no bytes", |seen| seen.refused(1) && seen.lent() == 0),
    ("too few bytes and two of one key", |seen| {
        seen.refused(1) && has_two_of_one_key(&seen.before)
    }),
    ("an address over 31 in a record", |seen| {
        seen.unsound_by(|record| record.key.address > LAST_ADDRESS)
    }),
    ("N over 63 in a record", |seen| {
        seen.unsound_by(|record| record.key.message_number > LAST_MESSAGE_NUMBER)
    }),
    ("a next F over 2", |seen| {
        seen.unsound_by(|record| record.next_fragment > 2)
    }),
    ("a sum over 127", |seen| {
        seen.unsound_by(|record| record.sum > 127)
    }),
    ("a length over 1,008", |seen| {
        seen.unsound_by(|record| record.characters > LONGEST_TEXT)
    }),
    ("a closed record not all zero", |seen| {
        seen.refused(2) && seen.before.slots.iter().any(is_closed_unsound)
    }),
    ("two of one key", |seen| {
        seen.refused(2) && has_two_of_one_key(&seen.before)
    }),
    ("no sound state and an address over 31", |seen| {
        seen.refused(2) && seen.address() > LAST_ADDRESS
    }),
    ("no sound state and no fragment", |seen| {
        seen.refused(2) && seen.fragment.is_none()
    }),
    ("address 32", |seen| seen.refused(8) && seen.address() == 32),
    ("an address over 31 and no fragment", |seen| {
        seen.refused(8) && seen.fragment.is_none()
    }),
    ("no words", |seen| {
        seen.refused(9) && seen.words().is_empty()
    }),
    ("one word", |seen| {
        seen.refused(9) && seen.words().len() == 1
    }),
    ("86 words", |seen| {
        seen.refused(9) && seen.words().len() == 86
    }),
    ("a damaged word", |seen| seen.refused(10)),
    ("another K", |seen| seen.refused(11)),
    ("no slot for a chain", |seen| {
        seen.refused(12) && !seen.is_last_fragment()
    }),
    ("no slot for a page of one fragment", |seen| {
        seen.refused(12) && seen.is_last_fragment()
    }),
    ("a key not open", |seen| seen.refused(13)),
    ("a key not open, its address open with another N", |seen| {
        let key = seen.key();
        let others = |record: &Record| record.is_open() && record.key.address == key.address;
        seen.refused(13) && seen.before.slots.iter().any(others)
    }),
    ("a key not open, its N open with another address", |seen| {
        let number = seen.key().message_number;
        let others = |record: &Record| record.is_open() && record.key.message_number == number;
        seen.refused(13) && seen.before.slots.iter().any(others)
    }),
    ("an F that was the last one's", |seen| {
        seen.refused(14) && (seen.fragment_number() + 1) % 3 == seen.own_record().next_fragment
    }),
    ("an F that comes later", |seen| {
        seen.refused(14) && (seen.own_record().next_fragment + 1) % 3 == seen.fragment_number()
    }),
    ("out of turn and too long", |seen| {
        seen.refused(14) && seen.length_after() > LONGEST_TEXT
    }),
    ("1,009 characters", |seen| {
        seen.refused(15) && seen.length_after() == LONGEST_TEXT + 1
    }),
    ("too long and a last one", |seen| {
        seen.refused(15) && seen.is_last_fragment()
    }),
    ("too long and a continued one", |seen| {
        seen.refused(15) && !seen.is_last_fragment()
    }),
    ("another total of a last fragment", |seen| {
        seen.refused(16) && !seen.is_first_fragment()
    }),
    ("another total of a page, an older chain lost", |seen| {
        seen.refused(16) && seen.is_first_fragment() && seen.told().lost == 1
    }),
    ("another total of a page, no chain lost", |seen| {
        seen.refused(16) && seen.is_first_fragment() && seen.told().lost == 0
    }),
    ("another total of a page, no slot free", |seen| {
        seen.refused(16) && seen.is_first_fragment() && seen.before.first_free().is_none()
    }),
    // Steps that are accepted.
    ("begun", |seen| seen.joined() && seen.told().begun == 1),
    ("begun with R alone", |seen| {
        seen.joined() && (seen.told().retrieval, seen.told().mail_drop) == (1, 0)
    }),
    ("begun with M alone", |seen| {
        seen.joined() && (seen.told().retrieval, seen.told().mail_drop) == (0, 1)
    }),
    ("begun, an older chain lost", |seen| {
        seen.joined() && seen.told().begun == 1 && seen.told().lost == 1
    }),
    ("begun in a lower slot than the older chain's", |seen| {
        let older = seen.before.slot_of(seen.key());
        seen.joined() && seen.told().lost == 1 && seen.before.first_free() < older
    }),
    ("begun in the older chain's slot, no other free", |seen| {
        seen.joined() && seen.told().lost == 1 && seen.before.first_free().is_none()
    }),
    ("begun in a slot between open ones", |seen| {
        let free = seen.before.first_free().unwrap_or_default();
        let above = seen.before.slots.iter().skip(free);
        seen.joined() && seen.told().begun == 1 && free > 0 && { above }.any(Record::is_open)
    }),
    ("a page of one fragment, an older chain lost", |seen| {
        let told = seen.told();
        seen.joined() && (told.begun, told.complete, told.lost) == (1, 1, 1)
    }),
    ("a page of no text", |seen| {
        seen.joined() && seen.told().complete == 1 && seen.told().characters == 0
    }),
    ("grown, F 0", |seen| {
        seen.grown() && seen.fragment_number() == 0
    }),
    ("grown, F 1", |seen| {
        seen.grown() && seen.fragment_number() == 1
    }),
    ("grown, F 2", |seen| {
        seen.grown() && seen.fragment_number() == 2
    }),
    ("grown by nothing but fill", |seen| {
        seen.grown() && seen.fragment.is_some_and(|read| read.characters == 0)
    }),
    ("grown to 1,008 characters", |seen| {
        seen.grown() && seen.length_after() == LONGEST_TEXT
    }),
    ("grown by a largest fragment", |seen| {
        seen.grown() && seen.words().len() == *SIZES.end()
    }),
    ("grown, open by another number than 1", |seen| {
        seen.grown() && seen.own_record().is_open > 1
    }),
    ("another open by another number than 1", |seen| {
        let key = seen.key();
        let other = |record: &Record| record.is_open > 1 && record.key != key;
        seen.joined() && seen.before.slots.iter().any(other)
    }),
    ("complete after several fragments", |seen| {
        seen.joined() && seen.told().complete == 1 && seen.told().begun == 0
    }),
    ("complete in the last slot", |seen| {
        seen.joined() && seen.told().complete == 1 && seen.told().slot == 7
    }),
    ("complete with 1,008 characters", |seen| {
        seen.joined() && seen.told().complete == 1 && seen.told().characters == LONGEST_TEXT
    }),
    (
        "joined, all but 8,064 bytes of a longer buffer not lent",
        |seen| seen.joined() && seen.lent() == BUFFER && seen.event.part.end > BUFFER,
    ),
    ("joined in a longer buffer", |seen| {
        seen.joined() && seen.lent() > BUFFER
    }),
    // Drops.
    ("dropped", |seen| seen.dropped(0)),
    ("a drop from no sound state", |seen| seen.dropped(2)),
    ("a drop of N over 63", |seen| seen.dropped(7)),
    ("a drop of N over 63 and an address over 31", |seen| {
        seen.dropped(7) && seen.key().address > LAST_ADDRESS
    }),
    ("a drop of an address over 31", |seen| seen.dropped(8)),
    ("a drop of a key not open", |seen| seen.dropped(13)),
];

/// An event, and what is known of it.
struct Seen<'a> {
    event: &'a Event,
    /// The chains that were handed in.
    before: Chains,
    /// The fragment, if a good one came.
    fragment: Option<FragmentRead>,
}

impl Seen<'_> {
    fn new(event: &Event) -> Seen<'_> {
        let (before, fragment) = match &event.happening {
            Happening::Fresh { .. } => (Chains::default(), None),
            Happening::Step { chains, words, .. } => (*chains, fragment::heading(words).ok()),
            Happening::Drop { chains, .. } => (*chains, None),
        };
        Seen {
            event,
            before,
            fragment,
        }
    }

    fn told(&self) -> &MortisevaneChain {
        &self.event.second.told
    }

    fn is_step(&self) -> bool {
        matches!(self.event.happening, Happening::Step { .. })
    }

    fn refused(&self, number: u32) -> bool {
        self.told().number == number && self.is_step()
    }

    fn joined(&self) -> bool {
        self.refused(0)
    }

    /// Joined to a chain that was open.
    fn grown(&self) -> bool {
        self.joined() && self.told().begun == 0
    }

    fn dropped(&self, number: u32) -> bool {
        let is_drop = matches!(self.event.happening, Happening::Drop { .. });
        is_drop && self.told().number == number
    }

    /// With one record of an open chain of which this is so.
    fn unsound_by(&self, is_so: fn(&Record) -> bool) -> bool {
        let is_open_and_so = |record: &Record| record.is_open() && is_so(record);
        self.refused(2) && self.before.slots.iter().any(is_open_and_so)
    }

    fn lent(&self) -> usize {
        match self.event.happening {
            Happening::Step { lent, .. } => lent,
            _ => 0,
        }
    }

    fn words(&self) -> &[u32] {
        match &self.event.happening {
            Happening::Step { words, .. } => words,
            _ => &[],
        }
    }

    fn address(&self) -> u32 {
        match self.event.happening {
            Happening::Step { address, .. } => address,
            _ => 0,
        }
    }

    /// Of the fragment that came, or of what was dropped.
    fn key(&self) -> Key {
        match self.event.happening {
            Happening::Drop { key, .. } => key,
            _ => Key {
                address: self.address(),
                message_number: self.heading().message_number,
            },
        }
    }

    fn heading(&self) -> fragment::Heading {
        self.fragment.unwrap_or_default().heading
    }

    fn fragment_number(&self) -> u32 {
        self.heading().fragment_number
    }

    fn is_first_fragment(&self) -> bool {
        self.fragment_number() == FIRST
    }

    fn is_last_fragment(&self) -> bool {
        self.fragment.is_some() && self.heading().continued == 0
    }

    /// The record of the fragment's chain as it was; all zero where there was none.
    fn own_record(&self) -> Record {
        let slot = self.before.slot_of(self.key());
        slot.map_or_else(Record::default, |slot| self.before.slots[slot])
    }

    /// How long the chain's text would be with the fragment's.
    fn length_after(&self) -> usize {
        self.own_record().characters + self.fragment.unwrap_or_default().characters
    }
}

fn is_closed_unsound(record: &Record) -> bool {
    !record.is_open() && *record != Record::default()
}

fn has_two_of_one_key(chains: &Chains) -> bool {
    let open = |record: &&Record| record.is_open();
    let keys: Vec<Key> = chains
        .slots
        .iter()
        .filter(open)
        .map(|record| record.key)
        .collect();
    (1..keys.len()).any(|place| keys[..place].contains(&keys[place]))
}

/// None of them yet.
pub fn none() -> Cases {
    Cases::named(CASES.iter().map(|(name, _)| *name))
}

/// Counts an event.
pub fn note(cases: &mut Cases, event: &Event) {
    let seen = Seen::new(event);
    cases.note(CASES.iter().map(|(_, is_it)| is_it(&seen)));
}
