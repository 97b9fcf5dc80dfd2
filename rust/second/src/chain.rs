//! Chains: the fragments of a message joined in a lent buffer (01, "Fragments").
//!
//! A chain has one of eight slots. What is known of it stands in the slot's
//! record, and its text in the slot's share of the buffer.

use crate::fragment::{self, FragmentRead, FIRST, LONGEST_TEXT, MOST_CHARACTERS};
use crate::refusal::Refusal;

pub const SLOTS: usize = 8;
/// Each slot has room for a longest text.
pub const BUFFER: usize = SLOTS * LONGEST_TEXT;

pub const LAST_ADDRESS: u32 = 31;
pub const LAST_MESSAGE_NUMBER: u32 = 63;
const LAST_OF_TURN: u32 = 2;
/// Sums are kept modulo 128. Those of a whole message, S among them, are the
/// largest, since S is the complement of the others.
const SUMS: u32 = 128;
const WHOLE_SUM: u32 = SUMS - 1;

/// What a chain is known by.
#[derive(Clone, Copy, Debug, Default, PartialEq, Eq)]
pub struct Key {
    /// The address's number.
    pub address: u32,
    /// N.
    pub message_number: u32,
}

/// What is known of a slot's chain. All is 0 while the slot is closed.
#[derive(Clone, Copy, Debug, Default, PartialEq, Eq)]
pub struct Record {
    /// Any number but 0 is open.
    pub is_open: u32,
    pub key: Key,
    /// The F that comes next.
    pub next_fragment: u32,
    /// All cells so far, S and fill included, summed modulo 128.
    pub sum: u32,
    /// How long the text is so far.
    pub characters: usize,
}

impl Record {
    /// Of a chain whose first fragment is still to be put in.
    fn awaiting_first(key: Key) -> Record {
        Record {
            key,
            next_fragment: FIRST,
            ..Record::default()
        }
    }

    pub fn is_open(&self) -> bool {
        self.is_open != 0
    }

    fn is_sound(&self) -> bool {
        if !self.is_open() {
            return *self == Record::default();
        }
        self.key.address <= LAST_ADDRESS
            && self.key.message_number <= LAST_MESSAGE_NUMBER
            && self.next_fragment <= LAST_OF_TURN
            && self.sum < SUMS
            && self.characters <= LONGEST_TEXT
    }

    /// With one more fragment, which may be the last one.
    fn grown(&self, by: &FragmentRead) -> Result<Record, Refusal> {
        let heading = by.heading;
        if heading.fragment_number != self.next_fragment {
            return Err(Refusal::OutOfTurn);
        }
        let grown = Record {
            is_open: 1,
            key: self.key,
            next_fragment: match heading.fragment_number {
                FIRST | LAST_OF_TURN => 0,
                earlier => earlier + 1,
            },
            sum: (self.sum + heading.sum) % SUMS,
            characters: self.characters + by.characters,
        };
        if grown.characters > LONGEST_TEXT {
            return Err(Refusal::TooLong);
        }
        if heading.continued == 0 && grown.sum != WHOLE_SUM {
            return Err(Refusal::Signature);
        }
        Ok(grown)
    }
}

/// The records of all slots.
#[derive(Clone, Copy, Debug, Default, PartialEq, Eq)]
pub struct Chains {
    pub slots: [Record; SLOTS],
}

/// What is told of a fragment that was joined.
#[derive(Clone, Copy, Debug, Default, PartialEq, Eq)]
pub struct Joined {
    /// Whether an open chain of its key was closed for it.
    pub lost: bool,
    /// There if it was a first fragment.
    pub begun: Option<Begun>,
    /// There if it was a last one: the text is whole.
    pub complete: Option<Complete>,
}

#[derive(Clone, Copy, Debug, PartialEq, Eq)]
pub struct Begun {
    /// R.
    pub retrieval: u32,
    /// M.
    pub mail_drop: u32,
}

#[derive(Clone, Copy, Debug, PartialEq, Eq)]
pub struct Complete {
    /// The slot that it had.
    pub slot: usize,
    /// Where the text begins in the buffer.
    pub place: usize,
    pub characters: usize,
}

/// Why a fragment was not joined, and whether its key's chain was lost by it.
#[derive(Clone, Copy, Debug, PartialEq, Eq)]
pub struct NotJoined {
    pub refusal: Refusal,
    pub lost: bool,
}

impl From<Refusal> for NotJoined {
    fn from(refusal: Refusal) -> NotJoined {
        NotJoined {
            refusal,
            lost: false,
        }
    }
}

impl Chains {
    /// Joins a fragment that came for the address.
    pub fn step(
        &mut self,
        buffer: &mut [u8],
        address: u32,
        words: &[u32],
    ) -> Result<Joined, NotJoined> {
        if buffer.len() < BUFFER {
            return Err(Refusal::Room.into());
        }
        self.check()?;
        check_address(address)?;
        let mut text = [0; MOST_CHARACTERS];
        let read = fragment::read(words, &mut text)?;
        let heading = read.heading;
        let key = Key {
            address,
            message_number: heading.message_number,
        };
        let is_first = heading.fragment_number == FIRST;
        let open_slot = self.slot_of(key);
        let before = match open_slot {
            _ if is_first => Record::awaiting_first(key),
            Some(slot) => self.slots[slot],
            None => return Err(Refusal::NoChain.into()),
        };
        let grown = before.grown(&read);
        let lost = open_slot.is_some() && (is_first || grown.is_err());
        if let Some(slot) = open_slot.filter(|_| lost) {
            self.close(slot);
        }
        let after = grown.map_err(|refusal| NotJoined { refusal, lost })?;
        let slot = match open_slot {
            Some(slot) if !is_first => slot,
            _ => self.first_free().ok_or(Refusal::Full)?,
        };
        let place = slot * LONGEST_TEXT;
        buffer[place..][before.characters..after.characters]
            .copy_from_slice(&text[..read.characters]);
        let is_last = heading.continued == 0;
        self.slots[slot] = match is_last {
            true => Record::default(),
            false => after,
        };
        Ok(Joined {
            lost,
            begun: is_first.then_some(Begun {
                retrieval: heading.retrieval,
                mail_drop: heading.mail_drop,
            }),
            complete: is_last.then_some(Complete {
                slot,
                place,
                characters: after.characters,
            }),
        })
    }

    /// Closes a chain that nobody waits for any more.
    pub fn give_up(&mut self, key: Key) -> Result<(), Refusal> {
        self.check()?;
        if key.message_number > LAST_MESSAGE_NUMBER {
            return Err(Refusal::Packet);
        }
        check_address(key.address)?;
        let slot = self.slot_of(key).ok_or(Refusal::NoChain)?;
        self.close(slot);
        Ok(())
    }

    /// The slot of the key's open chain.
    pub fn slot_of(&self, key: Key) -> Option<usize> {
        let is_it = |record: &Record| record.is_open() && record.key == key;
        self.slots.iter().position(is_it)
    }

    pub fn first_free(&self) -> Option<usize> {
        self.slots.iter().position(|record| !record.is_open())
    }

    fn close(&mut self, slot: usize) {
        self.slots[slot] = Record::default();
    }

    fn check(&self) -> Result<(), Refusal> {
        let in_slot = |(slot, record): (usize, &Record)| {
            let first_of_key = || self.slot_of(record.key) == Some(slot);
            record.is_sound() && (!record.is_open() || first_of_key())
        };
        match self.slots.iter().enumerate().all(in_slot) {
            true => Ok(()),
            false => Err(Refusal::State),
        }
    }
}

fn check_address(address: u32) -> Result<(), Refusal> {
    match address <= LAST_ADDRESS {
        true => Ok(()),
        false => Err(Refusal::Address),
    }
}

#[cfg(test)]
mod tests {
    use super::*;
    use crate::fragment::{Heading, Marks, ETX};

    const BYTE_BEFORE: u8 = 0xA5;
    const KEY: Key = key(31, 63);

    /// "ABCD" in two fragments, N = 63, R and M set. S: 41 + 42 + 43 + 44 + 03 =
    /// 10D, whose low seven bits are 0D, so 72. First word of the first: all ones
    /// but K; then 72 + 41 * 80 + 42 * 4000 = 10A0F2. K: FC + 1F + F2 + A0 + 10 =
    /// 2BD, so 142. Of the second: N alone, 07E000; then 43 + 44 * 80 + 03 * 4000 =
    /// 00E243. K: E0 + 07 + 43 + E2 = 20C, so 1F3.
    const AB: [u32; 2] = [0x1F_FD42, 0x10_A0F2];
    const CD: [u32; 2] = [0x07_E1F3, 0x00_E243];
    /// 72 + 41 + 42 = F5, modulo 80.
    const SUM_OF_AB: u32 = 0x75;

    const fn key(address: u32, message_number: u32) -> Key {
        Key {
            address,
            message_number,
        }
    }

    fn open(key: Key, next_fragment: u32, sum: u32, characters: usize) -> Record {
        Record {
            is_open: 1,
            key,
            next_fragment,
            sum,
            characters,
        }
    }

    fn not_joined(refusal: Refusal, lost: bool) -> Result<Joined, NotJoined> {
        Err(NotJoined { refusal, lost })
    }

    fn goes_on() -> Result<Joined, NotJoined> {
        Ok(Joined::default())
    }

    fn begins(lost: bool, retrieval: u32, mail_drop: u32) -> Result<Joined, NotJoined> {
        Ok(Joined {
            lost,
            begun: Some(Begun {
                retrieval,
                mail_drop,
            }),
            complete: None,
        })
    }

    fn completes(slot: usize, place: usize, characters: usize) -> Result<Joined, NotJoined> {
        Ok(Joined {
            complete: Some(Complete {
                slot,
                place,
                characters,
            }),
            ..Joined::default()
        })
    }

    /// The chains and their buffer.
    struct Receiver {
        chains: Chains,
        buffer: Vec<u8>,
    }

    impl Receiver {
        fn fresh() -> Receiver {
            Receiver::with(Chains::default())
        }

        fn with(chains: Chains) -> Receiver {
            Receiver {
                chains,
                buffer: vec![BYTE_BEFORE; 8_064],
            }
        }

        /// With an open chain of two characters in each of the first slots, N
        /// being the slot's number.
        fn with_open(count: usize) -> Receiver {
            let mut chains = Chains::default();
            for (slot, record) in chains.slots.iter_mut().take(count).enumerate() {
                *record = open(key(5, slot as u32), 0, 0, 2);
            }
            Receiver::with(chains)
        }

        fn step(&mut self, address: u32, words: &[u32]) -> Result<Joined, NotJoined> {
            self.chains.step(&mut self.buffer, address, words)
        }

        /// The same, which must change nothing whatever.
        #[track_caller]
        fn step_in_vain(&mut self, address: u32, words: &[u32]) -> NotJoined {
            let (chains, buffer) = (self.chains, self.buffer.clone());
            let told = self.step(address, words).unwrap_err();
            assert_eq!((self.chains, &self.buffer), (chains, &buffer));
            told
        }

        /// The buffer must hold these texts, each where it is said to begin, and
        /// elsewhere what was there before.
        #[track_caller]
        fn assert_holds(&self, texts: &[(usize, &[u8])]) {
            let mut buffer = vec![BYTE_BEFORE; self.buffer.len()];
            for (place, text) in texts {
                buffer[*place..][..text.len()].copy_from_slice(text);
            }
            assert!(self.buffer == buffer);
        }
    }

    fn heading(continued: u32, fragment_number: u32, message_number: u32) -> Heading {
        Heading {
            continued,
            fragment_number,
            message_number,
            ..Heading::default()
        }
    }

    /// A fragment that nothing follows. S of a first one is 0.
    fn last(fragment_number: u32, message_number: u32, text: &[u8]) -> Vec<u32> {
        fragment::build(&heading(0, fragment_number, message_number), text)
    }

    /// A fragment that more follow.
    fn continued(fragment_number: u32, message_number: u32, text: &[u8]) -> Vec<u32> {
        fragment::build(&heading(1, fragment_number, message_number), text)
    }

    /// A page of one fragment.
    fn page(message_number: u32, text: &[u8]) -> Vec<u32> {
        let marks = Marks {
            message_number,
            ..Marks::default()
        };
        let mut row = [0; 85];
        let cut = fragment::cut(text, marks, 85, &mut row).unwrap();
        assert_eq!(cut.fragments, 1);
        row[..cut.words].to_vec()
    }

    #[test]
    fn two_fragments_are_joined() {
        let mut receiver = Receiver::fresh();
        assert_eq!(receiver.step(31, &AB), begins(false, 1, 1));
        let mut chains = Chains::default();
        chains.slots[0] = open(KEY, 0, SUM_OF_AB, 2);
        assert_eq!(receiver.chains, chains);
        receiver.assert_holds(&[(0, b"AB")]);
        // 75 + 43 + 44 + 03 = FF.
        assert_eq!(receiver.step(31, &CD), completes(0, 0, 4));
        assert_eq!(receiver.chains, Chains::default());
        receiver.assert_holds(&[(0, b"ABCD")]);
        // The chain is closed: its last fragment comes a second time in vain.
        let told = receiver.step_in_vain(31, &CD);
        assert_eq!(told, Refusal::NoChain.into());
    }

    #[test]
    fn a_page_of_one_fragment() {
        let mut receiver = Receiver::with_open(1);
        let whole = Complete {
            slot: 1,
            place: 1_008,
            characters: 5,
        };
        let joined = Joined {
            complete: Some(whole),
            ..begins(false, 0, 0).unwrap()
        };
        assert_eq!(receiver.step(5, &page(9, b"Dock3")), Ok(joined));
        assert_eq!(receiver.chains, Receiver::with_open(1).chains);
        receiver.assert_holds(&[(1_008, b"Dock3")]);
    }

    #[test]
    fn a_page_without_text() {
        let mut receiver = Receiver::fresh();
        let complete = receiver.step(0, &page(0, b"")).unwrap().complete;
        let whole = Complete {
            slot: 0,
            place: 0,
            characters: 0,
        };
        assert_eq!(complete, Some(whole));
        receiver.assert_holds(&[]);
    }

    /// After 3 comes 0, then 1, 2, 0 and so on. Cells of three "a" are 123 hex,
    /// modulo 80 hex 23; S = 0 and two "b" are C4, so 44.
    #[test]
    fn turns() {
        let mut receiver = Receiver::fresh();
        assert!(receiver.step(7, &continued(FIRST, 1, b"bb")).is_ok());
        let (mut sum, mut characters) = (0x44, 2);
        assert_eq!(receiver.chains.slots[0], open(key(7, 1), 0, sum, 2));
        for (turn, next) in [(0, 1), (1, 2), (2, 0), (0, 1), (1, 2), (2, 0), (0, 1)] {
            assert_eq!(receiver.step(7, &continued(turn, 1, b"aaa")), goes_on());
            sum = (sum + 0x23) % 0x80;
            characters += 3;
            let record = open(key(7, 1), next, sum, characters);
            assert_eq!(receiver.chains.slots[0], record);
        }
        receiver.assert_holds(&[(0, b"bbaaaaaaaaaaaaaaaaaaaaa")]);
    }

    /// Each F but the next, a repeat among them, closes the chain as lost.
    #[test]
    fn out_of_turn() {
        for next in 0..=2 {
            for turn in (0..=2).filter(|turn| *turn != next) {
                let mut receiver = Receiver::with_open(3);
                receiver.chains.slots[1].next_fragment = next;
                let mut after = receiver.chains;
                after.slots[1] = Record::default();
                let told = receiver.step(5, &continued(turn, 1, b"abc"));
                assert_eq!(told, not_joined(Refusal::OutOfTurn, true));
                assert_eq!(receiver.chains, after);
                receiver.assert_holds(&[]);
                // So does what comes next: there is no chain.
                let told = receiver.step_in_vain(5, &continued(next, 1, b"abc"));
                assert_eq!(told, Refusal::NoChain.into());
            }
        }
    }

    /// Three lost fragments are not noticed by F but by the signature.
    #[test]
    fn three_are_lost() {
        let mut row = [0; 12];
        let cut = fragment::cut(b"abcdefghijklmnop", Marks::default(), 2, &mut row);
        // 2, then 3 each, and two are left.
        assert_eq!(cut.unwrap().fragments, 6);
        let fragments: Vec<&[u32]> = row.chunks(2).collect();
        let mut receiver = Receiver::fresh();
        assert!(receiver.step(0, fragments[0]).is_ok());
        assert_eq!(receiver.step(0, fragments[1]), goes_on());
        // F = 1 is awaited and comes, of the sixth instead of the third.
        let told = receiver.step(0, fragments[5]);
        assert_eq!(told, not_joined(Refusal::Signature, true));
        assert_eq!(receiver.chains, Chains::default());
        receiver.assert_holds(&[(0, b"abcde")]);
    }

    #[test]
    fn later_fragments_need_their_key() {
        let mut receiver = Receiver::with_open(2);
        for (address, message_number) in [(5, 2), (6, 0), (0, 0), (31, 1)] {
            for turn in 0..=2 {
                for words in [
                    continued(turn, message_number, b"abc"),
                    last(turn, message_number, b"abc"),
                ] {
                    let told = receiver.step_in_vain(address, &words);
                    assert_eq!(told, Refusal::NoChain.into());
                }
            }
        }
    }

    #[test]
    fn the_lowest_free_slot() {
        let mut receiver = Receiver::with_open(6);
        assert_eq!(receiver.chains.give_up(key(5, 4)), Ok(()));
        assert_eq!(receiver.chains.give_up(key(5, 1)), Ok(()));
        for (slot, message_number) in [(1, 20), (4, 21), (6, 22), (7, 23)] {
            let words = continued(FIRST, message_number, b"xy");
            assert_eq!(receiver.step(5, &words), begins(false, 0, 0));
            assert_eq!(receiver.chains.slot_of(key(5, message_number)), Some(slot));
        }
        receiver.assert_holds(&[
            (1_008, b"xy"),
            (4_032, b"xy"),
            (6_048, b"xy"),
            (7_056, b"xy"),
        ]);
    }

    /// The older chain's slot is among the free ones, and all zero if another is
    /// lower.
    #[test]
    fn an_older_chain_is_closed_first() {
        let mut receiver = Receiver::with_open(8);
        let words = continued(FIRST, 3, b"xy");
        assert_eq!(receiver.step(5, &words), begins(true, 0, 0));
        let mut after = Receiver::with_open(8).chains;
        // 78 + 79 = F1, modulo 80.
        after.slots[3] = open(key(5, 3), 0, 0x71, 2);
        assert_eq!(receiver.chains, after);
        receiver.assert_holds(&[(3_024, b"xy")]);

        assert_eq!(receiver.chains.give_up(key(5, 0)), Ok(()));
        assert_eq!(receiver.step(5, &words), begins(true, 0, 0));
        after.slots[0] = after.slots[3];
        after.slots[3] = Record::default();
        assert_eq!(receiver.chains, after);
        receiver.assert_holds(&[(0, b"xy"), (3_024, b"xy")]);

        let told = receiver.step(5, &page(7, b"z")).unwrap();
        assert!(told.lost && told.begun.is_some());
        assert_eq!(told.complete.unwrap().slot, 3);
        after.slots[7] = Record::default();
        assert_eq!(receiver.chains, after);
        receiver.assert_holds(&[(0, b"xy"), (3_024, b"zy")]);
    }

    /// 12 changes nothing; 16 is asked before it.
    #[test]
    fn all_slots_taken() {
        let mut receiver = Receiver::with_open(8);
        let told = receiver.step_in_vain(5, &continued(FIRST, 8, b"xy"));
        assert_eq!(told, Refusal::Full.into());
        let told = receiver.step_in_vain(5, &page(8, b"xy"));
        assert_eq!(told, Refusal::Full.into());
        let told = receiver.step_in_vain(5, &last(FIRST, 8, b"xy"));
        assert_eq!(told, Refusal::Signature.into());
        // A later fragment takes no slot.
        assert_eq!(receiver.step(5, &continued(0, 6, b"xy")), goes_on());
    }

    /// A message of so many "q": 251 in the first fragment, 252 in each of three
    /// more, and the rest in a fifth of two words. All cells but S are 251 + 3 * 252
    /// + 3 = 1,010, and those that are no "q" are ETX.
    fn long_message(characters: usize) -> Vec<Vec<u32>> {
        let text = vec![b'q'; characters];
        let (first, rest) = text.split_at(251);
        let parts: Vec<&[u8]> = rest.chunks(252).collect();
        assert_eq!(parts.len(), 4);
        let fill = 1_010 - characters;
        let sum = characters * usize::from(b'q') + fill * usize::from(ETX);
        let first_heading = Heading {
            signature: 127 - sum as u32 % 128,
            ..heading(1, FIRST, 17)
        };
        let mut fragments = vec![fragment::build(&first_heading, first)];
        for (place, part) in parts.into_iter().enumerate() {
            let more = u32::from(place < 3);
            let later = heading(more, place as u32 % 3, 17);
            fragments.push(fragment::build(&later, part));
        }
        fragments
    }

    /// 01: 1,008 characters join, 1,009 are refused 15.
    #[test]
    fn longest_text() {
        for characters in [1_008, 1_009, 1_010] {
            let mut receiver = Receiver::with_open(7);
            let fragments = long_message(characters);
            assert!(receiver.step(17, &fragments[0]).is_ok());
            for fragment in &fragments[1..4] {
                assert_eq!(receiver.step(17, fragment), goes_on());
            }
            assert_eq!(receiver.chains.slots[7].characters, 1_007);
            let told = receiver.step(17, &fragments[4]);
            let text = vec![b'q'; 1_008];
            if characters == 1_008 {
                assert_eq!(told, completes(7, 7_056, 1_008));
                receiver.assert_holds(&[(7_056, &text)]);
            } else {
                assert_eq!(told, not_joined(Refusal::TooLong, true));
                receiver.assert_holds(&[(7_056, &text[..1_007])]);
            }
            assert_eq!(receiver.chains, Receiver::with_open(7).chains);
        }
    }

    /// ETX is no text, so a full chain still takes a fragment of nothing else.
    #[test]
    fn a_full_chain_takes_fill() {
        for (text, accepted) in [(&b""[..], true), (b"\x03\x03\x03", true), (b"a", false)] {
            let mut receiver = Receiver::with_open(1);
            receiver.chains.slots[0].characters = 1_008;
            let told = receiver.step(5, &continued(0, 0, text));
            if accepted {
                assert_eq!(told, goes_on());
                // 03 + 03 + 03 = 9.
                assert_eq!(receiver.chains.slots[0], open(key(5, 0), 1, 9, 1_008));
            } else {
                assert_eq!(told, not_joined(Refusal::TooLong, true));
                assert_eq!(receiver.chains, Chains::default());
            }
            receiver.assert_holds(&[]);
        }
    }

    /// Three "a" are 23 modulo 80, all in hexadecimal, so 5C before them is whole.
    #[test]
    fn signatures() {
        for sum in 0..128 {
            let mut receiver = Receiver::with_open(1);
            receiver.chains.slots[0].sum = sum;
            let told = receiver.step(5, &last(0, 0, b"aaa"));
            if sum == 0x5C {
                assert_eq!(told, completes(0, 0, 5));
                receiver.assert_holds(&[(2, b"aaa")]);
            } else {
                assert_eq!(told, not_joined(Refusal::Signature, true));
                receiver.assert_holds(&[]);
            }
            assert_eq!(receiver.chains, Chains::default());
        }
    }

    /// A first fragment that is refused 16 has closed its key's older chain.
    #[test]
    fn a_page_with_a_wrong_signature() {
        let mut receiver = Receiver::with_open(3);
        let told = receiver.step(5, &last(FIRST, 1, b"xy"));
        assert_eq!(told, not_joined(Refusal::Signature, true));
        let mut after = Receiver::with_open(3).chains;
        after.slots[1] = Record::default();
        assert_eq!(receiver.chains, after);
        let told = receiver.step_in_vain(5, &last(FIRST, 1, b"xy"));
        assert_eq!(told, Refusal::Signature.into());
        receiver.assert_holds(&[]);
    }

    /// Any number but 0 is open. It stays as it is until the chain grows.
    #[test]
    fn open_by_any_number() {
        for is_open in [2, 7, 1 << 31, u32::MAX] {
            let mut receiver = Receiver::with_open(2);
            receiver.chains.slots[0].is_open = is_open;
            assert_eq!(receiver.step(5, &continued(0, 1, b"")), goes_on());
            assert_eq!(receiver.chains.slots[0].is_open, is_open);
            assert_eq!(receiver.step(5, &continued(0, 0, b"")), goes_on());
            assert_eq!(receiver.chains.slots[0], open(key(5, 0), 1, 9, 2));
        }
    }

    /// Each number of a record that is over its limit, or not 0 in a closed slot;
    /// and two of one key.
    fn unsound() -> Vec<Chains> {
        let mut all = Vec::new();
        let good = Receiver::with_open(7).chains;
        for slot in [0, 3, 6] {
            let mut with = |change: fn(&mut Record)| {
                let mut chains = good;
                change(&mut chains.slots[slot]);
                all.push(chains);
            };
            with(|record| record.key.address = 32);
            with(|record| record.key.address = u32::MAX);
            with(|record| record.key.message_number = 64);
            with(|record| record.next_fragment = 3);
            with(|record| record.sum = 128);
            with(|record| record.characters = 1_009);
            with(|record| record.characters = usize::MAX);
            with(|record| record.is_open = 0);
        }
        let mut closed = |change: fn(&mut Record)| {
            let mut chains = good;
            change(&mut chains.slots[7]);
            all.push(chains);
        };
        closed(|record| record.key.address = 1);
        closed(|record| record.key.message_number = 1);
        closed(|record| record.next_fragment = 1);
        closed(|record| record.sum = 1);
        closed(|record| record.characters = 1);
        closed(|record| *record = open(key(5, 0), 1, 2, 3));
        closed(|record| {
            *record = Record {
                is_open: 7,
                ..open(key(5, 6), 0, 0, 0)
            }
        });
        all
    }

    #[test]
    fn unsound_states() {
        for chains in unsound() {
            let mut receiver = Receiver::with(chains);
            let told = receiver.step_in_vain(32, &[]);
            assert_eq!(told, Refusal::State.into());
            let told = receiver.step_in_vain(5, &page(9, b"z"));
            assert_eq!(told, Refusal::State.into());
            let mut after = chains;
            assert_eq!(after.give_up(key(32, 64)), Err(Refusal::State));
            assert_eq!(after, chains);
        }
    }

    /// The largest numbers of a record that are sound.
    #[test]
    fn soundest_state() {
        let mut receiver = Receiver::with_open(8);
        receiver.chains.slots[2] = open(KEY, 2, 127, 1_008);
        assert_eq!(receiver.step(31, &continued(2, 63, b"")), goes_on());
        // 127 + 9, modulo 128.
        assert_eq!(receiver.chains.slots[2], open(KEY, 0, 8, 1_008));
    }

    /// Each refusal with all that comes later in the order wrong as well, as far as
    /// that can be.
    #[test]
    fn order() {
        let unsound = unsound()[0];
        let mut receiver = Receiver::with(unsound);
        for length in [0, 1, 1_008, 8_063] {
            receiver.buffer.resize(length, BYTE_BEFORE);
            let told = receiver.step_in_vain(32, &[]);
            assert_eq!(told, Refusal::Room.into());
        }
        let mut receiver = Receiver::with_open(8);
        for address in [32, 63, 1 << 31, u32::MAX] {
            let told = receiver.step_in_vain(address, &[]);
            assert_eq!(told, Refusal::Address.into());
        }
        for count in [0, 1, 86] {
            let told = receiver.step_in_vain(5, &vec![u32::MAX; count]);
            assert_eq!(told, Refusal::Size.into());
        }
        // A turned bit of K, and a word over 21 bits.
        let mut words = last(1, 0, b"abc");
        words[0] ^= 1;
        let told = receiver.step_in_vain(5, &words);
        assert_eq!(told, Refusal::Checksum.into());
        words[1] |= 1 << 21;
        let told = receiver.step_in_vain(5, &words);
        assert_eq!(told, Refusal::Damaged.into());
        // Out of turn, too long and of a wrong signature; then the last two.
        receiver.chains.slots[0].characters = 1_008;
        receiver.chains.slots[1].characters = 1_008;
        let told = receiver.step(5, &last(1, 0, b"abc"));
        assert_eq!(told, not_joined(Refusal::OutOfTurn, true));
        let told = receiver.step(5, &last(0, 1, b"abc"));
        assert_eq!(told, not_joined(Refusal::TooLong, true));
        receiver.assert_holds(&[]);
    }

    #[test]
    fn a_longer_buffer_keeps_its_rest() {
        let mut receiver = Receiver::with_open(7);
        receiver.buffer.resize(8_100, BYTE_BEFORE);
        assert!(receiver.step(0, &page(0, b"end")).is_ok());
        receiver.assert_holds(&[(7_056, b"end")]);
    }

    #[test]
    fn chains_given_up() {
        let mut chains = Receiver::with_open(3).chains;
        for message_number in [64, 128, u32::MAX] {
            let given_up = chains.give_up(key(32, message_number));
            assert_eq!(given_up, Err(Refusal::Packet));
        }
        for address in [32, u32::MAX] {
            let given_up = chains.give_up(key(address, 63));
            assert_eq!(given_up, Err(Refusal::Address));
        }
        for nobody in [key(5, 3), key(4, 0), key(0, 0), KEY] {
            assert_eq!(chains.give_up(nobody), Err(Refusal::NoChain));
        }
        assert_eq!(chains, Receiver::with_open(3).chains);
        assert_eq!(chains.give_up(key(5, 1)), Ok(()));
        let mut after = Receiver::with_open(3).chains;
        after.slots[1] = Record::default();
        assert_eq!(chains, after);
        assert_eq!(chains.give_up(key(5, 1)), Err(Refusal::NoChain));
    }
}
