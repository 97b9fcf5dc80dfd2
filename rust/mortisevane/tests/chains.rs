//! Texts joined from their fragments.

use mortisevane::chains::{Begun, Chain, Chains, Refused, Taken, CHAIN_BYTES, SLOTS};
use mortisevane::fragment::{self, Marks, CUT_WORDS};
use mortisevane::{sums, Refusal};

const ADDRESS: u32 = 31;
const ETX: u8 = 3;
const UNTOUCHED: u8 = 0xA5;
const TAKEN: Taken = Taken { lost: false, begun: None, text: None };

/// A fragment of cells, three to a word, by Tables 44 and 45: C, F and N in its first word, and its K.
fn words_of(continued: u32, fragment_number: u32, message_number: u32, cells: &[u8]) -> Vec<u32> {
    assert_eq!(cells.len() % 3, 0);
    let mut words = vec![continued << 10 | fragment_number << 11 | message_number << 13];
    words.extend(cells.chunks(3).map(|cells| cells.iter().rev().fold(0, |word, cell| word << 7 | u32::from(*cell))));
    words[0] |= sums::ten_bit(&words);
    words
}

/// 41H + 42H + 43H + 44H + 45H is 335, 79 modulo 128, and its complement 48, the code of 0.
fn five_letters() -> [Vec<u32>; 2] {
    [words_of(1, 3, 9, b"0AB"), words_of(0, 0, 9, b"CDE")]
}

struct Receiver {
    chains: Chains,
    buffer: Vec<u8>,
}

impl Receiver {
    fn new() -> Receiver {
        Receiver { chains: Chains::default(), buffer: vec![UNTOUCHED; CHAIN_BYTES] }
    }

    fn take(&mut self, words: &[u32]) -> Result<Taken<'_>, Refused> {
        self.chains.fragment(&mut self.buffer, ADDRESS, words)
    }

    /// Refused, the buffer as it was, and the chains too unless one is lost.
    fn refuse(&mut self, words: &[u32], refusal: Refusal, lost: bool) {
        let (chains, buffer) = (self.chains, self.buffer.clone());
        assert_eq!(self.take(words), Err(Refused { refusal, lost }));
        assert_eq!(self.buffer, buffer);
        assert_eq!(self.chains == chains, !lost);
    }
}

#[test]
fn three_fragments_are_a_text() {
    let text = b"Rack 0417, bay 2";
    let marks = Marks { message_number: 5, retrieval: 1, mail_drop: 0 };
    let mut words = [0; CUT_WORDS];
    let fragments: Vec<&[u32]> = fragment::cut(text, marks, 3, &mut words).unwrap().collect();
    let [first, second, third] = fragments.try_into().expect("there are three");
    let mut receiver = Receiver::new();
    let begun = Some(Begun { retrieval: true, mail_drop: false });
    assert_eq!(receiver.take(first), Ok(Taken { begun, ..TAKEN }));
    assert_eq!(receiver.take(second), Ok(TAKEN));
    assert_eq!(receiver.take(third), Ok(Taken { text: Some(text), ..TAKEN }));
    assert_eq!(receiver.chains, Chains::fresh());
    // What lies after the text in the lent buffer is as it was.
    assert!(receiver.buffer[text.len()..].iter().all(|byte| *byte == UNTOUCHED));
}

#[test]
fn texts_of_two_keys_do_not_touch() {
    let [first, second] = five_letters();
    // 56H + 57H + 58H + 59H + 5AH is 440, 56 modulo 128, and its complement 71, the code of G.
    let [other_first, other_second] = [words_of(1, 3, 9, b"GVW"), words_of(0, 0, 9, b"XYZ")];
    let mut receiver = Receiver::new();
    receiver.take(&first).unwrap();
    receiver.chains.fragment(&mut receiver.buffer, 0, &other_first).unwrap();
    let other = receiver.chains.fragment(&mut receiver.buffer, 0, &other_second).unwrap();
    assert_eq!(other.text, Some(&b"VWXYZ"[..]));
    assert_eq!(receiver.take(&second).unwrap().text, Some(&b"ABCDE"[..]));
}

#[test]
fn the_state_is_kept_as_plain_numbers() {
    let [first, second] = five_letters();
    let mut receiver = Receiver::new();
    receiver.take(&first).unwrap();
    let kept = receiver.chains.slots.map(|chain| {
        let Chain { is_open, address, message_number, next_fragment, sum, characters } = chain;
        (is_open, address, message_number, next_fragment, sum, characters)
    });
    // Open, of this key, awaiting F 0, with 30H + 41H + 42H modulo 128 and two characters.
    assert_eq!(kept[0], (1, ADDRESS, 9, 0, 0x33, 2));
    receiver.chains = Chains {
        slots: kept.map(|(is_open, address, message_number, next_fragment, sum, characters)| Chain {
            is_open,
            address,
            message_number,
            next_fragment,
            sum,
            characters,
        }),
    };
    assert_eq!(receiver.take(&second).unwrap().text, Some(&b"ABCDE"[..]));
}

#[test]
fn a_first_fragment_closes_the_older_chain() {
    let [first, _] = five_letters();
    let mut receiver = Receiver::new();
    receiver.take(&first).unwrap();
    let begun = Some(Begun { retrieval: false, mail_drop: false });
    assert_eq!(receiver.take(&first), Ok(Taken { lost: true, begun, text: None }));
}

#[test]
fn memory_state_and_address_are_asked_first() {
    let [first, _] = five_letters();
    let refused = |chains: Chains, room: usize, address| {
        let mut after = chains;
        let told = after.fragment(&mut vec![0; room], address, &first).unwrap_err();
        assert_eq!(after, chains);
        (told.refusal, told.lost)
    };
    let mut unsound = Chains::fresh();
    unsound.slots[0] = Chain { is_open: 1, message_number: 64, ..Chain::default() };
    assert_eq!(refused(Chains::fresh(), CHAIN_BYTES - 1, 32), (Refusal::Room, false));
    assert_eq!(refused(Chains::fresh(), 0, 0), (Refusal::Room, false));
    assert_eq!(refused(unsound, CHAIN_BYTES, 32), (Refusal::State, false));
    assert_eq!(refused(Chains::fresh(), CHAIN_BYTES, 32), (Refusal::Address, false));
}

#[test]
fn fragments_that_are_bad_in_themselves() {
    let [first, second] = five_letters();
    let mut receiver = Receiver::new();
    receiver.refuse(&first[..1], Refusal::Size, false);
    receiver.refuse(&[first[0], first[1] | 0x200000], Refusal::Damaged, false);
    receiver.refuse(&[first[0], first[1] ^ 1], Refusal::Checksum, false);
    receiver.refuse(&second, Refusal::NoChain, false);
}

#[test]
fn fragments_that_close_their_chain() {
    let [first, _] = five_letters();
    let mut receiver = Receiver::new();
    receiver.take(&first).unwrap();
    receiver.refuse(&words_of(0, 1, 9, b"CDE"), Refusal::OutOfTurn, true);
    receiver.take(&first).unwrap();
    receiver.refuse(&words_of(0, 0, 9, b"CDF"), Refusal::Signature, true);
    // A page of one fragment had no chain that could be lost.
    receiver.refuse(&words_of(0, 3, 9, b"0AB"), Refusal::Signature, false);
}

#[test]
fn a_text_too_long() {
    let mut receiver = Receiver::new();
    // 251 characters and three times 252 are 1,007.
    receiver.take(&words_of(1, 3, 9, &[b'x'; 252])).unwrap();
    for fragment_number in 0..3 {
        receiver.take(&words_of(1, fragment_number, 9, &[b'x'; 252])).unwrap();
    }
    let mut one_more = receiver.chains;
    let last = words_of(1, 0, 9, &[b'x', ETX, ETX]);
    assert_eq!(one_more.fragment(&mut receiver.buffer, ADDRESS, &last), Ok(TAKEN));
    receiver.refuse(&words_of(1, 0, 9, &[b'x', b'x', ETX]), Refusal::TooLong, true);
}

#[test]
fn a_ninth_chain_has_no_slot() {
    let mut receiver = Receiver::new();
    for message_number in 0..SLOTS as u32 {
        receiver.take(&words_of(1, 3, message_number, b"0AB")).unwrap();
    }
    let ninth = words_of(1, 3, 8, b"0AB");
    receiver.refuse(&ninth, Refusal::Full, false);
    assert_eq!(receiver.chains.drop_chain(ADDRESS, 4), Ok(()));
    assert!(receiver.take(&ninth).unwrap().begun.is_some());
}

#[test]
fn drops_that_are_refused() {
    let mut unsound = Chains::fresh();
    unsound.slots[7] = Chain { is_open: 1, address: 32, ..Chain::default() };
    assert_eq!(unsound.drop_chain(0, 0), Err(Refusal::State));
    let mut chains = Chains::fresh();
    assert_eq!(chains.drop_chain(32, 64), Err(Refusal::Packet));
    assert_eq!(chains.drop_chain(32, 63), Err(Refusal::Address));
    assert_eq!(chains.drop_chain(31, 63), Err(Refusal::NoChain));
    assert_eq!(chains, Chains::fresh());
}
