//! Streams: pages sent in batches, or any words, that arrive with wrong bits, with losses and
//! with sync words missing or too early, and are divided into portions.

use second::pocsag::reader::{Page, Reader};
use second::pocsag::sender::{
    address_word, message_word, numeric_words, text_words, Sender, SentPage,
};
use second::pocsag::text::{CHINESE_NUMERIC, STANDARD_NUMERIC};
use second::pocsag::word::{Meaning, IDLE, SYNC};

use crate::random::Random;

use super::events::Event;
use super::laws::{Stream, Telling};

/// An address has 21 bits, a function 2, and a message word 20 of its message.
const ADDRESSES: u64 = 1 << 21;
const FUNCTIONS: u64 = 4;
const MESSAGES: u64 = 1 << 20;
const BATCH: u64 = 16;
/// Once in so many times is as good as never.
const NEVER: u64 = 1 << 40;

pub fn seeded_events(seed: u64, streams: usize) -> impl Iterator<Item = Event> + Send {
    let mut random = Random::new(seed);
    (0..streams).flat_map(move |_| seeded_stream(&mut random))
}

/// The events of one stream: its words in portions, and the close.
fn seeded_stream(random: &mut Random) -> Vec<Event> {
    let is_sent = !random.once_in(3);
    let (sent, words) = match is_sent {
        true => sent_words(random),
        false => (Vec::new(), any_words(random)),
    };
    let (mut is_mendable, mut words) = arrived(random, &words);
    if random.once_in(8) {
        is_mendable = false;
        words.truncate(random.below(words.len() as u64 + 1) as usize);
    }
    let start = match is_sent && !random.once_in(8) {
        true => Reader::default(),
        false => any_reader(random),
    };
    let lent = any_memory(random);
    let stream = Stream {
        is_mendable: is_mendable && !sent.is_empty(),
        sent,
        words,
        start,
        is_undisturbed: true,
        tellings: Vec::new(),
        end: start,
        lent_at_end: lent.clone(),
        lent,
    };
    heard(random, stream)
}

// ---- What is sent ----

/// Some pages, each after idle words up to its frame and now and then more.
fn sent_words(random: &mut Random) -> (Vec<SentPage>, Vec<u32>) {
    let mut sender = Sender::default();
    let mut pages = Vec::new();
    for _ in 0..random.choose(&[0, 1, 1, 2, 2, 3, 6]) {
        if random.once_in(4) {
            for _ in 0..random.between(1, BATCH) {
                sender.send(IDLE);
            }
        }
        let page = any_page(random, sender.next_frame());
        sender.send_page(&page);
        pages.push(page);
    }
    (pages, sender.finish())
}

/// Half of all pages stand in the next frame, so that they follow what was sent before.
fn any_page(random: &mut Random, next_frame: u32) -> SentPage {
    let words = any_message(random);
    loop {
        let mut address = random.below(ADDRESSES) as u32;
        if random.once_in(2) {
            address = address / 8 * 8 + next_frame;
        }
        let function = random.below(FUNCTIONS) as u32;
        let word = address_word(address, function);
        // An address whose word is the sync or the idle word cannot be called.
        if matches!(Meaning::of(word), Meaning::Address { .. }) {
            return SentPage {
                address,
                function,
                words,
            };
        }
    }
}

fn any_message(random: &mut Random) -> Vec<u32> {
    let longest = random.choose(&[0, 10, 10, 40, 120]);
    let length = random.between(0, longest) as usize;
    match random.below(3) {
        0 => {
            let digits: Vec<u8> = (0..length).map(|_| random.choose(b"0123456789 ")).collect();
            let kind = random.choose(&[STANDARD_NUMERIC, CHINESE_NUMERIC]);
            numeric_words(kind, &digits).expect("both sets have the digits")
        }
        1 => {
            let text: Vec<u8> = (0..length).map(|_| random.below(0x80) as u8).collect();
            text_words(&text).expect("seven bits are a character")
        }
        _ => (0..length / 4).map(|_| any_bits(random)).collect(),
    }
}

fn any_bits(random: &mut Random) -> u32 {
    random.below(MESSAGES) as u32
}

/// Words of every sort in no order, some of them beyond repair.
fn any_words(random: &mut Random) -> Vec<u32> {
    let length = random.between(0, 16);
    (0..length).map(|_| any_word(random)).collect()
}

fn any_word(random: &mut Random) -> u32 {
    match random.below(11) {
        0..=1 => SYNC,
        2 => IDLE,
        3 => IDLE ^ 1,
        4 => SYNC ^ 0b111 << 7,
        5..=6 => address_word(
            random.below(ADDRESSES) as u32,
            random.below(FUNCTIONS) as u32,
        ),
        _ => message_word(any_bits(random)),
    }
}

// ---- What arrives ----

/// The words as they arrive, and whether each is one that was sent, with at most two wrong
/// code bits.
fn arrived(random: &mut Random, sent: &[u32]) -> (bool, Vec<u32>) {
    let noise_once_in = random.choose(&[1, 2, 2, 20, NEVER]);
    let trouble_once_in = random.choose(&[4, 12, 50, NEVER, NEVER, NEVER]);
    let mut is_mendable = true;
    let mut words = Vec::new();
    for word in sent {
        // A sync word decides more than another, so that more goes wrong with it.
        let troubles = if *word == SYNC { 3 } else { 1 };
        if (0..troubles).any(|_| random.once_in(trouble_once_in)) {
            is_mendable = false;
            spoil(random, *word, &mut words);
        } else if random.once_in(noise_once_in) {
            words.push(with_wrong_code_bits(random, *word));
        } else {
            words.push(*word);
        }
    }
    (is_mendable, words)
}

/// With one or two wrong code bits.
fn with_wrong_code_bits(random: &mut Random, word: u32) -> u32 {
    let first = random.between(1, 31);
    let second = random.between(1, 31);
    word ^ (1 << first | 1 << second)
}

/// What arrives in the place of a word: nothing, another, more, or a word beyond repair.
fn spoil(random: &mut Random, word: u32, words: &mut Vec<u32>) {
    let mendable = with_wrong_code_bits(random, word);
    match random.below(14) {
        0..=1 => {}
        2 => words.extend([word, word]),
        3 => words.extend([SYNC, word]),
        4 => words.push(SYNC),
        5 => words.push(IDLE),
        6 => words.push(any_word(random)),
        7..=8 => words.push(word ^ 1),
        9 => words.push(mendable ^ 1),
        10..=11 => words.push(word ^ 0b111 << random.between(1, 29)),
        12 => words.push(mendable ^ with_wrong_code_bits(random, 0)),
        _ => words.push(random.number() as u32),
    }
}

// ---- How it is heard ----

/// A reader as a caller might make it up.
fn any_reader(random: &mut Random) -> Reader {
    let left = any_left(random);
    let page = match random.below(6) {
        0 => Page::default(),
        _ => any_open_page(random),
    };
    Reader { left, page }
}

fn any_left(random: &mut Random) -> u32 {
    match random.below(3) {
        0 => random.choose(&[0, 0, 17, 18, 32, 1 << 16, 1 << 31, u32::MAX]),
        _ => random.between(0, BATCH) as u32,
    }
}

fn any_open_page(random: &mut Random) -> Page {
    let mut page = Page {
        is_open: 1,
        address: random.below(ADDRESSES) as u32,
        function: random.below(FUNCTIONS) as u32,
        words: random.choose(&[0, 1, 2, 3, 7, 20, 50]),
        mended: random.choose(&[0, 20, u32::MAX - 1, u32::MAX, u32::MAX]),
        fault: random.choose(&[0, 0, 0, 15, 25, 25, 7]),
    };
    for _ in 0..random.below(3) {
        alter(random, &mut page);
    }
    page
}

/// To a number that no word makes of a fresh reader, or about a limit.
fn alter(random: &mut Random, page: &mut Page) {
    let large = random.choose(&[1 << 16, 1 << 31, u32::MAX]);
    match random.below(8) {
        0..=1 => page.is_open = random.choose(&[0, 0, 1, 2, 7, large]),
        2 => page.address = large,
        3 => page.function = random.choose(&[4, large]),
        4..=5 => page.words = random.choose(&[0, 19, 20, 21, 60, 1 << 32, usize::MAX]),
        6 => page.mended = random.choose(&[u32::MAX - 2, u32::MAX - 1, u32::MAX]),
        _ => page.fault = random.choose(&[1, 7, 14, 16, 24, 26, large]),
    }
}

/// Any words, mostly enough of them for the pages that are sent.
fn any_memory(random: &mut Random) -> Vec<u32> {
    let length = random.choose(&[0, 1, 3, 8, 20, 44, 44, 44, 44]);
    (0..length).map(|_| random.number() as u32).collect()
}

/// How many words come at once.
fn any_portion(random: &mut Random, longest: u64, left: usize) -> usize {
    let portion = random.between(u64::from(longest == 1), longest) as usize;
    portion.min(left)
}

/// The stream portion by portion. What is not taken is given again. Now and then no words come to
/// a reader that was made up, and it is closed.
fn heard(random: &mut Random, mut stream: Stream) -> Vec<Event> {
    let longest = random.choose(&[1, 4, 12, 12, 40, 200, 200, 200]);
    let disturbed_once_in = random.choose(&[3, NEVER, NEVER, NEVER, NEVER]);
    let mut events = Vec::new();
    let mut place = 0;
    while place < stream.words.len() {
        if random.once_in(disturbed_once_in) {
            stream.is_undisturbed = false;
            disturb(random, &mut stream);
        }
        let portion = any_portion(random, longest, stream.words.len() - place);
        events.push(hear(&mut stream, place, portion));
        place += events.last().map_or(0, |event| event.second.told.taken);
    }
    if random.once_in(8) {
        let reader = any_reader(random);
        events.push(Event::hear(reader, &[], &mut stream.lent.clone()).0);
        events.push(Event::close(reader));
    }
    let mut close = Event::close(stream.end);
    close.stream = Some(Box::new(stream));
    events.push(close);
    events
}

/// The next words of the stream, from that place on.
fn hear(stream: &mut Stream, place: usize, portion: usize) -> Event {
    let words = &stream.words[place..place + portion];
    let (event, told) = Event::hear(stream.end, words, &mut stream.lent_at_end);
    stream.end = event.second.reader;
    if told != Default::default() {
        let last = place + event.second.told.taken - 1;
        let telling = Telling::new(last, told, &stream.lent_at_end);
        stream.tellings.push(telling);
    }
    event
}

/// Another reader or another memory than was left comes with the next words.
fn disturb(random: &mut Random, stream: &mut Stream) {
    match random.below(4) {
        0 => stream.end = any_reader(random),
        1 => stream.end.left = any_left(random),
        2 => alter(random, &mut stream.end.page),
        _ => stream.lent_at_end = any_memory(random),
    }
}
