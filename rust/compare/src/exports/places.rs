//! The place where a CAPCODE text goes wrong (02, item 1), by the form alone.
//!
//! Nothing here knows how a text is read. The form of 01 is written down as it
//! stands: what can come before the letter as a list of texts, the letters that go
//! with each, and the addresses as two ranges of numbers with their widths. Whether
//! some correct text begins so is found by looking for one.

use std::collections::{HashMap, HashSet};
use std::io;

use crate::exchange::{self, Fields, Request};
use crate::host::MortisevaneCapcode;
use crate::random::Random;
use crate::texts::shown;

use super::capcodes::{append_text, CAPCODE_READ};

/// The bytes of which every text of up to three is asked for.
const ALPHABET: &[u8] = b"0123456789ADEHILMTUYZaezO \t\r\n\0-./:@[\x80\xC3\xEF\xFF";
const LONGEST_OF_ALPHABET: u32 = 3;
/// So many digits and nothing else are asked for in every order, so that each
/// text that can stand before a letter is met, and each that cannot.
const DIGITS_ALONE: [u32; 2] = [4, 5];

/// So many correct texts are drawn.
const DRAWN: usize = 10_000;
/// What each byte of a drawn text is changed to.
const CHANGES: &[u8] = b"0123456789ALUZaM\n/:\xFF";

/// Addresses that are written with the same number of digits.
struct Addresses {
    from: u64,
    to: u64,
    width: usize,
}

const ADDRESSES: [Addresses; 2] = [
    Addresses {
        from: 0,
        to: 2_031_614,
        width: 7,
    },
    Addresses {
        from: 2_031_615,
        to: 9_999_999_999,
        width: 10,
    },
];
const WIDEST: usize = 10;

impl Addresses {
    /// The text of an address, in its last bytes.
    fn text(&self, mut address: u64) -> [u8; WIDEST] {
        let mut text = [0; WIDEST];
        for byte in text[WIDEST - self.width..].iter_mut().rev() {
            *byte = b'0' + (address % 10) as u8;
            address /= 10;
        }
        text
    }

    /// Whether the text of one of these addresses begins so. Their texts are as
    /// long as each other and so stand in the order of the numbers: if one begins
    /// so, the first that does not stand before the beginning does.
    fn begin_with(&self, beginning: &[u8]) -> bool {
        if beginning.len() > self.width || !beginning.iter().all(u8::is_ascii_digit) {
            return false;
        }
        let (mut first, mut after) = (self.from, self.to + 1);
        while first < after {
            let middle = first + (after - first) / 2;
            if self.text(middle)[WIDEST - self.width..] < *beginning {
                first = middle + 1;
            } else {
                after = middle;
            }
        }
        first <= self.to && self.text(first)[WIDEST - self.width..].starts_with(beginning)
    }
}

/// What 01 says of the form.
struct Form {
    /// What can stand before the letter, in the order of 01, and the letters that
    /// go with it.
    heads: Vec<(Vec<u8>, &'static [u8])>,
    letters: HashMap<Vec<u8>, &'static [u8]>,
    beginnings_of_heads: HashSet<Vec<u8>>,
}

impl Form {
    fn of_01() -> Form {
        let collapses = ["", "0", "1", "2", "3", "5"];
        let frames = (0..=127).flat_map(|frame| (0..=5).map(move |collapse| (frame, collapse)));
        let framed = frames.map(|(frame, collapse)| format!("{frame:03}{collapse}"));
        let heads: Vec<(Vec<u8>, &[u8])> = collapses
            .into_iter()
            .map(|head| (head.into(), &b"ABCDEFGHIJKL"[..]))
            .chain(framed.map(|head| (head.into(), &b"UVWXYZ"[..])))
            .collect();
        let beginnings = heads
            .iter()
            .flat_map(|(head, _)| (0..=head.len()).map(|length| head[..length].to_vec()));
        Form {
            letters: heads.iter().cloned().collect(),
            beginnings_of_heads: beginnings.collect(),
            heads,
        }
    }

    /// What stands after each head and letter with which the bytes begin.
    fn after_letters<'a>(&'a self, bytes: &'a [u8]) -> impl Iterator<Item = &'a [u8]> {
        (0..bytes.len()).filter_map(|length| {
            let (head, rest) = bytes.split_at(length);
            let letters = self.letters.get(head)?;
            let (letter, rest) = rest.split_first()?;
            letters.contains(letter).then_some(rest)
        })
    }

    /// Whether some correct text begins so.
    fn begins(&self, beginning: &[u8]) -> bool {
        self.beginnings_of_heads.contains(beginning)
            || self
                .after_letters(beginning)
                .any(|rest| ADDRESSES.iter().any(|range| range.begin_with(rest)))
    }

    /// Whether the text is correct.
    fn has(&self, text: &[u8]) -> bool {
        self.after_letters(text).any(|rest| {
            ADDRESSES
                .iter()
                .any(|range| range.width == rest.len() && range.begin_with(rest))
        })
    }

    /// The longest beginning of the text with which some correct text begins
    /// decides, and the byte after it.
    fn judge(&self, text: &[u8]) -> Judged {
        if self.has(text) {
            return Judged::InForm;
        }
        let place = (0..=text.len())
            .rev()
            .find(|length| self.begins(&text[..*length]))
            .expect("every text begins with nothing");
        let is_letter_before = !text[..place].iter().all(u8::is_ascii_digit);
        let number = match text.get(place) {
            None => 21,
            Some(b'4') if place == 0 => 20,
            Some(b'0'..=b'9') if is_letter_before => 21,
            Some(b'0'..=b'9') => 19,
            Some(_) => 3,
        };
        Judged::Wrong { number, place }
    }
}

/// What is held of an answer to a text.
#[derive(Debug, PartialEq, Eq)]
enum Judged {
    /// It is accepted, or refused with 4, 5 or 6, and no place is told.
    InForm,
    /// It is refused with 3 or 19 to 21 at a place, and nothing else is told.
    Wrong { number: u32, place: usize },
    /// It is neither.
    Neither(MortisevaneCapcode),
}

impl From<MortisevaneCapcode> for Judged {
    fn from(answer: MortisevaneCapcode) -> Judged {
        let MortisevaneCapcode { number, place, .. } = answer;
        let number_and_place = MortisevaneCapcode {
            number,
            place,
            ..Default::default()
        };
        match number {
            0 | 4 | 5 | 6 if place == 0 => Judged::InForm,
            3 | 19 | 20 | 21 if answer == number_and_place => Judged::Wrong {
                number,
                place: place.into(),
            },
            _ => Judged::Neither(answer),
        }
    }
}

struct Placed<'a> {
    form: &'a Form,
    text: Vec<u8>,
}

impl Request for Placed<'_> {
    const EXPORT: u8 = CAPCODE_READ;
    const YARDSTICK: &'static str = "form";
    type Answer = Judged;

    fn arguments(&self, bytes: &mut Vec<u8>) {
        append_text(&self.text, bytes);
    }

    fn library(&self, fields: &mut Fields) -> io::Result<Self::Answer> {
        MortisevaneCapcode::read(fields).map(Judged::from)
    }

    fn second(&self) -> Self::Answer {
        self.form.judge(&self.text)
    }

    fn question(&self) -> String {
        format!("where \"{}\" goes wrong", shown(&self.text))
    }
}

pub fn compare(exchange: &[String], seed: u64) -> Result<usize, String> {
    let form = Form::of_01();
    let texts = short_texts().chain(texts_near_correct_ones(&form, seed, DRAWN));
    let requests = texts.map(|text| Placed { form: &form, text });
    exchange::compare(exchange, requests)
}

/// Every text of up to three bytes of the alphabet, and of four and five digits.
fn short_texts() -> impl Iterator<Item = Vec<u8>> {
    let of_alphabet = (0..=LONGEST_OF_ALPHABET).flat_map(|length| rows_of(ALPHABET, length));
    let of_digits = DIGITS_ALONE
        .into_iter()
        .flat_map(|length| rows_of(b"0123456789", length));
    of_alphabet.chain(of_digits)
}

/// Every row of so many of the bytes.
fn rows_of(bytes: &'static [u8], length: u32) -> impl Iterator<Item = Vec<u8>> {
    let count = bytes.len();
    (0..count.pow(length)).map(move |row| {
        let byte = |place| bytes[row / count.pow(place) % count];
        (0..length).map(byte).collect()
    })
}

/// Of each of so many drawn texts in the form: its beginnings, and what comes of
/// it when a byte is changed or stands after it.
fn texts_near_correct_ones(
    form: &Form,
    seed: u64,
    drawn: usize,
) -> impl Iterator<Item = Vec<u8>> + Send + '_ {
    let mut random = Random::new(seed);
    (0..drawn).flat_map(move |_| {
        let text = correct_text(form, &mut random);
        let beginnings = (0..=text.len()).map(|length| text[..length].to_vec());
        let near: Vec<Vec<u8>> = beginnings.chain(changed(&text)).collect();
        near
    })
}

fn changed(text: &[u8]) -> impl Iterator<Item = Vec<u8>> + '_ {
    let changes = |place| CHANGES.iter().map(move |byte| (place, *byte));
    (0..=text.len())
        .flat_map(changes)
        .map(move |(place, byte)| match text.get(place) {
            Some(_) => [&text[..place], &[byte], &text[place + 1..]].concat(),
            None => [text, &[byte]].concat(),
        })
}

/// Short heads and frames come equally often.
fn correct_text(form: &Form, random: &mut Random) -> Vec<u8> {
    let (short, framed): (Vec<_>, Vec<_>) = form.heads.iter().partition(|(head, _)| head.len() < 2);
    let heads = if random.once_in(2) { short } else { framed };
    let (head, letters) = random.choose(&heads);
    let range = &ADDRESSES[random.below(2) as usize];
    let address = range.text(some_address(range, random));
    let mut text = head.clone();
    text.push(random.choose(letters));
    text.extend(&address[WIDEST - range.width..]);
    text
}

/// An address near an end of its range, one with few digits that are not 0, or any.
fn some_address(range: &Addresses, random: &mut Random) -> u64 {
    let distance = random.below(5) as u32;
    let distance = random.below(10_u64.pow(distance));
    match random.below(4) {
        0 => range.from + distance,
        1 => range.to - distance,
        2 => {
            let digits = random.between(1, range.width as u64) as u32;
            random.below(10_u64.pow(digits)).clamp(range.from, range.to)
        }
        _ => random.between(range.from, range.to),
    }
}

#[cfg(test)]
mod tests {
    use super::*;
    use crate::yardstick;

    /// Worked out by hand.
    #[test]
    fn where_texts_go_wrong() {
        let form = Form::of_01();
        for (text, number, place) in [
            ("", 21, 0),
            ("12", 21, 2),
            ("E1234", 21, 5),
            ("A2101249", 21, 8),
            ("A00020316", 21, 9),
            ("A0000001234", 21, 8),
            ("A000203160", 21, 9),
            ("A0002031614", 21, 10),
            ("1275Y42910000000", 21, 15),
            ("4A0001234", 20, 0),
            ("6A0001234", 19, 0),
            ("23A", 19, 1),
            ("1284Y0001234", 19, 2),
            ("00774U0001234", 19, 3),
            ("00744U0001234", 19, 4),
            ("a0001234", 3, 0),
            ("U0001234", 3, 0),
            ("00A0001234", 3, 2),
            ("0774A0001234", 3, 4),
            ("E000123x", 3, 7),
            ("A0001234\r", 3, 8),
        ] {
            let wrong = Judged::Wrong { number, place };
            assert_eq!(form.judge(text.as_bytes()), wrong, "{text:?}");
        }
    }

    #[test]
    fn texts_in_the_form() {
        let form = Form::of_01();
        for text in [
            "A0000000",
            "L2031614",
            "5D0002031615",
            "0000U9999999999",
            "1275Z0000000",
        ] {
            assert_eq!(form.judge(text.as_bytes()), Judged::InForm, "{text}");
        }
    }

    /// None, five digits, and 128 frames with six collapses.
    #[test]
    fn heads() {
        let form = Form::of_01();
        assert_eq!(form.heads.len(), 1 + 5 + 128 * 6);
        assert_eq!(form.letters.len(), form.heads.len());
    }

    #[test]
    fn drawn_texts_are_in_the_form() {
        let form = Form::of_01();
        let mut random = Random::new(1);
        for _ in 0..10_000 {
            let text = correct_text(&form, &mut random);
            assert_eq!(form.judge(&text), Judged::InForm, "{}", shown(&text));
        }
    }

    /// The second program, which finds the place in another way, says the same.
    #[test]
    fn the_second_program_agrees() {
        let form = Form::of_01();
        for text in short_texts().chain(texts_near_correct_ones(&form, 1, 500)) {
            let second = Judged::from(yardstick::capcode_read(&text));
            assert_eq!(form.judge(&text), second, "{}", shown(&text));
        }
    }

    /// 1, 40, 40 x 40 and 40 x 40 x 40 texts; then those of digits alone.
    #[test]
    fn short_texts_are_all_there() {
        let texts: HashSet<Vec<u8>> = short_texts().collect();
        assert_eq!(texts.len(), 1 + 40 + 1_600 + 64_000 + 10_000 + 100_000);
        for text in [&b""[..], b"\xFF", b"12", b"4A\0", b"0774", b"12755"] {
            assert!(texts.contains(text), "{}", shown(text));
        }
    }

    /// A place beside another number, or another field beside a place, is told.
    #[test]
    fn answers_of_another_kind() {
        let answer = MortisevaneCapcode {
            number: 5,
            place: 1,
            ..Default::default()
        };
        assert_eq!(Judged::from(answer), Judged::Neither(answer));
        let answer = MortisevaneCapcode {
            number: 21,
            place: 5,
            letter: b'E',
            ..Default::default()
        };
        assert_eq!(Judged::from(answer), Judged::Neither(answer));
    }
}
