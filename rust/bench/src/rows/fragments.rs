//! Fragments of 2 and of 85 words, and texts cut into them.

use mortisevane::exports::*;
use second::fragment::{
    self, FragmentRead as SecondRead, Marks as SecondMarks, TextCut as SecondCut,
};
use second::numbers::Numbers;
use second::refusal::Refusal;

use crate::measure::{side, Measure, Told};
use crate::messages::{fragments_of, text};
use crate::told::{answer, bytes, told};

pub fn rows(measure: &mut Measure) {
    measure.group("fragments");
    let small = fragments_of(&text(5), 2);
    let large = fragments_of(&text(TEXT_CHARACTERS), FRAGMENT_WORDS);
    let (small_last, large_last) = (small[1].len() - 1, large[1].len() - 1);
    let inputs = [
        ("2 words, a first one", small[0].clone()),
        ("2 words, a later one", small[1].clone()),
        ("85 words, a first one", large[0].clone()),
        ("85 words, a later one", large[1].clone()),
        ("refused 9: 1 word", small[0][..1].to_vec()),
        (
            "refused 10: the last of 2 words",
            changed(&small[1], small_last, 1 << 21),
        ),
        (
            "refused 10: the last of 85 words",
            changed(&large[1], large_last, 1 << 21),
        ),
        ("refused 11: K of 2 words", changed(&small[1], 0, 1)),
        ("refused 11: K of 85 words", changed(&large[1], 0, 1)),
    ];
    for (input, words) in &inputs {
        heading(measure, input, words);
    }
    for (input, words) in &inputs {
        read(measure, input, words);
    }
    cuts(measure);
}

fn changed(words: &[u32], place: usize, bits: u32) -> Vec<u32> {
    let mut words = words.to_vec();
    words[place] ^= bits;
    words
}

fn told_read(read: &FragmentRead) -> Told {
    let heading = [
        read.number,
        read.continued,
        read.fragment_number,
        read.message_number,
        read.retrieval,
        read.mail_drop,
        read.signature,
        read.sum,
    ];
    [told(&heading), vec![read.characters as u64]].concat()
}

fn told_second_read(read: &Result<SecondRead, Refusal>) -> Told {
    let tell =
        |read: &SecondRead| [told(&read.heading.numbers()), vec![read.characters as u64]].concat();
    answer(read, tell, 8)
}

fn heading(measure: &mut Measure, input: &str, words: &[u32]) {
    let second = fragment::heading as fn(&[u32]) -> Result<SecondRead, Refusal>;
    measure.row(
        "fragment_heading",
        input,
        side(
            words,
            |words| unsafe { mortisevane_fragment_heading(words.as_ptr(), words.len()) },
            |_, read| told_read(read),
        ),
        side(
            (words, second),
            |(words, second)| second(words),
            |_, read| told_second_read(read),
        ),
    );
}

fn read(measure: &mut Measure, input: &str, words: &[u32]) {
    let second = fragment::read as fn(&[u32], &mut [u8]) -> Result<SecondRead, Refusal>;
    let lent = [0xA5; FRAGMENT_CHARACTERS];
    measure.row(
        "fragment_read",
        input,
        side(
            (words, lent),
            |(words, lent)| unsafe {
                let (text, room) = (lent.as_mut_ptr(), lent.len());
                mortisevane_fragment_read(words.as_ptr(), words.len(), text, room)
            },
            |(_, lent), read| [told_read(read), bytes(lent)].concat(),
        ),
        side(
            (words, lent, second),
            |(words, lent, second)| second(words, lent),
            |(_, lent, _), read| [told_second_read(read), bytes(lent)].concat(),
        ),
    );
}

fn cuts(measure: &mut Measure) {
    for characters in [10, TEXT_CHARACTERS] {
        for largest in [2, FRAGMENT_WORDS] {
            let input = format!("{characters} characters, at most {largest} words");
            cut(measure, &input, &text(characters), largest, CUT_WORDS);
        }
    }
    let long = text(TEXT_CHARACTERS + 1);
    cut(
        measure,
        "refused 15: 1009 characters",
        &long,
        FRAGMENT_WORDS,
        CUT_WORDS,
    );
    let mut wrong = text(TEXT_CHARACTERS);
    wrong[TEXT_CHARACTERS - 1] = fragment::ETX;
    cut(
        measure,
        "refused 18: the last of 1008 characters",
        &wrong,
        FRAGMENT_WORDS,
        CUT_WORDS,
    );
    let long = text(TEXT_CHARACTERS);
    cut(
        measure,
        "refused 1: 1008 characters, no word lent",
        &long,
        FRAGMENT_WORDS,
        0,
    );
}

fn cut(measure: &mut Measure, input: &str, text: &[u8], largest: usize, room: usize) {
    type Cut = fn(&[u8], SecondMarks, usize, &mut [u32]) -> Result<SecondCut, Refusal>;
    let second = fragment::cut as Cut;
    let lent = vec![0xDEAD_BEEF; room];
    let (message_number, retrieval, mail_drop) = (63, 1, 1);
    let own_marks = Marks {
        message_number,
        retrieval,
        mail_drop,
    };
    let marks = SecondMarks {
        message_number,
        retrieval,
        mail_drop,
    };
    measure.row(
        "text_cut",
        input,
        side(
            (text, lent.clone()),
            |(text, lent)| unsafe {
                let (words, room) = (lent.as_mut_ptr(), lent.len());
                mortisevane_text_cut(text.as_ptr(), text.len(), own_marks, largest, words, room)
            },
            |(_, lent), cut| [told_cut(cut), told(lent)].concat(),
        ),
        side(
            (text, lent, second),
            |(text, lent, second)| second(text, marks, largest, lent),
            |(_, lent, _), cut| [answer(cut, told_second_cut, 2), told(lent)].concat(),
        ),
    );
}

fn told_cut(cut: &TextCut) -> Told {
    vec![cut.number.into(), cut.fragments as u64, cut.words as u64]
}

fn told_second_cut(cut: &SecondCut) -> Told {
    vec![cut.fragments as u64, cut.words as u64]
}
