//! How the instructions grow with the words of a fragment, and with the chains and the calls that are open.

use mortisevane::exports::*;

use super::calls::{address_packet, hear, message_packet, open, Frame};
use super::chains::{after, others_open, step};
use crate::measure::Measure;
use crate::messages::{counted, fragments_of, text};

pub fn rows(measure: &mut Measure) {
    measure.group("growth by words");
    for words in [2, 10, 20, 40, FRAGMENT_WORDS] {
        let first = &fragments_of(&text(TEXT_CHARACTERS), words)[0];
        step(
            measure,
            &format!("a first fragment, {words} words"),
            &others_open(0),
            first,
        );
    }
    measure.group("growth by open chains");
    let fragments = fragments_of(&text(TEXT_CHARACTERS), 20);
    for others in 0..=7 {
        let input = format!(
            "a first fragment, 20 words, {} open",
            counted(others, "other")
        );
        step(measure, &input, &others_open(others), &fragments[0]);
    }
    step(
        measure,
        "refused 12: a first fragment, 20 words, 8 others open",
        &others_open(8),
        &fragments[0],
    );
    for others in 0..=7 {
        let input = format!(
            "one in the middle, 20 words, {} open",
            counted(others, "other")
        );
        let begun = after(&others_open(others), &fragments[..1]);
        step(measure, &input, &begun, &fragments[1]);
    }
    measure.group("growth by open calls");
    for calls in 0..=7 {
        open(
            measure,
            &format!("{calls} open"),
            &Frame::of_group(calls),
            address_packet(40),
        );
    }
    for others in 0..=7 {
        let input = format!(
            "a word to one call of 85 words, {} open",
            counted(others, "other")
        );
        hear(
            measure,
            &input,
            &Frame::of_largest(others),
            message_packet(20),
        );
    }
    for calls in 1..=8 {
        let input = format!(
            "a word that completes {} of 78 words",
            counted(calls, "call")
        );
        let nearly = Frame::of_group(calls).after((10..87).map(message_packet));
        hear(measure, &input, &nearly, message_packet(87));
    }
}
