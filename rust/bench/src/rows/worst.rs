//! The worst packet: for each kind that the decoder sends, the states that make it dear.

use mortisevane::exports::*;

use super::calls::{
    address_packet, end, hear, in_phase, message_packet, open, vector_packet, Frame,
};
use super::chains::{after, others_open, step};
use crate::measure::Measure;
use crate::messages::{fragments_of, text};

pub fn rows(measure: &mut Measure) {
    measure.group("worst packet");
    open(
        measure,
        "address: 7 calls open, their words awaited",
        &Frame::of_group(7),
        address_packet(40),
    );
    open(
        measure,
        "address: 8 calls open, refused 12",
        &Frame::of_group(8),
        address_packet(40),
    );
    vectors(measure);
    messages(measure);
    let lacking_last = "status with EOF: 8 calls in four phases, each without the last of 84 words";
    end(measure, lacking_last, &Frame::of_all_phases());
    let last = (0..4).map(|phase| in_phase(phase, message_packet(87)));
    let complete = Frame::of_all_phases().after(last);
    end(
        measure,
        "status with EOF: 8 calls in four phases, all complete, of 84 words",
        &complete,
    );
    joined(measure);
}

fn vectors(measure: &mut Measure) {
    let eight = Frame::awaiting_last_vector();
    hear(
        measure,
        "vector: of 85 words, the last of 8 calls",
        &eight,
        vector_packet(2, 85, 3),
    );
    let first = Frame::with_vectors_at(2..10);
    let first = first.after((3..10).map(|vector| vector_packet(vector, 78, 10)));
    hear(
        measure,
        "vector: refused 9, the first of 8 calls",
        &first,
        vector_packet(2, 0, 3),
    );
}

fn messages(measure: &mut Measure) {
    let group = Frame::of_group(8).after((11..87).map(message_packet));
    hear(
        measure,
        "message: to 8 calls, none complete by it",
        &group,
        message_packet(10),
    );
    let nearly = Frame::of_group(8).after((10..87).map(message_packet));
    hear(
        measure,
        "message: the word that completes 8 calls of 78 words",
        &nearly,
        message_packet(87),
    );
    hear(
        measure,
        "message: of no call, 8 calls of 78 words, refused 17",
        &nearly,
        in_phase(1, message_packet(10)),
    );
    let again = nearly.after([message_packet(87)]);
    hear(
        measure,
        "message: the last word again, 8 calls of 78 words, refused 14",
        &again,
        message_packet(87),
    );
}

/// What the host does with a call that the packet completed.
fn joined(measure: &mut Measure) {
    let fragments = fragments_of(&text(TEXT_CHARACTERS), FRAGMENT_WORDS);
    let open = others_open(7);
    step(
        measure,
        "then for a call that is complete: a first fragment of 85 words, 7 others open",
        &open,
        &fragments[0],
    );
    let begun = after(&open, &fragments[..1]);
    step(
        measure,
        "then for a call that is complete: a later fragment of 85 words, 7 others open",
        &begun,
        &fragments[1],
    );
}
