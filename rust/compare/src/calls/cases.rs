//! The cases that frames must bring.

use second::call::{Call, Calls, Key, MEMORY, MOST_WORDS};

use crate::counted::Cases;
use crate::host::{MortisevaneHeard, MortisevaneOpened};

use super::events::{Event, Happening, Told};
use super::packets::{
    brings_words, index_of, is_numeric, kind_of, phase_of, span_of, vector_place_of, word_of,
    ADDRESS_UNUSED, DAMAGED, LONG, PRIORITY, TONE_ONLY, VECTOR_UNUSED, WORD_BITS,
};

/// What a case is called, and whether an event is one of it.
type Case = (&'static str, fn(&Seen) -> bool);

/// Of address packets.
const ADDRESSES: &[Case] = &[
    ("opened, short", |seen| {
        seen.opened() && !seen.has_bits(LONG)
    }),
    ("opened, long", |seen| seen.opened() && seen.has_bits(LONG)),
    ("opened, priority", |seen| {
        seen.opened() && seen.has_bits(PRIORITY)
    }),
    ("opened, unused bits set", |seen| {
        seen.opened() && seen.has_bits(ADDRESS_UNUSED)
    }),
    ("opened, a temporary address", |seen| {
        seen.opened() && seen.told_of_address().fields.address > 15
    }),
    ("opened on phase D", |seen| {
        seen.opened() && seen.phase() == 3
    }),
    ("opened as the first", |seen| seen.opened_at(0)),
    ("opened as the eighth", |seen| seen.opened_at(7)),
    ("opened, WN 0", |seen| seen.opened() && seen.wn() == 0),
    ("opened, WN 1", |seen| seen.opened() && seen.wn() == 1),
    ("opened, WN 87", |seen| seen.opened() && seen.wn() == 87),
    ("opened, its WN open on another phase", |seen| {
        seen.opened() && seen.any_open(|call, seen| call.vector == seen.wn())
    }),
    ("opened over a record that was not zero", |seen| {
        let place = seen.told_of_address().call;
        seen.opened() && seen.before.calls[place] != Call::default()
    }),
    ("opened, a later record not zero", |seen| {
        let later = &seen.before.calls[seen.open().len()..];
        seen.opened() && later.iter().skip(1).any(|call| *call != Call::default())
    }),
    ("opened after a bad span", |seen| {
        seen.opened() && seen.event.notes.opened_after_bad_span
    }),
    ("tone-only", |seen| seen.tone_only()),
    ("tone-only, WN over 87", |seen| {
        seen.tone_only() && seen.wn() > 87
    }),
    ("tone-only, eight open", |seen| {
        seen.tone_only() && seen.open().len() == 8
    }),
    ("tone-only, its WN open", |seen| {
        seen.tone_only() && seen.any_open(|call, seen| call.key() == seen.address_key())
    }),
    ("an address, no sound state", |seen| seen.open_refused(2)),
    ("no address and no sound state", |seen| {
        seen.open_refused(2) && seen.id() != 1
    }),
    ("a wrong index and no sound state", |seen| {
        seen.open_refused(2) && seen.id() == 1 && !seen.has_index()
    }),
    ("00H to open", |seen| seen.open_refused(7) && seen.id() == 0),
    ("02H to 57H to open", |seen| {
        seen.open_refused(7) && (0x02..=0x57).contains(&seen.id())
    }),
    ("58H to 7FH to open", |seen| {
        seen.open_refused(7) && (0x58..=0x7F).contains(&seen.id())
    }),
    ("80H to FFH to open", |seen| {
        seen.open_refused(7) && seen.id() >= 0x80
    }),
    ("WN 88", |seen| seen.open_refused(7) && seen.is_wn(88)),
    ("WN 127", |seen| seen.open_refused(7) && seen.is_wn(127)),
    ("WN over 87 and a wrong index", |seen| {
        seen.open_refused(7) && seen.id() == 1 && !seen.has_index()
    }),
    ("a wrong index", |seen| seen.open_refused(8)),
    ("a wrong index, tone-only", |seen| {
        seen.open_refused(8) && seen.has_bits(TONE_ONLY)
    }),
    ("a wrong index of an open key", |seen| {
        seen.open_refused(8) && seen.any_open(|call, seen| call.key() == seen.address_key())
    }),
    ("an open key again", |seen| seen.open_refused(14)),
    ("an open key again, its vector there", |seen| {
        seen.open_refused(14)
            && seen.any_open(|call, seen| call.has_vector() && call.key() == seen.address_key())
    }),
    ("an open key again, eight open", |seen| {
        seen.open_refused(14) && seen.open().len() == 8
    }),
    ("a ninth call", |seen| seen.open_refused(12)),
    ("a ninth call, size over 8", |seen| {
        seen.open_refused(12) && seen.before.size > 8
    }),
];

/// Of vectors, those of an open call.
const VECTORS: &[Case] = &[
    ("a secure vector", |seen| seen.vector_of_kind(0)),
    ("a short instruction, short address", |seen| {
        seen.vector_of_kind(1) && !seen.own().is_long()
    }),
    ("a short instruction, long address", |seen| {
        seen.vector_of_kind(1) && seen.own().is_long()
    }),
    ("a short message, short address", |seen| {
        seen.vector_of_kind(2) && !seen.own().is_long()
    }),
    ("a short message, long address", |seen| {
        seen.vector_of_kind(2) && seen.own().is_long()
    }),
    ("a short message, no span in its bits", |seen| {
        seen.vector_of_kind(2) && !seen.fits()
    }),
    ("a standard numeric vector", |seen| seen.vector_of_kind(3)),
    ("a special numeric vector", |seen| seen.vector_of_kind(4)),
    ("an alphanumeric vector", |seen| seen.vector_of_kind(5)),
    ("a hex/binary vector", |seen| seen.vector_of_kind(6)),
    ("a numbered numeric vector", |seen| seen.vector_of_kind(7)),
    ("a vector, unused bits set", |seen| {
        seen.vector() && seen.has_bits(VECTOR_UNUSED)
    }),
    ("a numeric vector, K 15", |seen| {
        seen.vector() && seen.told_of_word().check == 15
    }),
    ("a span of eight numeric words", |seen| {
        seen.with_span(|_, words, _| words == 8) && is_numeric(seen.kind())
    }),
    ("a span of 85 words", |seen| {
        seen.with_span(|_, words, _| words as usize == MOST_WORDS)
    }),
    ("a short call's span right after its vector", |seen| {
        seen.with_span(|call, _, start| !call.is_long() && start == call.vector + 1)
    }),
    ("a long call's rest right after its first", |seen| {
        seen.with_span(|call, words, start| call.is_long() && words > 1 && start == call.vector + 2)
    }),
    ("a short call's span to word 87", |seen| {
        seen.with_span(|call, words, start| !call.is_long() && start + words == 88)
    }),
    ("a long call's rest to word 87", |seen| {
        seen.with_span(|call, words, start| call.is_long() && words > 1 && start + words == 89)
    }),
    ("a long call of one word, b within the frame", |seen| {
        seen.with_span(|call, words, start| {
            call.is_long() && words == 1 && start > call.vector + 1 && start < 88
        })
    }),
    ("a long call of one word, b not after it", |seen| {
        seen.with_span(|call, words, start| {
            call.is_long() && words == 1 && start <= call.vector + 1
        })
    }),
    ("a long call of one word, b over 87", |seen| {
        seen.with_span(|call, words, start| call.is_long() && words == 1 && start > 87)
    }),
    ("a long call of one word, the last", |seen| {
        seen.with_span(|call, words, _| call.is_long() && words == 1 && call.vector == 86)
    }),
    ("a vector of the first call", |seen| {
        seen.vector() && seen.told_of_word().call == 0
    }),
    ("a vector of the eighth call", |seen| {
        seen.vector() && seen.told_of_word().call == 7
    }),
    ("the first vector", |seen| {
        seen.vector() && seen.vectors() == 0
    }),
    ("the eighth vector", |seen| {
        seen.vector() && seen.vectors() == 7
    }),
    ("a vector, another before it without one", |seen| {
        let place = seen.told_of_word().call;
        seen.vector() && seen.open()[..place].iter().any(|call| !call.has_vector())
    }),
    ("a vector in another call's span", |seen| {
        seen.vector() && seen.event.notes.holding != 0
    }),
    ("a vector in a span where the word lacks", |seen| {
        seen.vector() && seen.event.notes.lacking != 0
    }),
    ("a vector, size over 8", |seen| {
        seen.vector() && seen.before.size > 8
    }),
    ("a vector after a bad span", |seen| {
        seen.vector() && seen.event.notes.opened_after_bad_span
    }),
    ("a damaged vector", |seen| {
        seen.hear_refused(10) && seen.awaits_vector()
    }),
    ("a damaged vector, its span bad", |seen| {
        seen.hear_refused(10) && seen.awaits_vector() && !seen.fits()
    }),
    ("a damaged vector of a call that has one", |seen| {
        seen.hear_refused(10) && seen.own.is_some() && !seen.awaits_vector()
    }),
    ("a vector again", |seen| {
        seen.hear_refused(14) && seen.own.is_some()
    }),
    ("a vector again, its span bad", |seen| {
        seen.hear_refused(14) && seen.own.is_some() && seen.has_span() && !seen.fits()
    }),
    ("a vector again in another call's span", |seen| {
        seen.hear_refused(14) && seen.own.is_some() && seen.event.notes.lacking != 0
    }),
    ("a bad span, no words", |seen| {
        seen.bad_span(|_, words, _| words == 0)
    }),
    ("a bad span, 86 words and more", |seen| {
        seen.bad_span(|_, words, _| words > 85)
    }),
    ("a bad span, numeric", |seen| {
        seen.hear_refused(9) && is_numeric(seen.kind())
    }),
    ("a bad span before the vector", |seen| {
        seen.bad_span(|call, words, start| words > 1 && start < call.vector)
    }),
    ("a bad span at the vector, short", |seen| {
        seen.bad_span(|call, _, start| !call.is_long() && start == call.vector)
    }),
    ("a bad span at the first word, long", |seen| {
        seen.bad_span(|call, words, start| {
            call.is_long() && (2..86).contains(&words) && start == call.vector + 1
        })
    }),
    ("a bad span, to word 88, short", |seen| {
        seen.bad_span(|call, words, start| {
            !call.is_long() && words > 0 && words < 86 && start + words == 89
        })
    }),
    ("a bad span, to word 88, long", |seen| {
        seen.bad_span(|call, words, start| {
            call.is_long() && (2..86).contains(&words) && start + words == 90
        })
    }),
    ("a bad span from over 87", |seen| {
        seen.bad_span(|call, words, start| start > 87 && (words > 1 || !call.is_long()))
    }),
    ("a bad span of a long call at 87", |seen| {
        seen.bad_span(|call, _, _| call.is_long() && call.vector == 87)
    }),
    ("a bad span of a long call at 87, one word", |seen| {
        seen.bad_span(|call, words, _| call.is_long() && call.vector == 87 && words == 1)
    }),
    ("a bad span of the first of several", |seen| {
        seen.hear_refused(9) && seen.own == Some(0) && seen.open().len() > 1
    }),
    ("a bad span in the middle", |seen| {
        let last = seen.open().len().saturating_sub(1);
        seen.hear_refused(9) && seen.own.is_some_and(|own| own > 0 && own < last)
    }),
    ("a bad span of the last", |seen| {
        let last = seen.open().len().saturating_sub(1);
        seen.hear_refused(9) && seen.own == Some(last)
    }),
    ("a bad span, eight open", |seen| {
        seen.hear_refused(9) && seen.open().len() == 8
    }),
    ("a bad span, size over 8", |seen| {
        seen.hear_refused(9) && seen.before.size > 8
    }),
    ("a bad span, a later record not zero", |seen| {
        seen.hear_refused(9) && seen.later_not_zero()
    }),
    ("a bad span, a later call has its vector", |seen| {
        let later = seen.open().iter().skip(seen.own.unwrap_or_default() + 1);
        seen.hear_refused(9) && { later }.any(Call::has_vector)
    }),
    ("a bad span and too few words lent", |seen| {
        seen.hear_refused(9) && seen.lent() < MEMORY
    }),
    ("a vector, too few words lent", |seen| {
        seen.hear_refused(1) && seen.own.is_some()
    }),
    ("a short message, too few words lent", |seen| {
        seen.hear_refused(1) && seen.own.is_some() && seen.kind() == 2
    }),
];

/// Of words, and of packets that are neither.
const WORDS: &[Case] = &[
    ("a word for one call", |seen| seen.takers() == 1),
    ("a word for two calls", |seen| seen.takers() == 2),
    ("a word for three calls", |seen| seen.takers() > 2),
    ("a word for some that hold it", |seen| {
        seen.takers() > 0 && seen.event.notes.holding != seen.event.notes.lacking
    }),
    ("a word that completes one call", |seen| {
        seen.takers() > 0 && seen.completed() == 1
    }),
    ("a word that completes two calls", |seen| {
        seen.takers() > 0 && seen.completed() > 1
    }),
    ("a word that completes one of two", |seen| {
        seen.takers() > 1 && seen.completed() == 1
    }),
    ("a word for two that completes none", |seen| {
        seen.takers() > 1 && seen.completed() == 0
    }),
    ("the only word of a call", |seen| {
        seen.completed() == 1 && seen.any_taker(|call, _| call.words == 1)
    }),
    ("a word that completes a call of many", |seen| {
        seen.completed() > 0 && seen.any_taker(|call, _| call.words > 8)
    }),
    ("a word of no bits", |seen| {
        seen.takers() > 0 && seen.packet & WORD_BITS == 0
    }),
    ("a word of all bits", |seen| {
        seen.takers() > 0 && seen.packet & WORD_BITS == WORD_BITS
    }),
    ("word 87", |seen| seen.takers() > 0 && seen.id() == 87),
    ("word 2", |seen| seen.takers() > 0 && seen.id() == 2),
    ("a long call's first word", |seen| {
        seen.any_taker(|call, seen| call.is_long() && seen.id() == call.vector + 1)
    }),
    ("a long call's second word", |seen| {
        seen.any_taker(|call, seen| call.is_long() && call.words > 1 && seen.id() == call.start)
    }),
    ("a short call's first word", |seen| {
        seen.any_taker(|call, seen| !call.is_long() && seen.id() == call.start)
    }),
    ("a word for a call of the eighth place", |seen| {
        seen.event.notes.lacking & 1 << 7 != 0 && seen.takers() > 0
    }),
    ("a word, one of its number on another phase", |seen| {
        seen.takers() > 0
            && seen.any_open(|call, seen| {
                call.phase != seen.phase() && call.place_of(call.phase, seen.id()).is_some()
            })
    }),
    ("a word after a bad span", |seen| {
        seen.takers() > 0 && seen.event.notes.opened_after_bad_span
    }),
    ("a word, 700 words lent", |seen| {
        seen.takers() > 0 && seen.lent() == MEMORY + 20
    }),
    ("a word, a part of a longer memory lent", |seen| {
        seen.takers() > 0 && seen.lent() == MEMORY && seen.event.part.end > MEMORY
    }),
    ("a word that came before", |seen| {
        seen.hear_refused(14) && seen.own.is_none()
    }),
    ("a word that came before, of two calls", |seen| {
        let held = seen.event.notes.holding.count_ones();
        seen.hear_refused(14) && seen.own.is_none() && held > 1
    }),
    ("a word that came, too few words lent", |seen| {
        seen.hear_refused(14) && seen.own.is_none() && seen.lent() < MEMORY
    }),
    ("a damaged word", |seen| {
        seen.hear_refused(10) && seen.own.is_none() && seen.event.notes.lacking != 0
    }),
    ("a damaged word that came before", |seen| {
        let notes = seen.event.notes;
        seen.hear_refused(10) && seen.own.is_none() && notes.holding != 0 && notes.lacking == 0
    }),
    ("a damaged word of no call", |seen| {
        seen.hear_refused(10) && seen.own.is_none() && seen.event.notes.holding == 0
    }),
    ("a word of no call", |seen| {
        seen.hear_refused(17) && seen.open().is_empty()
    }),
    ("a word of another phase's call", |seen| {
        seen.hear_refused(17)
            && seen.any_open(|call, seen| call.place_of(call.phase, seen.id()).is_some())
    }),
    ("a vector of another phase's call", |seen| {
        seen.hear_refused(17) && seen.any_open(|call, seen| call.vector == seen.id())
    }),
    ("a word after a call's last", |seen| {
        seen.hear_refused(17)
            && seen.any_open(|call, seen| {
                call.phase == seen.phase() && call.place_of(call.phase, seen.id() - 1).is_some()
            })
    }),
    ("a word after a short message, long", |seen| {
        seen.hear_refused(17)
            && seen.any_open(|call, seen| {
                let follows = call.key() == seen.key_before();
                call.is_long() && call.has_vector() && call.kind == 2 && follows
            })
    }),
    ("b of a long call of one word", |seen| {
        seen.hear_refused(17)
            && seen.any_open(|call, seen| {
                let is_one = call.is_long() && call.words == 1 && call.has_vector();
                is_one && call.phase == seen.phase() && call.start == seen.id()
            })
    }),
    ("a word of no call, too few words lent", |seen| {
        seen.hear_refused(17) && seen.lent() < MEMORY
    }),
    ("a word, 679 words lent", |seen| {
        seen.hear_refused(1) && seen.own.is_none() && seen.lent() == MEMORY - 1
    }),
    ("a word, one word lent", |seen| {
        seen.hear_refused(1) && seen.lent() == 1
    }),
    ("a word, no words lent", |seen| {
        seen.hear_refused(1) && seen.lent() == 0
    }),
    ("a word, its place not lent", |seen| {
        seen.hear_refused(1)
            && seen.own.is_none()
            && seen.any_taker_place(|place, seen| place >= seen.lent())
    }),
    ("a word or vector, no sound state", |seen| {
        seen.hear_refused(2)
    }),
    ("no word and no sound state", |seen| {
        seen.hear_refused(2) && !(0x02..=0x57).contains(&seen.id())
    }),
    ("a damaged word and no sound state", |seen| {
        seen.hear_refused(2) && seen.has_bits(DAMAGED)
    }),
    ("00H to hear", |seen| seen.hear_refused(7) && seen.id() == 0),
    ("01H to hear", |seen| seen.hear_refused(7) && seen.id() == 1),
    ("58H to 7FH to hear", |seen| {
        seen.hear_refused(7) && (0x58..=0x7F).contains(&seen.id())
    }),
    ("80H to FFH to hear", |seen| {
        seen.hear_refused(7) && seen.id() >= 0x80
    }),
    ("no word, too few words lent", |seen| {
        seen.hear_refused(7) && seen.lent() < MEMORY
    }),
];

/// Of states that are handed in, whatever comes to them.
const STATES: &[Case] = &[
    ("a phase over 3", |seen| {
        seen.unsound_by(|call| call.phase > 3)
    }),
    ("a vector over 87", |seen| {
        seen.unsound_by(|call| call.vector > 87)
    }),
    (
        "a record of no words, of a vector that brings some",
        |seen| seen.unsound_by(without_its_words),
    ),
    ("a record of no words, and no other fault", |seen| {
        let mut mended = *seen.before;
        let without = mended.calls.iter_mut();
        for call in without.filter(|call| without_its_words(call)) {
            call.kind = 2;
        }
        seen.refused(2) && mended.is_sound()
    }),
    ("sound, a record of no words", |seen| {
        seen.accepted_with(|call| call.has_vector() && call.words == 0)
    }),
    ("sound, words of a vector that brings none", |seen| {
        seen.accepted_with(|call| seen_span(call) && !brings_words(call.kind))
    }),
    ("no sound words, of a vector that brings none", |seen| {
        seen.unsound_by(|call| {
            let is_seen = seen_span(call) && call.vector <= 87;
            is_seen && !brings_words(call.kind) && !call.is_span(call.words, call.start)
        })
    }),
    ("two of one key", |seen| {
        seen.refused(2) && has_two_of_one_key_by(seen.open(), |_| true)
    }),
    ("two of one key, neither with a vector", |seen| {
        let awaits = |call: &Call| !call.has_vector();
        seen.refused(2) && has_two_of_one_key_by(seen.open(), awaits)
    }),
    ("a record of over 85 words", |seen| {
        seen.unsound_by(|call| call.has_vector() && call.words > 85)
    }),
    ("a record's span not after its vector, short", |seen| {
        seen.unsound_by(|call| seen_span(call) && !call.is_long() && call.start <= call.vector)
    }),
    ("a record's span past 87, short", |seen| {
        seen.unsound_by(|call| {
            seen_span(call) && !call.is_long() && past_last(call.start, call.words)
        })
    }),
    ("a record's rest not after its first, long", |seen| {
        seen.unsound_by(|call| {
            let first = call.vector.saturating_add(1);
            seen_span(call) && call.is_long() && call.words > 1 && call.start <= first
        })
    }),
    ("a record's rest past 87, long", |seen| {
        seen.unsound_by(|call| {
            let rest = call.words.saturating_sub(1);
            seen_span(call) && call.is_long() && rest > 0 && past_last(call.start, rest)
        })
    }),
    ("a long record at 87", |seen| {
        seen.unsound_by(|call| seen_span(call) && call.is_long() && call.vector == 87)
    }),
    ("no sound state, size over 8", |seen| {
        seen.refused(2) && seen.before.size > 8
    }),
    ("sound, size over 8", |seen| {
        seen.accepted() && seen.before.size > 8
    }),
    ("sound, size over 32 bits", |seen| {
        seen.accepted() && seen.before.size > u32::MAX as usize
    }),
    ("sound, an area over 7", |seen| {
        seen.accepted_with(|call| call.has_vector() && call.area > 7)
    }),
    ("sound, a has_vector over 1", |seen| {
        seen.accepted_with(|call| call.has_vector > 1)
    }),
    ("sound, a has_vector over 1, words", |seen| {
        seen.accepted_with(|call| call.has_vector > 1 && call.words > 0)
    }),
    ("sound, a kind over 7", |seen| {
        seen.accepted_with(|call| call.kind > 7)
    }),
    ("sound, a priority over 1", |seen| {
        seen.accepted_with(|call| call.priority > 1)
    }),
    ("sound, a long address over 1", |seen| {
        seen.accepted_with(|call| call.long_address > 1)
    }),
    ("sound, an address over 31", |seen| {
        seen.accepted_with(|call| call.address > 31)
    }),
    ("sound, a check over 15", |seen| {
        seen.accepted_with(|call| call.check > 15)
    }),
    ("sound, a later record not zero", |seen| {
        seen.accepted() && seen.later_not_zero()
    }),
    ("sound, a later record of over 87", |seen| {
        let later = &seen.before.calls[seen.open().len()..];
        seen.accepted() && later.iter().any(|call| call.vector > 87)
    }),
    ("sound, a later record of an open key", |seen| {
        let (open, later) = seen.before.calls.split_at(seen.open().len());
        let is_open = |call: &Call| open.iter().any(|other| other.key() == call.key());
        seen.accepted() && later.iter().any(is_open)
    }),
    ("sound, two share an area", |seen| {
        seen.accepted() && shares_area(seen.open())
    }),
    ("sound, a word for two that share an area", |seen| {
        seen.takers() > 1 && shares_area(&seen.taker_list())
    }),
    ("sound, a call with vector 0", |seen| {
        seen.accepted_with(|call| call.vector == 0)
    }),
    ("sound, a call with vector 1 and words", |seen| {
        seen.accepted_with(|call| call.vector == 1 && call.has_vector() && call.words > 0)
    }),
    ("sound, words without a vector", |seen| {
        seen.accepted_with(|call| !call.has_vector() && call.words > 0)
    }),
    ("sound, no span and no vector", |seen| {
        seen.accepted_with(|call| !call.has_vector() && call.words > 85)
    }),
];

/// Of ends of frames, and of places.
const ENDS: &[Case] = &[
    ("an end of no calls", |seen| {
        seen.ended() && seen.open().is_empty()
    }),
    ("an end, none incomplete", |seen| {
        seen.ended() && seen.open().len() > 1 && seen.incomplete().is_empty()
    }),
    ("an end, all incomplete", |seen| {
        seen.ended() && seen.open().len() > 1 && seen.incomplete().len() == seen.open().len()
    }),
    ("an end, one complete between others", |seen| {
        let size = seen.incomplete().len();
        let listed = seen.incomplete();
        let open = seen.open();
        seen.ended()
            && size > 1
            && size < open.len()
            && listed.first() == open.first()
            && listed.last() == open.last()
    }),
    ("an end, eight incomplete", |seen| {
        seen.ended() && seen.incomplete().len() == 8
    }),
    ("an end, some with no vector", |seen| {
        let listed = seen.incomplete();
        seen.ended() && listed.iter().any(|call| !call.has_vector())
    }),
    ("an end, some lack words", |seen| {
        let listed = seen.incomplete();
        seen.ended() && listed.iter().any(Call::has_vector)
    }),
    ("an end, some complete with words", |seen| {
        let listed = seen.incomplete();
        let is_complete = |call: &Call| call.words > 0 && !listed.contains(call);
        seen.ended() && seen.open().iter().any(is_complete)
    }),
    ("an end, some complete without words", |seen| {
        let no_words = |call: &Call| call.has_vector() && call.words == 0;
        seen.ended() && seen.open().iter().any(no_words)
    }),
    ("an end after a bad span and another call", |seen| {
        seen.ended() && seen.event.notes.opened_after_bad_span
    }),
    ("an end after a bad span, two incomplete", |seen| {
        seen.ended() && seen.event.notes.opened_after_bad_span && seen.incomplete().len() > 1
    }),
    ("an end, size over 8", |seen| {
        seen.ended() && seen.before.size > 8
    }),
    ("an end, a later record not zero", |seen| {
        seen.ended() && seen.later_not_zero()
    }),
    ("an end, a longer memory lent", |seen| {
        seen.ended() && seen.lent() > MEMORY
    }),
    ("an end, no sound state", |seen| seen.end_refused(2)),
    ("an end, no sound state, too few words lent", |seen| {
        seen.end_refused(2) && seen.lent() < MEMORY
    }),
    ("an end, no words lent", |seen| {
        seen.end_refused(1) && seen.lent() == 0
    }),
    ("an end, one word lent", |seen| {
        seen.end_refused(1) && seen.lent() == 1
    }),
    ("an end, 679 words lent", |seen| {
        seen.end_refused(1) && seen.lent() == MEMORY - 1
    }),
    ("a place in the first area", |seen| {
        seen.place_of_area(|area| area == 0)
    }),
    ("a place in the last area", |seen| {
        seen.place_of_area(|area| area == 7)
    }),
    ("a place, an area over 7", |seen| {
        seen.place_of_area(|area| area > 7)
    }),
    ("a place, the largest area", |seen| {
        seen.place_of_area(|area| area == u32::MAX)
    }),
];

/// An event, and what is known of it.
struct Seen<'a> {
    event: &'a Event,
    before: &'a Calls,
    number: u32,
    /// The packet that came, or 0.
    packet: u32,
    /// The call whose vector the packet is, if it is to be heard as one.
    own: Option<usize>,
}

impl Seen<'_> {
    fn new(event: &Event) -> Seen<'_> {
        let packet = match event.happening {
            Happening::Open { packet } | Happening::Hear { packet, .. } => packet,
            _ => 0,
        };
        let key = Key {
            phase: phase_of(packet),
            vector: word_of(packet),
        };
        let is_heard = matches!(event.happening, Happening::Hear { .. });
        let has_key = is_heard && (0x02..=0x57).contains(&word_of(packet));
        Seen {
            event,
            before: &event.before,
            number: event.second.told.number(),
            packet,
            own: event.before.place_of(key).filter(|_| has_key),
        }
    }

    fn open(&self) -> &[Call] {
        self.before.open_calls()
    }

    fn any_open(&self, is_so: fn(&Call, &Seen) -> bool) -> bool {
        self.open().iter().any(|call| is_so(call, self))
    }

    fn later_not_zero(&self) -> bool {
        let later = &self.before.calls[self.open().len()..];
        later.iter().any(|call| *call != Call::default())
    }

    fn has_bits(&self, bits: u32) -> bool {
        self.packet & bits == bits
    }

    fn id(&self) -> u32 {
        word_of(self.packet)
    }

    fn phase(&self) -> u32 {
        phase_of(self.packet)
    }

    fn refused(&self, number: u32) -> bool {
        self.number == number
    }

    /// Nothing was refused of a packet or of an end.
    fn accepted(&self) -> bool {
        let is_asked = !matches!(self.event.second.told, Told::Nothing | Told::Place(_));
        is_asked && self.number == 0
    }

    fn accepted_with(&self, is_so: fn(&Call) -> bool) -> bool {
        self.accepted() && self.open().iter().any(is_so)
    }

    /// With one record of an open call of which this is so.
    fn unsound_by(&self, is_so: fn(&Call) -> bool) -> bool {
        self.refused(2) && self.open().iter().any(is_so)
    }

    fn lent(&self) -> usize {
        match self.event.happening {
            Happening::Hear { lent, .. } | Happening::End { lent } => lent,
            _ => 0,
        }
    }

    // Address packets.

    fn told_of_address(&self) -> MortisevaneOpened {
        match self.event.second.told {
            Told::Opened(opened) => opened,
            _ => MortisevaneOpened::default(),
        }
    }

    fn is_open(&self) -> bool {
        matches!(self.event.happening, Happening::Open { .. })
    }

    fn opened(&self) -> bool {
        self.told_of_address().opened == 1
    }

    fn opened_at(&self, place: usize) -> bool {
        self.opened() && self.told_of_address().call == place
    }

    fn tone_only(&self) -> bool {
        self.told_of_address().fields.tone_only == 1
    }

    fn open_refused(&self, number: u32) -> bool {
        self.is_open() && self.refused(number)
    }

    fn has_index(&self) -> bool {
        index_of(self.packet) & 0x70 == 0
    }

    fn wn(&self) -> u32 {
        vector_place_of(self.packet)
    }

    fn is_wn(&self, word: u32) -> bool {
        self.id() == 1 && self.wn() == word
    }

    fn address_key(&self) -> Key {
        Key {
            phase: self.phase(),
            vector: self.wn(),
        }
    }

    // Vectors and words.

    fn told_of_word(&self) -> MortisevaneHeard {
        match self.event.second.told {
            Told::Heard(heard) => heard,
            _ => MortisevaneHeard::default(),
        }
    }

    fn hear_refused(&self, number: u32) -> bool {
        let is_heard = matches!(self.event.happening, Happening::Hear { .. });
        is_heard && self.refused(number)
    }

    fn vector(&self) -> bool {
        self.told_of_word().is_vector == 1
    }

    fn kind(&self) -> u32 {
        kind_of(self.packet)
    }

    fn vector_of_kind(&self, kind: u32) -> bool {
        self.vector() && self.kind() == kind
    }

    /// The record of the vector's call as it was.
    fn own(&self) -> Call {
        self.own
            .map_or_else(Call::default, |own| self.before.calls[own])
    }

    fn awaits_vector(&self) -> bool {
        self.own.is_some() && !self.own().has_vector()
    }

    fn has_span(&self) -> bool {
        brings_words(self.kind())
    }

    /// Whether what would be n and b are within the limits.
    fn fits(&self) -> bool {
        let (words, start) = span_of(self.packet);
        self.own().is_span(words, start)
    }

    /// A vector of words that was taken, and of which this is so: the call's record
    /// before, n as the number of words, and b.
    fn with_span(&self, is_so: fn(&Call, u32, u32) -> bool) -> bool {
        let (words, start) = span_of(self.packet);
        self.vector() && self.has_span() && is_so(&self.own(), words, start)
    }

    fn bad_span(&self, is_so: fn(&Call, u32, u32) -> bool) -> bool {
        let (words, start) = span_of(self.packet);
        self.hear_refused(9) && is_so(&self.own(), words, start)
    }

    /// How many calls had their vectors.
    fn vectors(&self) -> usize {
        let has_vector = |call: &&Call| call.has_vector();
        self.open().iter().filter(has_vector).count()
    }

    /// How many took the word.
    fn takers(&self) -> u32 {
        let is_word = matches!(self.event.second.told, Told::Heard(heard) if heard.is_vector == 0);
        match is_word && self.number == 0 {
            true => self.event.notes.lacking.count_ones(),
            false => 0,
        }
    }

    fn taker_list(&self) -> Vec<Call> {
        let open = self.open().iter().enumerate();
        let took = open.filter(|(place, _)| self.event.notes.lacking & 1 << place != 0);
        took.map(|(_, call)| *call).collect()
    }

    fn any_taker(&self, is_so: fn(&Call, &Seen) -> bool) -> bool {
        self.takers() > 0 && self.taker_list().iter().any(|call| is_so(call, self))
    }

    /// Of those that would have taken it, too.
    fn any_taker_place(&self, is_so: fn(usize, &Seen) -> bool) -> bool {
        let place = |call: &Call| call.place_of(self.phase(), self.id());
        let mut places = self.open().iter().filter_map(place);
        places.any(|place| is_so(place, self))
    }

    fn completed(&self) -> u32 {
        match self.vector() {
            true => 0,
            false => self.told_of_word().completed.count_ones(),
        }
    }

    /// Of the word before.
    fn key_before(&self) -> Key {
        Key {
            phase: self.phase(),
            vector: self.id() - 1,
        }
    }

    // Ends and places.

    fn is_end(&self) -> bool {
        matches!(self.event.happening, Happening::End { .. })
    }

    fn ended(&self) -> bool {
        self.is_end() && self.number == 0
    }

    fn end_refused(&self, number: u32) -> bool {
        self.is_end() && self.refused(number)
    }

    fn incomplete(&self) -> &[Call] {
        match &self.event.second.told {
            Told::Ended { incomplete, .. } => incomplete.open_calls(),
            _ => &[],
        }
    }

    fn place_of_area(&self, is_so: fn(u32) -> bool) -> bool {
        match self.event.happening {
            Happening::Place { call } => is_so(call.area),
            _ => false,
        }
    }
}

/// Whether the span of a record is looked at, and its number of words is right.
fn seen_span(call: &Call) -> bool {
    call.has_vector() && (1..=MOST_WORDS as u32).contains(&call.words)
}

/// Whether its vector came and brings words, but it has none.
fn without_its_words(call: &Call) -> bool {
    call.has_vector() && call.words == 0 && brings_words(call.kind)
}

fn past_last(start: u32, words: u32) -> bool {
    u64::from(start) + u64::from(words) > 88
}

/// Two of which this is so.
fn has_two_of_one_key_by(calls: &[Call], is_so: fn(&Call) -> bool) -> bool {
    let keys: Vec<Key> = { calls.iter() }
        .filter(|call| is_so(call))
        .map(Call::key)
        .collect();
    (1..keys.len()).any(|place| keys[..place].contains(&keys[place]))
}

/// Whether two with words have one area.
fn shares_area(calls: &[Call]) -> bool {
    let with_words = calls
        .iter()
        .filter(|call| call.has_vector() && call.words > 0);
    let places: Vec<usize> = with_words.map(Call::place).collect();
    (1..places.len()).any(|place| places[..place].contains(&places[place]))
}

/// The cases, by what they are looked for in.
struct List {
    cases: &'static [Case],
    is_for: fn(&Happening) -> bool,
}

const LISTS: [List; 5] = [
    List {
        cases: ADDRESSES,
        is_for: |happening| matches!(happening, Happening::Open { .. }),
    },
    List {
        cases: VECTORS,
        is_for: |happening| matches!(happening, Happening::Hear { .. }),
    },
    List {
        cases: WORDS,
        is_for: |happening| matches!(happening, Happening::Hear { .. }),
    },
    List {
        cases: STATES,
        is_for: |_| true,
    },
    List {
        cases: ENDS,
        is_for: |happening| matches!(happening, Happening::End { .. } | Happening::Place { .. }),
    },
];

/// None of them yet.
pub fn none() -> Cases {
    let cases = LISTS.iter().flat_map(|list| list.cases);
    Cases::named(cases.map(|(name, _)| *name))
}

/// Counts an event.
pub fn note(cases: &mut Cases, event: &Event) {
    let seen = &Seen::new(event);
    cases.note(LISTS.iter().flat_map(|list| {
        let is_for = (list.is_for)(&event.happening);
        list.cases
            .iter()
            .map(move |(_, is_it)| is_for && is_it(seen))
    }));
}
