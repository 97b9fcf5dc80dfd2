//! The refusals by their numbers.

use std::collections::BTreeSet;
use std::error::Error;

use mortisevane::refusal::NoRefusal;
use mortisevane::{capcode, chains, exports, Refusal};

#[test]
fn the_twenty_three_are_numbered_from_1_to_26_but_for_three() {
    let numbers: Vec<u32> = Refusal::ALL.iter().map(|refusal| refusal.number()).collect();
    assert_eq!(numbers, (1..=21).chain([25, 26]).collect::<Vec<u32>>());
    for refusal in Refusal::ALL {
        assert_eq!(Refusal::try_from(refusal.number()), Ok(refusal));
    }
    for number in [0, 22, 23, 24, 27, u32::MAX] {
        assert_eq!(Refusal::try_from(number), Err(NoRefusal(number)));
    }
    assert_eq!(NoRefusal(22).to_string(), "22 is the number of no refusal");
}

#[test]
fn each_is_told_in_words_of_its_own() {
    let told = Refusal::ALL.map(|refusal| refusal.to_string());
    let meanings: BTreeSet<&str> = told.iter().map(|told| told.split_once(": ").expect("a meaning follows").1).collect();
    assert_eq!(meanings.len(), 23);
    let told_of = |refusal: Refusal, told: &str| assert_eq!(refusal.to_string(), format!("refused {told}"));
    told_of(Refusal::Type, "4: the letter is all-phase, which the decoder does not support");
    told_of(Refusal::Character, "18: a character is not in the set");
    assert!(Refusal::DigitBeforeLetter.to_string().starts_with("refused 19: a digit that cannot stand here: "));
    told_of(Refusal::LeadingFour, "20: a 4 at the start: no digit means 4, so leave it out");
    told_of(Refusal::DigitAfterLetter, "21: the text stops too soon, or has a digit too many after the letter");
}

#[test]
fn there_is_a_sentence_for_each_and_none_for_other_numbers() {
    for (number, sentence) in (0..).zip(exports::SENTENCES) {
        match Refusal::try_from(number) {
            Ok(refusal) => assert_eq!(refusal.to_string(), format!("refused {number}: {sentence}")),
            Err(_) => assert_eq!(sentence, "", "{number}"),
        }
    }
    assert_eq!(exports::SENTENCES.iter().filter(|sentence| !sentence.is_empty()).count(), Refusal::ALL.len());
}

#[test]
fn a_refused_fragment_tells_its_refusal() {
    let lost = chains::Refused { refusal: Refusal::OutOfTurn, lost: true };
    assert_eq!(lost.source().and_then(|source| source.downcast_ref()), Some(&Refusal::OutOfTurn));
    assert_eq!(lost.to_string(), format!("{}, and an open chain is lost", Refusal::OutOfTurn));
    assert_eq!(Refusal::from(lost), Refusal::OutOfTurn);
}

#[test]
fn a_refused_text_tells_its_refusal_and_its_place() {
    let refused = capcode::Refused { refusal: Refusal::DigitAfterLetter, place: Some(5) };
    assert_eq!(refused.source().and_then(|source| source.downcast_ref()), Some(&Refusal::DigitAfterLetter));
    assert_eq!(refused.to_string(), format!("{}, at place 5", Refusal::DigitAfterLetter));
    assert_eq!(Refusal::from(refused), Refusal::DigitAfterLetter);
    let refused = capcode::Refused { refusal: Refusal::Offset, place: None };
    assert_eq!(refused.to_string(), Refusal::Offset.to_string());
}
