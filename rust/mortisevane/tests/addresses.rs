//! Addresses and CAPCODEs. The cases by number are 01's marked ones.

use mortisevane::address::{self, Class, Words};
use mortisevane::capcode::{Capcode, Phase, Refused, CAPCODE_BYTES};
use mortisevane::Refusal;

#[test]
fn cases_1_to_5_and_back() {
    let cases = [
        (1, Words::Short(0x008001)),
        (1933312, Words::Short(0x1E0000)),
        (2101249, Words::Long(0x000001, 0x1FFFFE)),
        (1075843073, Words::Long(0x000001, 0x1E0001)),
        (3223326721, Words::Long(0x1F8001, 0x1E0001)),
    ];
    for (address, words) in cases {
        assert_eq!(address::words(address), Ok(words));
        assert_eq!(words.address(), Ok(address));
    }
}

#[test]
fn the_ends_of_each_accepted_range() {
    let ranges = [
        (1, 1933312, Class::Short),
        (2009088, 2025471, Class::InformationService),
        (2025472, 2029567, Class::Network),
        (2029584, 2029599, Class::Operator),
        (2101249, 1075843072, Class::Set12),
        (1075843073, 2149584896, Class::Set13),
        (2149584897, 3223326720, Class::Set14),
        (3223326721, 3923326750, Class::Set23Country),
        (4280000001, 4291000000, Class::Set23InformationService),
    ];
    for (place, (first, last, class)) in ranges.into_iter().enumerate() {
        assert_eq!(class.number() as usize, place + 1);
        assert_eq!((address::class(first), address::class(last)), (Ok(class), Ok(class)));
    }
}

#[test]
fn no_address_and_no_words() {
    for address in [0, 1933313, 2029568, 2101248, 3923326751, 4291000001, u64::MAX] {
        assert_eq!(address::class(address), Err(Refusal::Range));
        assert_eq!(address::words(address), Err(Refusal::Range));
    }
    // The idle words; then the right banks of set 2-3, but of addresses that have other words (Table 24).
    for words in [Words::Short(0), Words::Short(0x1FFFFF), Words::Long(0x1F7FFF, 0x1E0001), Words::Long(0x1F8000, 0x1E0001)]
    {
        assert_eq!(words.address(), Err(Refusal::Range));
    }
}

/// A line as the label desk's listing has it; no refused line of the sample has a byte that is shown otherwise.
fn listed(text: &str) -> String {
    let capcode: Capcode = match text.parse() {
        Ok(capcode) => capcode,
        Err(Refused { refusal, place }) => {
            let place = place.map_or(String::new(), |place| format!(" {place}"));
            return format!("{text} REFUSED {}{place}", refusal.number());
        }
    };
    let (first, second) = match address::words(capcode.address()).expect("a CAPCODE's address is accepted") {
        Words::Short(word) => (word, "------".to_string()),
        Words::Long(first, second) => (first, format!("{second:06X}")),
    };
    format!("{capcode} {first:06X} {second} {} {:03} {}", capcode.phase(), capcode.base_frame(), capcode.collapse())
}

#[test]
fn the_sample_is_listed() {
    let lines = include_str!("../../../samples/capcodes.txt").lines();
    let expected = include_str!("../../../samples/capcodes.expected").lines().skip(1);
    assert_eq!(lines.map(listed).collect::<Vec<_>>(), expected.collect::<Vec<_>>());
}

#[test]
fn cases_6_and_7() {
    assert_eq!(Capcode::read(b"D0000002"), Err(Refused { refusal: Refusal::Offset, place: None }));
    let capcode = Capcode::read(b"D0000003").unwrap();
    assert_eq!((capcode.phase(), capcode.base_frame()), (Phase::A, 0));
}

#[test]
fn where_a_text_goes_wrong() {
    let cases = [
        ("", Refusal::DigitAfterLetter, 0),
        ("12", Refusal::DigitAfterLetter, 2),
        ("E1234", Refusal::DigitAfterLetter, 5),
        ("A2101249", Refusal::DigitAfterLetter, 8),
        // No ten digits that begin so are over 2031614.
        ("A0000001234", Refusal::DigitAfterLetter, 8),
        ("1275Y42910000000", Refusal::DigitAfterLetter, 15),
        ("4A0001234", Refusal::LeadingFour, 0),
        ("6A0001234", Refusal::DigitBeforeLetter, 0),
        ("23A", Refusal::DigitBeforeLetter, 1),
        ("1284Y0001234", Refusal::DigitBeforeLetter, 2),
        ("00744U0001234", Refusal::DigitBeforeLetter, 4),
        ("a0001234", Refusal::Text, 0),
        ("00A0001234", Refusal::Text, 2),
        ("E000123x", Refusal::Text, 7),
        ("E0001234\r", Refusal::Text, 8),
    ];
    for (text, refusal, place) in cases {
        let refused = Refused { refusal, place: Some(place) };
        assert_eq!(Capcode::read(text.as_bytes()), Err(refused), "{text:?}");
        assert_eq!(text.parse::<Capcode>(), Err(refused), "{text:?}");
    }
}

#[test]
fn a_text_in_the_form_is_refused_without_a_place() {
    for (text, refusal) in [("I0001234", Refusal::Type), ("A1933313", Refusal::Range), ("G0000001", Refusal::Offset)] {
        assert_eq!(Capcode::read(text.as_bytes()), Err(Refused { refusal, place: None }), "{text}");
    }
}

#[test]
fn a_value_is_the_text_that_it_says() {
    let capcode = Capcode::new(b'W', 64, 1, 2101249).unwrap();
    assert_eq!(Ok(capcode), "0641W0002101249".parse());
    assert_eq!((capcode.letter(), capcode.frame(), capcode.collapse(), capcode.address()), (b'W', 64, 1, 2101249));
    assert_eq!((capcode.phase(), capcode.base_frame()), (Phase::C, 64));
    assert_eq!(format!("{capcode:>16}"), " 0641W0002101249");
    // The standard rules of Table 25: 1234 div 16 is 77.
    let capcode = Capcode::new(b'E', 0, 4, 1234).unwrap();
    assert_eq!(Ok(capcode), "E0001234".parse());
    assert_eq!((capcode.phase(), capcode.base_frame()), (Phase::Any, 77));
}

#[test]
fn a_value_of_no_text() {
    assert_eq!(Capcode::new(b'M', 0, 4, 1234), Err(Refusal::Text));
    assert_eq!(Capcode::new(b'I', 0, 4, 1234), Err(Refusal::Type));
    assert_eq!(Capcode::new(b'A', 0, 4, 0), Err(Refusal::Range));
    assert_eq!(Capcode::new(b'D', 0, 4, 2), Err(Refusal::Offset));
    assert_eq!(Capcode::new(b'A', 0, 6, 1234), Err(Refusal::Packet));
    // The text of A has no frame digits.
    assert_eq!(Capcode::new(b'A', 1, 4, 1234), Err(Refusal::Packet));
}

#[test]
fn a_text_is_printed_where_it_has_room() {
    let longest = Capcode::new(b'W', 64, 1, 2101249).unwrap();
    let mut buffer = [b'.'; CAPCODE_BYTES + 1];
    assert_eq!(longest.print(&mut buffer), Ok(&b"0641W0002101249"[..]));
    assert_eq!(&buffer, b"0641W0002101249.");

    let short = Capcode::new(b'E', 0, 4, 1234).unwrap();
    let mut buffer = [b'.'; 7];
    assert_eq!(short.print(&mut buffer), Err(Refusal::Room));
    assert_eq!(&buffer, b".......");
    assert_eq!(short.print(&mut []), Err(Refusal::Room));
}
