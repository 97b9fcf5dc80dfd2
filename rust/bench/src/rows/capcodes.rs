//! CAPCODEs.

use mortisevane::exports::*;
use second::capcode::{self, Capcode as SecondCapcode, Place, Refused};
use second::refusal::Refusal;

use crate::measure::{side, Measure, Told};
use crate::told::{answer, bytes};

/// 8 bytes, and 15, the longest.
const SHORT: (&str, SecondCapcode) = (
    "8 bytes, E0001234",
    SecondCapcode {
        letter: b'E',
        frame: 0,
        collapse: 4,
        address: 1_234,
    },
);
const LONG: (&str, SecondCapcode) = (
    "15 bytes, 1275Y4291000000",
    SecondCapcode {
        letter: b'Y',
        frame: 127,
        collapse: 5,
        address: 4_291_000_000,
    },
);
const REFUSED: (&str, SecondCapcode) = (
    "refused 5: of no range",
    SecondCapcode {
        letter: b'Y',
        frame: 127,
        collapse: 5,
        address: 4_291_000_001,
    },
);

pub fn rows(measure: &mut Measure) {
    measure.group("capcodes");
    read(measure, SHORT.0, b"E0001234");
    read(measure, LONG.0, b"1275Y4291000000");
    refused_texts(measure);
    read(measure, REFUSED.0, b"1275Y4291000001");
    for (input, capcode) in [SHORT, LONG, REFUSED] {
        assign(measure, input, capcode);
    }
    for (input, capcode) in [SHORT, LONG, REFUSED] {
        print(measure, input, capcode, CAPCODE_BYTES);
    }
    print(
        measure,
        "refused 1: 14 bytes lent",
        LONG.1,
        CAPCODE_BYTES - 1,
    );
}

/// Texts that are not in the form, by each of the four refusals; the last goes wrong late.
fn refused_texts(measure: &mut Measure) {
    read(measure, "refused 3: 8 bytes, a0001234", b"a0001234");
    read(
        measure,
        "refused 19: 12 bytes, 1284Y0001234",
        b"1284Y0001234",
    );
    read(measure, "refused 20: 9 bytes, 4A0001234", b"4A0001234");
    read(measure, "refused 21: 5 bytes, E1234", b"E1234");
    read(measure, "refused 21: 11 bytes, A0000001234", b"A0000001234");
}

/// The CAPCODE of an address whose letter takes nothing off it.
pub fn assign_address(measure: &mut Measure, address: u64) {
    let capcode = SecondCapcode { address, ..SHORT.1 };
    assign(measure, &address.to_string(), capcode);
}

fn read(measure: &mut Measure, input: &str, text: &[u8]) {
    type Read = fn(&[u8]) -> Result<(SecondCapcode, Place), Refused>;
    let second = capcode::read_with_place as Read;
    measure.row(
        "capcode_read",
        input,
        side(
            text,
            |text| unsafe { mortisevane_capcode_read(text.as_ptr(), text.len()) },
            |_, read| {
                vec![
                    read.number.into(),
                    read.letter.into(),
                    read.frame.into(),
                    read.collapse.into(),
                    read.phase.into(),
                    read.base.into(),
                    read.place.into(),
                    read.address,
                ]
            },
        ),
        side(
            (text, second),
            |(text, second)| second(text),
            |_, read| told_read(read),
        ),
    );
}

/// Beside the refusal of a text that is not in the form stands the place where it goes wrong.
fn told_read(read: &Result<(SecondCapcode, Place), Refused>) -> Told {
    match read {
        Ok((capcode, place)) => vec![
            0,
            capcode.letter.into(),
            capcode.frame.into(),
            capcode.collapse.into(),
            place.phase.number().into(),
            place.base_frame.into(),
            0,
            capcode.address,
        ],
        Err(Refused { refusal, place }) => {
            let place = place.unwrap_or(0) as u64;
            vec![refusal.number().into(), 0, 0, 0, 0, 0, place, 0]
        }
    }
}

fn assign(measure: &mut Measure, input: &str, capcode: SecondCapcode) {
    let second = capcode::place as fn(&SecondCapcode) -> Result<Place, Refusal>;
    let tell = |place: &Place| vec![place.phase.number().into(), place.base_frame.into()];
    measure.row(
        "capcode_assign",
        input,
        side(
            capcode,
            |capcode| unsafe {
                let SecondCapcode {
                    letter,
                    frame,
                    collapse,
                    address,
                } = *capcode;
                mortisevane_capcode_assign(letter, frame, collapse, address)
            },
            |_, place| vec![place.number.into(), place.phase.into(), place.base.into()],
        ),
        side(
            (capcode, second),
            |(capcode, second)| second(capcode),
            |_, place| answer(place, tell, 2),
        ),
    );
}

fn print(measure: &mut Measure, input: &str, capcode: SecondCapcode, room: usize) {
    let second = capcode::print as fn(&SecondCapcode, &mut [u8]) -> Result<usize, Refusal>;
    let lent = vec![0xA5; room];
    measure.row(
        "capcode_print",
        input,
        side(
            (capcode, lent.clone()),
            |(capcode, lent)| unsafe {
                let SecondCapcode {
                    letter,
                    frame,
                    collapse,
                    address,
                } = *capcode;
                let (out, room) = (lent.as_mut_ptr(), lent.len());
                mortisevane_capcode_print(letter, frame, collapse, address, out, room)
            },
            |(_, lent), printed| {
                [
                    vec![printed.number.into(), printed.length as u64],
                    bytes(lent),
                ]
                .concat()
            },
        ),
        side(
            (capcode, lent, second),
            |(capcode, lent, second)| second(capcode, lent),
            |(_, lent, _), printed| {
                let length = answer(printed, |length| vec![*length as u64], 1);
                [length, bytes(lent)].concat()
            },
        ),
    );
}
