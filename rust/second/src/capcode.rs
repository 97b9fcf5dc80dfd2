//! CAPCODEs: their text (01, house form of S8.6.2), where a text that is not in
//! the form goes wrong (02, item 1), and the phase and base frame they stand for
//! (S8.6.5).

use std::ops::RangeInclusive;

use crate::address::address_class;
use crate::refusal::Refusal;

/// A CAPCODE as a value. The frame is the text's three frame digits, and 0
/// with the letters whose text has none.
#[derive(Clone, Copy, Debug, PartialEq, Eq)]
pub struct Capcode {
    pub letter: u8,
    pub address: u64,
    pub frame: u32,
    pub collapse: u32,
}

/// The phase a pager listens to.
#[derive(Clone, Copy, Debug, PartialEq, Eq)]
pub enum Phase {
    A = 0,
    B = 1,
    C = 2,
    D = 3,
    Any = 4,
}

const SINGLE_PHASES: [Phase; 4] = [Phase::A, Phase::B, Phase::C, Phase::D];

impl Phase {
    /// 0 to 3 for the phases A to D (S8.6.5), 4 for any-phase.
    pub fn number(self) -> u8 {
        self as u8
    }

    /// How the listing shows the phase.
    pub fn sign(self) -> u8 {
        b"ABCD*"[self as usize]
    }
}

/// Where a pager's pages are sent.
#[derive(Clone, Copy, Debug, PartialEq, Eq)]
pub struct Place {
    pub phase: Phase,
    pub base_frame: u32,
}

/// A text that was refused.
#[derive(Clone, Copy, Debug, PartialEq, Eq)]
pub struct Refused {
    pub refusal: Refusal,
    /// Of a text that is not in the form (3, 19, 20, 21): the place, counted from
    /// 0, of the first byte at which no correct text could go on. It is the
    /// text's length where the text only stops too soon.
    pub place: Option<usize>,
}

/// The other refusals belong to no place of the text.
impl From<Refusal> for Refused {
    fn from(refusal: Refusal) -> Refused {
        Refused {
            refusal,
            place: None,
        }
    }
}

/// The collapse value that A to H have when their text shows none (S8.6.2).
const STANDARD_COLLAPSE: u32 = 4;
/// 01 takes collapse values 0 to 5 only.
pub const LARGEST_COLLAPSE: u32 = 5;
/// A cycle has 128 frames.
pub const LARGEST_FRAME: u32 = 127;
/// Up to here an address is written with seven digits, above with ten (01).
const LARGEST_SEVEN_DIGIT_ADDRESS: u64 = 2_031_614;
/// The last number that ten digits can say.
const LARGEST_TEN_DIGIT_ADDRESS: u64 = 9_999_999_999;
/// Three frame digits, a collapse digit, the letter, ten address digits.
pub const LONGEST_TEXT: usize = 15;

/// How a letter gives the phase (Table 25).
#[derive(Clone, Copy, PartialEq, Eq)]
enum PhaseRule {
    FromAddress,
    Fixed(Phase),
    AllPhases,
}

/// What Table 25 says of a letter.
#[derive(Clone, Copy)]
struct LetterType {
    phase_rule: PhaseRule,
    /// Whether frame and collapse digits stand before the letter (U to Z).
    frame_given: bool,
    offset: u8,
}

fn letter_type(letter: u8) -> Option<LetterType> {
    let (phase_rule, frame_given, offset) = match letter {
        b'A'..=b'D' => (PhaseRule::FromAddress, false, letter - b'A'),
        b'E'..=b'H' => (PhaseRule::Fixed(Phase::Any), false, letter - b'E'),
        b'I'..=b'L' => (PhaseRule::AllPhases, false, letter - b'I'),
        b'U'..=b'X' => {
            let phase = SINGLE_PHASES[usize::from(letter - b'U')];
            (PhaseRule::Fixed(phase), true, 0)
        }
        b'Y' => (PhaseRule::Fixed(Phase::Any), true, 0),
        b'Z' => (PhaseRule::AllPhases, true, 0),
        _ => return None,
    };
    Some(LetterType {
        phase_rule,
        frame_given,
        offset,
    })
}

/// Reads a CAPCODE text. The form is judged whole before anything else (3, 19,
/// 20, 21), then the letter's type (4), the range (5) and the offset (6).
pub fn read(text: &[u8]) -> Result<Capcode, Refused> {
    let (capcode, letter_type) = read_form(text).ok_or_else(|| no_form(text))?;
    check_address(capcode.address, letter_type)?;
    Ok(capcode)
}

fn read_form(text: &[u8]) -> Option<(Capcode, LetterType)> {
    // Four digits at most stand before a letter; a fifth is no letter.
    let leading = text.iter().take(4);
    let prefix_length = leading.take_while(|byte| byte.is_ascii_digit()).count();
    let (prefix, rest) = text.split_at(prefix_length);
    let (&letter, address_digits) = rest.split_first()?;
    let letter_type = letter_type(letter)?;
    let (frame, collapse) = if letter_type.frame_given {
        read_frame_and_collapse(prefix)?
    } else {
        (0, read_optional_collapse(prefix)?)
    };
    let capcode = Capcode {
        letter,
        address: read_address(address_digits)?,
        frame,
        collapse,
    };
    Some((capcode, letter_type))
}

/// The prefix of U to Z: both fields must be there, and collapse 4 is written.
fn read_frame_and_collapse(prefix: &[u8]) -> Option<(u32, u32)> {
    let [hundreds, tens, units, collapse] = *prefix else {
        return None;
    };
    let frame = [hundreds, tens, units]
        .iter()
        .fold(0, |value, digit| value * 10 + u32::from(digit - b'0'));
    let collapse = u32::from(collapse - b'0');
    if frame <= LARGEST_FRAME && collapse <= LARGEST_COLLAPSE {
        Some((frame, collapse))
    } else {
        None
    }
}

/// The prefix of A to L. Only the missing digit says 4, so that each CAPCODE
/// has one text.
fn read_optional_collapse(prefix: &[u8]) -> Option<u32> {
    let collapse = match *prefix {
        [] => return Some(STANDARD_COLLAPSE),
        [digit @ b'0'..=b'5'] => u32::from(digit - b'0'),
        _ => return None,
    };
    (collapse != STANDARD_COLLAPSE).then_some(collapse)
}

/// The number of digits must be the one that belongs to the number.
fn read_address(digits: &[u8]) -> Option<u64> {
    if digits.len() != 7 && digits.len() != 10 {
        return None;
    }
    let mut address = 0_u64;
    for digit in digits {
        if !digit.is_ascii_digit() {
            return None;
        }
        address = address * 10 + u64::from(digit - b'0');
    }
    (digits.len() == address_length(address)).then_some(address)
}

/// How many digits an address of an accepted range, or below them, is written with.
fn address_length(address: u64) -> usize {
    if address <= LARGEST_SEVEN_DIGIT_ADDRESS {
        7
    } else {
        10
    }
}

/// What is told of a text that is not in the form, by the byte at the place
/// where it goes wrong. What stands before that place begins a correct text, so
/// that anything but digits there is the letter.
#[cold]
fn no_form(text: &[u8]) -> Refused {
    let place = fitting(text);
    let before_letter = text[..place].iter().all(u8::is_ascii_digit);
    let refusal = match text.get(place) {
        None => Refusal::DigitAfterLetter,
        Some(b'4') if place == 0 => Refusal::LeadingFour,
        Some(b'0'..=b'9') if before_letter => Refusal::DigitBeforeLetter,
        Some(b'0'..=b'9') => Refusal::DigitAfterLetter,
        Some(_) => Refusal::Text,
    };
    Refused {
        refusal,
        place: Some(place),
    }
}

/// How many bytes from the text's start are the beginning of some correct text.
/// A correct text has one of three shapes: the letter comes first, after a
/// collapse digit, or after three frame digits and a collapse digit.
fn fitting(text: &[u8]) -> usize {
    let by_letter = fitting_from_letter(text, 0, false);
    let by_collapse = match text {
        [b'0'..=b'3' | b'5', ..] => fitting_from_letter(text, 1, false),
        _ => 0,
    };
    by_letter.max(by_collapse).max(fitting_with_frame(text))
}

/// How many bytes from the text's start fit the shape in which three frame digits
/// and a collapse digit stand before the letter.
fn fitting_with_frame(text: &[u8]) -> usize {
    let frame = fitting_digits(text, 3, 0..=u64::from(LARGEST_FRAME));
    if frame < 3 {
        return frame;
    }
    match fitting_digits(&text[3..], 1, 0..=u64::from(LARGEST_COLLAPSE)) {
        1 => fitting_from_letter(text, 4, true),
        _ => 3,
    }
}

/// How many bytes from the text's start fit a shape whose digits before the
/// letter are known to fit. With a letter of the right family at its place the
/// address counts too, in the width that fits longer.
fn fitting_from_letter(text: &[u8], place: usize, frame_given: bool) -> usize {
    match text.get(place).copied().and_then(letter_type) {
        Some(letter_type) if letter_type.frame_given == frame_given => {
            let digits = &text[place + 1..];
            let longer = LARGEST_SEVEN_DIGIT_ADDRESS + 1..=LARGEST_TEN_DIGIT_ADDRESS;
            let seven = fitting_digits(digits, 7, 0..=LARGEST_SEVEN_DIGIT_ADDRESS);
            place + 1 + seven.max(fitting_digits(digits, 10, longer))
        }
        _ => place,
    }
}

/// How many bytes from the start are digits with which some number of the range
/// begins that is written with so many digits. Filled up with zeros they must
/// not be over the range, and filled up with nines not under it.
fn fitting_digits(bytes: &[u8], width: usize, range: RangeInclusive<u64>) -> usize {
    let mut filled_with_zeros = 0;
    let mut unit = 10_u64.pow(width as u32);
    for place in 0..width {
        let Some(digit @ b'0'..=b'9') = bytes.get(place) else {
            return place;
        };
        unit /= 10;
        filled_with_zeros += u64::from(digit - b'0') * unit;
        let filled_with_nines = filled_with_zeros + unit - 1;
        if filled_with_zeros > *range.end() || filled_with_nines < *range.start() {
            return place;
        }
    }
    width
}

/// Refusals 4, 5 and 6, which a text and a value have in common.
fn check_address(address: u64, letter_type: LetterType) -> Result<(), Refusal> {
    if letter_type.phase_rule == PhaseRule::AllPhases {
        return Err(Refusal::Type);
    }
    address_class(address)?;
    if address < u64::from(letter_type.offset) {
        return Err(Refusal::Offset);
    }
    Ok(())
}

/// Refusals of a CAPCODE value handed in: 3 for a letter that no CAPCODE has, 4
/// to 6 as of a text, then 7 for fields that no text could hold.
fn check_value(capcode: &Capcode) -> Result<LetterType, Refusal> {
    let letter_type = letter_type(capcode.letter).ok_or(Refusal::Text)?;
    check_address(capcode.address, letter_type)?;
    let largest_frame = if letter_type.frame_given {
        LARGEST_FRAME
    } else {
        0
    };
    if capcode.collapse > LARGEST_COLLAPSE || capcode.frame > largest_frame {
        return Err(Refusal::Packet);
    }
    Ok(letter_type)
}

/// The phase and the base frame of a CAPCODE value.
pub fn place(capcode: &Capcode) -> Result<Place, Refusal> {
    let letter_type = check_value(capcode)?;
    Ok(place_by_type(capcode, letter_type))
}

/// Reads a text and tells its place as well, judging it once.
pub fn read_with_place(text: &[u8]) -> Result<(Capcode, Place), Refused> {
    let (capcode, letter_type) = read_form(text).ok_or_else(|| no_form(text))?;
    check_address(capcode.address, letter_type)?;
    Ok((capcode, place_by_type(&capcode, letter_type)))
}

/// The standard rules of S8.6.5 for A to H; for U to Y what the text says.
fn place_by_type(capcode: &Capcode, letter_type: LetterType) -> Place {
    let counted = capcode.address - u64::from(letter_type.offset);
    let phase = match letter_type.phase_rule {
        PhaseRule::Fixed(phase) => phase,
        _ => SINGLE_PHASES[(counted / 4 % 4) as usize],
    };
    let base_frame = if letter_type.frame_given {
        capcode.frame
    } else {
        (counted / 16 % 128) as u32
    };
    Place { phase, base_frame }
}

/// Prints a CAPCODE value at the buffer's start and tells the text's length.
/// Bytes after the text, and on refusal the whole buffer, stay as they were.
pub fn print(capcode: &Capcode, buffer: &mut [u8]) -> Result<usize, Refusal> {
    let letter_type = check_value(capcode)?;
    let prefix_length = if letter_type.frame_given {
        4
    } else {
        usize::from(capcode.collapse != STANDARD_COLLAPSE)
    };
    let length = prefix_length + 1 + address_length(capcode.address);
    let text = buffer.get_mut(..length).ok_or(Refusal::Room)?;
    let (prefix, rest) = text.split_at_mut(prefix_length);
    if let Some((collapse, frame)) = prefix.split_last_mut() {
        *collapse = b'0' + capcode.collapse as u8;
        print_decimal(u64::from(capcode.frame), frame);
    }
    rest[0] = capcode.letter;
    print_decimal(capcode.address, &mut rest[1..]);
    Ok(length)
}

/// Fills all of `digits` with the number's lowest digits, zeros in front.
pub(crate) fn print_decimal(number: u64, digits: &mut [u8]) {
    let mut rest = number;
    for digit in digits.iter_mut().rev() {
        *digit = b'0' + (rest % 10) as u8;
        rest /= 10;
    }
}

#[cfg(test)]
mod tests {
    use super::*;

    fn value(letter: u8, address: u64, frame: u32, collapse: u32) -> Capcode {
        Capcode {
            letter,
            address,
            frame,
            collapse,
        }
    }

    /// The number and the place that a text is refused with; 16 bytes decide.
    fn refused(text: impl AsRef<[u8]>) -> (u32, Option<usize>) {
        let text = text.as_ref();
        let refused = read(text).expect_err("the text is refused");
        assert_eq!(read_with_place(text), Err(refused));
        assert_eq!(read(&text[..text.len().min(16)]), Err(refused));
        (refused.refusal.number(), refused.place)
    }

    fn place_of(text: &str) -> Result<(Phase, u32), Refused> {
        let capcode = read(text.as_bytes())?;
        let place = place(&capcode)?;
        assert_eq!(read_with_place(text.as_bytes()), Ok((capcode, place)));
        Ok((place.phase, place.base_frame))
    }

    /// 01, proved examples 6 and 7.
    #[test]
    fn marked_cases() {
        assert_eq!(refused("D0000002"), (6, None));
        assert_eq!(place_of("D0000003"), Ok((Phase::A, 0)));
    }

    /// 01, "Run, not proved", with the numbers of 02, item 1.
    #[test]
    fn run_cases() {
        assert_eq!(refused("A1933313"), (5, None));
        assert_eq!(refused("A2101249"), (21, Some(8)));
        assert_eq!(refused("4A0001234"), (20, Some(0)));
    }

    #[test]
    fn forms() {
        assert_eq!(read(b"A0001234"), Ok(value(b'A', 1234, 0, 4)));
        assert_eq!(read(b"0A0001234"), Ok(value(b'A', 1234, 0, 0)));
        assert_eq!(read(b"5H0001234"), Ok(value(b'H', 1234, 0, 5)));
        assert_eq!(read(b"1274U0001234"), Ok(value(b'U', 1234, 127, 4)));
        assert_eq!(
            read(b"0000Y4291000000"),
            Ok(value(b'Y', 4_291_000_000, 0, 0))
        );
    }

    #[track_caller]
    fn assert_refused(number: u32, texts: &[(&str, usize)]) {
        for (text, place) in texts {
            assert_eq!(refused(text), (number, Some(*place)), "{text:?}");
        }
    }

    /// The byte where no correct text could go on is neither a digit nor missing.
    #[test]
    fn refused_3() {
        let texts = [
            ("a0001234", 0),
            ("M0001234", 0),
            ("U0001234", 0),
            (" A0001234", 0),
            ("0a0001234", 1),
            ("1Y0001234", 1),
            ("A+001234", 1),
            ("AA0001234", 1),
            ("00A0001234", 2),
            ("077U0001234", 3),
            ("0774A0001234", 4),
            ("0774/0001234", 4),
            ("0774:0001234", 4),
            ("E000123x", 7),
            ("A000123 ", 7),
            ("A0001234\r", 8),
            ("A0002101249A", 11),
            ("1275Y4291000000 ", 15),
        ];
        assert_refused(3, &texts);
        assert_eq!(refused(b"E00\xFF1234"), (3, Some(3)));
    }

    #[test]
    fn refused_19() {
        let texts = [
            ("6A0001234", 0),
            ("9", 0),
            // Only a letter can stand after these: no frame begins so.
            ("23A", 1),
            ("33A0001234", 1),
            ("54U0001234", 1),
            ("13", 1),
            ("199", 1),
            ("1284U0001234", 2),
            ("1284Y0001234", 2),
            ("129", 2),
            ("0776U0001234", 3),
            // The frame is 007, and the 7 after it is no collapse.
            ("00774U0001234", 3),
            ("00744U0001234", 4),
            ("000000000000000000", 4),
        ];
        assert_refused(19, &texts);
    }

    #[test]
    fn refused_20() {
        assert_refused(20, &[("4", 0), ("4A0001234", 0), ("4U0001234", 0)]);
        assert_refused(20, &[("4I0001234", 0), ("44", 0), ("4 ", 0)]);
    }

    #[test]
    fn refused_21_at_the_end() {
        let texts = [
            ("", 0),
            ("0", 1),
            ("5", 1),
            ("A", 1),
            ("12", 2),
            ("127", 3),
            ("1275", 4),
            ("1275Y", 5),
            ("E1234", 5),
            ("A000123", 7),
            // Seven digits over 2031614 can only be the first of ten.
            ("A2031615", 8),
            ("A2101249", 8),
            ("A9999999", 8),
            // Ten digits that begin so can be over 2031614.
            ("A00020316", 9),
            ("A000203161", 10),
            ("A999999999", 10),
            ("1275Y429100000", 14),
        ];
        assert_refused(21, &texts);
    }

    #[test]
    fn refused_21_at_a_digit() {
        let texts = [
            // No ten digits that begin as these do up to the place, and with the
            // digit there, are over 2031614.
            ("A00001234", 8),
            ("A0000001234", 8),
            ("A0002030999", 8),
            ("A00020315", 8),
            ("A000203160", 9),
            ("A0002031614", 10),
            // An eleventh digit.
            ("A00021012490", 11),
            ("1275Y42910000000", 15),
            ("1275Y429100000000000000000", 15),
        ];
        assert_refused(21, &texts);
    }

    #[test]
    fn order_of_refusals() {
        // The form before the letter, the letter before the range, the range
        // before the offset.
        assert_eq!(refused("Z0001234"), (3, Some(0)));
        assert_eq!(refused("4I0001234"), (20, Some(0)));
        assert_eq!(refused("6L0000000"), (19, Some(0)));
        assert_eq!(refused("L000000"), (21, Some(7)));
        assert_eq!(refused("I0001234"), (4, None));
        assert_eq!(refused("L0000000"), (4, None));
        assert_eq!(refused("0774Z0000000"), (4, None));
        assert_eq!(refused("D0000000"), (5, None));
        assert_eq!(refused("G0000001"), (6, None));
        assert_eq!(read(b"0774U0000001"), Ok(value(b'U', 1, 77, 4)));
    }

    #[test]
    fn places() {
        assert_eq!(place_of("E0001234"), Ok((Phase::Any, 77)));
        assert_eq!(place_of("A0002101249"), Ok((Phase::A, 0)));
        assert_eq!(place_of("A0001234"), Ok((Phase::A, 77)));
        assert_eq!(place_of("C0001234"), Ok((Phase::A, 77)));
        assert_eq!(place_of("D0001234"), Ok((Phase::D, 76)));
        assert_eq!(place_of("0031V0001234"), Ok((Phase::B, 3)));
        assert_eq!(place_of("1275X0001234"), Ok((Phase::D, 127)));
        assert_eq!(place_of("0054Y0001234"), Ok((Phase::Any, 5)));
    }

    #[test]
    fn values_that_have_no_text() {
        let refused = [
            (value(b'M', 0, 200, 9), Refusal::Text),
            (value(b'a', 1234, 0, 4), Refusal::Text),
            (value(b'Z', 0, 200, 9), Refusal::Type),
            (value(b'D', 0, 200, 9), Refusal::Range),
            (value(b'D', 2, 200, 9), Refusal::Offset),
            (value(b'D', 3, 0, 6), Refusal::Packet),
            (value(b'D', 3, 1, 4), Refusal::Packet),
            (value(b'U', 3, 128, 4), Refusal::Packet),
        ];
        for (capcode, refusal) in refused {
            let mut buffer = [b'#'; 20];
            assert_eq!(place(&capcode), Err(refusal));
            assert_eq!(print(&capcode, &mut buffer), Err(refusal));
            assert_eq!(print(&capcode, &mut []), Err(refusal));
            assert_eq!(buffer, [b'#'; 20]);
        }
    }

    #[test]
    fn printing_gives_the_text_back() {
        let texts = [
            "A0001234",
            "0H0001234",
            "E0002101249",
            "1274U0001234",
            "0035Y4291000000",
        ];
        for text in texts {
            let capcode = read(text.as_bytes()).unwrap();
            let mut buffer = [b'#'; LONGEST_TEXT + 3];
            assert_eq!(print(&capcode, &mut buffer), Ok(text.len()));
            assert_eq!(&buffer[..text.len()], text.as_bytes());
            assert!(buffer[text.len()..].iter().all(|byte| *byte == b'#'));
            let short = &mut [b'#'; LONGEST_TEXT][..text.len() - 1];
            assert_eq!(print(&capcode, short), Err(Refusal::Room));
            assert!(short.iter().all(|byte| *byte == b'#'));
        }
    }
}
