//! How multimon-ng shows what it read: a page of the second program in its manner of writing.

use second::pocsag::text::{read, SEVEN_BIT, STANDARD_NUMERIC};

use super::decoder::{Mode, Shown, Text};
use super::pages::Page;

/// What it writes in another manner.
#[derive(Clone, Copy, Debug, PartialEq, Eq, PartialOrd, Ord)]
pub enum Manner {
    /// The code A is a full stop.
    FullStop,
    /// A control character is its name in angle brackets.
    Named,
    /// A text that would be longer than 1,023 characters when it is written like that ends
    /// before.
    Ended,
}

impl Manner {
    pub fn sentence(self) -> &'static str {
        match self {
            Manner::FullStop => "the code A is shown as . and not as ?",
            Manner::Named => "a control character is shown by its name, such as <NUL>",
            Manner::Ended => "a text ends where its names of control characters are too many",
        }
    }
}

const LONGEST: usize = 1_023;

/// The names of the characters 00H to 1FH.
const NAMES: [&str; 32] = [
    "NUL", "SOH", "STX", "ETX", "EOT", "ENQ", "ACK", "BEL", "BS", "HT", "LF", "VT", "FF", "CR",
    "SO", "SI", "DLE", "DC1", "DC2", "DC3", "DC4", "NAK", "SYN", "ETB", "CAN", "EM", "SUB", "ESC",
    "FS", "GS", "RS", "US",
];
const DELETE: u8 = 0x7F;

/// The page as it is shown.
pub fn shown(page: &Page, mode: Mode) -> Shown {
    Shown {
        address: page.address,
        function: page.function,
        text: text_of(page, mode).0,
    }
}

/// In which other manners a page is written where its function says what it is.
pub fn manners(page: &Page) -> Vec<Manner> {
    text_of(page, Mode::Standard).1
}

fn text_of(page: &Page, mode: Mode) -> (Text, Vec<Manner>) {
    if page.words.is_empty() {
        return (Text::None, Vec::new());
    }
    if mode == Mode::Numeric || page.function == 0 {
        let text = characters(STANDARD_NUMERIC, &page.words);
        let manners = text.contains('?').then_some(Manner::FullStop);
        let text = Text::Numeric(text.replace('?', "."));
        return (text, manners.into_iter().collect());
    }
    let text = characters(SEVEN_BIT, &page.words);
    let mut manners = Vec::new();
    let mut written = String::new();
    for character in text.bytes() {
        let name = match character {
            0x00..0x20 => NAMES[usize::from(character)],
            DELETE => "DEL",
            _ => "",
        };
        let as_written = match name {
            "" => char::from(character).to_string(),
            _ => format!("<{name}>"),
        };
        if !name.is_empty() && !manners.contains(&Manner::Named) {
            manners.push(Manner::Named);
        }
        if written.len() + as_written.len() > LONGEST {
            manners.push(Manner::Ended);
            break;
        }
        written.push_str(&as_written);
    }
    (Text::Alpha(written), manners)
}

/// All characters of the words, the fill with them.
pub fn characters(kind: u32, words: &[u32]) -> String {
    let mut lent = vec![0; 5 * words.len()];
    let told = read(kind, words, &mut lent).expect("words have 20 bits and there is room");
    lent.truncate(told.characters);
    String::from_utf8(lent).expect("every character has seven bits")
}

#[cfg(test)]
mod tests {
    use second::pocsag::sender::{numeric_words, text_words};

    use super::*;

    fn page(function: u32, words: Vec<u32>) -> Page {
        Page {
            place: 1,
            address: 8,
            function,
            words,
        }
    }

    #[test]
    fn pages_by_their_function() {
        let words = numeric_words(STANDARD_NUMERIC, b"04?").unwrap();
        let numeric = page(0, words.clone());
        let text = Text::Numeric("04.  ".to_string());
        assert_eq!(shown(&numeric, Mode::Standard).text, text);
        assert_eq!(shown(&numeric, Mode::Numeric).text, text);
        assert_eq!(manners(&numeric), [Manner::FullStop]);
        assert_eq!(shown(&page(3, words), Mode::Numeric).text, text);

        let words = text_words(b"Bay\x7F<\x04").unwrap();
        let alpha = page(3, words);
        let text = Text::Alpha("Bay<DEL><<EOT><NUL><NUL>".to_string());
        assert_eq!(shown(&alpha, Mode::Standard).text, text);
        assert_eq!(manners(&alpha), [Manner::Named]);

        let tone = page(2, Vec::new());
        assert_eq!(shown(&tone, Mode::Standard).text, Text::None);
        assert_eq!(manners(&tone), []);
        assert_eq!(manners(&page(1, text_words(b"Ba").unwrap())), []);
    }

    /// Of 1,023 characters 204 names of five leave three.
    #[test]
    fn a_text_of_many_names() {
        let long = page(3, text_words(&[0; 300]).unwrap());
        let text = Text::Alpha("<NUL>".repeat(204));
        assert_eq!(shown(&long, Mode::Standard).text, text);
        assert_eq!(manners(&long), [Manner::Named, Manner::Ended]);
    }
}
