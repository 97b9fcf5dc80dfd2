//! The program that lists pages, `./pocsag`, held against the second program.
//!
//! It takes words as eight hexadecimal digits each, and lists every page in a line and every
//! refused word, or several in succession, in a line. What it lists of pages and of words is
//! compared in order; how lines of the two are mixed is not.

use second::pocsag::text::{self, SEVEN_BIT, STANDARD_NUMERIC};

use super::pages::{EndedPage, Told};
use crate::child;

const TITLE: &str = "ADDRESS FUNCTION KIND MENDED FILL TEXT";

/// Whether the program lists what the second program told. Its exit status is not looked at.
pub fn hold(program: &str, words: &[u32], told: &Told) -> Result<(), String> {
    let input: String = words.iter().map(|word| format!("{word:08X}\n")).collect();
    let listed = child::printed(program, &[], input.as_bytes())?;
    let listed = String::from_utf8(listed).map_err(|error| format!("{program}: {error}"))?;
    agree(&listed, told).map_err(|what| format!("{program}: {what}, of the words\n{input}"))
}

fn agree(listed: &str, told: &Told) -> Result<(), String> {
    let mut lines = listed.lines();
    if lines.next() != Some(TITLE) {
        return Err("the title line is missing".to_string());
    }
    let (of_words, of_pages): (Vec<&str>, Vec<&str>) =
        lines.partition(|line| line.starts_with("WORD"));
    let of_words: Vec<String> = of_words.into_iter().flat_map(each_word).collect();
    let refused = told.refused.iter();
    let refused = refused.map(|(place, number)| format!("WORD {place} REFUSED {number}"));
    let refused: Vec<String> = refused.collect();
    if of_words != refused {
        return Err(format!(
            "words are listed as\n{of_words:?}\nand not as\n{refused:?}"
        ));
    }
    if of_pages.len() != told.ended.len() {
        let (listed, ended) = (of_pages.len(), told.ended.len());
        return Err(format!("{listed} pages are listed, and not {ended}"));
    }
    let pages = of_pages.iter().zip(&told.ended);
    for (line, ended) in pages {
        let expected = line_of(ended, line);
        if *line != expected {
            return Err(format!(
                "a page is listed as\n{line:?}\nand not as\n{expected:?}"
            ));
        }
    }
    Ok(())
}

/// A line of several refused words as a line for each of them, and any other as it is.
fn each_word(line: &str) -> Vec<String> {
    let parts: Vec<&str> = line.split(' ').collect();
    let ["WORDS", first, "TO", last, "REFUSED", number] = parts[..] else {
        return vec![line.to_string()];
    };
    match (first.parse::<usize>(), last.parse::<usize>()) {
        (Ok(first), Ok(last)) if first < last => {
            let words = (first..=last).map(|word| format!("WORD {word} REFUSED {number}"));
            words.collect()
        }
        _ => vec![line.to_string()],
    }
}

/// A character as it is shown: printable ASCII as it is, a backslash as two, any other as `\x` and
/// two digits.
fn shown(byte: u8) -> String {
    match byte {
        b'\\' => "\\\\".to_string(),
        0x20..=0x7E => char::from(byte).to_string(),
        _ => format!("\\x{byte:02X}"),
    }
}

/// The line that is expected. What a page with function 1 or 2 is taken for is the program's own
/// choice, which the line that it wrote tells.
fn line_of(ended: &EndedPage, listed: &str) -> String {
    let page = &ended.page;
    let head = format!("{:07} {}", page.address, page.function);
    if let Some(refusal) = ended.refusal {
        let (number, words) = (refusal.number(), page.words.len());
        return format!("{head} REFUSED {number} {words}");
    }
    if page.words.is_empty() {
        return format!("{head} TONE {} 0", ended.mended);
    }
    let is_numeric = match page.function {
        0 => true,
        3 => false,
        _ => listed.split(' ').nth(2) == Some("NUMERIC"),
    };
    let (kind, name) = match is_numeric {
        true => (STANDARD_NUMERIC, "NUMERIC"),
        false => (SEVEN_BIT, "TEXT"),
    };
    let mut lent = vec![0; 5 * page.words.len()];
    let read = text::read(kind, &page.words, &mut lent).expect("words of a page can be read");
    let before_fill = &lent[..read.characters - read.fill_at_end];
    let text: String = before_fill.iter().map(|byte| shown(*byte)).collect();
    let head = format!("{head} {name} {} {}", ended.mended, read.fill_at_end);
    match text.is_empty() {
        true => head,
        false => format!("{head} {text}"),
    }
}

#[cfg(test)]
mod tests {
    use second::pocsag::sender::{address_word, message_word, numeric_words, text_words};
    use second::pocsag::word::{IDLE, SYNC};

    use super::super::pages::told_by_second;
    use super::*;

    fn told() -> Told {
        let numeric = numeric_words(STANDARD_NUMERIC, b"0417").unwrap();
        let text = text_words(b"PICK 12").unwrap();
        let mut words = vec![SYNC, address_word(1_200, 0), message_word(numeric[0])];
        words.push(address_word(1_200, 3) ^ 6);
        words.extend(text.iter().map(|bits| message_word(*bits)));
        words.extend([
            address_word(1_200, 1),
            address_word(1_200, 2),
            IDLE ^ 1,
            IDLE,
        ]);
        told_by_second(&words)
    }

    const LISTED: [&str; 6] = [
        TITLE,
        "0001200 0 NUMERIC 0 1 0417",
        "0001201 3 TEXT 2 1 PICK 12",
        "0001203 1 TONE 0 0",
        "WORD 9 REFUSED 25",
        "0001203 2 REFUSED 25 0",
    ];

    #[test]
    fn a_listing() {
        assert_eq!(agree(&LISTED.join("\n"), &told()), Ok(()));
    }

    #[test]
    fn characters_as_they_are_shown() {
        let text: String = b" ~\\\x00\x7F".iter().map(|byte| shown(*byte)).collect();
        assert_eq!(text, r" ~\\\x00\x7F");
    }

    #[test]
    fn refused_words_in_succession() {
        let told = told_by_second(&[IDLE, IDLE, IDLE ^ 1, IDLE]);
        let listed = "WORDS 0 TO 1 REFUSED 26\nWORD 2 REFUSED 25\nWORD 3 REFUSED 26";
        assert_eq!(agree(&format!("{TITLE}\n{listed}"), &told), Ok(()));
        for wrong in [
            "0 TO 2 REFUSED 26",
            "1 TO 0 REFUSED 26",
            "0 TO 1 REFUSED 25",
        ] {
            let listed = listed.replace("0 TO 1 REFUSED 26", wrong);
            assert!(agree(&format!("{TITLE}\n{listed}"), &told).is_err());
        }
    }

    #[test]
    fn every_line_counts() {
        for place in 0..LISTED.len() {
            let mut lines = LISTED;
            let changed = lines[place].replace('0', "1").replace(['A', '9'], "8");
            lines[place] = &changed;
            assert!(agree(&lines.join("\n"), &told()).is_err());
            let mut lines = LISTED.to_vec();
            lines.remove(place);
            assert!(agree(&lines.join("\n"), &told()).is_err());
        }
    }
}
