//! multimon-ng: what it is given, and the lines that it prints.

use super::audio::sound;
use super::drawing::Transmission;
use crate::child;

/// A page as multimon-ng shows it.
#[derive(Clone, Debug, PartialEq, Eq)]
pub struct Shown {
    pub address: u32,
    pub function: u32,
    pub text: Text,
}

#[derive(Clone, Debug, PartialEq, Eq)]
pub enum Text {
    None,
    Numeric(String),
    Alpha(String),
}

/// What all pages are read as.
#[derive(Clone, Copy, Debug, PartialEq, Eq)]
pub enum Mode {
    /// By their function: 0 is numeric, any other is seven-bit text.
    Standard,
    /// All are numeric, so that every message bit shows.
    Numeric,
}

/// The pages that multimon-ng shows of a transmission.
pub fn shown(program: &str, sent: &Transmission, mode: Mode) -> Result<Vec<Shown>, String> {
    let name = format!("POCSAG{}", sent.rate);
    let mode: &[&str] = match mode {
        Mode::Standard => &[],
        Mode::Numeric => &["-f", "numeric"],
    };
    let arguments = [&["-q", "-a", &name], mode, &["-t", "raw", "-"]].concat();
    let printed = child::run(program, &arguments, &sound(&sent.words, sent.rate))?;
    let printed = String::from_utf8(printed).map_err(|error| format!("{program}: {error}"))?;
    let mut pages = Vec::new();
    for line in printed.lines() {
        let told = line.strip_prefix(&format!("{name}: "));
        match told.map(|told| (told, page_of(told))) {
            Some((_, Some(page))) => pages.push(page),
            // The page itself is shown in the next line.
            Some(("Warning: Message too long", _)) => {}
            _ => {
                return Err(format!(
                    "{program} printed a line of an unknown form: {line}"
                ))
            }
        }
    }
    Ok(pages)
}

/// The version that the program tells of itself, as the first line of its help.
pub fn version(program: &str) -> Result<String, String> {
    let output = std::process::Command::new(program)
        .arg("-h")
        .output()
        .map_err(|error| format!("{program}: {error}"))?;
    let told = [output.stdout, output.stderr].concat();
    let told = String::from_utf8_lossy(&told);
    let line = told.lines().next().unwrap_or_default();
    Ok(line.trim().to_string())
}

/// The page of a line such as `Address:    8001  Function: 0  Numeric: 0417 `.
fn page_of(line: &str) -> Option<Shown> {
    let (address, rest) = line.strip_prefix("Address: ")?.split_once("  Function: ")?;
    let (function, text) = rest.split_once(' ')?;
    Some(Shown {
        address: address.trim_start().parse().ok()?,
        function: function.parse().ok()?,
        text: text_of(text)?,
    })
}

fn text_of(text: &str) -> Option<Text> {
    if text.is_empty() {
        return Some(Text::None);
    }
    let numeric = text.strip_prefix(" Numeric: ");
    let alpha = text.strip_prefix(" Alpha:   ");
    numeric
        .map(|text| Text::Numeric(text.to_string()))
        .or(alpha.map(|text| Text::Alpha(text.to_string())))
}

#[cfg(test)]
mod tests {
    use super::*;

    #[test]
    fn lines_of_pages() {
        let page = |address, function, text| {
            Some(Shown {
                address,
                function,
                text,
            })
        };
        let line = "Address:    8001  Function: 0  Numeric:  0417 ";
        let text = Text::Numeric(" 0417 ".to_string());
        assert_eq!(page_of(line), page(8001, 0, text));
        let line = "Address: 2097151  Function: 3  Alpha:    a<NUL> ";
        let text = Text::Alpha(" a<NUL> ".to_string());
        assert_eq!(page_of(line), page(2_097_151, 3, text));
        let line = "Address:       0  Function: 1 ";
        assert_eq!(page_of(line), page(0, 1, Text::None));
        for line in [
            "",
            "Address:       -  Function: -  Alpha:   x",
            "Address:       1  Function: 1",
            "Address:       1  Function: 1  Skyper:  x",
        ] {
            assert_eq!(page_of(line), None, "{line}");
        }
    }
}
