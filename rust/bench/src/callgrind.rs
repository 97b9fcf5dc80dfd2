//! What callgrind counted: the files that it writes, one for each side of each row. Two things of them are used: how many
//! instructions were run in all, and how often each of the measuring functions' own, which are taken off. Who called whom
//! is not: on some machines callgrind takes returns for jumps, and then its calls are not those of the program.

use std::fs;
use std::io;
use std::ops::Range;
use std::path::Path;

use crate::bytes::said_by;
use crate::measure::CALLS;

/// The functions of this module make the calls, and their own instructions are not told, but for those of `APART`.
const MEASURING: &str = "bench::measure::";
/// The one function of that module whose instructions are part of what is told (measure.rs).
const APART: &str = "bench::measure::apart";
/// Callgrind's two marks have no module.
const MARKS: [&str; 2] = ["row_begins", "row_ends"];

/// Where the functions stand in this program that make the calls.
pub struct Callers {
    program: String,
    places: Vec<Range<u64>>,
}

impl Callers {
    /// Those of the program that is running.
    pub fn own() -> Result<Callers, String> {
        let program = std::env::current_exe().map_err(|error| error.to_string())?;
        let program = program.display().to_string();
        let symbols = said_by(
            "nm",
            &["--demangle", "--print-size", "--defined-only", &program],
        )?;
        Ok(Callers {
            places: symbols.lines().filter_map(place_of_caller).collect(),
            program,
        })
    }

    fn has(&self, program: &str, place: u64) -> bool {
        program == self.program && self.places.iter().any(|places| places.contains(&place))
    }
}

/// A line of `nm`: a function's place, its size, its kind and its name.
fn place_of_caller(line: &str) -> Option<Range<u64>> {
    let mut words = line.splitn(4, ' ');
    let place = u64::from_str_radix(words.next()?, 16).ok()?;
    let size = u64::from_str_radix(words.next()?, 16).ok()?;
    let name = words.nth(1)?;
    let calls = name.starts_with(MEASURING) && !name.starts_with(APART) || MARKS.contains(&name);
    calls.then_some(place..place + size)
}

/// The instructions of one call, from its first instruction to its return.
pub fn instructions(file: &Path, callers: &Callers) -> Result<u64, String> {
    let text = fs::read_to_string(file)
        .map_err(|error: io::Error| format!("{}: {error}", file.display()))?;
    let (all, own) = counted(&text, callers)?;
    // An operation that the compiler took apart into its caller would not be told.
    let count = CALLS as u64;
    if all < own + count {
        return Err(format!(
            "{}: nothing was called {CALLS} times",
            file.display()
        ));
    }
    // The calls need not be alike to the instruction: the second program allocates, and a copy of bytes depends on
    // where they lie.
    Ok((all - own + count / 2) / count)
}

/// How many instructions were run in all, and how many of them were the callers' own. `summary:` has the first; `ob=` has
/// the object file of the lines after it; a line of three numbers is an instruction's place, its source line and how
/// often it was run. After `calls=` one line of the same form, or two, are of a call: the place is the call's, whose own
/// line came before.
fn counted(text: &str, callers: &Callers) -> Result<(u64, u64), String> {
    let not_understood = |line: &str| format!("callgrind's line is not understood: {line}");
    let (mut all, mut own) = (None, 0);
    let (mut program, mut called_from) = ("", None);
    let mut lines = text.lines();
    while let Some(line) = lines.next() {
        if let Some(total) = line.strip_prefix("summary: ") {
            all = total.parse().ok();
        } else if let Some(name) = line.strip_prefix("ob=") {
            program = name;
        } else if line.starts_with("calls=") {
            called_from = lines.next().and_then(instruction).map(|(place, _)| place);
        } else if line.starts_with("0x") {
            let (place, often) = instruction(line).ok_or(not_understood(line))?;
            if callers.has(program, place) && called_from.take() != Some(place) {
                own += often;
            }
        }
    }
    Ok((all.ok_or(not_understood("summary"))?, own))
}

fn instruction(line: &str) -> Option<(u64, u64)> {
    let mut words = line.split_whitespace();
    let place = u64::from_str_radix(words.next()?.strip_prefix("0x")?, 16).ok()?;
    Some((place, words.nth(1)?.parse().ok()?))
}

#[cfg(test)]
mod tests {
    use super::*;

    const WRITTEN: &str = "summary: 65\nob=/bench\nfn=bench::measure::repeated\n0x100 12 10\n0x104 12 10\n\
                           cfn=mortisevane_may_send\ncalls=10 0x200 0\n0x104 14 30\n0x104 14 90\n0x100 15 10\n0x104 15 10\n\
                           fn=mortisevane_may_send\n0x200 0 10\n0x204 0 20\nob=/library\nfn=copy\n0x104 0 5\n";

    fn callers() -> Callers {
        Callers {
            program: "/bench".to_owned(),
            places: vec![0x100..0x108],
        }
    }

    #[test]
    fn all_and_the_callers_own() {
        assert_eq!(counted(WRITTEN, &callers()), Ok((65, 40)));
        assert_eq!(counted("summary: 7\n", &callers()), Ok((7, 0)));
        assert!(counted("summary: 7\n0x100\n", &callers()).is_err());
        assert!(counted("0x100 12 10\n", &callers()).is_err());
    }

    #[test]
    fn who_makes_the_calls() {
        let named =
            |name: &str| place_of_caller(&format!("0000000000000100 0000000000000008 t {name}"));
        assert_eq!(named("bench::measure::repeated"), Some(0x100..0x108));
        assert_eq!(named("row_begins"), Some(0x100..0x108));
        assert_eq!(named("bench::measure::apart"), None);
        assert_eq!(named("mortisevane_may_send"), None);
        assert_eq!(place_of_caller("                 U memcpy"), None);
    }
}
