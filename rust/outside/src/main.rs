//! Holds the reading of POCSAG pages against programs that others wrote: `outside multimon`
//! whole pages against the decoder multimon-ng, `outside bch` the code alone against the BCH
//! code of the library IT++.
//!
//! A difference of a kind that is not known ends the run with exit code 1.

mod bch;
mod child;
mod multimon;
// The same numbers from the same seed as in the comparisons with the library.
#[path = "../../compare/src/random.rs"]
mod random;

use std::env;
use std::process::ExitCode;

const USAGE: &str = "usage: outside multimon PROGRAM [OPTION NUMBER].. [--pocsag LISTING]
       outside bch PROGRAM [OPTION NUMBER]..
The program is multimon-ng, or that of tools/outside/bch.cpp. The options are --seed, and
--transmissions of multimon or --codewords of bch. LISTING is a program that lists pages: then
it is held against the second program too.";

const DEFAULT_TRANSMISSIONS: u64 = 2_000;
const DEFAULT_CODEWORDS: u64 = 10_000;
const DEFAULT_SEED: u64 = 5008;

/// What the command line asks for.
#[derive(Debug, PartialEq, Eq)]
enum Task {
    Multimon {
        program: String,
        transmissions: u64,
        seed: u64,
        pocsag: Option<String>,
    },
    Bch {
        program: String,
        codewords: u64,
        seed: u64,
    },
}

fn main() -> ExitCode {
    let words: Vec<String> = env::args().skip(1).collect();
    let Some(task) = task_of(&words) else {
        eprintln!("{USAGE}");
        return ExitCode::from(2);
    };
    let verdict = match &task {
        Task::Multimon {
            program,
            transmissions,
            seed,
            pocsag,
        } => multimon::compare(program, *transmissions, *seed, pocsag.as_deref()),
        Task::Bch {
            program,
            codewords,
            seed,
        } => bch::compare(program, *codewords, *seed),
    };
    match verdict {
        Ok(()) => ExitCode::SUCCESS,
        Err(difference) => {
            eprintln!("{difference}");
            ExitCode::FAILURE
        }
    }
}

/// Nothing where the words ask for nothing known.
fn task_of(words: &[String]) -> Option<Task> {
    let [task, program, options @ ..] = words else {
        return None;
    };
    let program = program.clone();
    match task.as_str() {
        "multimon" => {
            let [transmissions, seed, pocsag] =
                values_of(options, ["--transmissions", "--seed", "--pocsag"])?;
            Some(Task::Multimon {
                program,
                transmissions: number_or(transmissions, DEFAULT_TRANSMISSIONS)?,
                seed: number_or(seed, DEFAULT_SEED)?,
                pocsag: pocsag.cloned(),
            })
        }
        "bch" => {
            let [codewords, seed] = values_of(options, ["--codewords", "--seed"])?;
            Some(Task::Bch {
                program,
                codewords: number_or(codewords, DEFAULT_CODEWORDS)?,
                seed: number_or(seed, DEFAULT_SEED)?,
            })
        }
        _ => None,
    }
}

/// What stands after each of these names. A word that is none of them is a slip, and so is a
/// name without a value.
fn values_of<'a, const NAMES: usize>(
    words: &'a [String],
    names: [&str; NAMES],
) -> Option<[Option<&'a String>; NAMES]> {
    let mut values = [None; NAMES];
    for pair in words.chunks(2) {
        let [name, value] = pair else {
            return None;
        };
        let place = names.iter().position(|known| known == name)?;
        values[place] = Some(value);
    }
    Some(values)
}

fn number_or(value: Option<&String>, default: u64) -> Option<u64> {
    match value {
        Some(number) => number.parse().ok(),
        None => Some(default),
    }
}

#[cfg(test)]
mod tests {
    use super::*;

    fn task(line: &str) -> Option<Task> {
        let words: Vec<String> = line.split_whitespace().map(str::to_string).collect();
        task_of(&words)
    }

    #[test]
    fn what_is_left_out_has_a_default() {
        let multimon = Task::Multimon {
            program: "decoder".to_string(),
            transmissions: DEFAULT_TRANSMISSIONS,
            seed: DEFAULT_SEED,
            pocsag: None,
        };
        assert_eq!(task("multimon decoder"), Some(multimon));
        let bch = Task::Bch {
            program: "code".to_string(),
            codewords: DEFAULT_CODEWORDS,
            seed: 7,
        };
        assert_eq!(task("bch code --seed 7"), Some(bch));
    }

    #[test]
    fn options_in_any_order() {
        let multimon = Task::Multimon {
            program: "decoder".to_string(),
            transmissions: 3,
            seed: 7,
            pocsag: Some("./pocsag".to_string()),
        };
        let line = "multimon decoder --pocsag ./pocsag --seed 7 --transmissions 3";
        assert_eq!(task(line), Some(multimon));
    }

    #[test]
    fn slips_are_no_task() {
        for line in [
            "",
            "multimon",
            "bch",
            "other program",
            "multimon decoder --seed",
            "multimon decoder --seed one",
            "multimon decoder --codewords 1",
            "bch code --pocsag ./pocsag",
            "bch code 5",
        ] {
            assert_eq!(task(line), None, "{line}");
        }
    }
}
