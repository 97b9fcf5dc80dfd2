//! What the command line asks for.

use crate::packets::Extent;

/// The fixed texts are fewer than 50,000, so that over 200,000 drawn ones follow.
const DEFAULT_LINES: u64 = 250_000;
/// The fixed texts, and as many drawn ones.
const DEFAULT_EXPLAINED: u64 = 100_000;
const DEFAULT_SEED: u64 = 5008;

pub const USAGE: &str = "usage: compare exports EXCHANGE_COMMAND.. [--seed NUMBER]
       compare packets EXCHANGE_COMMAND.. [--seed NUMBER] [--full]
       compare pages EXCHANGE_COMMAND.. [--seed NUMBER]
       compare fragments EXCHANGE_COMMAND.. [--seed NUMBER]
       compare chains EXCHANGE_COMMAND.. [--seed NUMBER]
       compare air EXCHANGE_COMMAND.. [--seed NUMBER]
       compare calls EXCHANGE_COMMAND.. [--seed NUMBER]
       compare pocsag EXCHANGE_COMMAND.. [--seed NUMBER]
       compare start-up FILE EXCHANGE_COMMAND..
       compare checksum FILE EXCHANGE_COMMAND.. [--seed NUMBER]
       compare lines LISTING_COMMAND.. [--count NUMBER] [--seed NUMBER]
       compare explained LISTING_COMMAND.. [--count NUMBER] [--seed NUMBER]
       compare edges LISTING_COMMAND..
       compare write-lines COUNT [SEED]
       compare write-capcodes COUNT [SEED]
       compare copy-lines
A command is a program and its arguments, such as
`tools/run-x86-64 target/exchange/exchange`.";

/// A command is a program and its arguments.
#[derive(Debug, PartialEq, Eq)]
pub enum Task {
    Exports {
        exchange: Vec<String>,
        seed: u64,
    },
    Packets {
        exchange: Vec<String>,
        seed: u64,
        extent: Extent,
    },
    Pages {
        exchange: Vec<String>,
        seed: u64,
    },
    Fragments {
        exchange: Vec<String>,
        seed: u64,
    },
    Chains {
        exchange: Vec<String>,
        seed: u64,
    },
    Air {
        exchange: Vec<String>,
        seed: u64,
    },
    Calls {
        exchange: Vec<String>,
        seed: u64,
    },
    Pocsag {
        exchange: Vec<String>,
        seed: u64,
    },
    StartUp {
        file: String,
        exchange: Vec<String>,
    },
    Checksum {
        file: String,
        exchange: Vec<String>,
        seed: u64,
    },
    Lines {
        listing: Vec<String>,
        count: u64,
        seed: u64,
    },
    Explained {
        listing: Vec<String>,
        count: u64,
        seed: u64,
    },
    Edges {
        listing: Vec<String>,
    },
    WriteLines {
        count: u64,
        seed: u64,
    },
    WriteCapcodes {
        count: u64,
        seed: u64,
    },
    CopyLines,
}

/// Nothing where the words ask for nothing known.
pub fn read(words: &[String]) -> Option<Task> {
    let (task, rest) = words.split_first()?;
    match task.as_str() {
        "exports" => {
            let (exchange, seed) = command_and_seed(rest)?;
            Some(Task::Exports { exchange, seed })
        }
        "packets" => read_packets(rest),
        "pages" => {
            let (exchange, seed) = command_and_seed(rest)?;
            Some(Task::Pages { exchange, seed })
        }
        "fragments" => {
            let (exchange, seed) = command_and_seed(rest)?;
            Some(Task::Fragments { exchange, seed })
        }
        "chains" => {
            let (exchange, seed) = command_and_seed(rest)?;
            Some(Task::Chains { exchange, seed })
        }
        "air" => {
            let (exchange, seed) = command_and_seed(rest)?;
            Some(Task::Air { exchange, seed })
        }
        "calls" => {
            let (exchange, seed) = command_and_seed(rest)?;
            Some(Task::Calls { exchange, seed })
        }
        "pocsag" => {
            let (exchange, seed) = command_and_seed(rest)?;
            Some(Task::Pocsag { exchange, seed })
        }
        "start-up" => read_start_up(rest),
        "checksum" => read_checksum(rest),
        "lines" => read_lines(rest),
        "explained" => read_explained(rest),
        "edges" => {
            let (listing, []) = command_and_numbers(rest, [])?;
            Some(Task::Edges { listing })
        }
        other => read_writing(other, rest),
    }
}

/// Of lines that are only written.
fn read_writing(task: &str, words: &[String]) -> Option<Task> {
    match task {
        "write-lines" => {
            let (count, seed) = count_and_seed(words)?;
            Some(Task::WriteLines { count, seed })
        }
        "write-capcodes" => {
            let (count, seed) = count_and_seed(words)?;
            Some(Task::WriteCapcodes { count, seed })
        }
        "copy-lines" if words.is_empty() => Some(Task::CopyLines),
        _ => None,
    }
}

/// The word that asks for the full extent comes last of all.
fn read_packets(words: &[String]) -> Option<Task> {
    let (words, extent) = match words {
        [rest @ .., last] if last == "--full" => (rest, Extent::Full),
        _ => (words, Extent::Usual),
    };
    let (exchange, seed) = command_and_seed(words)?;
    Some(Task::Packets {
        exchange,
        seed,
        extent,
    })
}

fn read_start_up(words: &[String]) -> Option<Task> {
    let (file, command) = words.split_first()?;
    let (exchange, []) = command_and_numbers(command, [])?;
    Some(Task::StartUp {
        file: file.clone(),
        exchange,
    })
}

fn read_checksum(words: &[String]) -> Option<Task> {
    let (file, command) = words.split_first()?;
    let (exchange, seed) = command_and_seed(command)?;
    Some(Task::Checksum {
        file: file.clone(),
        exchange,
        seed,
    })
}

fn read_lines(words: &[String]) -> Option<Task> {
    let (listing, [count, seed]) = command_and_numbers(words, ["--count", "--seed"])?;
    Some(Task::Lines {
        listing,
        count: count.unwrap_or(DEFAULT_LINES),
        seed: seed.unwrap_or(DEFAULT_SEED),
    })
}

fn read_explained(words: &[String]) -> Option<Task> {
    let (listing, [count, seed]) = command_and_numbers(words, ["--count", "--seed"])?;
    Some(Task::Explained {
        listing,
        count: count.unwrap_or(DEFAULT_EXPLAINED),
        seed: seed.unwrap_or(DEFAULT_SEED),
    })
}

fn count_and_seed(words: &[String]) -> Option<(u64, u64)> {
    match words {
        [count] => Some((count.parse().ok()?, DEFAULT_SEED)),
        [count, seed] => Some((count.parse().ok()?, seed.parse().ok()?)),
        _ => None,
    }
}

fn command_and_seed(words: &[String]) -> Option<(Vec<String>, u64)> {
    let (command, [seed]) = command_and_numbers(words, ["--seed"])?;
    Some((command, seed.unwrap_or(DEFAULT_SEED)))
}

/// Only at the end of the words are options ours; those before belong to the
/// command. A name there without its number is a slip, and so no task.
fn command_and_numbers<const NAMES: usize>(
    mut words: &[String],
    names: [&str; NAMES],
) -> Option<(Vec<String>, [Option<u64>; NAMES])> {
    let place = |word: &String| names.iter().position(|name| name == word);
    let mut numbers = [None; NAMES];
    while let [rest @ .., name, number] = words {
        let Some(place) = place(name) else { break };
        numbers[place] = Some(number.parse().ok()?);
        words = rest;
    }
    let last = words.last()?;
    match place(last) {
        Some(_) => None,
        None => Some((words.to_vec(), numbers)),
    }
}

#[cfg(test)]
mod tests {
    use super::*;

    fn words(line: &str) -> Vec<String> {
        line.split_whitespace().map(str::to_string).collect()
    }

    #[test]
    fn a_command_keeps_its_own_arguments() {
        let line = "lines run --seed 1 listing --seed 7 --count 9";
        let task = Task::Lines {
            listing: words("run --seed 1 listing"),
            count: 9,
            seed: 7,
        };
        assert_eq!(read(&words(line)), Some(task));
    }

    #[test]
    fn explained_lines_have_a_number_of_their_own() {
        let explained = |count, seed| Task::Explained {
            listing: words("run listing"),
            count,
            seed,
        };
        let task = explained(DEFAULT_EXPLAINED, DEFAULT_SEED);
        assert_eq!(read(&words("explained run listing")), Some(task));
        let line = "explained run listing --count 9 --seed 7";
        assert_eq!(read(&words(line)), Some(explained(9, 7)));
        for line in ["explained", "explained --seed 5", "explained run --count"] {
            assert_eq!(read(&words(line)), None, "{line}");
        }
    }

    #[test]
    fn numbers_left_out_have_defaults() {
        let task = Task::Exports {
            exchange: words("run exchange"),
            seed: DEFAULT_SEED,
        };
        assert_eq!(read(&words("exports run exchange")), Some(task));
        let task = Task::WriteLines {
            count: 3,
            seed: DEFAULT_SEED,
        };
        assert_eq!(read(&words("write-lines 3")), Some(task));
    }

    #[test]
    fn pages_fragments_chains_air_calls_and_pocsag_may_have_a_seed() {
        for (options, seed) in [("", DEFAULT_SEED), (" --seed 7", 7)] {
            let exchange = words("run exchange");
            let task = Task::Pages { exchange, seed };
            let line = format!("pages run exchange{options}");
            assert_eq!(read(&words(&line)), Some(task), "{line}");
            let exchange = words("run exchange");
            let task = Task::Fragments { exchange, seed };
            let line = format!("fragments run exchange{options}");
            assert_eq!(read(&words(&line)), Some(task), "{line}");
            let exchange = words("run exchange");
            let task = Task::Chains { exchange, seed };
            let line = format!("chains run exchange{options}");
            assert_eq!(read(&words(&line)), Some(task), "{line}");
            let exchange = words("run exchange");
            let task = Task::Air { exchange, seed };
            let line = format!("air run exchange{options}");
            assert_eq!(read(&words(&line)), Some(task), "{line}");
            let exchange = words("run exchange");
            let task = Task::Calls { exchange, seed };
            let line = format!("calls run exchange{options}");
            assert_eq!(read(&words(&line)), Some(task), "{line}");
            let exchange = words("run exchange");
            let task = Task::Pocsag { exchange, seed };
            let line = format!("pocsag run exchange{options}");
            assert_eq!(read(&words(&line)), Some(task), "{line}");
        }
    }

    #[test]
    fn packets_to_either_extent() {
        for (line, seed, extent) in [
            ("packets run exchange", DEFAULT_SEED, Extent::Usual),
            ("packets run exchange --seed 7", 7, Extent::Usual),
            ("packets run exchange --full", DEFAULT_SEED, Extent::Full),
            ("packets run exchange --seed 7 --full", 7, Extent::Full),
        ] {
            let exchange = words("run exchange");
            let task = Task::Packets {
                exchange,
                seed,
                extent,
            };
            assert_eq!(read(&words(line)), Some(task), "{line}");
        }
    }

    #[test]
    fn a_start_up_has_a_file_and_a_command() {
        let task = Task::StartUp {
            file: "table.md".to_string(),
            exchange: words("run exchange"),
        };
        assert_eq!(read(&words("start-up table.md run exchange")), Some(task));
    }

    #[test]
    fn checksums_have_a_file_a_command_and_maybe_a_seed() {
        for (options, seed) in [("", DEFAULT_SEED), (" --seed 7", 7)] {
            let task = Task::Checksum {
                file: "tables.md".to_string(),
                exchange: words("run exchange"),
                seed,
            };
            let line = format!("checksum tables.md run exchange{options}");
            assert_eq!(read(&words(&line)), Some(task), "{line}");
        }
        for line in [
            "checksum",
            "checksum tables.md",
            "checksum tables.md --seed 1",
            "checksum tables.md run --seed",
            "checksum tables.md run --seed one",
        ] {
            assert_eq!(read(&words(line)), None, "{line}");
        }
    }

    #[test]
    fn slips_are_no_task() {
        for line in [
            "",
            "export run",
            "exports",
            "exports --seed 1",
            "exports run --seed",
            "exports run --seed one",
            "packets",
            "packets --full",
            "packets --seed 1",
            "packets run --seed --full",
            "pages",
            "pages --seed 1",
            "pages run --seed",
            "fragments",
            "fragments --seed 1",
            "fragments run --seed",
            "chains",
            "chains --seed 1",
            "chains run --seed",
            "air",
            "air --seed 1",
            "air run --seed",
            "calls",
            "calls --seed 1",
            "calls run --seed",
            "pocsag",
            "pocsag --seed 1",
            "pocsag run --seed",
            "start-up",
            "start-up table.md",
            "lines --count 5",
            "edges",
            "write-lines",
            "write-lines many",
            "write-lines 1 2 3",
            "write-capcodes",
            "copy-lines all",
        ] {
            assert_eq!(read(&words(line)), None, "{line}");
        }
    }
}
