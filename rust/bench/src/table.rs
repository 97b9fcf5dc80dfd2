//! The tables of docs/BENCHMARKS.md.

use std::fmt::Write;
use std::path::Path;

use crate::boards;
use crate::bytes;
use crate::callgrind::{instructions, Callers};
use crate::glance;
use crate::measure::{Purpose, Row};
use crate::rows::{AGAINST_SECOND, SIXTEEN};

/// No operation over so many times the second program's instructions.
const AIM: f64 = 1.2;
/// Joining a text, against a plain copy of its bytes plus its sums.
const AIM_OF_JOINING: f64 = 1.5;

/// A row with its instructions.
pub struct Counted {
    pub row: Row,
    pub library: u64,
    pub other: u64,
}

impl Counted {
    pub fn ratio(&self) -> f64 {
        self.library as f64 / self.other as f64
    }

    fn aim(&self) -> f64 {
        match self.row.group {
            "joining" if self.row.input != AGAINST_SECOND => AIM_OF_JOINING,
            _ => AIM,
        }
    }

    /// As it is told, so that no row is over the aim that reads as the aim.
    fn is_over(&self) -> bool {
        (100.0 * self.ratio()).round() > 100.0 * self.aim()
    }
}

/// A section of the document: the group of its rows, its title and what is to be known of it.
struct Section {
    group: &'static str,
    title: &'static str,
    about: &'static str,
}

const fn section(group: &'static str, title: &'static str, about: &'static str) -> Section {
    Section {
        group,
        title,
        about,
    }
}

const OPERATIONS: [Section; 12] = [
    section("addresses", "Addresses", ""),
    section(SIXTEEN, "Each of sixteen addresses", ""),
    section("capcodes", "CAPCODEs", ""),
    section("frames", "Frames", ""),
    section("packets", "Packets", ""),
    section("mirror", "The mirror", ""),
    section("sums", "Sums", ""),
    section("pages", "Numeric pages", ""),
    section("fragments", "Fragments", ""),
    section("chains", "Chains", ""),
    section("calls", "Calls", ""),
    section(
        "pocsag",
        "POCSAG pages",
        "The library mends words by its table. The second program tries every choice of at most two bits, so that its figures\n\
         say little of mending; those of `pocsag_read` are of the same work.",
    ),
];

/// What the sixteen addresses cost in all.
const IN_ALL: &str = "all sixteen addresses";
const WORST: &str = "worst packet";

const FURTHER: [Section; 6] = [
    section(
        IN_ALL,
        "Sixteen addresses",
        "As many as a pager holds: two at each end of the range table, the others spread over its rows\n\
         (`boards/sixteen-addresses.h`). Each of them stands above.",
    ),
    section(
        WORST,
        "The worst packet",
        "The dearest states for each kind of packet that the decoder sends, and what the host calls for it. A word of a group's\n\
         page can complete eight calls, and then up to eight fragments are joined; the rows of `chain_step` tell one.",
    ),
    section("growth by words", "Growth with the words of a fragment", ""),
    section("growth by open chains", "Growth with the open chains", ""),
    section("growth by open calls", "Growth with the open calls", ""),
    section(
        "joining",
        "Joining a text",
        "1,008 characters in fragments of 85 words (the last has 2): all five steps. The plain copy unpacks the cells of each\n\
         fragment, copies them but for fill, and makes both sums, K of the words and the sum of the cells, in plain loops. The\n\
         stricter yardstick has the text lying ready: one memcpy of it, and K of each fragment and the signature by the second\n\
         program. The aim is 1.5 against the plain copy.",
    ),
];

/// The rows of the groups that are wanted, with what callgrind counted in the folder.
fn counted(folder: &Path, wanted: &str) -> Result<Vec<Counted>, String> {
    let rows = crate::measured(Purpose::Stack, wanted).rows;
    let callers = Callers::own()?;
    let count = |(place, row): (usize, Row)| {
        let side = |side: usize| {
            let file = folder.join(format!("part.{}", 2 * place + side));
            instructions(&file, &callers)
        };
        let (library, other) = (side(1)?, side(2)?);
        Ok(Counted {
            row,
            library,
            other,
        })
    };
    let mut rows: Vec<Counted> = rows
        .into_iter()
        .enumerate()
        .map(count)
        .collect::<Result<_, String>>()?;
    rows.extend(in_all(&rows));
    Ok(rows)
}

/// What the sixteen addresses cost together, and the dearest of them, for each operation that is asked of them. The
/// boards have these rows under the same names.
fn in_all(rows: &[Counted]) -> Vec<Counted> {
    let sixteen = || rows.iter().filter(|counted| counted.row.group == SIXTEEN);
    let mut operations: Vec<&str> = sixteen().map(|one| one.row.operation.as_str()).collect();
    operations.dedup();
    let row = |operation: &str, input: &str, costs: (u64, u64)| Counted {
        row: Row {
            group: IN_ALL,
            operation: operation.to_owned(),
            input: input.to_owned(),
            depths: None,
        },
        library: costs.0,
        other: costs.1,
    };
    let summed = |operation: &str| {
        let costs = || {
            let of_it = sixteen().filter(|one| one.row.operation == operation);
            of_it.map(|one| (one.library, one.other))
        };
        let together = costs().fold((0, 0), |all, one| (all.0 + one.0, all.1 + one.1));
        let dearest = costs().fold((0, 0), |most, one| (most.0.max(one.0), most.1.max(one.1)));
        [
            row(operation, "16 addresses, together", together),
            row(operation, "16 addresses, the dearest", dearest),
        ]
    };
    operations.into_iter().flat_map(summed).collect()
}

/// One group alone, for whoever mends it.
pub fn show(folder: &Path, wanted: &str) -> Result<(), String> {
    let rows = counted(folder, wanted)?;
    print!("{}", table(rows.iter(), "second program"));
    Ok(())
}

/// The whole document. The archive and the three files that are part of it are given beside callgrind's folder: on the range
/// table, on boards, and on what is over the aim.
pub fn document(folder: &Path, archive: &Path, files: [&Path; 3]) -> Result<(), String> {
    let [on_ranges, on_boards, why] = files;
    let rows = counted(folder, "")?;
    let machine = bytes::said_by("uname", &["-m"])?;
    bytes::assert_all_exports(archive, &rows)?;
    let sizes = bytes::sizes(archive)?;
    let mut text = format!("# Benchmarks\n\n{}", glance::table(&rows, &sizes)?);
    text += &opening(&rows, machine.trim())?;
    text += "\n## Instructions of each operation\n";
    for section in &OPERATIONS {
        text += &in_section(section, "###", &rows);
    }
    for section in &FURTHER {
        text += &in_section(section, "##", &rows);
        match section.group {
            IN_ALL => text += &format!("\n{}", written(on_ranges)?),
            WORST => text += &dearest(&rows),
            _ => {}
        }
    }
    text += &bytes::sections(&sizes, &rows);
    text += "\n";
    text += &boards::section(&written(on_boards)?, machine.trim(), &rows);
    text += "\n## Why rows are over the aim\n\n";
    text += &written(why)?;
    print!("{text}");
    Ok(())
}

fn written(file: &Path) -> Result<String, String> {
    std::fs::read_to_string(file).map_err(|error| format!("{}: {error}", file.display()))
}

fn opening(rows: &[Counted], machine: &str) -> Result<String, String> {
    let over = rows.iter().filter(|row| row.is_over()).count();
    let valgrind = bytes::said_by("valgrind", &["--version"])?;
    let rustc = bytes::said_by("rustc", &["--version"])?;
    let mut text = OPENING.to_owned();
    let _ = write!(
        text,
        "\nMeasured on {machine}, with {} and {}.\n{over} of {} rows are over the aim; they are marked, and why stands at the end.\n",
        valgrind.trim(),
        rustc.trim(),
        rows.len()
    );
    Ok(text)
}

const OPENING: &str = "
This document is written by one command, which is also how to make it again:

    tools/bench

It builds `rust/bench` with the library and the second program (`rust/second`), both for release, and runs it once under
callgrind. The second program is compiled as one unit, so that what is counted of an operation does not change with what else
its crate holds. Before an operation is counted both programs answer the same input and must agree, in what they tell and in the
memory that they were lent. Instructions are those of one call, from the operation's first to its return, with all that it
calls. Each is called through its own symbol, so that neither is taken apart into its caller.

The second program changes state in place. The library takes it by value and gives it back by value, so for `chain_step`,
`chain_drop`, `call_open`, `call_hear`, `call_end` and `pocsag_hear` what its caller does is counted too: the records copied
in, and those of the answer copied back. The second program allocates where the library works in lent memory; that is its cost.

The aim: no operation over 1.2 times the second program's instructions; joining a text within 1.5 times a plain copy of its
bytes plus its sums; at most 2 KiB of stack. `tools/bench chains` shows the rows of one group alone.
";

fn in_section(section: &Section, level: &str, rows: &[Counted]) -> String {
    let rows = rows
        .iter()
        .filter(|counted| counted.row.group == section.group);
    let about = match section.about {
        "" => String::new(),
        about => format!("{about}\n\n"),
    };
    let other = match section.group {
        "joining" => "yardstick",
        _ => "second program",
    };
    let table = table(rows, other);
    format!("\n{level} {}\n\n{about}{table}", section.title)
}

/// Of the packets alone, without the joining that follows them.
fn dearest(rows: &[Counted]) -> String {
    let packets = rows.iter().filter(|counted| counted.row.group == WORST);
    let packets = packets.filter(|counted| counted.row.operation != "chain_step");
    match packets.max_by_key(|counted| counted.library) {
        None => String::new(),
        Some(Counted {
            row,
            library,
            other,
        }) => format!(
            "\nThe dearest: {} ({library} instructions, the second program's {other}).\n",
            row.input
        ),
    }
}

/// What the library is held against is named, since it is not always the second program.
fn table<'a>(rows: impl Iterator<Item = &'a Counted>, other: &str) -> String {
    let names = format!("| operation | input | library | {other} | ratio | |");
    let head = format!("{names}\n|---|---|--:|--:|--:|---|\n");
    let line = |counted: &Counted| {
        let Counted {
            row,
            library,
            other,
        } = counted;
        let mark = if counted.is_over() { "over" } else { "" };
        let (operation, input, ratio) = (&row.operation, &row.input, counted.ratio());
        format!("| `{operation}` | {input} | {library} | {other} | {ratio:.2} | {mark} |\n")
    };
    rows.map(line).fold(head, |text, line| text + &line)
}
