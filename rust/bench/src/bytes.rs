//! Bytes of code, of state, of lent memory and of stack.

use std::mem::size_of;
use std::path::Path;
use std::process::Command;

use mortisevane::exports;

use crate::table::Counted;

const PREFIX: &str = "mortisevane_";
/// 2 KiB.
const AIM_OF_STACK: usize = 2_048;

/// What a program writes to its standard output.
pub fn said_by(program: &str, arguments: &[&str]) -> Result<String, String> {
    let run = Command::new(program).args(arguments).output();
    let output = run.map_err(|error| format!("{program}: {error}"))?;
    match output.status.success() {
        true => String::from_utf8(output.stdout).map_err(|error| format!("{program}: {error}")),
        false => Err(format!(
            "{program} {}: {}",
            arguments.join(" "),
            output.status
        )),
    }
}

fn path(archive: &Path) -> Result<&str, String> {
    archive
        .to_str()
        .ok_or(format!("{} is no text", archive.display()))
}

/// Every export of the archive has a row.
pub fn assert_all_exports(archive: &Path, rows: &[Counted]) -> Result<(), String> {
    let symbols = said_by("nm", &["-g", "--defined-only", path(archive)?])?;
    let names = symbols
        .lines()
        .filter_map(|line| line.split(' ').nth(2)?.strip_prefix(PREFIX));
    let missing: Vec<&str> = names
        .filter(|name| !rows.iter().any(|counted| counted.row.operation == *name))
        .collect();
    match missing.is_empty() {
        true => Ok(()),
        false => Err(format!("no row for {}", missing.join(", "))),
    }
}

/// What `size -A` says of the archive: its members, and the bytes of each of their sections.
pub fn sizes(archive: &Path) -> Result<String, String> {
    said_by("size", &["-A", path(archive)?])
}

pub fn sections(sizes: &str, rows: &[Counted]) -> String {
    [code(sizes), state(), lent(), stack(sizes, rows)].concat()
}

/// The code under an operation's own name; it may call that of others.
pub fn of_operation(sizes: &str, operation: &str) -> usize {
    let section = format!(".text.{PREFIX}{operation}");
    let found = sizes
        .lines()
        .filter_map(section_of)
        .find(|(name, _)| *name == section);
    found.map_or(0, |(_, size)| size)
}

/// The code and the constants of all members.
pub fn of_members(sizes: &str) -> (usize, usize) {
    let members = members(sizes);
    let code = members.iter().map(|member| member.1).sum();
    (code, members.iter().map(|member| member.2).sum())
}

/// A line of `size -A`: a section and its bytes.
fn section_of(line: &str) -> Option<(&str, usize)> {
    let mut words = line.split_whitespace();
    let name = words.next()?;
    Some((name, words.next()?.parse().ok()?))
}

/// The archive's members, each with its code and its constants. A line that ends with a colon begins a member.
fn members(sizes: &str) -> Vec<(&str, usize, usize)> {
    let mut members: Vec<(&str, usize, usize)> = Vec::new();
    for line in sizes.lines() {
        if line.ends_with(':') {
            members.push((line.split_whitespace().next().unwrap_or_default(), 0, 0));
        }
        let (Some((name, size)), Some(member)) = (section_of(line), members.last_mut()) else {
            continue;
        };
        match name {
            _ if name.starts_with(".text") => member.1 += size,
            _ if name.starts_with(".rodata") => member.2 += size,
            _ => {}
        }
    }
    members
}

fn code(sizes: &str) -> String {
    let mut text =
        "\n## Bytes of code\n\n| member | code | constants |\n|---|--:|--:|\n".to_owned();
    for (name, code, constants) in members(sizes) {
        text += &format!("| `{name}` | {code} | {constants} |\n");
    }
    let (code, constants) = of_members(sizes);
    text + &format!("| all | {code} | {constants} |\n\nThe library has no data that changes.\n")
}

/// What a host keeps between calls, and what comes back beside it.
fn state() -> String {
    let rows = [
        (
            "chains",
            size_of::<exports::Chains>(),
            size_of::<second::chain::Chains>(),
        ),
        (
            "calls of a frame",
            size_of::<exports::Calls>(),
            size_of::<second::call::Calls>(),
        ),
        (
            "mirror",
            size_of::<exports::Mirror>(),
            size_of::<second::mirror::Mirror>(),
        ),
        (
            "reader of POCSAG words",
            size_of::<exports::PocsagReader>(),
            size_of::<second::pocsag::reader::Reader>(),
        ),
    ];
    let lines = rows.map(|(name, own, other)| format!("| {name} | {own} | {other} |\n"));
    let head = "\n## Bytes of state\n\n| state | library | second program |\n|---|--:|--:|\n";
    let answers = [
        ("chain_step", size_of::<exports::ChainStep>()),
        ("chain_drop", size_of::<exports::ChainDrop>()),
        ("call_open", size_of::<exports::CallOpening>()),
        ("call_hear", size_of::<exports::CallHearing>()),
        ("call_end", size_of::<exports::FrameEnd>()),
        ("pocsag_hear", size_of::<exports::PocsagHeard>()),
    ];
    let answers = answers.map(|(name, size)| format!("`{name}` {size}"));
    format!(
        "{head}{}\nThe answers that bring state back, in bytes: {}.\n",
        lines.concat(),
        answers.join(", ")
    )
}

fn lent() -> String {
    let word = size_of::<u32>();
    let rows = [
        ("texts of chains, always", exports::CHAIN_BYTES),
        ("words of calls, always", exports::CALL_WORDS * word),
        ("a text cut into fragments", exports::CUT_WORDS * word),
        ("the text of a fragment", exports::FRAGMENT_CHARACTERS),
        ("the words of a numeric page", exports::PAGE_WORDS * word),
        ("the text of a numeric page", exports::PAGE_CHARACTERS),
        ("a CAPCODE", exports::CAPCODE_BYTES),
    ];
    let lines = rows.map(|(name, size)| format!("| {name} | {size} |\n"));
    format!(
        "\n## Bytes of lent memory\n\n| for | bytes |\n|---|--:|\n{}",
        lines.concat()
    )
}

/// The deepest of an operation over its inputs.
#[derive(Default)]
struct Deepest {
    own: usize,
    with_caller: usize,
    other: usize,
}

fn stack(sizes: &str, rows: &[Counted]) -> String {
    let mut deepest: Vec<(&str, Deepest)> = Vec::new();
    for Counted { row, .. } in rows.iter().filter(|counted| counted.row.group != "joining") {
        let Some([own, other]) = row.depths else {
            continue;
        };
        if deepest.iter().all(|(name, _)| *name != row.operation) {
            deepest.push((&row.operation, Deepest::default()));
        }
        let found = deepest.iter_mut().find(|(name, _)| *name == row.operation);
        let (_, depth) = found.expect("it was put in");
        depth.own = depth.own.max(own.own);
        depth.with_caller = depth.with_caller.max(own.with_caller);
        depth.other = depth.other.max(other.own);
    }
    let mut text = STACK.to_owned();
    for (
        name,
        Deepest {
            own,
            with_caller,
            other,
        },
    ) in deepest
    {
        let code = of_operation(sizes, name);
        let mark = if own.max(with_caller) > AIM_OF_STACK {
            "over"
        } else {
            ""
        };
        text += &format!("| `{name}` | {code} | {own} | {with_caller} | {other} | {mark} |\n");
    }
    text
}

const STACK: &str = "
## Bytes of stack, and of code, of each operation

The stack is painted, the operation called, and the lowest byte looked for that is no longer as painted: the most over all
inputs above. The library's own stack is from the call down, its return address with it. With its caller's: also the frame of
a caller that does nothing else, where structs that are handed over by value lie, and the answer.

| operation | code | stack | with its caller's | second program's stack | |
|---|--:|--:|--:|--:|---|
";
