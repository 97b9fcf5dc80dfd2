//! The short table at the head of docs/BENCHMARKS.md: what the most telling operations cost, to be taken in at a glance.

use crate::bytes;
use crate::rows::AGAINST_SECOND;
use crate::table::Counted;

/// A row of the long tables, and what it is in words that need no other.
struct Glance {
    what: &'static str,
    group: &'static str,
    operation: &'static str,
    input: &'static str,
}

const fn glance(
    what: &'static str,
    group: &'static str,
    operation: &'static str,
    input: &'static str,
) -> Glance {
    Glance {
        what,
        group,
        operation,
        input,
    }
}

const GLANCES: [Glance; 9] = [
    glance(
        "a CAPCODE of 8 bytes is read",
        "capcodes",
        "capcode_read",
        "8 bytes, E0001234",
    ),
    glance(
        "a short address gives its word",
        "addresses",
        "address_words",
        "the first short one",
    ),
    glance(
        "the frames of 16 addresses are marked",
        "frames",
        "frames_listened",
        "16 addresses",
    ),
    glance(
        "a configuration packet is built",
        "packets",
        "build_configuration",
        "accepted",
    ),
    glance(
        "an address packet opens the last of 8 calls",
        "calls",
        "call_open",
        "7 open, their words awaited",
    ),
    glance(
        "a message word completes 8 calls of 78 words",
        "calls",
        "call_hear",
        "the word that completes 8 calls of 78 words",
    ),
    glance(
        "a numeric page of 8 words is read",
        "pages",
        "numeric_read",
        "8 words",
    ),
    glance(
        "a text of 1,008 characters is joined from its 5 fragments",
        "joining",
        "chain_step",
        AGAINST_SECOND,
    ),
    glance(
        "a batch of POCSAG with a page of 15 words is heard",
        "pocsag",
        "pocsag_hear",
        "a batch with a page of 15 words",
    ),
];

const HEAD: &str = "\
What the library costs beside the second program, which does the same in plain Rust: the instructions of one call, and the
bytes of code under the operation's own name, which may call that of other operations. The last row has all code.

| what | operation | library | second program | ratio | code |
|---|---|--:|--:|--:|--:|
";

/// The table, by what was counted and what `size -A` says of the archive. Each of its rows must be one of the long tables.
pub fn table(rows: &[Counted], sizes: &str) -> Result<String, String> {
    let lines: Result<String, String> = GLANCES
        .iter()
        .map(|glance| line(glance, rows, sizes))
        .collect();
    let (all, _) = bytes::of_members(sizes);
    Ok(format!(
        "{HEAD}{}| the whole library | | | | | {all} |\n",
        lines?
    ))
}

fn line(glance: &Glance, rows: &[Counted], sizes: &str) -> Result<String, String> {
    let Glance {
        what,
        group,
        operation,
        input,
    } = glance;
    let is_it = |counted: &&Counted| {
        let row = &counted.row;
        row.group == *group && row.operation == *operation && row.input == *input
    };
    let counted = rows.iter().find(is_it);
    let counted = counted.ok_or(format!("{group} has no row {operation}, {input}"))?;
    let Counted { library, other, .. } = counted;
    let (ratio, code) = (counted.ratio(), bytes::of_operation(sizes, operation));
    Ok(format!(
        "| {what} | `{operation}` | {library} | {other} | {ratio:.2} | {code} |\n"
    ))
}

#[cfg(test)]
mod tests {
    use super::*;
    use crate::measure::{Purpose, Row};

    const SIZES: &str = "host.o   (ex libhost.a):\nsection   size   addr\n.text.mortisevane_capcode_read   1333   0\n\
                         .text.shared   100   0\n.rodata   7   0\n";

    fn counted(row: Row) -> Counted {
        Counted {
            row,
            library: 3,
            other: 4,
        }
    }

    #[test]
    fn every_row_is_one_of_the_long_tables() {
        let rows = crate::measured(Purpose::Stack, "").rows;
        let rows: Vec<Counted> = rows.into_iter().map(counted).collect();
        let text = table(&rows, SIZES).unwrap();
        assert!(text
            .contains("| a CAPCODE of 8 bytes is read | `capcode_read` | 3 | 4 | 0.75 | 1333 |\n"));
        assert!(text.ends_with("| the whole library | | | | | 1433 |\n"));
    }

    #[test]
    fn a_row_that_is_missing_is_told() {
        let wrong = table(&[], SIZES).unwrap_err();
        assert_eq!(wrong, "capcodes has no row capcode_read, 8 bytes, E0001234");
    }
}
