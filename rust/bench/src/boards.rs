//! The section of docs/BENCHMARKS.md on boards: what `tools/bench-board` wrote, whose table of operations gets a column
//! more, with the instructions of the same rows on the machine that these tables are of.

use crate::table::Counted;

/// How the table of operations begins.
const HEAD: &str = "| operation | input |";

/// The section with the further column. A row that the long tables do not have gets nothing there.
pub fn section(written: &str, machine: &str, rows: &[Counted]) -> String {
    let mut is_in_table = false;
    let mut with_column = |line: &str| {
        let is_head = line.starts_with(HEAD);
        is_in_table = is_head || is_in_table && line.starts_with('|');
        match is_in_table {
            false => format!("{line}\n"),
            true if is_head => format!("{line} {machine} |\n"),
            true if line.starts_with("|-") => format!("{line}--:|\n"),
            true => format!("{line} {} |\n", library(line, rows)),
        }
    };
    written.lines().map(&mut with_column).collect()
}

/// What was counted for the operation and the input that a line begins with.
fn library(line: &str, rows: &[Counted]) -> String {
    let is_it = |counted: &&Counted| {
        let (operation, input) = (&counted.row.operation, &counted.row.input);
        line.starts_with(&format!("| `{operation}` | {input} |"))
    };
    let counted = rows.iter().find(is_it);
    counted.map_or(String::new(), |counted| counted.library.to_string())
}

#[cfg(test)]
mod tests {
    use super::*;
    use crate::measure::Row;

    const WRITTEN: &str = "## On a board\n\n| operation | input | small |\n|---|---|--:|\n\
                           | `call_end` | 0 open | 7 |\n| `call_end` | 0 open, twice | 8 |\n\n| caller of | small |\n";

    #[test]
    fn the_table_of_operations_gets_a_column() {
        let row = Row {
            group: "calls",
            operation: "call_end".to_owned(),
            input: "0 open".to_owned(),
            depths: None,
        };
        let rows = [Counted {
            row,
            library: 530,
            other: 241,
        }];
        let expected = "## On a board\n\n| operation | input | small | x86_64 |\n|---|---|--:|--:|\n\
                        | `call_end` | 0 open | 7 | 530 |\n| `call_end` | 0 open, twice | 8 |  |\n\n| caller of | small |\n";
        assert_eq!(section(WRITTEN, "x86_64", &rows), expected);
    }
}
