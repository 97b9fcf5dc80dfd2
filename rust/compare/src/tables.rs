//! The tables of a document, and the packets and registers in their cells.

/// A line of a document; the first one's number is 1.
#[derive(Clone, Copy, Debug, PartialEq, Eq)]
pub struct Line<'a> {
    pub number: usize,
    pub text: &'a str,
}

impl Line<'_> {
    fn is_of_table(&self) -> bool {
        self.text.starts_with('|')
    }

    /// Whether it is the line of dashes between a heading and the rows.
    fn is_rule(&self) -> bool {
        self.text.contains('-') && self.text.chars().all(|mark| "|-: ".contains(mark))
    }
}

/// A table: its heading, and its rule and its rows below it.
pub struct Table<'a> {
    heading: Line<'a>,
    below: Vec<Line<'a>>,
}

impl<'a> Table<'a> {
    pub fn heading(&self) -> &'a str {
        self.heading.text
    }

    /// The rows, each read by itself. One that is not of the form is told with its line.
    pub fn rows<R>(&self, read: impl Fn(&Line) -> Option<R>) -> Result<Vec<R>, String> {
        let Some((rule, rows)) = self.below.split_first() else {
            return Err(slip(&self.heading, "the heading of no table"));
        };
        if !rule.is_rule() {
            return Err(slip(rule, "no rule below a heading"));
        }
        let read = |row| read(row).ok_or_else(|| slip(row, "no row of its table"));
        rows.iter().map(read).collect()
    }
}

fn slip(line: &Line, what: &str) -> String {
    format!("line {} is {what}: {}", line.number, line.text)
}

/// All tables of a document. One ends with the first line that is none of its own.
pub fn tables(document: &str) -> Vec<Table<'_>> {
    let lines = (1..).zip(document.lines());
    let lines: Vec<Line> = lines.map(|(number, text)| Line { number, text }).collect();
    let stretches = lines.chunk_by(|line, next| line.is_of_table() == next.is_of_table());
    let tables = stretches.filter_map(|stretch| stretch.split_first());
    tables
        .filter(|(heading, _)| heading.is_of_table())
        .map(|(heading, below)| Table {
            heading: *heading,
            below: below.to_vec(),
        })
        .collect()
}

/// The cells of a row that has so many.
pub fn cells<const CELLS: usize>(row: &str) -> Option<[&str; CELLS]> {
    let between = row.strip_prefix('|')?.trim_end().strip_suffix('|')?;
    let cells: Vec<&str> = between.split('|').map(str::trim).collect();
    cells.try_into().ok()
}

/// A packet is 32 bits.
pub fn read_packet(cell: &str) -> Option<u32> {
    read_hexadecimal(cell, 8)
}

/// A register is 24 bits.
pub fn read_register(cell: &str) -> Option<u32> {
    read_hexadecimal(cell, 6)
}

fn read_hexadecimal(digits: &str, width: usize) -> Option<u32> {
    let all_digits = digits.bytes().all(|byte| byte.is_ascii_hexdigit());
    (digits.len() == width && all_digits)
        .then(|| u32::from_str_radix(digits, 16).ok())
        .flatten()
}

/// Whether a decoder is talking, as a mirror has it.
pub fn read_talking(cell: &str) -> Option<u32> {
    match cell {
        "yes" => Some(1),
        "no" => Some(0),
        _ => None,
    }
}

#[cfg(test)]
mod tests {
    use super::*;

    const DOCUMENT: &str = "\
# A title
| one |
|---|
| 1 |
| 2 |

    | no table |

| two |
|:--|
";

    #[test]
    fn tables_of_a_document() {
        let tables = tables(DOCUMENT);
        let headings: Vec<&str> = tables.iter().map(Table::heading).collect();
        assert_eq!(headings, ["| one |", "| two |"]);
        let read = |row: &Line| Some((row.number, row.text.to_string()));
        let rows = vec![(4, "| 1 |".to_string()), (5, "| 2 |".to_string())];
        assert_eq!(tables[0].rows(read), Ok(rows));
        assert_eq!(tables[1].rows(read), Ok(vec![]));
    }

    #[track_caller]
    fn assert_slip(document: &str, told: &str) {
        let read = |row: &Line| cells::<1>(row.text).map(|_| ());
        assert_eq!(tables(document)[0].rows(read), Err(told.to_string()));
    }

    #[test]
    fn slips_are_told_with_their_line() {
        assert_slip("\n| one |\n", "line 2 is the heading of no table: | one |");
        let no_rule = "line 2 is no rule below a heading: | 1 |";
        assert_slip("| one |\n| 1 |\n| 2 |\n", no_rule);
        let no_row = "line 4 is no row of its table: | 1 | 2 |";
        assert_slip("| one |\n|---|\n| 1 |\n| 1 | 2 |\n", no_row);
    }

    #[test]
    fn cells_of_a_row() {
        assert_eq!(cells("| a | | c d|"), Some(["a", "", "c d"]));
        assert_eq!(cells("| a | "), Some(["a"]));
        for slip in ["a | b |", "| a | b", "| a |", "| a | b | c |", "|", ""] {
            assert_eq!(cells::<2>(slip), None, "{slip}");
        }
    }

    #[test]
    fn numbers_of_tables() {
        assert_eq!(read_packet("0340000a"), Some(0x0340_000A));
        assert_eq!(read_register("FFFFFF"), Some(0xFF_FFFF));
        for slip in [
            "",
            "3400000",
            "003400000",
            "+3400000",
            "0340000G",
            "0x340000",
        ] {
            assert_eq!(read_packet(slip), None, "{slip}");
        }
        assert_eq!(read_register("0FFFFFF"), None);
        assert_eq!(
            ["yes", "no", "maybe"].map(read_talking),
            [Some(1), Some(0), None]
        );
    }
}
