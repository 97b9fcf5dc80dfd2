//! Writes the table of what POCSAG remainders name as wrong bits to standard output,
//! sixteen of its 1,024 entries to a line.

use second::pocsag::table;

fn main() {
    for line in table::lines() {
        println!("{line}");
    }
}
