//! What the program writes for the contents of its four files.

use crate::listing::{list, Which};
use crate::{answer, verdict};
use std::fmt::Write;

/// More rows than this are counted and not written.
const MOST_ROWS: usize = 512;

/// "writes the verdict's five numbers, then the SAN's rows if it is within its
/// limit, readable and has at most 512, or `rows` and the count if more.
/// Decimals, single spaces, a line feed after each line." Request 6/13: "The
/// program's first line and 01's examples gain the number; it still reads nc.der
/// alone." What it reads there is one string; an empty or missing file is none.
pub fn output(san: &[u8], subject: &[u8], constraints: &[u8], references: &[u8]) -> String {
    let mut lines = String::new();
    let one = [constraints.len()];
    let lengths = if constraints.is_empty() {
        &[]
    } else {
        &one[..]
    };
    let verdict = verdict(san, subject, constraints, lengths, references);
    line(&mut lines, &verdict.numbers());
    let listing = list(san, Which::San);
    if listing.answer == answer::MATCH && listing.rows.len() <= MOST_ROWS {
        for row in &listing.rows {
            line(&mut lines, &[row.kind, row.start, row.length, row.group]);
        }
    } else if listing.answer == answer::MATCH {
        lines.push_str(&format!("rows {}\n", listing.rows.len()));
    }
    lines
}

/// One line of decimals.
fn line(lines: &mut String, numbers: &[impl ToString]) {
    let decimals: Vec<String> = numbers.iter().map(ToString::to_string).collect();
    writeln!(lines, "{}", decimals.join(" ")).expect("a String takes every write");
}
