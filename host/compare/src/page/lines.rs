//! The pages of a row, written from document 02: a line a term, 60 characters a line, 60 lines a page.

use magnetar_cpu::SEGMENTS_CPU;

use crate::house::{Coefficient, Relation, Term};
use crate::layout::segment_starts;
use crate::original::{self, InstanceGeometry};
use crate::verdict::listings::Row;

const LINE: usize = 60;
const LINES: usize = 60;

/// Bytes of a page.
pub const PAGE: usize = LINE * LINES;

/// The pages of a row in a cycle of a batch, which has two words an element.
pub fn pages(cpi: usize, row: &Row, cycle: usize, batch: &[u64]) -> String {
    let geometry = original::geometry(cpi);
    let mut lines = vec![first_line(row, cycle)];
    for (side, terms) in ['A', 'B', 'C'].into_iter().zip(&row.sides) {
        let line = |term| term_line(&geometry, side, term, cycle, batch);
        lines.extend(terms.iter().map(line));
    }
    let pages = on_pages(lines);
    assert_eq!(pages.len(), bytes_of(row));
    pages
}

/// How many bytes the pages of a row take.
pub fn bytes_of(row: &Row) -> usize {
    let terms: usize = row.sides.iter().map(Vec::len).sum();
    (1 + terms).div_ceil(LINES) * PAGE
}

/// Lines filled up with blanks, and the last page with blank lines.
pub fn on_pages(mut lines: Vec<String>) -> String {
    while lines.len() % LINES != 0 {
        lines.push(String::new());
    }
    let mut pages = String::new();
    for line in lines {
        assert!(line.is_ascii() && line.len() <= LINE, "the line {line}");
        pages.push_str(&format!("{line:<LINE$}"));
    }
    assert_eq!(pages.len() % PAGE, 0);
    pages
}

fn first_line(row: &Row, cycle: usize) -> String {
    let relation = match row.relation {
        Relation::Bin => "bin",
        Relation::Fld => "fld",
    };
    let batch_row = row.relation.padded_rows() * cycle + row.row;
    format!("{relation} {batch_row:>7}")
}

fn term_line(
    geometry: &InstanceGeometry,
    side: char,
    term: &Term,
    cycle: usize,
    batch: &[u64],
) -> String {
    let batch_column = geometry.map_z_col(term.column, cycle);
    let segment = segment_of(term.column);
    let exponent = match term.coefficient {
        Coefficient::Zero => "--".to_string(),
        Coefficient::Power(k) => k.to_string(),
    };
    let [low, high] = [2 * batch_column, 2 * batch_column + 1].map(|i| batch[i]);
    format!("{side} {batch_column:>7} {segment:<9} {exponent:>3} {high:016x}{low:016x}")
}

/// The name of the segment that a column of a cycle lies in, no letter where it lies in none.
fn segment_of(column: usize) -> &'static str {
    for (&(name, length, _), (_, start)) in SEGMENTS_CPU.iter().zip(segment_starts()) {
        if (start..start + length).contains(&column) {
            return name;
        }
    }
    ""
}

/// The first line in which pages differ, counted from 0, as each has it.
pub fn first_apart(seen: &[u8], right: &str) -> Option<(usize, String, String)> {
    let text = |line: &[u8]| String::from_utf8_lossy(line).into_owned();
    let lines = seen.chunks(LINE).zip(right.as_bytes().chunks(LINE));
    let (i, (seen, right)) = lines.enumerate().find(|(_, (seen, right))| seen != right)?;
    Some((i, text(seen), text(right)))
}
