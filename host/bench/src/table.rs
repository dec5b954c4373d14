//! The tables that are printed.

/// A table's first two lines. The first column is text, as is one headed `unit`; the others are
/// numbers.
pub fn head(columns: &[&str]) {
    println!("\n| {} |", columns.join(" | "));
    let rule = |(i, name): (usize, &&str)| match (i, *name) {
        (0, _) | (_, "unit") => "---",
        _ => "---:",
    };
    let rules: Vec<_> = columns.iter().enumerate().map(rule).collect();
    println!("|{}|", rules.join("|"));
}

pub fn line(cells: &[String]) {
    println!("| {} |", cells.join(" | "));
}

/// Two sides, how many times the second goes into the first, and the repetitions.
pub fn two(what: &str, unit: &str, [one, other]: [f64; 2], repetitions: usize) {
    let show = if unit == "ns" { nano } else { micro };
    line(&[
        what.into(),
        unit.into(),
        show(one),
        show(other),
        ratio(one, other),
        repetitions.to_string(),
    ]);
}

fn micro(seconds: f64) -> String {
    format!("{:.2}", seconds * 1e6)
}

pub fn nano(seconds: f64) -> String {
    format!("{:.2}", seconds * 1e9)
}

/// Microseconds, of what may take less than one.
pub fn fine(seconds: f64) -> String {
    format!("{:.3}", seconds * 1e6)
}

pub fn ratio(one: f64, other: f64) -> String {
    format!("{:.2}", one / other)
}

/// GB a second, where so many bytes take so many seconds.
pub fn giga(bytes: usize, seconds: f64) -> String {
    format!("{:.2}", bytes as f64 / seconds / 1e9)
}
