//! The check beside one plain read of the columns that it looks at, and in its parts.

use crate::check::{Checked, FromBytes};
use crate::table::{fine, head, line, ratio};

/// How many times the read the check against the house listing, none lent, may take at most, by size, and the
/// check from bytes.
const MOST: [f64; 3] = [1.6, 2.0, 1.4];
const MOST_FROM_BYTES: f64 = 2.0;

pub fn print(house: &[Checked], strict: &[Checked], from_bytes: &FromBytes) {
    head(&[
        "beside one plain read of the columns that are looked at",
        "unit",
        "read",
        "check",
        "check / read",
        "at most",
        "original",
        "original / check",
        "the plain walk",
        "best of",
    ]);
    for (check, most) in house.iter().zip(MOST) {
        Line {
            original: Some(check.original),
            most: Some(most),
            ..Line::of(check)
        }
        .print();
    }
    for check in strict {
        Line::of(check).print();
    }
    Line {
        what: "`cellprism_check_row`, from bytes".into(),
        read: from_bytes.read,
        check: from_bytes.check,
        original: Some(from_bytes.original),
        most: Some(MOST_FROM_BYTES),
        plain: None,
        repetitions: from_bytes.repetitions,
    }
    .print();
    println!("{NOTES}");
}

/// A line of the table. From bytes there is no walk, and beside the strict listing no original.
struct Line {
    what: String,
    read: f64,
    check: f64,
    original: Option<f64>,
    most: Option<f64>,
    plain: Option<f64>,
    repetitions: usize,
}

impl Line {
    fn of(check: &Checked) -> Line {
        Line {
            what: format!("`check_known`, {}, cpi {}", check.listing.name, check.cpi),
            read: check.read,
            check: check.check_known,
            original: None,
            most: None,
            plain: Some(check.check_known_plain),
            repetitions: check.repetitions,
        }
    }

    fn print(self) {
        let or_none =
            |number: Option<f64>, show: &dyn Fn(f64) -> String| number.map_or(String::new(), show);
        line(&[
            self.what,
            "µs a cycle".into(),
            fine(self.read),
            fine(self.check),
            ratio(self.check, self.read),
            or_none(self.most, &|most| most.to_string()),
            or_none(self.original, &fine),
            or_none(self.original, &|original| ratio(original, self.check)),
            or_none(self.plain, &fine),
            self.repetitions.to_string(),
        ]);
    }
}

const NOTES: &str = "
The read is a loop that joins all words, or all bytes, of these columns by a bitwise or, compiled as
the check is. `check_known` is the check without a listing lent. The original stands beside it with
its `check_row`; it has no strict listing.";

/// The check with a listing lent, and what it is made of: each measured by itself, and all of them called
/// one after the other. Scratch is the most, but in one column.
pub fn print_parts<'a>(checks: impl Iterator<Item = &'a Checked>) {
    head(&[
        "`check_row` with a known listing lent",
        "unit",
        "`check_row`",
        "`check_row`, 6 words of scratch",
        "`check_known`",
        "comparison with the table",
        "clearing of scratch",
        "sum of the parts",
        "the parts one after the other",
        "`check_row` / these",
        "best of",
    ]);
    for check in checks {
        let sum = check.check_known + check.compare + check.clear;
        line(&[
            format!("{}, cpi {}", check.listing.name, check.cpi),
            "µs a cycle".into(),
            fine(check.check_row),
            fine(check.check_row_least),
            fine(check.check_known),
            fine(check.compare),
            fine(check.clear),
            fine(sum),
            fine(check.in_sequence),
            ratio(check.check_row, check.in_sequence),
            check.repetitions.to_string(),
        ]);
    }
}
