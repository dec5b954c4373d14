//! The product beside the original.

use crate::check::{Checked, FromBytes};
use crate::table::{head, two};
use crate::{makers, mul};

pub fn print(checks: &[Checked], from_bytes: &FromBytes) {
    head(&[
        "",
        "unit",
        "original",
        "product",
        "original / product",
        "best of",
    ]);
    for check in checks {
        let what = format!("`check_row`, cpi {}", check.cpi);
        both(&what, check, check.check_row);
    }
    for check in checks {
        let what = format!("`check_row`, the plain walk, cpi {}", check.cpi);
        both(&what, check, check.check_row_plain);
    }
    two(
        "`cellprism_check_row`, 65,536 bytes",
        "µs a cycle",
        [from_bytes.original, from_bytes.check],
        from_bytes.repetitions,
    );
    makers::print();
    mul::print();
    println!("{NOTES}");
}

fn both(what: &str, check: &Checked, product: f64) {
    let both = [check.original, product];
    two(what, "µs a cycle", both, check.repetitions);
}

const NOTES: &str = "
The original and the product take turns, over batches that both accept. `cellprism_check_row`
stands beside the original's `check_row` at cpi 1. `witness_row` makes the rows of 16 cycles, whose
records the product is lent as words; `assemble_instance_z` makes the batches that are checked, of
which the product is lent the lower columns alone. Both sides make the same, element by element. The
product's `mul` crosses the boundary once for each word of its result: both sides are timed for one
word, in a call that is not inlined.";
