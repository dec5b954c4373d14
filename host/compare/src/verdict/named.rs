//! Which columns the circuit's rows name: those of its terms whose coefficient is not zero.

use super::batches::{COLUMNS, ONE_COLUMN, WITNESS_COLUMNS};
use super::listings::Listing;
use crate::house::{Coefficient, Term};
use crate::report::{test, Tally, Test};

/// Below the one column, and public ones: the one column and the output.
const NAMED: u64 = 961 + 2;

pub fn tests() -> Vec<Test> {
    vec![test(
        "each column that rows name is one that the benchmark reads, or public",
        NAMED,
        looked_at,
    )]
}

/// What the check is held against in the benchmark is no less than what it has to look at.
fn looked_at(tally: &mut Tally) {
    for column in Named::by_circuit().columns() {
        let read = product::LOOKED_AT.iter().any(|read| read.contains(&column));
        let public = column == ONE_COLUMN || column == ONE_COLUMN + 1;
        tally.same(|| format!("column {column}"), read || public, true);
    }
}

pub struct Named {
    /// By column of a row.
    columns: Vec<bool>,
}

impl Named {
    /// From the original's matrices.
    pub fn by_circuit() -> Named {
        let mut columns = vec![false; COLUMNS];
        let listing = Listing::of_circuit();
        let terms = listing
            .rows
            .iter()
            .flat_map(|row| row.sides.iter().flatten());
        for Term {
            column,
            coefficient,
        } in terms
        {
            columns[*column] |= *coefficient != Coefficient::Zero;
        }
        Named { columns }
    }

    /// Whether rows name a batch column, in whichever cycle it is.
    pub fn has(&self, cpi: usize, batch_column: usize) -> bool {
        let column = match batch_column.checked_sub(WITNESS_COLUMNS * cpi) {
            None => batch_column / cpi,
            Some(public) => WITNESS_COLUMNS + public,
        };
        // A batch has more public columns than a row, and no term can name those.
        self.columns.get(column).is_some_and(|&named| named)
    }

    /// Those columns of a row, in order.
    pub fn columns(&self) -> Vec<usize> {
        (0..COLUMNS)
            .filter(|&column| self.columns[column])
            .collect()
    }
}
