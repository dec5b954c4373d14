//! Each row of the circuit as the first one that does not hold, in batches of every size.

use super::batches::{self, Batch};
use super::boundary;
use super::constraints::{Constraint, Constraints};
use super::judge::{Desk, Judge, OF_A_VERDICT};
use super::pool::Pool;
use super::programs::Program;
use crate::columns::SIZES;
use crate::house::Relation;
use crate::listing::{BIN_ROWS, FLD_ROWS};
use crate::numbers::Numbers;
use crate::original::Gf128;
use crate::parallel::in_parts;
use crate::report::{test, Tally, Test};

const ROWS: usize = BIN_ROWS + FLD_ROWS;

/// Cycles of the program that has every instruction; it halts before the last.
const CYCLES: usize = 256;

pub fn tests() -> Vec<Test> {
    let of_size = |cpi| {
        let batches = batches(cpi);
        test(
            format!("check_row, each row the first to fail, {batches} batches of {cpi}"),
            batches as u64 * (OF_A_VERDICT + boundary::compared(cpi) + 1),
            move |tally| each_row(tally, cpi),
        )
    };
    SIZES.into_iter().map(of_size).collect()
}

pub fn batches_judged() -> usize {
    SIZES.into_iter().map(batches).sum()
}

/// Every row for sizes to 16, every second of 32, every fourth of 64 and so on.
fn rows_between(cpi: usize) -> usize {
    (cpi / 16).max(1)
}

fn batches(cpi: usize) -> usize {
    ROWS.div_ceil(rows_between(cpi))
}

fn each_row(tally: &mut Tally, cpi: usize) {
    let judge = Judge::of_circuit(cpi);
    let program = Program::of_everything(&mut Numbers::for_test(25));
    let good = Good {
        constraints: Judge::of_circuit(1).constraints,
        pool: Pool {
            rows: program.rows(CYCLES),
            public: program.public(),
        },
    };
    in_parts(tally, batches(cpi), |tally, part| {
        let mut numbers = Numbers::for_part(26, (cpi << 32 | part) as u64);
        let target = part * rows_between(cpi);
        let cycle = [0, cpi - 1, numbers.below(cpi as u64) as usize][part % 3];
        let mut batch = good.failing_first(target, cpi, cycle);
        let mut desk = Desk::of(&judge.listing, numbers);
        let place = || format!("row {target} of {ROWS} in cycle {cycle} of {cpi}");
        let verdict = judge.judge(tally, &mut desk, &mut batch, &place);
        boundary::same(tally, &mut batch, verdict, &place);
        let first = good.position(target, cpi, cycle);
        tally.same(place, verdict.failed_at(), Some(first));
    });
}

/// Rows of one program, and the constraints on each.
struct Good {
    constraints: Constraints,
    pool: Pool,
}

impl Good {
    fn target(&self, target: usize) -> &Constraint {
        &self.constraints.in_order[target]
    }

    /// Relation and batch row of a row in a cycle.
    fn position(&self, target: usize, cpi: usize, cycle: usize) -> (Relation, usize) {
        assert!(cycle < cpi);
        let Constraint {
            relation,
            batch_row,
            ..
        } = *self.target(target);
        (relation, relation.padded_rows() * cycle + batch_row)
    }

    /// A batch in which the target is the first row to fail, in this cycle.
    fn failing_first(&self, target: usize, cpi: usize, cycle: usize) -> Batch {
        let (row, columns) = self.damage(target);
        let mut batch = self.pool.batch(row, cpi, cycle);
        for column in columns {
            batch.xor(batches::batch_column(cpi, column, cycle), 1);
        }
        batch
    }

    /// A good row and which of its bits to flip, so that the target is the first row to fail: one
    /// bit that the target names, or that and one more that some row ties to it.
    fn damage(&self, target: usize) -> (usize, Vec<usize>) {
        let named = self.target(target).witness_columns();
        let alone = |column: usize| vec![column];
        let choices: Vec<Vec<usize>> = named.iter().copied().map(alone).collect();
        self.search(target, &choices)
            .or_else(|| self.search(target, &self.pairs(&named)))
            .unwrap_or_else(|| panic!("no damage makes row {target} the first to fail"))
    }

    fn pairs(&self, named: &[usize]) -> Vec<Vec<usize>> {
        let mut pairs = Vec::new();
        for constraint in &self.constraints.in_order[..BIN_ROWS] {
            let tied = constraint.witness_columns();
            for &first in named.iter().filter(|column| tied.contains(column)) {
                pairs.extend(tied.iter().map(|&second| vec![first, second]));
            }
        }
        pairs
    }

    fn search(&self, target: usize, choices: &[Vec<usize>]) -> Option<(usize, Vec<usize>)> {
        for (row, z) in self.pool.rows.iter().enumerate() {
            let mut z = z.clone();
            for columns in choices {
                flip(&mut z, columns);
                if self.is_first(target, &z) {
                    return Some((row, columns.clone()));
                }
                flip(&mut z, columns);
            }
        }
        None
    }

    fn is_first(&self, target: usize, z: &[Gf128]) -> bool {
        let before = &self.constraints.in_order[..target];
        !self.target(target).holds(z) && before.iter().all(|constraint| constraint.holds(z))
    }
}

fn flip(z: &mut [Gf128], columns: &[usize]) {
    for &column in columns {
        z[column].0 ^= 1;
    }
}
