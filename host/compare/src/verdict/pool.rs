//! Rows that are all accepted, to be put together in batches of every size.

use super::batches::Batch;
use super::programs;
use crate::original::Gf128;

pub struct Pool {
    pub rows: Vec<Vec<Gf128>>,
    pub public: Vec<Gf128>,
}

impl Pool {
    /// A batch that has a row in one of its cycles, and in the others those around it.
    pub fn batch(&self, row: usize, cpi: usize, cycle: usize) -> Batch {
        assert!(cycle < cpi);
        let rows = self.rows.len();
        let others = (0..cpi).map(|d| &self.rows[(row + d + rows - cycle % rows) % rows]);
        let rows: Vec<Vec<Gf128>> = others.cloned().collect();
        Batch::of(cpi, programs::assemble(cpi, &rows, &self.public))
    }
}
