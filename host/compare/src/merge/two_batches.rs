//! Two batches with the same public columns that come to what is wanted by a known listing.

use super::pairs::Pair;
use super::share_public;
use crate::filler::conditions::Cycle;
use crate::filler::derived::derived;
use crate::filler::filled::{filled, output};
use crate::house::Relation::{Bin, Fld};
use crate::numbers::Numbers;
use crate::strict::cycles::{accepted_with, any_flags, broken_with, right_flags, with_flags};
use crate::strict::flags::Flags;
use crate::verdict::apart::{any_of, Outcome, CONDITIONS_OF_FLD};
use crate::verdict::batches::{self, batch_column, Batch, WITNESS_COLUMNS};
use crate::verdict::known::Known;
use crate::verdict::named::Named;

/// Columns that no row names and that anything is put in, of one batch in two.
const NOTES: usize = 12;

const WORD_BITS: usize = 64;
const SHIFT_OUT: usize = 256;
const ALU: usize = 512;
const IS_SHIFT: usize = 774;

/// Makes batches of one size.
pub struct Maker {
    known: Known,
    cpi: usize,
    /// Lower columns that no row of the circuit names.
    unnamed: Vec<usize>,
    /// Derived columns that rows of bin define: all but the first, whose row is one of fld.
    by_bin: Vec<usize>,
}

impl Maker {
    pub fn new(known: Known, cpi: usize) -> Maker {
        let named = Named::by_circuit();
        let unnamed = (0..WITNESS_COLUMNS).filter(|&column| !named.has(1, column));
        Maker {
            known,
            cpi,
            unnamed: unnamed.collect(),
            by_bin: derived().skip(1).collect(),
        }
    }

    pub fn two(&self, numbers: &mut Numbers, pair: Pair) -> [Batch; 2] {
        let output = output(numbers);
        let mut two = pair.map(|outcome| self.one(numbers, outcome, output));
        share_public(&mut two);
        two
    }

    fn one(&self, numbers: &mut Numbers, outcome: Outcome, output: u128) -> Batch {
        let mut batch = match outcome {
            None => accepted_with(numbers, self.cpi, output),
            Some(Bin) => self.fails_bin(numbers, output),
            Some(Fld) => self.fails_fld(numbers, output),
        };
        if numbers.below(2) == 0 {
            for _ in 0..NOTES {
                let at = self.one_of(numbers, &self.unnamed);
                batch.put(at, batches::element(numbers));
            }
        }
        batch
    }

    /// Sometimes it fails in fld too, which comes later.
    fn fails_bin(&self, numbers: &mut Numbers, output: u128) -> Batch {
        let mut batch = if self.known == Known::Strict && numbers.below(2) == 0 {
            self.flagged(numbers, output)
        } else {
            let mut batch = accepted_with(numbers, self.cpi, output);
            let at = self.one_of(numbers, &self.by_bin);
            batch.xor(at, batches::damage(numbers));
            batch
        };
        if numbers.below(3) == 0 {
            self.shift(numbers, &mut batch);
        }
        batch
    }

    fn fails_fld(&self, numbers: &mut Numbers, output: u128) -> Batch {
        if numbers.below(2) == 0 {
            let condition = 1 + numbers.below(CONDITIONS_OF_FLD) as usize;
            return broken_with(numbers, self.cpi, condition, output);
        }
        let mut batch = accepted_with(numbers, self.cpi, output);
        self.shift(numbers, &mut batch);
        batch
    }

    /// Filled, but one cycle has flags that the strict listing alone does not want.
    fn flagged(&self, numbers: &mut Numbers, output: u128) -> Batch {
        let other = any_of(numbers, self.cpi);
        let cycle = |d| {
            let make = if d == other { wrong_flags } else { right_flags };
            let flags = make(numbers);
            with_flags(numbers, flags, output)
        };
        let cycles: Vec<Cycle> = (0..self.cpi).map(cycle).collect();
        filled(numbers, &cycles, output)
    }

    /// A shift whose result is not ALU, by an element of any sort.
    fn shift(&self, numbers: &mut Numbers, batch: &mut Batch) {
        let cycle = any_of(numbers, self.cpi);
        let at = |column| batch_column(self.cpi, column, cycle);
        for bit in 0..WORD_BITS {
            batch.put(at(SHIFT_OUT + bit), batch.z[at(ALU + bit)].0);
        }
        let bit = any_of(numbers, WORD_BITS);
        batch.xor(at(SHIFT_OUT + bit), batches::damage(numbers));
        batch.put(at(IS_SHIFT), batches::damage(numbers));
    }

    /// One of these columns in the first cycle, in the last or in any.
    fn one_of(&self, numbers: &mut Numbers, columns: &[usize]) -> usize {
        let column = columns[any_of(numbers, columns.len())];
        batch_column(self.cpi, column, any_of(numbers, self.cpi))
    }
}

fn wrong_flags(numbers: &mut Numbers) -> Flags {
    loop {
        let flags = any_flags(numbers);
        if !flags.are_right() {
            return flags;
        }
    }
}
