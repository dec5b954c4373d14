//! The three sums of a row against the original's `SparseMatrix::apply`.

use product::Row;
use words::words_of;

use super::answer::{refusal, Refusal, BATCH_LENGTH, CYCLE, NO_ROOM, ROW_SOUGHT, SIZE, TERM_ORDER};
use super::batches::{self, Batch};
use super::judge::Judge;
use super::lent::Lent;
use super::listings::{self, asked_for, Listing};
use super::programs::{Program, Sort};
use crate::columns::SIZES;
use crate::house::Relation;
use crate::listing::{self, BIN_ROWS, FLD_ROWS};
use crate::numbers::Numbers;
use crate::original::Gf128;
use crate::parallel::in_parts;
use crate::report::{test, Tally, Test};

const ROWS: u64 = (BIN_ROWS + FLD_ROWS) as u64;

/// Batches of each size over the circuit's listing, every row in one cycle of each.
const BATCHES: usize = 12;

const LISTINGS: usize = 1500;
const ROWS_OF_A_LISTING: usize = 6;

/// Comparisons of one call: the answer, `out`, and the listing with the batch.
const OF_A_CALL: u64 = 3;

pub fn tests() -> Vec<Test> {
    let mut tests: Vec<Test> = SIZES.into_iter().map(circuit_of_size).collect();
    tests.extend([
        test(
            format!("apply, {LISTINGS} random listings, {ROWS_OF_A_LISTING} rows of each"),
            (LISTINGS * ROWS_OF_A_LISTING) as u64 * OF_A_CALL,
            random_listings,
        ),
        test(
            "apply, rows and cycles refused",
            9 * (12 + 8) * OF_A_CALL,
            rows_and_cycles_refused,
        ),
        test("apply, order of its questions", 9 * OF_A_CALL, order),
        test("apply, out too short", 6 * OF_A_CALL, out_too_short),
    ]);
    tests
}

fn circuit_of_size(cpi: usize) -> Test {
    test(
        format!("apply, each row of the circuit, {BATCHES} batches of {cpi}"),
        BATCHES as u64 * ROWS * OF_A_CALL,
        move |tally| circuit(tally, cpi),
    )
}

fn circuit(tally: &mut Tally, cpi: usize) {
    let judge = Judge::of_circuit(cpi);
    in_parts(tally, BATCHES, |tally, part| {
        let mut numbers = Numbers::for_part(40, (cpi << 32 | part) as u64);
        let z = match part % 3 {
            0 => Program::random(&mut numbers, cpi + 20, Sort::Accepted)
                .batches(cpi, 1)
                .remove(0),
            1 => batches::dense(&mut numbers, cpi),
            _ => batches::bits(&mut numbers, cpi),
        };
        let mut call = Call::of(cpi, &judge.listing, z, numbers);
        let sums = Sums::of(&judge, &call.batch.z);
        for (relation, row) in Listing::of_circuit().marks() {
            let cycle = call.numbers.below(cpi as u64) as usize;
            call.same_sums(tally, &sums, relation, row, cycle);
        }
    });
}

fn random_listings(tally: &mut Tally) {
    in_parts(tally, LISTINGS, |tally, part| {
        let mut numbers = Numbers::for_part(41, part as u64);
        let cpi = SIZES[[0, 0, 0, 1, 1, 2, 3, 4][part % 8]];
        let listing = one_row_at_least(&mut numbers);
        let judge = Judge::of(&listing, cpi);
        let z = batches::dense(&mut numbers, cpi);
        let mut call = Call::of(cpi, &judge.listing, z, numbers);
        let sums = Sums::of(&judge, &call.batch.z);
        let marks = listing.marks();
        for _ in 0..ROWS_OF_A_LISTING {
            let (relation, row) = marks[call.numbers.below(marks.len() as u64) as usize];
            let cycle = call.numbers.below(cpi as u64) as usize;
            call.same_sums(tally, &sums, relation, row, cycle);
        }
    });
}

fn one_row_at_least(numbers: &mut Numbers) -> Listing {
    let mut shape = listings::shape(numbers);
    shape.marks = shape.marks.max(1);
    listings::random(numbers, shape)
}

/// The original's sums for every batch row of both relations.
struct Sums {
    bin: [Vec<Gf128>; 3],
    fld: [Vec<Gf128>; 3],
}

impl Sums {
    fn of(judge: &Judge, z: &[Gf128]) -> Sums {
        let apply = |relation| listing::sides(&judge.spec, relation).map(|matrix| matrix.apply(z));
        Sums {
            bin: apply(Relation::Bin),
            fld: apply(Relation::Fld),
        }
    }

    /// A low, A high, B low, B high, C low, C high.
    fn words(&self, relation: Relation, batch_row: usize) -> Vec<u64> {
        let sides = match relation {
            Relation::Bin => &self.bin,
            Relation::Fld => &self.fld,
        };
        let sums: Vec<Gf128> = sides.iter().map(|side| side[batch_row]).collect();
        words_of(&sums)
    }
}

/// What is lent to `apply`.
struct Call {
    cpi: usize,
    listing: Lent<u32>,
    batch: Batch,
    out: Lent<u64>,
    numbers: Numbers,
}

impl Call {
    fn of(cpi: usize, listing: &[u32], z: Vec<Gf128>, numbers: Numbers) -> Call {
        Call {
            cpi,
            listing: Lent::of(listing),
            batch: Batch::of(cpi, z),
            out: Lent::of(&[]),
            numbers,
        }
    }

    /// An `out` of so many words, with anything in it.
    fn lend_out(&mut self, words: usize) {
        let anything: Vec<u64> = (0..words).map(|_| self.numbers.next()).collect();
        self.out = Lent::of(&anything);
    }

    /// The sums go into the first six words of `out`; what is behind them stays.
    fn same_sums(
        &mut self,
        tally: &mut Tally,
        sums: &Sums,
        relation: Relation,
        row: usize,
        cycle: usize,
    ) {
        let longer = self.numbers.below(4) as usize;
        self.lend_out(6 + longer);
        let batch_row = relation.padded_rows() * cycle + row;
        for (i, word) in sums.words(relation, batch_row).into_iter().enumerate() {
            self.out.must_become(i, word);
        }
        let row = asked_for(&mut self.numbers, (relation, row));
        self.answers(tally, row, cycle, 0);
    }

    fn refuses(&mut self, tally: &mut Tally, row: Row, cycle: usize, right: Refusal) {
        self.lend_out(6);
        self.answers(tally, row, cycle, right.answer());
    }

    /// One call, the answer, and everything lent as it must be.
    fn answers(&mut self, tally: &mut Tally, row: Row, cycle: usize, right: u64) {
        let cpi = self.cpi;
        let place = || format!("{row:?} in cycle {cycle} of {cpi}");
        let answer = product::apply(
            cpi,
            self.listing.words(),
            self.batch.words.words(),
            row,
            cycle,
            self.out.words_mut(),
        );
        tally.same(place, answer, right);
        let out = || format!("{}, out", place());
        tally.same(out, self.out.is_right(), true);
        let others = || format!("{}, listing and batch unchanged", place());
        let unchanged = [self.listing.is_right(), self.batch.words.is_right()];
        tally.same(others, unchanged, [true; 2]);
    }
}

fn circuit_call(cpi: usize) -> Call {
    let mut numbers = Numbers::for_part(42, cpi as u64);
    let z = batches::dense(&mut numbers, cpi);
    Call::of(cpi, &Listing::of_circuit().words(), z, numbers)
}

fn rows_and_cycles_refused(tally: &mut Tally) {
    for cpi in SIZES {
        let mut call = circuit_call(cpi);
        for row in [BIN_ROWS, 511, 512, 512 + 263, 1 << 32, usize::MAX] {
            for (relation, row) in [
                (Relation::Bin, row),
                (Relation::Fld, row - BIN_ROWS + FLD_ROWS),
            ] {
                let row = asked_for(&mut call.numbers, (relation, row));
                // The row is asked before the cycle.
                let cycle = [0, cpi][row.row % 2];
                call.refuses(tally, row, cycle, refusal(ROW_SOUGHT));
            }
        }
        for cycle in [cpi, cpi + 1, 1 << 32, usize::MAX] {
            for (relation, row) in [(Relation::Bin, 0), (Relation::Fld, FLD_ROWS - 1)] {
                let row = asked_for(&mut call.numbers, (relation, row));
                call.refuses(tally, row, cycle, refusal(CYCLE));
            }
        }
    }
}

/// 1, 2, then 6 to 10, then 13, then 15, each with all later ones wrong as well.
fn order(tally: &mut Tally) {
    let missing = Row {
        relation: 0,
        row: 511,
    };
    let mut call = circuit_call(2);
    call.refuses(tally, missing, 2, refusal(ROW_SOUGHT));
    let words = call.listing.len();
    let kind_a = Refusal {
        number: TERM_ORDER,
        place: words - 1,
    };
    // The last row's last terms are of B.
    call.listing.put(words - 1, 0);
    call.refuses(tally, missing, 2, kind_a);
    for (place, word, number) in [(words - 2, 1 << 20, 7), (words - 3, 3 << 30, 9), (0, 0, 8)] {
        call.listing.put(place, word);
        call.refuses(tally, missing, 2, Refusal { number, place });
    }
    call.listing = Lent::of(&[0; listings::MOST_WORDS + 1]);
    call.refuses(tally, missing, 2, refusal(6));
    call.cpi = 4;
    call.refuses(tally, missing, 4, refusal(BATCH_LENGTH));
    for cpi in [0, 3] {
        call.cpi = cpi;
        call.refuses(tally, missing, 4, refusal(SIZE));
    }
}

/// Nothing is written to an `out` that has no room for six words.
fn out_too_short(tally: &mut Tally) {
    let mut call = circuit_call(1);
    let first = Row {
        relation: 0,
        row: 0,
    };
    for words in 0..6 {
        call.lend_out(words);
        call.answers(tally, first, 0, NO_ROOM);
    }
}
