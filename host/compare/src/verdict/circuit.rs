//! Batches of every size against the circuit's own listing.

use super::answer::{Counts, Verdict};
use super::batches::{self, Batch, COLUMNS, ONE_COLUMN};
use super::boundary;
use super::judge::{Desk, Judge, OF_A_VERDICT};
use super::listings::Listing;
use super::programs::{Program, Sort};
use crate::columns::SIZES;
use crate::house::Relation;
use crate::listing;
use crate::numbers::Numbers;
use crate::parallel::in_parts;
use crate::report::{test, Tally, Test};

/// Cycles that each kind of batch comes to, for each size: small sizes have many batches.
const CYCLES_OF_A_KIND: usize = 8192;

/// Times a batch of a program is damaged, in one column each time.
const DAMAGES: usize = 3;

/// Bases whose every column is damaged, one after the other.
const BASES: usize = 5;

pub fn tests() -> Vec<Test> {
    let mut tests = vec![
        test(
            "the circuit's listing, encoded from the original's matrices",
            listing::WORDS as u64 + 1,
            same_listing,
        ),
        test(
            "P4 and P5 of the bench sheet",
            2 * (of_a_batch(1) + 1),
            bench_sheet,
        ),
    ];
    for cpi in SIZES {
        tests.extend(tests_of_size(cpi));
    }
    let columns = BASES * COLUMNS;
    tests.push(test(
        format!("check_row, each column of a row damaged, {columns} batches of 1"),
        columns as u64 * of_a_batch(1),
        each_column,
    ));
    tests
}

/// Batches that these tests judge.
pub fn batches_judged() -> usize {
    let of_size = |cpi| (4 + DAMAGES) * CYCLES_OF_A_KIND / cpi;
    SIZES.into_iter().map(of_size).sum::<usize>() + BASES * COLUMNS + 2
}

/// Comparisons of a batch that is judged and then given to the checks that have the listing inside.
fn of_a_batch(cpi: usize) -> u64 {
    OF_A_VERDICT + boundary::compared(cpi)
}

fn same_listing(tally: &mut Tally) {
    let (words, right) = (listing::words(), Listing::of_circuit().words());
    tally.same(|| "number of words".into(), words.len(), right.len());
    for (i, (word, right)) in words.into_iter().zip(right).enumerate() {
        tally.same(|| format!("word {i}"), word, right);
    }
}

/// The zero row, and the row with the one column alone.
fn bench_sheet(tally: &mut Tally) {
    let judge = Judge::of_circuit(1);
    let mut desk = Desk::of(&judge.listing, Numbers::for_test(27));
    let p4 = Verdict::Accepted {
        counts: Counts { bin: 483, fld: 31 },
    };
    let p5 = Verdict::Failed {
        relation: Relation::Bin,
        batch_row: 263,
        counts: Counts { bin: 264, fld: 0 },
    };
    let mut batch = Batch::zero(1);
    for (name, one, right) in [("P4", 0, p4), ("P5", 1, p5)] {
        batch.put(ONE_COLUMN, one);
        let place = || name.to_string();
        let verdict = judge.judge(tally, &mut desk, &mut batch, &place);
        boundary::same(tally, &mut batch, verdict, &place);
        tally.same(place, verdict, right);
    }
}

fn tests_of_size(cpi: usize) -> Vec<Test> {
    let kinds: [(&str, u64, usize, Kind); 5] = [
        ("programs, accepted", 1, 1, accepted),
        ("programs, one column damaged", 0, DAMAGES, damaged),
        ("programs whose rows may fail", 0, 1, may_fail),
        ("arbitrary elements", 0, 1, arbitrary),
        ("zero rows, and all but zero", 0, 1, nearly_zero),
    ];
    let make = |(name, more, times, kind): (&str, u64, usize, Kind)| {
        let batches = times * CYCLES_OF_A_KIND / cpi;
        test(
            format!("check_row, {name}, {batches} batches of {cpi}"),
            batches as u64 * (of_a_batch(cpi) + more),
            move |tally| run(tally, cpi, kind),
        )
    };
    kinds.into_iter().map(make).collect()
}

/// One part of a kind of batches: those of one program, or as many.
type Kind = fn(&mut Tally, &mut Part);

struct Part<'a> {
    judge: &'a Judge,
    desk: Desk,
    numbers: Numbers,
    cpi: usize,
    number: usize,
}

/// Batches of one part, before damage.
fn batches_of_part(cpi: usize) -> usize {
    (64 / cpi).max(1)
}

fn run(tally: &mut Tally, cpi: usize, kind: Kind) {
    let judge = Judge::of_circuit(cpi);
    let parts = CYCLES_OF_A_KIND / cpi / batches_of_part(cpi);
    in_parts(tally, parts, |tally, number| {
        let sequence = |test| Numbers::for_part(test, (cpi << 32 | number) as u64);
        let mut part = Part {
            judge: &judge,
            desk: Desk::of(&judge.listing, sequence(20)),
            numbers: sequence(21),
            cpi,
            number,
        };
        kind(tally, &mut part);
    });
}

impl Part<'_> {
    /// The batches of one program; about a quarter of the programs halt before the last batch ends.
    fn program(&mut self, sort: Sort) -> Vec<Batch> {
        let batches = batches_of_part(self.cpi);
        let cycles = self.cpi * batches;
        let length = cycles / 4 + self.numbers.below(cycles as u64) as usize;
        let program = Program::random(&mut self.numbers, length, sort);
        let batch = |z| Batch::of(self.cpi, z);
        program
            .batches(self.cpi, batches)
            .into_iter()
            .map(batch)
            .collect()
    }

    fn judge(&mut self, tally: &mut Tally, batch: &mut Batch, what: &dyn Fn() -> String) -> bool {
        let (cpi, number) = (self.cpi, self.number);
        let place = || format!("part {number} of size {cpi}, {}", what());
        let verdict = self.judge.judge(tally, &mut self.desk, batch, &place);
        boundary::same(tally, batch, verdict, &place);
        verdict.relation().is_none()
    }

    fn random_column(&mut self) -> usize {
        self.numbers.below((COLUMNS * self.cpi) as u64) as usize
    }

    /// A batch column of a class of columns, in any cycle.
    fn column_of_class(&mut self, class: usize) -> usize {
        let column = batches::column_of_class(&mut self.numbers, class);
        let cycle = self.numbers.below(self.cpi as u64) as usize;
        batches::batch_column(self.cpi, column, cycle)
    }
}

fn accepted(tally: &mut Tally, part: &mut Part) {
    for (i, batch) in part.program(Sort::Accepted).iter_mut().enumerate() {
        let place = || format!("batch {i}");
        let accepted = part.judge(tally, batch, &place);
        tally.same(|| format!("{} is accepted", place()), accepted, true);
    }
}

fn may_fail(tally: &mut Tally, part: &mut Part) {
    for (i, batch) in part.program(Sort::MayFail).iter_mut().enumerate() {
        part.judge(tally, batch, &|| format!("batch {i}"));
    }
}

/// Each batch is damaged several times, and mended in between.
fn damaged(tally: &mut Tally, part: &mut Part) {
    let batches = part.program(Sort::Accepted);
    for (i, mut batch) in batches.into_iter().enumerate() {
        for time in 0..DAMAGES {
            // Parts and batches start at other classes, so that all classes come up in all sizes.
            let class = (part.number * batches_of_part(part.cpi) + i) * DAMAGES + time;
            let column = part.column_of_class(class);
            let damage = batches::damage(&mut part.numbers);
            batch.xor(column, damage);
            let place = || format!("batch {i}, batch column {column} changed by {damage:#x}");
            part.judge(tally, &mut batch, &place);
            batch.xor(column, damage);
        }
    }
}

/// Elements of the field everywhere, or in some columns of a batch that was good before.
fn arbitrary(tally: &mut Tally, part: &mut Part) {
    let batches = part.program(Sort::Accepted);
    for (i, good) in batches.into_iter().enumerate() {
        let sort = (part.number + i) % 4;
        let mut batch = match sort {
            0 => Batch::of(part.cpi, batches::dense(&mut part.numbers, part.cpi)),
            1 => Batch::of(part.cpi, batches::bits(&mut part.numbers, part.cpi)),
            2 => good,
            _ => with_unnamed_columns(part, good),
        };
        if sort == 2 {
            scatter(part, &mut batch);
        }
        part.judge(tally, &mut batch, &|| format!("batch {i}, sort {sort}"));
    }
}

/// The zero batch, with some columns that are not.
fn nearly_zero(tally: &mut Tally, part: &mut Part) {
    for i in 0..batches_of_part(part.cpi) {
        let mut batch = Batch::zero(part.cpi);
        let sort = (part.number + i) % 4;
        let classes = part.number * batches_of_part(part.cpi) + i;
        match sort {
            0 => {}
            1 => scatter(part, &mut batch),
            _ => {
                for class in 0..sort - 1 {
                    let column = part.column_of_class(classes / 4 + 7 * class);
                    batch.put(column, batches::damage(&mut part.numbers));
                }
            }
        }
        part.judge(tally, &mut batch, &|| format!("batch {i}, sort {sort}"));
    }
}

/// Puts elements of any sort into a few columns.
fn scatter(part: &mut Part, batch: &mut Batch) {
    for _ in 0..1 + part.numbers.below(12) {
        let column = part.random_column();
        batch.put(column, batches::element(&mut part.numbers));
    }
}

/// Fills columns that no row names with elements of any sort: the verdict stays.
fn with_unnamed_columns(part: &mut Part, mut batch: Batch) -> Batch {
    for column in (808..832).chain(954..1024).chain(1127..2048) {
        let cycle = part.numbers.below(part.cpi as u64) as usize;
        let at = batches::batch_column(part.cpi, column, cycle);
        batch.put(at, batches::element(&mut part.numbers));
    }
    batch
}

/// Every column of rows of the program that has every instruction, a different row for each base.
fn each_column(tally: &mut Tally) {
    let judge = Judge::of_circuit(1);
    let program = Program::of_everything(&mut Numbers::for_test(22));
    let rows = program.rows(512);
    in_parts(tally, COLUMNS, |tally, column| {
        let mut numbers = Numbers::for_part(23, column as u64);
        let mut desk = Desk::of(&judge.listing, Numbers::for_part(24, column as u64));
        for _ in 0..BASES {
            let row = numbers.below(rows.len() as u64) as usize;
            let mut batch = Batch::of(1, rows[row].clone());
            let damage = batches::damage(&mut numbers);
            batch.xor(column, damage);
            let place = || format!("row {row}, column {column} changed by {damage:#x}");
            let verdict = judge.judge(tally, &mut desk, &mut batch, &place);
            boundary::same(tally, &mut batch, verdict, &place);
        }
    });
}
