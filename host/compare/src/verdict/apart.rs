//! Bin and fld counted apart, as document 02, request 7 says it: fld is 0 until bin has passed. The counts
//! are read from the product's own answers. How many rows a relation has is counted in the words of the
//! listing, and which relation fails, if one does, the original says; how many of that relation are tested
//! up to the row that fails comes from evaluating its matrices row by row.

use std::sync::atomic::{AtomicUsize, Ordering};

use super::answer::{Counts, Verdict};
use super::batches::{self, batch_column, Batch, ONE_COLUMN};
use super::boundary;
use super::forms::{CHECK_KNOWN, CHECK_ROW, FORMS};
use super::judge::Judge;
use super::known::{self, Known, KNOWN};
use super::listings::{self, Listing, Row};
use super::scratch;
use crate::columns::SIZES;
use crate::filler::derived::derived;
use crate::house::Relation::{self, Bin, Fld};
use crate::house::{self, Coefficient, Term, Word};
use crate::numbers::Numbers;
use crate::original;
use crate::parallel::in_parts;
use crate::report::{test, Tally, Test};
use crate::strict::cycles::{accepted, broken};

/// Batches of each known listing, by size.
const BATCHES: [usize; 9] = [300, 150, 90, 60, 45, 30, 24, 18, 12];

/// Times that each of `CASES` is drawn, by size.
const TIMES: [usize; 9] = [30, 20, 15, 10, 8, 6, 4, 3, 2];

/// What a check comes to: accepted, or the relation that fails.
pub type Outcome = Option<Relation>;

const OUTCOMES: [Outcome; 3] = [None, Some(Bin), Some(Fld)];

/// The conditions that rows of fld stand for, by document 01.
pub const CONDITIONS_OF_FLD: u64 = 7;

/// A column that is 0 but in one cycle, where it is 1.
const SPOILER: usize = 1500;

pub fn tests() -> Vec<Test> {
    let mut tests = Vec::new();
    for known in KNOWN {
        let name = known::name(known);
        for (cpi, batches) in SIZES.into_iter().zip(BATCHES) {
            tests.push(test(
                format!("bin and fld counted apart, {name}, {batches} batches of {cpi}"),
                batches as u64 * of_a_batch(known, cpi) + OUTCOMES.len() as u64,
                move |tally| of_known(tally, known, cpi, batches),
            ));
        }
    }
    for (cpi, times) in SIZES.into_iter().zip(TIMES) {
        let listings = times * CASES.len();
        tests.push(test(
            format!("bin and fld counted apart, {listings} other listings, batches of {cpi}"),
            (listings * (1 + FORMS) + OUTCOMES.len()) as u64,
            move |tally| of_others(tally, cpi, listings),
        ));
    }
    tests
}

pub fn batches_judged() -> usize {
    let known: usize = BATCHES.iter().sum();
    let others: usize = TIMES.iter().sum();
    KNOWN.len() * known + CASES.len() * others
}

/// Comparisons of a batch: the check with the listing lent, without, behind the filler, and over the C
/// boundary, which has the house listing and takes one cycle.
fn of_a_batch(known: Known, cpi: usize) -> u64 {
    2 * FORMS as u64 + 1 + u64::from(crosses(known, cpi))
}

fn crosses(known: Known, cpi: usize) -> bool {
    known == Known::House && cpi == 1
}

/// How often each outcome was met.
#[derive(Default)]
struct Met([AtomicUsize; OUTCOMES.len()]);

impl Met {
    fn add(&self, outcome: Outcome) {
        for (count, of) in self.0.iter().zip(OUTCOMES) {
            count.fetch_add(usize::from(of == outcome), Ordering::Relaxed);
        }
    }

    /// A quarter of the batches at least for each.
    fn are_frequent(&self, tally: &mut Tally, batches: usize) {
        for (count, outcome) in self.0.iter().zip(OUTCOMES) {
            let count = count.load(Ordering::Relaxed);
            let place = || format!("{count} of {batches} batches come to {outcome:?}");
            tally.same(place, 4 * count >= batches, true);
        }
    }
}

/// The rows of a cycle, by the marks in a listing.
fn rows_of(listing: &[u32]) -> Counts {
    let mut rows = Counts::default();
    for &word in listing {
        if let Ok(Word::Mark { relation, .. }) = house::read(word) {
            rows.add(relation);
        }
    }
    rows
}

/// What is known of a batch without the product: how many rows there are, what comes of them, and how
/// many are tested before that is known.
#[derive(Clone, Copy)]
struct Told {
    all: Counts,
    outcome: Outcome,
    tested: Counts,
}

impl Told {
    fn of(listing: &[u32], cpi: usize, outcome: Outcome, tested: Counts) -> Told {
        let all = rows_of(listing).times(cpi);
        Told {
            all,
            outcome,
            tested,
        }
    }

    /// The counts as request 7 has them; in the relation that fails, document 01's: the failing row is
    /// the last that is counted.
    fn as_requested(self) -> Counts {
        let Told {
            all,
            outcome,
            tested,
        } = self;
        match outcome {
            None => all,
            Some(Bin) => Counts {
                bin: tested.bin,
                fld: 0,
            },
            Some(Fld) => Counts {
                bin: all.bin,
                fld: tested.fld,
            },
        }
    }

    /// Holds one answer of the product against it.
    fn same(self, tally: &mut Tally, answer: u64, place: &dyn Fn() -> String) {
        let seen = Verdict::read(answer).map(|verdict| (verdict.relation(), verdict.counts()));
        tally.same(place, seen, Some((self.outcome, self.as_requested())));
    }
}

/// What a batch is, before a known listing.
#[derive(Clone, Copy, Debug, PartialEq, Eq)]
enum Kind {
    /// Both listings accept it.
    Accepted,
    /// The same, with a derived column of one cycle flipped: nearly all are defined by rows of bin.
    Flipped,
    /// Filled, but one cycle does not meet a condition that rows of fld stand for.
    Broken,
}

const KINDS: [Kind; 3] = [Kind::Accepted, Kind::Flipped, Kind::Broken];

impl Kind {
    fn make(self, numbers: &mut Numbers, cpi: usize) -> Batch {
        if self == Kind::Broken {
            let condition = 1 + numbers.below(CONDITIONS_OF_FLD);
            return broken(numbers, cpi, condition as usize);
        }
        let mut batch = accepted(numbers, cpi);
        if self == Kind::Flipped {
            let columns: Vec<usize> = derived().collect();
            let column = columns[numbers.below(columns.len() as u64) as usize];
            let cycle = numbers.below(cpi as u64) as usize;
            batch.xor(batch_column(cpi, column, cycle), 1);
        }
        batch
    }

    /// What it comes to when it is filled again.
    fn filled(self, outcome: Outcome) -> Outcome {
        match self {
            Kind::Flipped => None,
            Kind::Accepted | Kind::Broken => outcome,
        }
    }
}

fn of_known(tally: &mut Tally, known: Known, cpi: usize, batches: usize) {
    let Judge {
        spec,
        constraints,
        listing,
        ..
    } = known::judge(known, cpi);
    let met = Met::default();
    in_parts(tally, batches, |tally, part| {
        let sequence = cpi << 32 | part << 1 | known as usize;
        let mut numbers = Numbers::for_part(137, sequence as u64);
        let kind = KINDS[part % KINDS.len()];
        let batch = kind.make(&mut numbers, cpi);
        let outcome = original::check_row(&spec, &batch.z);
        met.add(outcome);

        let place = || format!("batch {part} of {cpi}, {kind:?}");
        let tested = constraints.verdict(&batch.z).counts();
        let told = Told::of(&listing, cpi, outcome, tested);
        by_listing(tally, &mut numbers, &listing, &batch, told, &place);
        by_name(tally, known, &batch, told, &place);
        let mut words = batch.words.words().to_vec();
        let answer = product::fill_and_check(known, cpi, &mut words);
        let filled = || format!("{}, filled and checked in one call", place());
        let told = Told::of(&listing, cpi, kind.filled(outcome), tested);
        told.same(tally, answer, &filled);
        if crosses(known, cpi) {
            sum_crosses(tally, &batch, &place);
        }
    });
    met.are_frequent(tally, batches);
}

/// The check with a listing lent, from any scratch.
fn by_listing(
    tally: &mut Tally,
    numbers: &mut Numbers,
    listing: &[u32],
    batch: &Batch,
    told: Told,
    place: &dyn Fn() -> String,
) {
    let length = scratch::any_length(numbers);
    for (form, check) in CHECK_ROW {
        let mut scratch = numbers.words(length);
        let answer = check(batch.cpi, listing, batch.words.words(), &mut scratch);
        let place = || format!("{}, {form}", place());
        told.same(tally, answer, &place);
    }
}

/// The check that is lent none.
fn by_name(tally: &mut Tally, known: Known, batch: &Batch, told: Told, place: &dyn Fn() -> String) {
    for (form, check) in CHECK_KNOWN {
        let answer = check(known, batch.cpi, batch.words.words());
        let place = || format!("{}, {form}", place());
        told.same(tally, answer, &place);
    }
}

/// The C boundary carries the sum of the counts that the check answers with.
fn sum_crosses(tally: &mut Tally, batch: &Batch, place: &dyn Fn() -> String) {
    let answer = product::check_known(Known::House, batch.cpi, batch.words.words());
    let verdict = Verdict::read(answer).filter(|verdict| verdict.is_accepted());
    let sum = verdict.map(|verdict| verdict.counts().rows());
    let place = || format!("{}, the sum over the C boundary", place());
    tally.same(place, boundary::rows_told(&batch.z), sum);
}

/// Which relations a listing has rows of.
#[derive(Clone, Copy, Debug)]
pub enum Rows {
    Both,
    BinAlone,
    FldAlone,
    Empty,
    /// As many as there can be.
    All,
}

/// Listings that hold, but for a row of each relation that is named here.
const CASES: [(Rows, &[Relation]); 12] = [
    (Rows::Both, &[]),
    (Rows::Both, &[Bin]),
    (Rows::Both, &[Fld]),
    (Rows::Both, &[Bin, Fld]),
    (Rows::BinAlone, &[]),
    (Rows::BinAlone, &[Bin]),
    (Rows::FldAlone, &[]),
    (Rows::FldAlone, &[Fld]),
    (Rows::Empty, &[]),
    (Rows::All, &[]),
    (Rows::All, &[Bin]),
    (Rows::All, &[Fld]),
];

impl Rows {
    /// Large batches have fewer rows of bin, and all rows hardly a term, to keep the matrices within bounds.
    pub fn make(self, numbers: &mut Numbers, cpi: usize) -> Listing {
        let most = (8192 / cpi).min(Bin.padded_rows());
        let bin = 1 + numbers.below(most as u64) as usize;
        let fld = 1 + numbers.below(Fld.padded_rows() as u64) as usize;
        let terms = [0, 1, 3, 8][numbers.below(4) as usize];
        let (rows, terms) = match self {
            Rows::Both => (Counts { bin, fld }, terms),
            Rows::BinAlone => (Counts { bin, fld: 0 }, terms),
            Rows::FldAlone => (Counts { bin: 0, fld }, terms),
            Rows::Empty => (Counts::default(), 0),
            Rows::All => (every_mark(), 0),
        };
        listings::holding_of_each(numbers, rows, terms, &[ONE_COLUMN])
    }
}

fn every_mark() -> Counts {
    Counts {
        bin: Bin.padded_rows(),
        fld: Fld.padded_rows(),
    }
}

fn of_others(tally: &mut Tally, cpi: usize, listings: usize) {
    let met = Met::default();
    in_parts(tally, listings, |tally, part| {
        let mut numbers = Numbers::for_part(138, (cpi << 32 | part) as u64);
        let (rows, spoiled) = CASES[part % CASES.len()];
        let mut listing = rows.make(&mut numbers, cpi);
        for &relation in spoiled {
            spoil(&mut numbers, &mut listing, relation, SPOILER);
        }
        let batch = dense(&mut numbers, cpi);
        let Judge {
            spec, constraints, ..
        } = Judge::of(&listing, cpi);
        let outcome = original::check_row(&spec, &batch.z);
        met.add(outcome);

        let place = || format!("listing {part}, {rows:?} but {spoiled:?}, {cpi} cycles");
        let meant = || format!("{}, as it is meant", place());
        tally.same(meant, outcome, spoiled.iter().min().copied());
        let words = listing.words();
        let tested = constraints.verdict(&batch.z).counts();
        let told = Told::of(&words, cpi, outcome, tested);
        by_listing(tally, &mut numbers, &words, &batch, told, &place);
    });
    met.are_frequent(tally, listings);
}

/// A row that held does not hold any more in a cycle where this column is not 0.
pub fn spoil(numbers: &mut Numbers, listing: &mut Listing, relation: Relation, column: usize) {
    let of_it = |row: &&mut Row| row.relation == relation;
    let mut rows: Vec<&mut Row> = listing.rows.iter_mut().filter(of_it).collect();
    let at = any_of(numbers, rows.len());
    rows[at].sides[2].push(Term {
        column,
        coefficient: Coefficient::Power(0),
    });
}

fn dense(numbers: &mut Numbers, cpi: usize) -> Batch {
    let mut batch = Batch::of(cpi, batches::dense(numbers, cpi));
    batch.put(batch_column(cpi, ONE_COLUMN, 0), 1);
    let spoiled = any_of(numbers, cpi);
    for cycle in 0..cpi {
        let at = batch_column(cpi, SPOILER, cycle);
        batch.put(at, u128::from(cycle == spoiled));
    }
    batch
}

/// The first of so many, the last or any.
pub fn any_of(numbers: &mut Numbers, count: usize) -> usize {
    let any = numbers.below(count as u64) as usize;
    [0, count - 1, any][numbers.below(3) as usize]
}
