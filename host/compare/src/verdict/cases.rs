//! Listings and batches that are checked over and over, with scratch of one length after the other.

use super::answer::{refusal, Refusal, Verdict, MUST_BE_ZERO, SCRATCH_LENGTH};
use super::batches::{self, batch_column, Batch, ONE_COLUMN};
use super::damages::circuit_words;
use super::forms::CHECK_ROW;
use super::judge::Judge;
use super::known;
use super::known::Known::{self, House, Strict};
use super::lent::Lent;
use super::listings::{self, Listing, Shape};
use super::refusals::{asked, FAULTY};
use super::scratch;
use crate::house::Relation::{self, Bin, Fld};
use crate::house::{Coefficient, Term};
use crate::numbers::Numbers;
use crate::report::Tally;
use crate::strict::cycles::accepted;

/// The words of a listing.
#[derive(Clone, Copy, Debug)]
pub enum Words {
    Of(Known),
    /// Rows drawn by chance, which all hold on a dense batch, but the last of one relation.
    Other(Option<Relation>),
    Empty,
    /// Question 7 refuses the first word, or the last of the house listing's.
    FirstWrong,
    LastWrong,
}

/// The elements of a batch.
#[derive(Clone, Copy, Debug)]
pub enum Over {
    /// Both listings accept it.
    Good,
    /// The circuit does not hold in the last cycle.
    Bad(Relation),
    Zero,
    Dense,
}

/// The relation that fails, if one does; or the number of a question behind 5.
type Meant = Result<Option<Relation>, u64>;

pub const CASES: [(Words, Over, Meant); 15] = [
    (Words::Of(House), Over::Good, Ok(None)),
    (Words::Of(House), Over::Bad(Bin), Ok(Some(Bin))),
    (Words::Of(House), Over::Bad(Fld), Ok(Some(Fld))),
    (Words::Of(House), Over::Zero, Ok(None)),
    (Words::Of(Strict), Over::Good, Ok(None)),
    (Words::Of(Strict), Over::Bad(Bin), Ok(Some(Bin))),
    (Words::Of(Strict), Over::Bad(Fld), Ok(Some(Fld))),
    (Words::Of(Strict), Over::Zero, Ok(None)),
    (Words::Other(None), Over::Dense, Ok(None)),
    (Words::Other(Some(Bin)), Over::Dense, Ok(Some(Bin))),
    (Words::Other(Some(Fld)), Over::Dense, Ok(Some(Fld))),
    (Words::Other(None), Over::Zero, Ok(None)),
    (Words::Empty, Over::Dense, Ok(None)),
    (Words::FirstWrong, Over::Good, Err(MUST_BE_ZERO)),
    (Words::LastWrong, Over::Good, Err(MUST_BE_ZERO)),
];

/// Those with a verdict.
pub const JUDGED: usize = 13;

/// Comparisons that `Case::new` makes for all of them: what each is meant to be, and where there is a
/// verdict the original's.
pub const OF_THE_CASES: u64 = (CASES.len() + JUDGED) as u64;

/// A listing and a batch, and the answer where scratch is taken.
pub struct Case {
    pub batch: Batch,
    name: String,
    listing: Lent<u32>,
    right: Result<Verdict, Refusal>,
}

impl Case {
    pub fn new(tally: &mut Tally, numbers: &mut Numbers, cpi: usize, case: usize) -> Case {
        let (words, over, meant) = CASES[case];
        let name = format!("{words:?} listing, {over:?} batch of {cpi}");
        let (words, batch) = (words.make(numbers), over.make(numbers, cpi));
        let right = match asked(&words) {
            Some(right) => Err(right),
            None => {
                let judge = Judge::of(&Listing::of_words(&words), cpi);
                Ok(judge.right(tally, &batch, &|| name.clone()))
            }
        };
        let is = right.map(Verdict::relation).map_err(|right| right.number);
        tally.same(|| format!("{name}, as it is meant"), is, meant);
        Case {
            batch,
            name,
            listing: Lent::of(&words),
            right,
        }
    }

    /// Both forms, lent scratch that holds these words: the answer, and everything lent as it must be.
    pub fn check(&mut self, tally: &mut Tally, before: &[u64]) {
        let words = before.len();
        let right = if scratch::lengths().contains(&words) {
            self.right
        } else {
            Err(refusal(SCRATCH_LENGTH))
        };
        let number = right.map_or_else(Refusal::answer, Verdict::number);
        for (form, check) in CHECK_ROW {
            let mut scratch = Lent::of(before);
            if right.is_ok() {
                (0..words).for_each(|i| scratch.must_become(i, 0));
            }
            let (listing, batch) = (self.listing.words(), self.batch.words.words());
            let answer = check(self.batch.cpi, listing, batch, scratch.words_mut());
            let wrong = [
                self.listing.first_wrong(),
                self.batch.words.first_wrong(),
                scratch.first_wrong(),
            ];
            let place = || format!("{}, {words} words of scratch, {form}", self.name);
            tally.same(place, (answer, wrong), (number, [None; 3]));
        }
    }
}

impl Words {
    fn make(self, numbers: &mut Numbers) -> Vec<u32> {
        let mut words = circuit_words();
        match self {
            Words::Of(known) => words = known::listing(known).words(),
            Words::Other(fails) => words = other(numbers, fails).words(),
            Words::Empty => words.clear(),
            Words::FirstWrong => words = FAULTY.to_vec(),
            Words::LastWrong => *words.last_mut().expect("a word") |= 1 << 28,
        }
        words
    }
}

/// No row asks more of a batch than 1 in the one column, or zero everywhere.
fn other(numbers: &mut Numbers, fails: Option<Relation>) -> Listing {
    let shape = Shape {
        marks: 100,
        terms_of_a_side: 8,
    };
    let mut listing = listings::holding(numbers, shape, &[ONE_COLUMN]);
    if let Some(relation) = fails {
        let mut rows = listing.rows.iter_mut().rev();
        let last = rows.find(|row| row.relation == relation);
        let one = Term {
            column: ONE_COLUMN,
            coefficient: Coefficient::Power(0),
        };
        last.expect("a row of it").sides[2].push(one);
    }
    listing
}

impl Over {
    fn make(self, numbers: &mut Numbers, cpi: usize) -> Batch {
        match self {
            Over::Good => accepted(numbers, cpi),
            Over::Bad(relation) => bad(accepted(numbers, cpi), relation),
            Over::Zero => Batch::zero(cpi),
            Over::Dense => {
                let mut batch = Batch::of(cpi, batches::dense(numbers, cpi));
                batch.put(batch_column(cpi, ONE_COLUMN, 0), 1);
                batch
            }
        }
    }
}

const SHIFT_OUT: usize = 256;
const ALU: usize = 512;
const IS_SHIFT: usize = 774;
const ZERO: usize = 1024;

/// Bin: whether ALU's lowest bit is zero. Fld: a shift whose result is not ALU.
fn bad(mut batch: Batch, relation: Relation) -> Batch {
    let cpi = batch.cpi;
    let last = |column| batch_column(cpi, column, cpi - 1);
    match relation {
        Bin => batch.xor(last(ZERO), 1),
        Fld => {
            let other = batch.z[last(ALU)].0 ^ 1;
            batch.put(last(IS_SHIFT), 1);
            batch.put(last(SHIFT_OUT), other);
        }
    }
    batch
}
