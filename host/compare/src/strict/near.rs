//! Listings near the strict one, over a row for every choice of flags: the verdicts on those that are in
//! order, and those that are refused.

use super::cycles::with_flags;
use super::flags::{Flags, CHOICES};
use super::rows::{self, ADDED, ADDED_WORDS, FIRST, FIRST_WORD};
use crate::filler::filled::{filled, output};
use crate::numbers::Numbers;
use crate::original::Gf128;
use crate::parallel::in_parts;
use crate::report::{test, Tally, Test};
use crate::verdict::answer::{Verdict, MARK_ORDER};
use crate::verdict::batches::{Batch, ONE_COLUMN};
use crate::verdict::judge::{refused, Desk, Judge, OF_A_REFUSAL, OF_A_VERDICT};
use crate::verdict::known::KNOWN;
use crate::verdict::listings::{Listing, Row};
use crate::verdict::one_word::{changed, WAYS};
use crate::verdict::refusals::{asked, zero_batch};

const EIGHT: usize = ADDED.len();
const PAIRS: usize = EIGHT * (EIGHT - 1) / 2;

/// Listings that differ in one word of the eight rows, and those among them that are in order: the others are
/// refused.
const CHANGED: usize = WAYS * ADDED_WORDS;
const IN_ORDER: usize = 481;

/// Comparisons of the verdicts on all rows.
const OF_ALL_ROWS: u64 = CHOICES as u64 * OF_A_VERDICT;

/// Comparisons of a listing: that it is none that is known, the verdicts, and whether it shows in them.
const OF_A_LISTING: u64 = 1 + OF_ALL_ROWS + 1;

pub fn tests() -> Vec<Test> {
    vec![
        test(
            "near the strict listing, each of the eight rows left out",
            EIGHT as u64 * OF_A_LISTING,
            left_out,
        ),
        test(
            "near the strict listing, each (1+load) written as load, (1+byte+half+word) without the 1",
            4 * OF_A_LISTING,
            without_one,
        ),
        test(
            "near the strict listing, the factors of each of the eight rows exchanged",
            EIGHT as u64 * OF_A_LISTING,
            factors_exchanged,
        ),
        test(
            "near the strict listing, each two of the eight rows exchanged but for their marks",
            PAIRS as u64 * OF_A_LISTING,
            terms_exchanged,
        ),
        test(
            "near the strict listing, each two of the eight rows exchanged are refused, 9",
            PAIRS as u64 * (1 + OF_A_REFUSAL),
            rows_exchanged,
        ),
        test(
            format!("near the strict listing, {CHANGED} that differ in one word, {IN_ORDER} in order"),
            IN_ORDER as u64 * OF_ALL_ROWS
                + (CHANGED - IN_ORDER) as u64 * OF_A_REFUSAL
                + ADDED_WORDS as u64,
            one_word,
        ),
    ]
}

/// A row for each choice of flags, which meets the ten conditions, and the strict verdict on it.
struct Rows {
    rows: Vec<Vec<Gf128>>,
    strict: Vec<Verdict>,
}

impl Rows {
    fn new() -> Rows {
        let constraints = rows::judge(1).constraints;
        let rows: Vec<_> = (0..CHOICES).map(row).collect();
        let strict = rows.iter().map(|z| constraints.verdict(z)).collect();
        Rows { rows, strict }
    }

    /// Judges all rows by another listing, and says whether it shows in a verdict that it is another.
    fn judge(&self, tally: &mut Tally, words: &[u32], place: &dyn Fn() -> String) -> bool {
        let judge = Judge::of(&Listing::of_words(words), 1);
        let mut desk = Desk::of(words, Numbers::for_test(129));
        let mut verdict = |(choice, z): (usize, &Vec<Gf128>)| {
            let place = || format!("{}, choice {choice}", place());
            judge.judge(tally, &mut desk, &mut Batch::of(1, z.clone()), &place)
        };
        let rows = self.rows.iter().enumerate();
        rows.map(&mut verdict).collect::<Vec<_>>() != self.strict
    }
}

fn row(choice: usize) -> Vec<Gf128> {
    let mut numbers = Numbers::for_part(128, choice as u64);
    let output = output(&mut numbers);
    let cycle = with_flags(&mut numbers, Flags::of_choice(choice), output);
    filled(&mut numbers, &[cycle], output).z
}

/// The strict listing with something done to its rows, of which the eight stand from `FIRST` on.
fn with(change: impl FnOnce(&mut Vec<Row>)) -> Vec<u32> {
    let mut listing = rows::listing();
    change(&mut listing.rows);
    listing.words()
}

fn pairs() -> impl Iterator<Item = (usize, usize)> {
    let rows = FIRST..FIRST + EIGHT;
    rows.clone()
        .flat_map(move |i| (i + 1..rows.end).map(move |j| (i, j)))
}

/// Every listing is judged, and shows or does not.
fn judged(tally: &mut Tally, listings: impl Iterator<Item = Vec<u32>>, shows: bool) {
    let (rows, listings) = (Rows::new(), listings.collect::<Vec<_>>());
    in_parts(tally, listings.len(), |tally, i| {
        let words = &listings[i];
        let place = || format!("listing {i}");
        let is_known = KNOWN.map(|known| product::is_known(known, words));
        tally.same(|| format!("{}, is_known", place()), is_known, [false; 2]);
        let seen = rows.judge(tally, words, &place);
        tally.same(|| format!("{}, shows", place()), seen, shows);
    });
}

fn left_out(tally: &mut Tally) {
    let left_out = |i| with(|rows| drop(rows.remove(FIRST + i)));
    judged(tally, (0..EIGHT).map(left_out), true);
}

fn without_one(tally: &mut Tally) {
    let without =
        |i: usize| with(|rows| rows[FIRST + i].sides[1].retain(|term| term.column != ONE_COLUMN));
    judged(tally, (4..EIGHT).map(without), true);
}

/// The product is the same.
fn factors_exchanged(tally: &mut Tally) {
    let exchanged = |i: usize| with(|rows| rows[FIRST + i].sides.swap(0, 1));
    judged(tally, (0..EIGHT).map(exchanged), false);
}

fn terms_exchanged(tally: &mut Tally) {
    let exchanged = |(i, j): (usize, usize)| {
        with(|rows| {
            let numbers = [rows[i].row, rows[j].row];
            rows.swap(i, j);
            [rows[i].row, rows[j].row] = numbers;
        })
    };
    judged(tally, pairs().map(exchanged), true);
}

/// Marks and terms: the second mark is not after the first.
fn rows_exchanged(tally: &mut Tally) {
    for (i, j) in pairs() {
        let words = with(|rows| rows.swap(i, j));
        let place = || format!("rows {i} and {j} exchanged");
        let right = asked(&words).expect("a refusal");
        tally.same(place, right.number, MARK_ORDER);
        let mut desk = Desk::of(&words, Numbers::for_test(130));
        refused(tally, 1, &mut desk, &mut zero_batch(1), right, &place);
    }
}

/// Of every word some change shows, if any leaves the listing in order.
fn one_word(tally: &mut Tally) {
    let (all, words) = (Rows::new(), rows::listing().words());
    in_parts(tally, ADDED_WORDS, |tally, word| {
        let mut shown = Vec::new();
        for way in 0..WAYS {
            let words = changed(&words, FIRST_WORD + word, way);
            let place = || format!("word {word} of the eight rows changed in way {way}");
            if let Some(right) = asked(&words) {
                let mut desk = Desk::of(&words, Numbers::for_test(131));
                refused(tally, 1, &mut desk, &mut zero_batch(1), right, &place);
            } else {
                shown.push(all.judge(tally, &words, &place));
            }
        }
        let place = || format!("word {word}, some change shows");
        tally.same(place, shown.is_empty() || shown.contains(&true), true);
    });
}
