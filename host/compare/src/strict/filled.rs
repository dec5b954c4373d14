//! Batches with any bits in their given columns, filled by the product: the verdicts of both listings, and
//! filling and checking in one call.

use super::cycles::{any_flags, right_flags, with_flags};
use super::judges::{of_both, Judges};
use crate::columns::SIZES;
use crate::filler::conditions::{Cycle, CONDITIONS};
use crate::filler::cycles::Wanted;
use crate::filler::filled::{at_once, batch_of, fill, one_col, output, OF_BOTH_AT_ONCE};
use crate::numbers::Numbers;
use crate::parallel::in_parts;
use crate::report::{test, Tally, Test};
use crate::verdict::batches::{self, Batch};
use crate::verdict::known::Known;

/// Batches of each kind, by size.
const BATCHES: [usize; 9] = [2_000, 800, 400, 200, 100, 40, 20, 10, 6];

/// What a batch is made of.
#[derive(Clone, Copy, Debug, PartialEq, Eq)]
enum Kind {
    /// Cycles that meet the conditions, with right flags: these are accepted.
    Right,
    /// Right flags but in one cycle, which has any.
    OneOther,
    /// Right flags, but a condition is broken in one cycle, whose flags are any.
    Broken,
    /// Cycles that meet the conditions, with any flags.
    AnyFlags,
    /// The same, but for a condition that is broken in one cycle.
    Both,
    /// Any bits.
    AnyBits,
}

const KINDS: [Kind; 6] = [
    Kind::Right,
    Kind::OneOther,
    Kind::Broken,
    Kind::AnyFlags,
    Kind::Both,
    Kind::AnyBits,
];

/// Comparisons of one batch: two of filling, the verdicts, and those of one call.
fn of_a_batch(cpi: usize) -> u64 {
    2 + of_both(cpi) + OF_BOTH_AT_ONCE
}

pub fn tests() -> Vec<Test> {
    let of_size = |(cpi, batches): (usize, usize)| {
        let known = KINDS.into_iter().filter_map(Kind::accepted).count() * batches;
        let batches = KINDS.len() * batches;
        test(
            format!("the strict listing, {batches} filled batches of {cpi}"),
            batches as u64 * of_a_batch(cpi) + known as u64,
            move |tally| all(tally, cpi, batches),
        )
    };
    SIZES.into_iter().zip(BATCHES).map(of_size).collect()
}

pub fn batches_judged() -> usize {
    KINDS.len() * BATCHES.iter().sum::<usize>()
}

fn all(tally: &mut Tally, cpi: usize, batches: usize) {
    let judges = Judges::of(cpi);
    in_parts(tally, batches, |tally, part| {
        let mut numbers = Numbers::for_part(122, (cpi << 32 | part) as u64);
        let kind = KINDS[part % KINDS.len()];
        let place = || format!("batch {part} of {cpi} cycles, {kind:?}");
        let mut batch = kind.make(&mut numbers, cpi);
        fill(tally, &mut batch, &place);
        let mut desk = judges.desk(Numbers::for_part(123, (cpi << 32 | part) as u64));
        let verdict = judges.judge(tally, &mut desk, &mut batch, &place).strict;
        if let Some(accepted) = kind.accepted() {
            let meant = || format!("{}, as it is meant", place());
            tally.same(meant, verdict.is_accepted(), accepted);
        }
        at_once(tally, &mut numbers, Known::Strict, &batch, verdict, &place);
    });
}

impl Kind {
    /// Whether the strict listing accepts it, where that is known beforehand.
    fn accepted(self) -> Option<bool> {
        match self {
            Kind::Right => Some(true),
            Kind::Broken | Kind::Both => Some(false),
            Kind::OneOther | Kind::AnyFlags | Kind::AnyBits => None,
        }
    }

    fn make(self, numbers: &mut Numbers, cpi: usize) -> Batch {
        if self == Kind::AnyBits {
            let mut batch = Batch::of(cpi, batches::bits(numbers, cpi));
            batch.put(one_col(cpi), 1);
            return batch;
        }
        let output = output(numbers);
        let other = numbers.below(cpi as u64) as usize;
        let cycle = |d| self.cycle(numbers, output, d == other);
        let cycles: Vec<Cycle> = (0..cpi).map(cycle).collect();
        batch_of(numbers, &cycles, output)
    }

    fn cycle(self, numbers: &mut Numbers, output: u128, is_other: bool) -> Cycle {
        let flags = match (self, is_other) {
            (Kind::Broken | Kind::Both, true) => {
                let broken = 1 + numbers.below(CONDITIONS as u64) as usize;
                return Wanted::any(numbers, broken, output).make(numbers);
            }
            (Kind::OneOther, true) | (Kind::AnyFlags | Kind::Both, _) => any_flags(numbers),
            _ => right_flags(numbers),
        };
        with_flags(numbers, flags, output)
    }
}
