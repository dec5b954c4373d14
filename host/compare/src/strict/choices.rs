//! Every choice of the five flags in one cycle of a filled batch whose other cycles are idle.

use super::cycles::with_flags;
use super::flags::{Flags, CHOICES};
use super::judges::{of_both, Judges};
use crate::columns::SIZES;
use crate::filler::conditions::Cycle;
use crate::filler::filled::{at_once, filled, output, OF_BOTH_AT_ONCE};
use crate::house::Relation;
use crate::numbers::Numbers;
use crate::parallel::in_parts;
use crate::report::{test, Tally, Test};
use crate::verdict::known::{self, Known};

/// The first cycle, the middle one and the last.
const PLACES: usize = 3;

const BATCHES: usize = CHOICES * PLACES;

pub fn tests() -> Vec<Test> {
    let of_size = |cpi| {
        test(
            format!("the strict listing, every choice of flags in the first, the middle and the last cycle, {BATCHES} batches of {cpi}"),
            BATCHES as u64 * (of_both(cpi) + 1 + OF_BOTH_AT_ONCE),
            move |tally| every_choice(tally, cpi),
        )
    };
    SIZES.into_iter().map(of_size).collect()
}

pub fn batches_judged() -> usize {
    BATCHES * SIZES.len()
}

/// The ten conditions are met, so that the flags alone decide.
fn every_choice(tally: &mut Tally, cpi: usize) {
    let judges = Judges::of(cpi);
    in_parts(tally, BATCHES, |tally, part| {
        let mut numbers = Numbers::for_part(120, (cpi << 32 | part) as u64);
        let flags = Flags::of_choice(part / PLACES);
        let cycle = [0, cpi / 2, cpi - 1][part % PLACES];
        let output = output(&mut numbers);
        let mut cycles = vec![Cycle::default(); cpi];
        cycles[cycle] = with_flags(&mut numbers, flags, output);
        let mut batch = filled(&mut numbers, &cycles, output);

        let place = || format!("{flags:?} in cycle {cycle} of {cpi}");
        let mut desk = judges.desk(Numbers::for_part(121, (cpi << 32 | part) as u64));
        let verdict = judges.judge(tally, &mut desk, &mut batch, &place).strict;
        let batch_row = |row| (Relation::Bin, Relation::Bin.padded_rows() * cycle + row);
        let right = known::verdict(Known::Strict, cpi, flags.failing_row().map(batch_row));
        tally.same(place, verdict, right);
        at_once(tally, &mut numbers, Known::Strict, &batch, verdict, &place);
    });
}
