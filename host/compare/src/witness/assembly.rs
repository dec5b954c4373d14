//! Batches that the product assembles against the original's `assemble_instance_z`, every element.

use words::words_of;

use super::records::{any_public, public};
use crate::columns::SIZES;
use crate::numbers::Numbers;
use crate::original::{self, Gf128};
use crate::parallel::in_parts;
use crate::report::{test, Tally, Test};
use crate::verdict::answer::{refusal, PUBLIC_LENGTH};
use crate::verdict::batches::{COLUMNS, WITNESS_COLUMNS};
use crate::verdict::lent::Lent;

const BATCHES: [usize; 9] = [400, 200, 100, 50, 30, 16, 8, 6, 4];

/// Comparisons of one batch: the answer, the batch, the cycles and public values as they came.
const OF_A_BATCH: u64 = 3;

/// Public values past the room there is for them.
const TOO_MANY: [usize; 3] = [1, 2, 100];

/// Comparisons of too many: the original drops them, the product refuses, nothing changes.
const OF_TOO_MANY: u64 = 3;

pub fn tests() -> Vec<Test> {
    let mut tests = Vec::new();
    for (cpi, batches) in SIZES.into_iter().zip(BATCHES) {
        tests.push(test(
            format!("assembly, {batches} batches of {cpi}, every element"),
            batches as u64 * OF_A_BATCH,
            move |tally| random(tally, cpi, batches),
        ));
    }
    tests.push(test(
        "assembly, public values that the original drops are refused",
        (9 * TOO_MANY.len()) as u64 * OF_TOO_MANY,
        too_many,
    ));
    tests
}

/// Public values that a batch has room for.
pub fn most_public(cpi: usize) -> usize {
    WITNESS_COLUMNS * cpi - 1
}

/// The lower columns of each cycle: bits, or elements of any kind.
pub fn any_cycles(numbers: &mut Numbers, cpi: usize) -> Vec<Vec<Gf128>> {
    let bits = numbers.below(2) == 0;
    let mut element = |_| Gf128(if bits { numbers.bit() } else { numbers.dense() });
    let mut cycle = |_| (0..WITNESS_COLUMNS).map(&mut element).collect();
    (0..cpi).map(&mut cycle).collect()
}

/// The original's batch.
pub fn right_batch(cpi: usize, cycles: &[Vec<Gf128>], public: &[Gf128]) -> Vec<u64> {
    let geometry = original::geometry(cpi);
    words_of(&original::assemble_instance_z(&geometry, cycles, public))
}

fn random(tally: &mut Tally, cpi: usize, batches: usize) {
    in_parts(tally, batches, |tally, part| {
        let mut numbers = Numbers::for_part(84, (cpi << 32 | part) as u64);
        let cycles = any_cycles(&mut numbers, cpi);
        let public = match part {
            0 => public(&mut numbers, most_public(cpi)),
            1 => Vec::new(),
            _ => any_public(&mut numbers, most_public(cpi)),
        };
        let mut batch = Lent::of(&vec![0; 2 * COLUMNS * cpi]);
        batch.must_become_all(numbers.next(), &right_batch(cpi, &cycles, &public));
        let mut lent = [words_of(&cycles.concat()), words_of(&public)].map(|w| Lent::of(&w));
        let [cycles, public] = &lent;
        let place = || format!("batch {part} of {cpi} cycles");
        let words = batch.words_mut();
        let answer = product::assemble(cpi, cycles.words(), public.words(), words);
        tally.same(place, answer, 0);
        let wrong = || format!("{}, first wrong word", place());
        tally.same(wrong, batch.first_wrong(), None);
        let others = || format!("{}, cycles and public values unchanged", place());
        let unchanged = lent.each_mut().map(Lent::is_right);
        tally.same(others, unchanged, [true; 2]);
    });
}

fn too_many(tally: &mut Tally) {
    for cpi in SIZES {
        let mut numbers = Numbers::for_part(85, cpi as u64);
        let cycles = any_cycles(&mut numbers, cpi);
        for past in TOO_MANY {
            let place = || format!("{past} public values too many for {cpi} cycles");
            let public = public(&mut numbers, most_public(cpi) + past);
            let dropped = right_batch(cpi, &cycles, &public);
            let fitting = right_batch(cpi, &cycles, &public[..most_public(cpi)]);
            tally.same(place, dropped == fitting, true);
            let mut batch = Lent::of(&vec![numbers.next(); 2 * COLUMNS * cpi]);
            let (cycles, public) = (words_of(&cycles.concat()), words_of(&public));
            let answer = product::assemble(cpi, &cycles, &public, batch.words_mut());
            tally.same(place, answer, refusal(PUBLIC_LENGTH).answer());
            tally.same(place, batch.first_wrong(), None);
        }
    }
}
