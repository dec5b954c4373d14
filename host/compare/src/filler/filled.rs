//! Batches filled by the product: what it wrote, and what the original's `check_row` and the product's
//! checks say of them.

use product::reading;

use super::conditions::{branch_reading, Cycle, CONDITIONS};
use super::cycles::{word, Wanted};
use super::derived::{derived, first_broken};
use crate::columns::SIZES;
use crate::numbers::Numbers;
use crate::original::Gf128;
use crate::parallel::in_parts;
use crate::report::{test, Tally, Test};
use crate::verdict::answer::Verdict;
use crate::verdict::batches::{self, batch_column, Batch, ONE_COLUMN, WITNESS_COLUMNS};
use crate::verdict::judge::{of_a_house_verdict, Judge};
use crate::verdict::known::Known;
use crate::verdict::lent::Lent;

/// Every setting of eight flags, every offset, each condition broken and none.
const DIRECTED: usize = 256 * 8 * (CONDITIONS + 1);

/// Random batches of each size.
const RANDOM: [usize; 9] = [70_000, 6_000, 1_500, 600, 200, 80, 32, 16, 8];

/// Comparisons of one batch: the answer, what was written, the rows that say what, the verdicts and
/// whether they are what the conditions say, the conditions before and after, halt, taken, taken by the
/// branch reading, and those of filling and checking in one call.
fn of_a_batch(cpi: usize) -> u64 {
    9 + OF_BOTH_AT_ONCE + of_a_house_verdict(cpi)
}

/// Comparisons that `at_once` makes.
pub const OF_BOTH_AT_ONCE: u64 = 2;

/// Cycles asked of a larger batch, for each asks for bits in all of it.
const CYCLES_ASKED: usize = 8;

const HALT: usize = 773;
const TAKEN: usize = 779;

pub fn batches_filled() -> usize {
    DIRECTED + RANDOM.iter().sum::<usize>()
}

pub fn tests() -> Vec<Test> {
    let mut tests = vec![test(
        "filled rows, every setting and offset, each condition broken by itself",
        DIRECTED as u64 * (of_a_batch(1) + 1),
        directed,
    )];
    for (cpi, batches) in SIZES.into_iter().zip(RANDOM) {
        tests.push(test(
            format!("{batches} filled batches of {cpi}"),
            batches as u64 * of_a_batch(cpi) + 2,
            move |tally| random(tally, cpi, batches),
        ));
    }
    tests
}

fn directed(tally: &mut Tally) {
    let judge = Judge::of_circuit(1);
    in_parts(tally, DIRECTED, |tally, part| {
        let mut numbers = Numbers::for_part(70, part as u64);
        let (setting, broken) = (part / (CONDITIONS + 1), part % (CONDITIONS + 1));
        let output = output(&mut numbers);
        let wanted = Wanted {
            setting: setting as u32 >> 3,
            off: setting as u32 & 7,
            broken,
            output,
        };
        let cycle = wanted.make(&mut numbers);
        let place = || format!("setting {setting:#x}, condition {broken}: {cycle:x?}");
        tally.same(place, cycle.unmet(output), wanted.unmet());
        let cycles = [cycle.clone()];
        fills(tally, &judge, &mut numbers, &cycles, output, &place);
    });
}

/// Batches that meet the conditions, that break one in one cycle, and that break any.
fn random(tally: &mut Tally, cpi: usize, batches: usize) {
    let judge = Judge::of_circuit(cpi);
    in_parts(tally, batches, |tally, part| {
        let mut numbers = Numbers::for_part(71, (cpi << 32 | part) as u64);
        let output = output(&mut numbers);
        let cycles = cycles(&mut numbers, cpi, part, output);
        let place = || format!("batch {part} of {cpi} cycles");
        fills(tally, &judge, &mut numbers, &cycles, output, &place);
    });
    // The same numbers again: both verdicts must have been frequent.
    let accepted = |part: &usize| {
        let mut numbers = Numbers::for_part(71, (cpi << 32 | part) as u64);
        let output = output(&mut numbers);
        let cycles = cycles(&mut numbers, cpi, *part, output);
        cycles.iter().all(|cycle| cycle.first_unmet(output) == 0)
    };
    let accepted = (0..batches).filter(accepted).count();
    tally.same(|| "accepted ones".into(), accepted * 3 >= batches, true);
    let others = batches - accepted;
    tally.same(|| "those that fail".into(), others * 3 >= batches, true);
}

fn cycles(numbers: &mut Numbers, cpi: usize, part: usize, output: u128) -> Vec<Cycle> {
    let broken = |numbers: &mut Numbers| 1 + numbers.below(CONDITIONS as u64) as usize;
    let breaker = numbers.below(cpi as u64) as usize;
    let mut make = |cycle: usize| {
        let broken = match part % 8 {
            0..=3 => 0,
            4..=6 if cycle == breaker => broken(numbers),
            4..=6 => 0,
            _ if numbers.below(2) == 0 => broken(numbers),
            _ => 0,
        };
        Wanted::any(numbers, broken, output).make(numbers)
    };
    (0..cpi).map(&mut make).collect()
}

/// Narrow ones and repeated bytes suit the halts that load; one in eight has a high word.
pub fn output(numbers: &mut Numbers) -> u128 {
    let low = match numbers.below(4) {
        0 => numbers.below(1 << 8),
        1 => numbers.below(1 << 16),
        2 => numbers.below(1 << 8) * 0x0101_0101_0101_0101,
        _ => word(numbers),
    };
    let high = match numbers.below(8) {
        0 => word(numbers),
        _ => 0,
    };
    u128::from(high) << 64 | u128::from(low)
}

/// The cycles in a batch with random bits in all other given columns and anything in the derived
/// and the other public ones.
pub fn batch_of(numbers: &mut Numbers, cycles: &[Cycle], output: u128) -> Batch {
    let cpi = cycles.len();
    let mut z = batches::bits(numbers, cpi);
    for (d, cycle) in cycles.iter().enumerate() {
        let mut put = |first: usize, bits: usize, word: u64| {
            for i in 0..bits {
                z[(first + i) * cpi + d] = Gf128(u128::from(word >> i & 1));
            }
        };
        put(0, 64, cycle.rs1);
        put(64, 64, cycle.rs2);
        put(128, 64, cycle.rd);
        put(192, 64, cycle.load_val);
        put(256, 64, cycle.shift_out);
        put(320, 64, cycle.t1);
        put(384, 64, cycle.t2);
        put(512, 64, cycle.alu);
        put(768, 16, u64::from(cycle.flags));
        put(784, 3, u64::from(cycle.off));
        put(792, 8, cycle.ram_addr);
        put(832, 7, cycle.opcode);
        put(832 + 25, 3, cycle.funct3);
        for column in derived() {
            z[column * cpi + d] = Gf128(batches::element(numbers));
        }
    }
    let one_col = ONE_COLUMN * cpi;
    z[one_col] = Gf128(1);
    z[one_col + 1] = Gf128(output);
    for element in &mut z[one_col + 2..] {
        element.0 |= u128::from(numbers.next()) << 64;
    }
    Batch::of(cpi, z)
}

/// Fills, and takes over what was written if it is bits in derived columns and nothing else.
pub fn fill(tally: &mut Tally, batch: &mut Batch, place: &dyn Fn() -> String) {
    let cpi = batch.cpi;
    tally.same(place, product::fill(cpi, batch.words.words_mut()), 0);
    for column in derived() {
        for cycle in 0..cpi {
            let at = batch_column(cpi, column, cycle);
            let bit = batch.words.words()[2 * at] & 1;
            batch.words.must_become(2 * at, bit);
            batch.words.must_become(2 * at + 1, 0);
            batch.z[at] = Gf128(bit.into());
        }
    }
    let written = || format!("{}, bits in the derived columns alone", place());
    tally.same(written, batch.words.is_right(), true);
}

/// A batch of any cycles that meet the conditions, filled. That it is accepted is for the caller to
/// see.
pub fn accepted(numbers: &mut Numbers, cpi: usize, output: u128) -> Batch {
    let cycle = |_| Wanted::any(numbers, 0, output).make(numbers);
    let cycles: Vec<Cycle> = (0..cpi).map(cycle).collect();
    filled(numbers, &cycles, output)
}

/// The cycles in a batch that is filled.
pub fn filled(numbers: &mut Numbers, cycles: &[Cycle], output: u128) -> Batch {
    let mut batch = batch_of(numbers, cycles, output);
    fill(&mut Tally::default(), &mut batch, &String::new);
    batch
}

fn fills(
    tally: &mut Tally,
    judge: &Judge,
    numbers: &mut Numbers,
    cycles: &[Cycle],
    output: u128,
    place: &dyn Fn() -> String,
) {
    let cpi = cycles.len();
    let mut batch = batch_of(numbers, cycles, output);
    let unmet: Vec<u64> = cycles.iter().map(|c| c.first_unmet(output)).collect();
    let accepted = unmet.iter().all(|&k| k == 0);

    let mut asked: Vec<usize> = (0..cpi).collect();
    if cpi > CYCLES_ASKED {
        let mut any = |_| numbers.below(cpi as u64) as usize;
        asked = (2..CYCLES_ASKED).map(&mut any).collect();
        // The last cycle, and the first that breaks a condition.
        asked.push(cpi - 1);
        asked.push(unmet.iter().position(|&k| k != 0).unwrap_or(0));
    }
    let right: Vec<u64> = asked.iter().map(|&d| unmet[d]).collect();

    let before = || format!("{}, conditions before", place());
    tally.same(before, ask(&batch, &asked), right.clone());
    fill(tally, &mut batch, place);
    let after = || format!("{}, conditions after", place());
    tally.same(after, ask(&batch, &asked), right);

    let rows = || format!("{}, rows that define derived columns", place());
    tally.same(rows, first_broken(&judge.constraints, &batch.z), None);
    let verdict = judge.judge_house(tally, &mut batch, place);
    let as_met = || format!("{}, accepted where all conditions are met", place());
    tally.same(as_met, verdict.relation().is_none(), accepted);
    at_once(tally, numbers, Known::House, &batch, verdict, place);

    let bit = |column: usize, d: usize| batch.z[column * cpi + d].0 == 1;
    let halt: Vec<bool> = (0..cpi).map(|d| bit(HALT, d)).collect();
    let right = cycles.iter().map(Cycle::halts).collect();
    tally.same(|| format!("{}, halt", place()), halt, right);
    let comparing = || (0..cpi).filter(|&d| cycles[d].compares());
    let taken: Vec<bool> = comparing().map(|d| bit(TAKEN, d)).collect();
    let right = comparing().map(|d| cycles[d].takes()).collect();
    tally.same(|| format!("{}, taken", place()), taken, right);
    let other = (0..cpi).find(|&d| !taken_as_read(&cycles[d], bit(TAKEN, d)));
    let by_reading = || {
        format!(
            "{}, a cycle read otherwise, or taken not as it is read",
            place()
        )
    };
    tally.same(by_reading, other, None);
}

/// Whether the product reads the cycle as the papers do, and taken is as it is read: in a cycle that
/// compares 1 exactly for taken, and in every cycle 0 for no branch and for one that is reserved.
fn taken_as_read(cycle: &Cycle, taken: bool) -> bool {
    let (opcode, funct3) = (cycle.opcode as u32, cycle.funct3 as u32);
    let right = branch_reading(opcode, funct3, cycle.rs1, cycle.rs2);
    let as_it_is_read = match right {
        reading::NO_BRANCH | reading::RESERVED => !taken,
        _ => !cycle.compares() || taken == (right == reading::TAKEN),
    };
    as_it_is_read && product::read_branch(opcode, funct3, cycle.rs1, cycle.rs2) == right
}

/// A filled batch with anything else in its derived columns, filled and checked in one call: it is
/// filled again, and the verdict on it is the same.
pub fn at_once(
    tally: &mut Tally,
    numbers: &mut Numbers,
    known: Known,
    batch: &Batch,
    verdict: Verdict,
    place: &dyn Fn() -> String,
) {
    let cpi = batch.cpi;
    let mut words = Lent::of(batch.words.words());
    for column in derived() {
        for cycle in 0..cpi {
            let at = 2 * batch_column(cpi, column, cycle);
            let anything = batches::element(numbers);
            words.words_mut()[at] = anything as u64;
            words.words_mut()[at + 1] = (anything >> 64) as u64;
        }
    }
    let answer = product::fill_and_check(known, cpi, words.words_mut());
    let both = || format!("{}, filled and checked in one call, {known:?}", place());
    tally.same(both, answer, verdict.number());
    let left = || format!("{}, and what is left of it", place());
    tally.same(left, words.first_wrong(), None);
}

fn ask(batch: &Batch, cycles: &[usize]) -> Vec<u64> {
    let words = batch.words.words();
    let first_unmet = |&cycle: &usize| product::first_unmet(batch.cpi, words, cycle);
    cycles.iter().map(first_unmet).collect()
}

/// The first of the public columns.
pub fn one_col(cpi: usize) -> usize {
    WITNESS_COLUMNS * cpi
}
