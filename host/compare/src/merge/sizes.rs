//! Sizes of the two, questions 1 and 19: every pair of allowed sizes with the right lengths of each, every
//! pair of small numbers, and the largest numbers on either side.

use super::call::{Call, OF_A_CALL};
use super::{any_two, WORDS};
use crate::columns::{refused_sizes, REFUSED_SIZES, SIZES};
use crate::numbers::Numbers;
use crate::parallel::in_parts;
use crate::report::{test, Tally, Test};
use crate::verdict::answer::{refusal, BATCH_LENGTH, MERGED_SIZE, SIZE};
use crate::verdict::batches;
use crate::verdict::lent::Lent;

/// Every pair of numbers to here is asked, with slices of so many words.
const LAST: usize = 600;
const SHORT: [usize; 3] = [5, 5, 10];

/// What stands beside a refused size: itself, and these.
const BESIDE: [usize; 4] = [1, 2, 256, 3];

pub fn tests() -> Vec<Test> {
    let pairs = |count: usize| (count * count) as u64;
    vec![
        test(
            "merging, every pair of allowed sizes, 19 where they differ and for 256",
            3 * pairs(SIZES.len()) * OF_A_CALL,
            allowed_sizes,
        ),
        test(
            format!("merging refused, every pair of sizes to {LAST}, 1, 19 and 2"),
            pairs(LAST + 1),
            small_sizes,
        ),
        test(
            "merging refused, sizes that are not allowed on either side, 1",
            REFUSED_SIZES * (1 + 2 * BESIDE.len()) as u64 * OF_A_CALL,
            refused,
        ),
    ]
}

/// Whatever the merged batch's length: as for the first twice, as for the second twice, as for both.
fn allowed_sizes(tally: &mut Tally) {
    in_parts(tally, SIZES.len() * SIZES.len(), |tally, part| {
        let sizes = [SIZES[part % SIZES.len()], SIZES[part / SIZES.len()]];
        let [one, other] = sizes;
        let mut numbers = Numbers::for_part(152, part as u64);
        let larger = one.max(other);
        let given = any_two(&mut numbers, larger, [batches::element; 2]);
        let mut call = Call::over(&mut numbers, larger, given);
        call.sizes = sizes;
        for merged in [2 * one, 2 * other, one + other] {
            let place = || format!("sizes {one} and {other}, {merged} cycles of merged batch");
            call.lengths = [one, other, merged].map(|cycles| WORDS * cycles);
            if one == other && one < 256 {
                call.writes(tally, &place);
            } else {
                call.refuses(tally, refusal(MERGED_SIZE), &place);
            }
        }
    });
}

/// The slices have no size's length, so that what is not refused for its sizes is refused for that.
fn small_sizes(tally: &mut Tally) {
    in_parts(tally, LAST + 1, |tally, one| {
        let mut numbers = Numbers::for_part(153, one as u64);
        let mut lent = SHORT.map(|words| Lent::of(&numbers.words(words)));
        for other in 0..=LAST {
            let [first, second, batch] = &mut lent;
            let (first, second) = (first.words(), second.words());
            let answer = product::merge(one, first, other, second, batch.words_mut());
            let unchanged = lent.each_mut().map(Lent::is_right);
            let right = (refusal(asked([one, other])).answer(), [true; 3]);
            let place = || format!("sizes {one} and {other}");
            tally.same(place, (answer, unchanged), right);
        }
    });
}

/// The question that is answered with no, where the lengths are wrong.
pub fn asked(sizes: [usize; 2]) -> u64 {
    let [one, other] = sizes;
    if !sizes.iter().all(|cpi| SIZES.contains(cpi)) {
        SIZE
    } else if one != other || 2 * one > 256 {
        MERGED_SIZE
    } else {
        BATCH_LENGTH
    }
}

/// The lengths are right for one cycle, and the public columns are the same.
fn refused(tally: &mut Tally) {
    let mut numbers = Numbers::for_test(154);
    let given = any_two(&mut numbers, 1, [batches::element; 2]);
    let mut call = Call::over(&mut numbers, 1, given);
    for cpi in refused_sizes() {
        let beside = BESIDE
            .into_iter()
            .flat_map(|other| [[cpi, other], [other, cpi]]);
        for sizes in beside.chain([[cpi; 2]]) {
            call.sizes = sizes;
            call.refuses(tally, refusal(SIZE), &|| format!("sizes {sizes:?}"));
        }
    }
}
