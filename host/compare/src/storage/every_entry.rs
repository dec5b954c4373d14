//! All five entries over random batches and packed words of every size.

use super::call::{Call, ENTRIES, OF_A_CALL};
use crate::columns::SIZES;
use crate::numbers::Numbers;
use crate::parallel::in_parts;
use crate::report::{test, Tally, Test};

/// Batches of each size, and packed words of as many.
const BATCHES: [usize; 9] = [512, 256, 128, 64, 32, 16, 8, 8, 8];

pub fn tests() -> Vec<Test> {
    let of_size = |(cpi, batches): (usize, usize)| {
        test(
            format!("packed storage, all five entries, {batches} batches of {cpi}"),
            (batches * ENTRIES.len()) as u64 * OF_A_CALL,
            move |tally| of_size(tally, cpi, batches),
        )
    };
    SIZES.into_iter().zip(BATCHES).map(of_size).collect()
}

fn of_size(tally: &mut Tally, cpi: usize, batches: usize) {
    in_parts(tally, batches, |tally, part| {
        let mut numbers = Numbers::for_part(106, (cpi << 32 | part) as u64);
        for entry in ENTRIES {
            let mut call = Call::random(&mut numbers, entry, cpi);
            call.writes(tally, &|| format!("batch {part} of {cpi}"));
        }
    });
}
