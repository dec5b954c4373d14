//! The two rearrangements, one bit unlike all others.

use super::call::{Call, Entry, OF_A_CALL, ORDERS};
use super::reading::{in_cycles, WORDS_OF_A_CYCLE};
use crate::columns::SIZES;
use crate::numbers::Numbers;
use crate::parallel::in_parts;
use crate::report::{test, Tally, Test};
use crate::verdict::batches::{batch_column, WITNESS_COLUMNS};

/// The largest size of which every bit is tried, and how many bits of a larger one.
const EVERY_TO: usize = 8;
const DRAWN: usize = 1024;

/// What all the other bits are.
const OTHERS: [u64; 2] = [0, u64::MAX];

const PARTS: usize = 64;

pub fn tests() -> Vec<Test> {
    let of_size = |cpi: usize| {
        let bits = bits_of(cpi);
        test(
            format!("packed storage, one bit unlike the others, both orders, {bits} bits of {cpi}"),
            (bits * OTHERS.len() * ORDERS.len()) as u64 * OF_A_CALL,
            move |tally| of_size(tally, cpi),
        )
    };
    SIZES.into_iter().map(of_size).collect()
}

fn bits_of(cpi: usize) -> usize {
    if cpi <= EVERY_TO {
        WITNESS_COLUMNS * cpi
    } else {
        DRAWN
    }
}

fn of_size(tally: &mut Tally, cpi: usize) {
    in_parts(tally, PARTS, |tally, part| {
        let mut numbers = Numbers::for_part(108, (cpi << 32 | part) as u64);
        for entry in ORDERS {
            for others in OTHERS {
                let read = vec![others; WORDS_OF_A_CYCLE * cpi];
                let mut call = Call::over(&mut numbers, entry, cpi, read);
                for i in (part..bits_of(cpi)).step_by(PARTS) {
                    let drawn = numbers.below((WITNESS_COLUMNS * cpi) as u64) as usize;
                    let cell = if cpi <= EVERY_TO { i } else { drawn };
                    unlike(tally, &mut call, others, cell / cpi, cell % cpi);
                }
            }
        }
    });
}

/// Column c of cycle d alone is unlike the others, before and after.
fn unlike(tally: &mut Tally, call: &mut Call, others: u64, column: usize, cycle: usize) {
    let cpi = call.cpi;
    let (in_batch, in_cycles) = (batch_column(cpi, column, cycle), in_cycles(column, cycle));
    let (from, to) = match call.entry {
        Entry::ToCycles => (in_batch, in_cycles),
        _ => (in_cycles, in_batch),
    };
    let mut right = vec![others; WORDS_OF_A_CYCLE * cpi];
    right[to / 64] ^= 1 << (to % 64);
    call.read.put(from / 64, others ^ 1 << (from % 64));
    let place = || format!("bit {from} of {cpi} cycles unlike {others:x}");
    call.writes_these(tally, &right, &place);
    call.read.put(from / 64, others);
}
