//! What the pages of a row and their number of bytes turn down, each question but 16 by itself.

use product::Answer;

use super::call::{Asked, Call, OF_A_REFUSAL};
use super::lines::{bytes_of, PAGE};
use crate::columns::SIZES;
use crate::house::Relation;
use crate::listing::{BIN_ROWS, FLD_ROWS};
use crate::numbers::Numbers;
use crate::parallel::in_parts;
use crate::report::{test, Tally, Test};
use crate::verdict::answer::{
    refusal, Refusal, BATCH_LENGTH, CYCLE, LISTING_LENGTH, MUST_BE_ZERO, ROW_SOUGHT, SIZE,
};
use crate::verdict::damages::{too_long, Kind, KINDS, TOO_LONG};
use crate::verdict::lent::Lent;
use crate::verdict::listings::{self, Listing, Row, MARKS};
use crate::verdict::reader::{missing, MISSING};
use crate::verdict::refusals::{other_lengths, zero_batch, FAULTY, SIZES_REFUSED};

pub fn tests() -> Vec<Test> {
    let refused = |name: &str, calls: usize, body: fn(&mut Tally)| {
        let planned = calls as u64 * OF_A_REFUSAL;
        test(format!("pages refused, {name}"), planned, body)
    };
    let over_circuit = |(name, kind): (&str, Kind)| {
        test(
            format!("pages refused, {name}"),
            kind(&Listing::of_circuit().words()).len() as u64 * OF_A_REFUSAL,
            move |tally| damages(tally, kind),
        )
    };
    let mut tests = vec![
        refused("sizes, 1", SIZES_REFUSED.len() * 2, sizes),
        refused("batch lengths, 2", 9 * 6 * 2, batch_lengths),
        refused("long listings, 6", 9 * TOO_LONG, listing_lengths),
    ];
    tests.extend(KINDS.map(over_circuit));
    tests.extend([
        refused("rows that are not there, 13", 9 * MISSING, rows_missing),
        refused("every row of no listing, 13", MARKS + MISSING, no_rows),
        refused("cycles, 15", 9 * 4 * 2, cycles),
    ]);
    tests
}

/// A call with nothing wrong in it, over the circuit's listing.
pub fn circuit_call(cpi: usize, listing: &Listing) -> Call {
    let numbers = Numbers::for_part(97, cpi as u64);
    Call::of(cpi, &listing.words(), zero_batch(cpi), numbers)
}

/// A call with everything wrong in it but its size, and what is answered for the number of bytes.
fn wrong_call() -> (Call, Asked, Answer) {
    let call = Call::of(1, &FAULTY, Lent::of(&[1]), Numbers::for_test(98));
    let asked = Asked {
        mark: (Relation::Bin, usize::MAX),
        cycle: usize::MAX,
        bytes: 1,
    };
    (call, asked, Err(refusal(MUST_BE_ZERO)))
}

/// A row as it is asked for where nothing is wrong.
pub fn right_for(row: &Row) -> Asked {
    Asked {
        mark: row.mark(),
        cycle: 0,
        bytes: bytes_of(row),
    }
}

pub fn ok(bytes: usize) -> Answer {
    Ok(bytes as u64)
}

/// Once with all else right for one cycle, once with all else wrong.
fn sizes(tally: &mut Tally) {
    let listing = Listing::of_circuit();
    let right = right_for(&listing.rows[7]);
    let mut call = circuit_call(1, &listing);
    let (mut wrong_call, wrong, bytes) = wrong_call();
    for cpi in SIZES_REFUSED {
        (call.cpi, wrong_call.cpi) = (cpi, cpi);
        call.refuses(tally, right, ok(right.bytes), refusal(SIZE));
        wrong_call.refuses(tally, wrong, bytes, refusal(SIZE));
    }
}

fn batch_lengths(tally: &mut Tally) {
    let listing = Listing::of_circuit();
    let right = right_for(&listing.rows[BIN_ROWS]);
    let mut call = circuit_call(1, &listing);
    let (mut wrong_call, wrong, bytes) = wrong_call();
    for cpi in SIZES {
        (call.cpi, wrong_call.cpi) = (cpi, cpi);
        for len in other_lengths(zero_batch(cpi).len()) {
            for call in [&mut call, &mut wrong_call] {
                call.batch = Lent::of(&vec![0; len]);
            }
            call.refuses(tally, right, ok(right.bytes), refusal(BATCH_LENGTH));
            wrong_call.refuses(tally, wrong, bytes, refusal(BATCH_LENGTH));
        }
    }
}

/// Refused by both functions, since the number of bytes is asked of the listing too.
fn refused_by_both(tally: &mut Tally, call: &mut Call, asked: Asked, right: Refusal) {
    call.refuses(tally, asked, Err(right), right);
}

/// Where the first word is a mark, its row has all the other words, and the buffer has room for them.
fn listing_lengths(tally: &mut Tally) {
    for cpi in SIZES {
        let mut call = circuit_call(cpi, &Listing::of_circuit());
        for words in too_long() {
            let asked = Asked {
                mark: (Relation::Bin, 0),
                cycle: cpi - 1,
                bytes: words.len().div_ceil(60) * PAGE,
            };
            call.listing = Lent::of(&words);
            refused_by_both(tally, &mut call, asked, refusal(LISTING_LENGTH));
        }
    }
}

/// The row asked for is any of the circuit, before the wrong word or behind it.
fn damages(tally: &mut Tally, kind: Kind) {
    let listing = Listing::of_circuit();
    let damages = kind(&listing.words());
    in_parts(tally, damages.len(), |tally, i| {
        let damage = &damages[i];
        // The larger sizes are much memory and ask the same.
        let mut call = circuit_call(SIZES[i % 3], &listing);
        call.listing.put(damage.place, damage.word);
        let right = Refusal {
            number: damage.number,
            place: damage.place,
        };
        let row = &listing.rows[7 * i % listing.rows.len()];
        refused_by_both(tally, &mut call, right_for(row), right);
    });
}

fn rows_missing(tally: &mut Tally) {
    let listing = Listing::of_circuit();
    for cpi in SIZES {
        let mut call = circuit_call(cpi, &listing);
        for mark in missing() {
            let asked = Asked {
                mark,
                cycle: cpi - 1,
                bytes: PAGE,
            };
            refused_by_both(tally, &mut call, asked, refusal(ROW_SOUGHT));
        }
    }
}

/// Neither the first line alone nor nothing at all is laid out.
fn no_rows(tally: &mut Tally) {
    let mut call = circuit_call(1, &Listing { rows: Vec::new() });
    let marks = (0..MARKS).map(listings::mark).chain(missing());
    for (i, mark) in marks.enumerate() {
        let asked = Asked {
            mark,
            cycle: 0,
            bytes: [PAGE, 0][i % 2],
        };
        refused_by_both(tally, &mut call, asked, refusal(ROW_SOUGHT));
    }
}

/// Asked last, of a buffer that is as long as it must be.
fn cycles(tally: &mut Tally) {
    let listing = Listing::of_circuit();
    for cpi in SIZES {
        let mut call = circuit_call(cpi, &listing);
        for cycle in [cpi, cpi + 1, 1 << 32, usize::MAX] {
            for row in [0, BIN_ROWS + FLD_ROWS - 1] {
                let right = right_for(&listing.rows[row]);
                let asked = Asked { cycle, ..right };
                call.refuses(tally, asked, ok(right.bytes), refusal(CYCLE));
            }
        }
    }
}
