//! Geometry, column maps and the way back, for every size of a batch, with their refusals.

use crate::original;
use crate::report::{test, Tally, Test};
use crate::verdict::answer::{refusal, COLUMN, CYCLE, SIZE};
use product::Answer;

pub const SIZES: [usize; 9] = [1, 2, 4, 8, 16, 32, 64, 128, 256];

/// Cycles of all nine sizes together.
pub const CYCLES: u64 = 511;

const W_COLS: usize = 2048;
const M: usize = 4096;

/// Batch columns past one_col that are asked for, and that are put above 1.
pub const PAST: usize = 512;

pub fn tests() -> Vec<Test> {
    let cells = CYCLES * W_COLS as u64;
    vec![
        test("geometry of the nine sizes", 9 * 8, geometry_all),
        test("P12 of the bench sheet", 7, bench_sheet),
        test("map_col, every column of every cycle", cells, map_col_all),
        test(
            "map_z_col, every column of every cycle",
            2 * cells,
            map_z_col_all,
        ),
        test("way back, every batch column", 2 * cells, way_back_all),
        test(
            "sizes that the original takes",
            LAST_SIZE as u64 + 1,
            sizes_taken,
        ),
        test(
            "sizes refused by every operation",
            REFUSED_SIZES * 11,
            sizes_refused,
        ),
        test(
            "exponents, of sizes and of what is none",
            9 + REFUSED_SIZES,
            exponents,
        ),
        test("columns refused", 9 * 6 * 8, columns_refused),
        test("cycles refused", 9 * 4 * 11, cycles_refused),
        test(
            "way back refused, the first past one_col",
            9 * (PAST as u64 + 4) * 2,
            way_back_refused,
        ),
    ]
}

fn geometry_all(tally: &mut Tally) {
    for cpi in SIZES {
        let right = original::geometry(cpi);
        let parts = [right.cpi, right.w_cols, right.m, right.one_col, right.w128];
        for part in [0, 1, 2, 3, 4, 5, 255, u32::MAX] {
            let right = parts[part.min(4) as usize];
            let place = || format!("geometry of {cpi}, part {part}");
            tally.same(place, product::geometry(cpi, part), value(right));
        }
    }
}

fn bench_sheet(tally: &mut Tally) {
    let part = |part| product::geometry(4, part);
    tally.same(|| "one_col of 4".into(), part(3), Ok(8192));
    tally.same(|| "m of 4".into(), part(2), Ok(16384));
    tally.same(|| "w128 of 4".into(), part(4), Ok(64));
    let batch_column = product::map_col(4, 5, 2);
    tally.same(|| "column 5 of cycle 2 of 4".into(), batch_column, Ok(22));
    for cpi in [0, 3, 512] {
        let place = || format!("geometry of {cpi}");
        tally.same(place, product::geometry(cpi, 0), no(SIZE));
    }
}

fn map_col_all(tally: &mut Tally) {
    for_cells(W_COLS, |cpi, column, cycle| {
        let right = value(original::geometry(cpi).map_col(column, cycle));
        let place = || cell("map_col", cpi, column, cycle);
        tally.same(place, product::map_col(cpi, column, cycle), right);
    });
}

fn map_z_col_all(tally: &mut Tally) {
    for_cells(M, |cpi, column, cycle| {
        let right = value(original::geometry(cpi).map_z_col(column, cycle));
        let place = || cell("map_z_col", cpi, column, cycle);
        tally.same(place, product::map_z_col(cpi, column, cycle), right);
    });
}

/// The way back has no original: it is held against the original's `map_col`.
fn way_back_all(tally: &mut Tally) {
    for_cells(W_COLS, |cpi, column, cycle| {
        let batch_column = original::geometry(cpi).map_col(column, cycle);
        let place = || format!("way back from batch column {batch_column} of {cpi} cycles");
        let back = |part| product::way_back(cpi, batch_column, part);
        tally.same(place, back(0), value(column));
        // Any part but 0 is the cycle; the ones tried go through several.
        tally.same(place, back(1 + column as u32), value(cycle));
    });
}

const LAST_SIZE: usize = 1024;

/// Both refuse what is no power of two. The original takes 512 and 1,024, which the product refuses.
fn sizes_taken(tally: &mut Tally) {
    for cpi in 0..=LAST_SIZE {
        let right = if original::takes_size(cpi) && cpi <= 256 {
            value(cpi)
        } else {
            no(SIZE)
        };
        let place = || format!("geometry of {cpi}");
        tally.same(place, product::geometry(cpi, 0), right);
    }
}

pub const REFUSED_SIZES: u64 = LAST_SIZE as u64 + 1 - 9 + 53 + 4;

/// Sizes from 0 to 1,024 that are not allowed, the larger powers of two, and a few that look like an
/// allowed one to a test of too few bits.
pub fn refused_sizes() -> Vec<usize> {
    let mut sizes: Vec<usize> = (0..=LAST_SIZE).filter(|cpi| !SIZES.contains(cpi)).collect();
    sizes.extend((11..64).map(|k| 1 << k));
    sizes.extend([usize::MAX, (1 << 32) + 1, (1 << 32) + 256, (1 << 63) + 4]);
    sizes
}

/// The size is asked first, whatever else is wrong with the call.
fn sizes_refused(tally: &mut Tally) {
    const MUST_BE_ZERO: u32 = 1 << 20;
    const FLD_ROW_32: u32 = 0xe000_0020;
    for cpi in refused_sizes() {
        let answers = [
            product::geometry(cpi, 0),
            product::geometry(cpi, 4),
            product::map_col(cpi, 0, 0),
            product::map_col(cpi, usize::MAX, usize::MAX),
            product::map_z_col(cpi, 0, 0),
            product::map_z_col(cpi, usize::MAX, usize::MAX),
            product::way_back(cpi, 0, 0),
            product::way_back(cpi, usize::MAX, 1),
            product::batched(cpi, 0, 0),
            product::batched(cpi, usize::MAX, MUST_BE_ZERO),
            product::batched(cpi, 0, FLD_ROW_32),
        ];
        for (i, answer) in answers.into_iter().enumerate() {
            tally.same(|| format!("size {cpi}, call {i}"), answer, no(SIZE));
        }
    }
}

fn exponents(tally: &mut Tally) {
    for (k, cpi) in (0..).zip(SIZES) {
        tally.same(|| format!("exponent of {cpi}"), product::exponent(cpi), k);
    }
    for cpi in refused_sizes() {
        tally.same(|| format!("exponent of {cpi}"), product::exponent(cpi), 9);
    }
}

/// The column is asked before the cycle.
fn columns_refused(tally: &mut Tally) {
    for cpi in SIZES {
        for cycle in [0, cpi - 1, cpi, cpi + 1, 1 << 40, usize::MAX] {
            for column in [W_COLS, W_COLS + 1, M, usize::MAX] {
                let place = || cell("map_col", cpi, column, cycle);
                tally.same(place, product::map_col(cpi, column, cycle), no(COLUMN));
            }
            for column in [M, M + 1, 1 << 32, usize::MAX] {
                let place = || cell("map_z_col", cpi, column, cycle);
                tally.same(place, product::map_z_col(cpi, column, cycle), no(COLUMN));
            }
        }
    }
}

/// Asked for public columns too, where the cycle does not matter to the map.
fn cycles_refused(tally: &mut Tally) {
    for cpi in SIZES {
        for cycle in [cpi, cpi + 1, 1 << 32, usize::MAX] {
            for column in [0, 1, 1000, W_COLS - 1] {
                let place = || cell("map_col", cpi, column, cycle);
                tally.same(place, product::map_col(cpi, column, cycle), no(CYCLE));
            }
            for column in [0, 1, 1000, W_COLS - 1, W_COLS, W_COLS + 1, M - 1] {
                let place = || cell("map_z_col", cpi, column, cycle);
                tally.same(place, product::map_z_col(cpi, column, cycle), no(CYCLE));
            }
        }
    }
}

fn way_back_refused(tally: &mut Tally) {
    for cpi in SIZES {
        let end = W_COLS * cpi;
        let far = [2 * end - 1, 2 * end, 1 << 32, usize::MAX];
        for batch_column in (end..end + PAST).chain(far) {
            for part in [0, 1] {
                let place = || format!("way back from batch column {batch_column} of {cpi} cycles");
                tally.same(
                    place,
                    product::way_back(cpi, batch_column, part),
                    no(COLUMN),
                );
            }
        }
    }
}

/// Every size, column below `columns` and cycle.
fn for_cells(columns: usize, mut each: impl FnMut(usize, usize, usize)) {
    for cpi in SIZES {
        for column in 0..columns {
            for cycle in 0..cpi {
                each(cpi, column, cycle);
            }
        }
    }
}

/// A refusal, whose place is 0 with all that is asked here.
pub fn no(number: u64) -> Answer {
    Err(refusal(number))
}

fn value(number: usize) -> Answer {
    Ok(number as u64)
}

fn cell(what: &str, cpi: usize, column: usize, cycle: usize) -> String {
    format!("{what}, column {column} of cycle {cycle} of {cpi}")
}
