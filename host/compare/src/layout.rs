//! The columns' constants and the segments, against the original's `WITNESS_LAYOUT` and
//! `SEGMENTS_CPU`.

use crate::report::{test, Tally, Test};
use magnetar_cpu::{SEGMENTS_CPU, WITNESS_LAYOUT};

const COLUMNS: usize = 63;
const WIDTHS: usize = 5;
const SEGMENTS: usize = 19;
const NAME_BYTES: usize = 9;

/// Parts of a segment: start, length, then the bytes of its name.
const START: u32 = 0;
const LENGTH: u32 = 1;
const NAME: u32 = 2;
const PARTS: u32 = NAME + NAME_BYTES as u32;

/// How far past the end of a table is asked.
const PAST: [usize; 4] = [0, 1, 1 << 32, usize::MAX >> 1];

pub fn tests() -> Vec<Test> {
    let segments = SEGMENTS as u64;
    let past = PAST.len() as u64;
    vec![
        test(
            "constants of WITNESS_LAYOUT",
            COLUMNS as u64 + 1,
            columns_all,
        ),
        test("widths and default batch size", WIDTHS as u64 + 2, widths),
        test("segments' starts", 2 * segments, starts),
        test("segments' lengths", segments + 1, lengths),
        test("segments' names", segments, names),
        test(
            "past the last column, width, segment and part",
            2 * past + past * u64::from(PARTS) + 3 * segments,
            past_end,
        ),
    ]
}

/// Constants of the original by name. A flag or a field of the bus is a position there: `from` is
/// the column that it counts from.
macro_rules! constants {
    (from $from:expr; $($name:ident)*) => {
        [$((stringify!($name), $from + WITNESS_LAYOUT::$name)),*]
    };
}

/// In the order in which the product hands them out.
fn columns() -> Vec<(&'static str, usize)> {
    let plain = constants!(from 0;
        W_COLS ONE_COL M X_COLS
        RS1 RS2 RD LOAD_VAL SHIFT_OUT T1 T2 CARRY_OFF ALU SHIFT_SRC STORE_OLD STORE_SRC
        FLAGS OFF RAM_ADDR PC FETCH);
    let flags = constants!(from WITNESS_LAYOUT::FLAGS;
        F_SUB F_WE F_IS_LOAD F_IS_STORE F_IS_ARITH F_HALT F_IS_SHIFT F_IS_LOGIC
        F_LD_BYTE F_LD_HALF F_LD_WORD F_TAKEN);
    let bus = constants!(from WITNESS_LAYOUT::FETCH;
        BUS_OP BUS_RD BUS_RS1 BUS_RS2 BUS_FUNCT3 BUS_IMM);
    let derived = constants!(from 0;
        EQA PA EQB PB CA CH CH2 NH WNL
        ZERO OPSYS OPBR EQFM EQF LTSA LTSB LTUA LTUB CEQ CLT CLU ZE16 ZE8 USED);
    [&plain[..], &flags, &bus, &derived].concat()
}

fn columns_all(tally: &mut Tally) {
    let right = columns();
    tally.same(|| "number of constants".into(), COLUMNS, right.len());
    for (i, (name, column)) in right.into_iter().enumerate() {
        let place = || format!("constant {i}, {name}");
        tally.same(place, product::layout(i), Some(column as u64));
    }
}

fn widths(tally: &mut Tally) {
    let right = constants!(from 0; W_BITS OP_BITS IDX_BITS FUNCT3_BITS IMM_BITS);
    tally.same(|| "number of widths".into(), WIDTHS, right.len());
    for (i, (name, bits)) in right.into_iter().enumerate() {
        let place = || format!("width {i}, {name}");
        tally.same(place, product::width(i), Some(bits as u64));
    }
    let right = WITNESS_LAYOUT::DEFAULT_CPI as u64;
    tally.same(|| "DEFAULT_CPI".into(), product::default_cpi(), right);
}

/// The constant that each segment starts at, by name, and its column.
pub fn segment_starts() -> [(&'static str, usize); SEGMENTS] {
    constants!(from 0;
        RS1 RS2 RD LOAD_VAL SHIFT_OUT T1 T2 CARRY_OFF ALU SHIFT_SRC STORE_OLD STORE_SRC
        FLAGS OFF RAM_ADDR PC FETCH EQA ZERO)
}

/// Twice: by the constants, and by the original's rule that offsets are aligned to the lengths.
fn starts(tally: &mut Tally) {
    let starts = segment_starts();
    let mut end: usize = 0;
    for (i, (&(name, length, _), (constant, start))) in SEGMENTS_CPU.iter().zip(starts).enumerate()
    {
        let seen = product::segment(i, START);
        let place = || format!("start of {name}");
        tally.same(place, seen, Some(end.next_multiple_of(length) as u64));
        let place = || format!("start of {name}, by {constant}");
        tally.same(place, seen, Some(start as u64));
        end = start + length;
    }
}

fn lengths(tally: &mut Tally) {
    let place = || "number of segments".into();
    tally.same(place, SEGMENTS, SEGMENTS_CPU.len());
    for (i, &(name, length, _)) in SEGMENTS_CPU.iter().enumerate() {
        let place = || format!("length of {name}");
        tally.same(place, product::segment(i, LENGTH), Some(length as u64));
    }
}

/// Names are filled up with blanks.
fn names(tally: &mut Tally) {
    for (i, &(name, _, _)) in SEGMENTS_CPU.iter().enumerate() {
        let seen = (NAME..PARTS).map(|part| product::segment(i, part));
        let right = format!("{name:NAME_BYTES$}");
        let right = right.bytes().map(|byte| Some(u64::from(byte)));
        let place = || format!("name of {name}");
        tally.same(place, seen.collect::<Vec<_>>(), right.collect());
    }
}

fn past_end(tally: &mut Tally) {
    for past in PAST {
        let i = COLUMNS + past;
        tally.same(|| format!("column {i}"), product::layout(i), None);
        let i = WIDTHS + past;
        tally.same(|| format!("width {i}"), product::width(i), None);
        for part in 0..PARTS {
            let i = SEGMENTS + past;
            let place = || format!("part {part} of segment {i}");
            tally.same(place, product::segment(i, part), None);
        }
    }
    for i in 0..SEGMENTS {
        for part in [PARTS, PARTS + 1, u32::MAX] {
            let place = || format!("part {part} of segment {i}");
            tally.same(place, product::segment(i, part), None);
        }
    }
}
