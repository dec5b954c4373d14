//! Packed storage, which the original has not: packing and unpacking beside one plain read and one plain
//! copy of the lower columns, the rearrangements beside a plain copy of the packed words.

use std::hint::black_box;

use magnetar_cpu::circuit::build_circuit_batched;

use crate::check::by_original;
use crate::inputs::Accepted;
use crate::reads::{self, LOWER_WORDS};
use crate::table::{fine, giga, head, line, ratio};
use crate::timing::{in_turn, Work};
use crate::CHECKS;

/// Lower columns of a cycle, and the words that they are packed into.
const COLUMNS: usize = 2048;
const PACKED_WORDS: usize = 32;

const SIZES: [usize; 9] = [1, 2, 4, 8, 16, 32, 64, 128, 256];

/// Cycles of one repetition of the rearrangements, whatever the size, and repetitions.
const CYCLES: usize = 256;
const REPETITIONS: usize = 1001;

/// How many times the read packing into cycle order may take at most, and how many GB a second of packed
/// words the rearrangements take at least in the largest batches.
const MOST: f64 = 2.0;
const LEAST: f64 = 1.0;

/// What stands in a word that is to be written.
const UNWRITTEN: u64 = 0xa5c3_96f0_5a3c_690f;

/// An entry: it reads one slice and writes another.
type Entry = fn(usize, &[u64], &mut [u64]) -> u64;

pub fn print() {
    print_packing();
    print_orders();
    println!("{NOTES}");
}

const NOTES: &str = "
Lower columns are 32,768 bytes a cycle, packed words 256. The read is a loop that joins all words of the
lower columns by a bitwise or, compiled as the packing is; the copies are Rust's. `unpack` writes the lower
columns that `pack` reads. Of every size, 64 KB of packed words are rearranged into other 64 KB in one
repetition. All of it is held against packing by single bits before it is timed.";

/// Batches that are accepted, and their packed words in both orders, by single bits.
struct Stored {
    cpi: usize,
    accepted: Accepted,
    by_batch: Vec<Vec<u64>>,
    by_cycle: Vec<Vec<u64>>,
}

impl Stored {
    fn new(cpi: usize, batches: usize) -> Stored {
        let accepted = Accepted::new(cpi, batches);
        let packed = |place: &dyn Fn(usize, usize) -> usize| -> Vec<Vec<u64>> {
            let words = accepted.words.iter();
            words.map(|batch| packed(cpi, batch, place)).collect()
        };
        Stored {
            cpi,
            by_batch: packed(&|column, cycle| column * cpi + cycle),
            by_cycle: packed(&|column, cycle| COLUMNS * cycle + column),
            accepted,
        }
    }

    fn lower(&self, batch: usize) -> &[u64] {
        &self.accepted.words[batch][..LOWER_WORDS * self.cpi]
    }

    /// Calls the entry for each slice, the written one the same for all.
    fn each(&self, entry: Entry, read: &[Vec<u64>], written: &mut [u64]) {
        for read in read {
            call(self.cpi, entry, read, written);
        }
    }

    /// Whether packing, unpacking and both rearrangements give what single bits give.
    fn hold(&self) {
        let cpi = self.cpi;
        for (i, batch) in self.accepted.words.iter().enumerate() {
            let (by_batch, by_cycle) = (&self.by_batch[i], &self.by_cycle[i]);
            let packings: [(Entry, _, _); 4] = [
                (product::pack, batch, by_batch),
                (product::pack_cycles, batch, by_cycle),
                (product::to_cycles, by_batch, by_cycle),
                (product::to_batch, by_cycle, by_batch),
            ];
            for (entry, read, right) in packings {
                let mut written = vec![UNWRITTEN; PACKED_WORDS * cpi];
                call(cpi, entry, read, &mut written);
                assert!(written == *right, "the packed words differ");
            }
            let mut unpacked = vec![UNWRITTEN; batch.len()];
            call(cpi, product::unpack, by_batch, &mut unpacked);
            let (lower, public) = unpacked.split_at(LOWER_WORDS * cpi);
            assert!(lower == self.lower(i), "the lower columns differ");
            let untouched = public.iter().all(|&word| word == UNWRITTEN);
            assert!(untouched, "public columns are written");
        }
    }
}

/// The lower columns, which are bits, with column c of cycle d at the bit that `place` says.
fn packed(cpi: usize, batch: &[u64], place: &dyn Fn(usize, usize) -> usize) -> Vec<u64> {
    let mut words = vec![0; PACKED_WORDS * cpi];
    for column in 0..COLUMNS {
        for cycle in 0..cpi {
            let bit = batch[2 * (column * cpi + cycle)];
            let at = place(column, cycle);
            words[at / 64] |= bit << (at % 64);
        }
    }
    words
}

fn call(cpi: usize, entry: Entry, read: &[u64], written: &mut [u64]) {
    let answer = entry(cpi, black_box(read), black_box(written));
    assert_eq!(answer, 0, "the product refuses");
}

fn copy(from: &[u64], to: &mut [u64]) {
    black_box(&mut to[..from.len()]).copy_from_slice(black_box(from));
}

fn print_packing() {
    head(&[
        "packed storage, which the original has not, beside one plain read of the lower columns",
        "unit",
        "read",
        "operation",
        "operation / read",
        "at most",
        "copy of the lower columns",
        "GB of lower columns a second",
        "GB copied a second",
        "original, `check_row`",
        "original / operation",
        "best of",
    ]);
    for (cpi, batches, repetitions) in CHECKS {
        let stored = Stored::new(cpi, batches);
        stored.hold();
        let ([original, read, copy], operations) = time_packing(&stored, batches, repetitions);
        for (name, most, seconds) in operations {
            line(&[
                format!("{name}, cpi {cpi}"),
                "µs a cycle".into(),
                fine(read),
                fine(seconds),
                ratio(seconds, read),
                most.map_or(String::new(), |most| most.to_string()),
                fine(copy),
                giga(8 * LOWER_WORDS, seconds),
                giga(8 * LOWER_WORDS, copy),
                fine(original),
                ratio(original, seconds),
                repetitions.to_string(),
            ]);
        }
    }
}

/// An operation by name, what it may take at most, and its seconds a cycle.
type Operation = (&'static str, Option<f64>, f64);

/// Seconds a cycle of the original's check, of the read and of the copy, and of each operation.
fn time_packing(stored: &Stored, batches: usize, repetitions: usize) -> ([f64; 3], [Operation; 4]) {
    let cpi = stored.cpi;
    let spec = build_circuit_batched(cpi);
    let words = &stored.accepted.words;
    let packed = || vec![0; PACKED_WORDS * cpi];
    let (mut by_batch, mut by_cycle) = (packed(), packed());
    let (mut first, mut second) = (packed(), packed());
    let mut copied = vec![0; LOWER_WORDS * cpi];
    let mut unpacked = words[0].clone();
    let units = cpi * batches;
    let [original, read, copy, pack, pack_cycles, two_steps, unpack] = in_turn(
        Work { units, repetitions },
        [
            &mut || by_original(&spec, &stored.accepted),
            &mut || words.iter().for_each(|batch| reads::lower(cpi, batch)),
            &mut || (0..batches).for_each(|i| copy(stored.lower(i), &mut copied)),
            &mut || stored.each(product::pack, words, &mut by_batch),
            &mut || stored.each(product::pack_cycles, words, &mut by_cycle),
            &mut || {
                for batch in words {
                    call(cpi, product::pack, batch, &mut first);
                    call(cpi, product::to_cycles, &first, &mut second);
                }
            },
            &mut || stored.each(product::unpack, &stored.by_batch, &mut unpacked),
        ],
    );
    let operations = [
        ("`pack_cycles`", Some(MOST), pack_cycles),
        ("`pack`", None, pack),
        ("`pack`, then `to_cycles`", None, two_steps),
        ("`unpack`", None, unpack),
    ];
    ([original, read, copy], operations)
}

fn print_orders() {
    head(&[
        "the two orders of packed words, which the original has not",
        "unit",
        "`to_cycles`",
        "`to_batch`",
        "plain copy",
        "at least",
        "`to_cycles`, µs a cycle",
        "`to_batch`, µs a cycle",
        "best of",
    ]);
    for cpi in SIZES {
        let stored = Stored::new(cpi, CYCLES / cpi);
        stored.hold();
        let [to_cycles, to_batch, copy] = time_orders(&stored);
        let speed = |seconds| giga(8 * PACKED_WORDS, seconds);
        let least = (cpi == 256).then(|| LEAST.to_string());
        line(&[
            format!("cpi {cpi}"),
            "GB of packed words a second".into(),
            speed(to_cycles),
            speed(to_batch),
            speed(copy),
            least.unwrap_or_default(),
            fine(to_cycles),
            fine(to_batch),
            REPETITIONS.to_string(),
        ]);
    }
}

/// Seconds a cycle of both rearrangements and of a plain copy. Each batch is rearranged into a slice of
/// its own.
fn time_orders(stored: &Stored) -> [f64; 3] {
    let cpi = stored.cpi;
    let outs = || stored.by_batch.clone();
    let (mut by_cycle, mut by_batch, mut copied) = (outs(), outs(), outs());
    let work = Work {
        units: CYCLES,
        repetitions: REPETITIONS,
    };
    let each = |entry: Entry, read: &[Vec<u64>], written: &mut [Vec<u64>]| {
        let pairs = read.iter().zip(written);
        pairs.for_each(|(read, written)| call(cpi, entry, read, written));
    };
    in_turn(
        work,
        [
            &mut || each(product::to_cycles, &stored.by_batch, &mut by_cycle),
            &mut || each(product::to_batch, &stored.by_cycle, &mut by_batch),
            &mut || {
                let pairs = stored.by_batch.iter().zip(&mut copied);
                pairs.for_each(|(read, written)| copy(read, written));
            },
        ],
    )
}
