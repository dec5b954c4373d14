//! Writes the vector file of the program `replay` to standard output: a sample of the original's answers, so that they are replayed
//! where the original is not at hand. What the original does not have is document 01's: refusals, the bit test and the step
//! conditions, by the readings of it that the comparison has. That a branch is reserved is document 02's.

#[allow(dead_code)] // of each of these files the comparison uses more
#[path = "../../verdict/answer.rs"]
mod answer;
#[allow(dead_code)]
#[path = "../../filler/conditions.rs"]
mod conditions;
#[allow(dead_code)]
#[path = "../../house.rs"]
mod house;
mod listings;
mod makers;
mod steps;
mod wrong;

use magnetar_cpu::circuit::{
    assemble_instance_z, build_circuit_batched, check_row, witness_row, CircuitSpec, WITNESS_LAYOUT,
};
use magnetar_cpu::{execute, expand_program};
use magnetar_field::{mul, Gf128, ONE};
use magnetar_spartan::SparseMatrix;

const REFUSED: u64 = 1 << 63;

/// The batches that `replay` has room for.
const SIZES: [usize; 3] = [1, 2, 4];

/// Rows of a cycle that a mark stands for; the others are padding.
const BIN_ROWS: usize = 483;
const FLD_ROWS: usize = 31;

/// Every width of load and store, shifts, both comparisons, taken and untaken branches, and the halt.
const PROGRAM: [u32; 14] = [
    0x0000_3303, // ld   x6, 0(x0)
    0x0065_0533, // add  x10, x10, x6
    0x0035_1393, // slli x7, x10, 3
    0x0073_4333, // xor  x6, x6, x7
    0x04a0_3023, // sd   x10, 64(x0)
    0x0410_4403, // lbu  x8, 65(x0)
    0x0460_5483, // lhu  x9, 70(x0)
    0x4085_04b3, // sub  x9, x10, x8
    0x0064_4463, // blt  x8, x6, 8
    0x0010_0593, // addi x11, x0, 1
    0x0064_6463, // bltu x8, x6, 8
    0x0020_0593, // addi x11, x0, 2
    0x0000_0013, // addi x0, x0, 0
    0x0000_0073, // ecall
];
const INPUT: u64 = 0x8123_4567_89ab_cdef;

/// The first lines of the file.
const DESCRIPTION: &str = "\
# A sample of the original's answers (idrees2516/magnetar, commit ed6841cc0e), written by host/compare's program vectors.
# A line is a letter and numbers. Numbers are in hex, in these lines too. Refusals, the bit test and the step conditions, which the
# original does not have, are document 01's.
# m a: product and sum of two elements (low, high, low, high) and the result (low, high). l: an element, a shift, the result.
# g: cpi, w_cols, m, one_col, w128. c z: cpi, column, cycle, batch column. b: cpi, batch column, column, cycle.
# t: opcode, funct3, RS1, RS2, and 0 for no branch, 1 taken, 2 not taken, 3 reserved: so document 02; the original says not taken there.
# 0: all elements of the batch become 0. s: column, low, high. w: 40 columns from one on, so far apart, hold the bits of a word.
# Z: all lent words become 0. W: as w, for the lent words. r: lent words from one on, at most seven, and 0 for those left out.
# k: cpi, the verdict on the batch against the house listing (0 accepted, 1 fails in bin, 2 in fld), batch row, rows tested in bin, rows
# tested in fld; or 3 and a refusal's number.
# v: public words, words of the row, the answer, 0 or a refusal; the row of the lent record (words 0 to 1d), ROM row (1e to 25) and
# public words (from 40 on) is the batch that is set up.
# j: cpi, words of the cycles (lent from 0 on), public words (from 4000 on), words of the batch, the answer; it is the batch that is
# set up. But for k, a refusal in the lines so far is 8000000000000000 and its number; in those that follow it is 8000000000000000,
# its place and 100000000 times its number.
# q: cpi, words of the batch, the bit test's answer: 0, or 4000000000000000, the batch column that is above 1, 100000000 times its
# column and 1000000000000 times its cycle.
# u: cpi, words of the batch, cycle, the first step condition that is not met, 0 for none.
# f: cpi, words of the batch, the answer; the lent words are filled, and are then the batch that is set up.
# p: cpi, words of the batch, place and word that is changed in the house listing, relation (0 bin), row, cycle, the answer; the lent
# words 0 to 5 are the row's sums A, B and C, or 2 after a refusal. A place past the listing's end changes nothing.
# o: place and word that is changed in the house listing, relation and row, relation and row of the next, a place in both, the answer
# to the opening; the lent words 0 to 7 are of each row start, end, the word at that place and the reader's position.
";

fn main() {
    print!("{DESCRIPTION}");
    field();
    columns();
    checks(1);
    checks(4);
    println!("# From here on batches with one given column changed, filled by the product; the verdicts are the original's.");
    fillings(1);
    fillings(4);
    println!("# From here on rows and batches that the original makes, and its branches.");
    makers::rows();
    makers::batches();
    makers::branches();
    println!("# From here on the check's refusals, the bit test, the step conditions, batches that the original makes and the filler");
    println!("# fills, rows' sums and the listing reader.");
    for cpi in [0, 3, 0x101] {
        println!("k {cpi:x} 3 {:x} 0 0", answer::SIZE);
    }
    steps::bits();
    steps::conditions();
    steps::fillings();
    listings::sums();
    listings::reader();
    println!("# From here on one number of each line is another, or what is set up or lent is not what is made, or the line is none, or");
    println!("# there are fewer words than it asks for: none is as it should be.");
    wrong::lines();
    makers::wrong();
    wrong::others();
}

fn field() {
    let mut numbers = Numbers(0x5eed);
    for i in 0..128 {
        products(1 << i, 2);
        products(1 << i, 1 << (127 - i));
    }
    for _ in 0..200 {
        let (a, b) = (numbers.element(), numbers.element());
        products(a, b);
        products(a, 1);
        products(0, b);
    }
    for k in [0, 1, 2, 63, 64, 65, 126, 127, 128, 129, 1000] {
        let a = numbers.element();
        let moved = if k < 128 { a << k } else { 0 };
        println!("l {} {k:x} {}", words(a), words(moved));
    }
}

fn products(a: u128, b: u128) {
    println!(
        "m {} {} {}",
        words(a),
        words(b),
        words(mul(Gf128(a), Gf128(b)).0)
    );
    println!(
        "a {} {} {}",
        words(a),
        words(b),
        words((Gf128(a) + Gf128(b)).0)
    );
}

fn columns() {
    for cpi in [0u64, 3, 512, 1 << 40] {
        println!("g {cpi:x} {:x} 0 0 0", REFUSED + 1);
        println!("c {cpi:x} 1000 1000 {:x}", REFUSED + 1);
        println!("b {cpi:x} 0 {:x} 0", REFUSED + 1);
    }
    for cpi in (0..9).map(|k| 1 << k) {
        let geo = WITNESS_LAYOUT::geometry(cpi);
        println!(
            "g {cpi:x} {:x} {:x} {:x} {:x}",
            geo.w_cols, geo.m, geo.one_col, geo.w128
        );
        for column in [0, 5, 447, 773, 1126, 2047] {
            let cycle = (column * 7) % cpi;
            let at = geo.map_col(column, cycle);
            println!("c {cpi:x} {column:x} {cycle:x} {at:x}");
            println!("z {cpi:x} {column:x} {cycle:x} {at:x}");
            println!("b {cpi:x} {at:x} {column:x} {cycle:x}");
        }
        println!(
            "z {cpi:x} fff {:x} {:x}",
            cpi - 1,
            geo.map_z_col(4095, cpi - 1)
        );
        println!("z {cpi:x} 1000 {cpi:x} {:x}", REFUSED + 14);
        println!("z {cpi:x} 800 {cpi:x} {:x}", REFUSED + 15);
        println!("c {cpi:x} 800 {cpi:x} {:x}", REFUSED + 14);
        println!("b {cpi:x} {:x} {:x} 0", geo.one_col, REFUSED + 14);
    }
}

/// Batches of the program's cycles, each as it is and with one column after the other changed.
fn checks(cpi: usize) {
    let spec = build_circuit_batched(cpi);
    let geo = WITNESS_LAYOUT::geometry(cpi);
    let mut zero = vec![Gf128(0); geo.m];
    set_up(&zero, cpi);
    verdict(&spec, &zero, cpi);
    zero[geo.one_col] = ONE;
    println!("s {:x} 1 0", geo.one_col);
    verdict(&spec, &zero, cpi);
    let mut numbers = Numbers(cpi as u64);
    for mut z in accepted_batches(cpi) {
        set_up(&z, cpi);
        verdict(&spec, &z, cpi);
        for _ in 0..24 {
            let column = (numbers.next() % (WITNESS_LAYOUT::USED * cpi) as u64) as usize;
            let before = z[column];
            z[column] = if numbers.next() % 4 == 0 {
                Gf128(numbers.element())
            } else {
                before + ONE
            };
            put(column, z[column]);
            verdict(&spec, &z, cpi);
            z[column] = before;
            put(column, before);
        }
    }
}

/// Batches of the program's cycles with one given column changed, filled by the product.
fn fillings(cpi: usize) {
    let spec = build_circuit_batched(cpi);
    let mut numbers = Numbers(0xf111 + cpi as u64);
    for accepted in accepted_batches(cpi) {
        for _ in 0..3 {
            let mut z = accepted.clone();
            let column = given_column(&mut numbers) * cpi + numbers.next() as usize % cpi;
            z[column] = z[column] + ONE;
            fill(&mut z, cpi);
            set_up(&z, cpi);
            verdict(&spec, &z, cpi);
        }
    }
}

fn given_column(numbers: &mut Numbers) -> usize {
    loop {
        let column = numbers.next() as usize % WITNESS_LAYOUT::USED;
        if !is_derived(column) {
            return column;
        }
    }
}

fn is_derived(column: usize) -> bool {
    matches!(column, 448..=511 | 576..=767 | 773 | 779 | 896..=953 | 1024..=1126)
}

fn fill(z: &mut [Gf128], cpi: usize) {
    let mut words: Vec<u64> = z
        .iter()
        .flat_map(|element| [element.0 as u64, (element.0 >> 64) as u64])
        .collect();
    assert_eq!(product::fill(cpi, &mut words), 0, "the filler refuses");
    for (element, words) in z.iter_mut().zip(words.chunks_exact(2)) {
        element.0 = u128::from(words[0]) | u128::from(words[1]) << 64;
    }
}

fn accepted_batches(cpi: usize) -> Vec<Vec<Gf128>> {
    let trace = execute(&PROGRAM, &[INPUT], 64);
    let public = [Gf128(trace.final_state.output.into()), Gf128(INPUT.into())];
    let rom = expand_program(&PROGRAM).rows;
    let rows: Vec<_> = trace
        .records
        .iter()
        .map(|record| witness_row(record, &rom[record.micro_pc].row, &public))
        .collect();
    let geo = WITNESS_LAYOUT::geometry(cpi);
    rows.chunks_exact(cpi)
        .take(if cpi == 1 { 20 } else { 3 })
        .map(|rows| assemble_instance_z(&geo, rows, &public))
        .collect()
}

/// The lines that make the batch, from nothing.
fn set_up(z: &[Gf128], cpi: usize) {
    println!("0");
    for cycle in 0..cpi {
        for start in (0..WITNESS_LAYOUT::W_COLS).step_by(64) {
            let word = (0..64).fold(0, |word, i| {
                word | (z[(start + i) * cpi + cycle].0 as u64) << i
            });
            if word != 0 {
                println!("w {:x} {cpi:x} {word:x}", start * cpi + cycle);
            }
        }
    }
    for (column, element) in z.iter().enumerate().skip(WITNESS_LAYOUT::W_COLS * cpi) {
        if element.0 != 0 {
            put(column, *element);
        }
    }
}

fn put(column: usize, element: Gf128) {
    println!("s {column:x} {}", words(element.0));
}

fn verdict(spec: &CircuitSpec, z: &[Gf128], cpi: usize) {
    let [cpi, kind, row, bin, fld] = judged(spec, z, cpi);
    println!("k {cpi:x} {kind:x} {row:x} {bin:x} {fld:x}");
}

/// The original's verdict, and the first row of its matrices that does not hold: the numbers of a line k.
fn judged(spec: &CircuitSpec, z: &[Gf128], cpi: usize) -> [u64; 5] {
    let bin = first_failing([&spec.a_bin, &spec.b_bin, &spec.c_bin], z);
    let fld = first_failing([&spec.a_fld, &spec.b_fld, &spec.c_fld], z);
    let said = check_row(spec, z).err();
    let (kind, row, bin, fld) = match (bin, fld) {
        (Some(row), _) => (1, row, tested(row, 512, BIN_ROWS), 0),
        (None, Some(row)) => (2, row, BIN_ROWS * cpi, tested(row, 32, FLD_ROWS)),
        (None, None) => (0, 0, BIN_ROWS * cpi, FLD_ROWS * cpi),
    };
    assert_eq!(
        said,
        [None, Some("bin"), Some("fld")][kind],
        "the original's check and its matrices disagree"
    );
    [cpi, kind, row, bin, fld].map(|number| number as u64)
}

fn first_failing([a, b, c]: [&SparseMatrix; 3], z: &[Gf128]) -> Option<usize> {
    let (a, b, c) = (a.apply(z), b.apply(z), c.apply(z));
    (0..a.len()).find(|&row| mul(a[row], b[row]) != c[row])
}

/// How many marks of one relation are tested up to a batch row, that one included.
fn tested(batch_row: usize, padded: usize, marks: usize) -> usize {
    batch_row / padded * marks + batch_row % padded + 1
}

fn words(element: u128) -> String {
    format!("{:x} {:x}", element as u64, element >> 64)
}

/// SplitMix64, the same in every run.
struct Numbers(u64);

impl Numbers {
    fn next(&mut self) -> u64 {
        self.0 = self.0.wrapping_add(0x9e37_79b9_7f4a_7c15);
        let mut z = self.0;
        z = (z ^ z >> 30).wrapping_mul(0xbf58_476d_1ce4_e5b9);
        z = (z ^ z >> 27).wrapping_mul(0x94d0_49bb_1331_11eb);
        z ^ z >> 31
    }

    fn element(&mut self) -> u128 {
        u128::from(self.next()) << 64 | u128::from(self.next())
    }
}
