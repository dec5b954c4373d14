//! What an accepted row does not say: for each point the smallest row that is no step of RV64I and
//! that the check accepts all the same. docs/PROOF.md has them as a table.
//!
//! The columns of a row are its instruction, the flags under which a condition speaks of what the
//! point is about, and the fewest further ones: that no fewer do is tried with every choice of
//! given columns. Each row stays accepted when all the rest is put as the original's interpreter
//! has it. Beside each point stands what the strict listing says of both rows; each of the rows that
//! it adds refuses one.

use words::elements_of;

use super::step::Step;
use crate::filler::derived::given;
use crate::house::Relation;
use crate::original;
use crate::report::{test, Tally, Test};
use crate::verdict::batches::{batch_column, Batch, ONE_COLUMN};
use crate::verdict::forms::{self, FORMS};
use crate::verdict::known::{self, Known};

/// Comparisons of a row: by the product's check, by its conditions, by the original, by the strict listing, and
/// that RV64I is broken.
const OF_A_ROW: u64 = 5;

/// What the strict listing says.
enum Strict {
    Accepts,
    /// In this bin row.
    Fails(usize),
}

/// One point, for batches of one cycle.
struct Unbound {
    name: &'static str,
    /// The instruction, and the flags under which a condition speaks of the point.
    named: &'static [usize],
    /// The fewest further columns.
    further: &'static [usize],
    /// What else the interpreter has in such a row.
    rest: &'static [usize],
    /// Public element one_col + 1.
    output: u64,
    /// Of the smallest row, and of the one with all the rest.
    strict: Strict,
    /// Is it such a row, and no step of RV64I?
    breaks: fn(&Step) -> bool,
}

const RS1: usize = 0;
const RS2: usize = 64;
const RD: usize = 128;
const LOAD_VAL: usize = 192;
const T1: usize = 320;
const T2: usize = 384;
const ALU: usize = 512;
const SUB: usize = 768;
const WE: usize = 769;
const LOAD: usize = 770;
const STORE: usize = 771;
const ARITH: usize = 772;
const SHIFT: usize = 774;
const LOGIC: usize = 775;
const LD_BYTE: usize = 776;
const LD_HALF: usize = 777;
const LD_WORD: usize = 778;
const TAKEN: usize = 779;
const OFF: usize = 784;
const RAM_ADDR: usize = 792;
const PC: usize = 800;
/// Bits of the opcode on the instruction bus.
const OP0: usize = 832;
const OP1: usize = 833;
const OP2: usize = 834;
const OP3: usize = 835;
const OP4: usize = 836;
const OP5: usize = 837;
const OP6: usize = 838;
/// Registers on the bus: x1, or what stands there for x0 as destination, which is 32.
const RD_X1: usize = 839;
const RD_X0: usize = 844;
const RS1_X1: usize = 845;
const RS2_X1: usize = 851;
/// Bits of funct3 and of the immediate.
const F0: usize = 857;
const F1: usize = 858;
const F2: usize = 859;
const IMM: usize = 860;

const ALL: [Unbound; 34] = [
    Unbound {
        name: "ADD with arithmetic clear does not add",
        named: &[OP0, OP1, OP4, OP5, RD_X1, WE],
        further: &[RS1],
        rest: &[RS1_X1, T1],
        output: 0,
        strict: Strict::Accepts,
        breaks: |s| s.is_op(0) && s.has(WE) && s.writes() && s.rd != s.rs1 + s.rs2,
    },
    Unbound {
        name: "ADD with WE clear leaves RD open",
        named: &[OP0, OP1, OP4, OP5, RD_X1],
        further: &[RD],
        rest: &[ARITH],
        output: 0,
        strict: Strict::Accepts,
        breaks: |s| s.is_op(0) && !s.has(WE) && s.writes() && s.rd != s.rs1 + s.rs2,
    },
    Unbound {
        name: "LB with load clear loads nothing",
        named: &[OP0, OP1, RD_X1],
        further: &[LOAD_VAL],
        rest: &[WE, ARITH],
        output: 0,
        strict: Strict::Accepts,
        breaks: |s| s.is_load(0) && !s.has(LOAD) && s.writes() && s.rd != s.signed_byte(s.off),
    },
    Unbound {
        name: "ADD of RS1 that is not T1",
        named: &[OP0, OP1, OP4, OP5, RD_X1, WE, ARITH],
        further: &[RS1],
        rest: &[RS1_X1],
        output: 0,
        strict: Strict::Accepts,
        breaks: |s| s.adds() && s.t1 != s.rs1 && s.rd != s.rs1 + s.rs2,
    },
    Unbound {
        name: "ADD of RS2 that is not T2",
        named: &[OP0, OP1, OP4, OP5, RD_X1, WE, ARITH],
        further: &[RS2],
        rest: &[RS2_X1],
        output: 0,
        strict: Strict::Accepts,
        breaks: |s| s.adds() && s.t2 != s.rs2 && s.rd != s.rs1 + s.rs2,
    },
    Unbound {
        name: "ADDI of an immediate that is not T2",
        named: &[OP0, OP1, OP4, RD_X1, WE, ARITH],
        further: &[IMM],
        rest: &[],
        output: 0,
        strict: Strict::Accepts,
        breaks: |s| s.is_op_imm(0) && s.adds_to_rd() && s.rd != s.rs1 + s.imm,
    },
    Unbound {
        name: "BEQ of equal registers, not taken",
        named: &[OP0, OP1, OP5, OP6],
        further: &[ALU],
        rest: &[RD_X0, SUB, ARITH],
        output: 0,
        strict: Strict::Accepts,
        // For funct3 0 taken is whether ALU is 0.
        breaks: |s| s.opcode == 0x63 && s.funct3 == 0 && s.rs1 == s.rs2 && s.alu != 0,
    },
    Unbound {
        name: "XOR does not read its operands",
        named: &[OP0, OP1, OP4, OP5, F2, RD_X1, WE, LOGIC],
        further: &[RS1],
        rest: &[RS1_X1, T1],
        output: 0,
        strict: Strict::Accepts,
        breaks: |s| {
            s.is_op(4) && s.has(WE) && s.has(LOGIC) && s.writes() && s.rd.0 != s.rs1.0 ^ s.rs2.0
        },
    },
    Unbound {
        name: "SLT writes 0",
        named: &[OP0, OP1, OP4, OP5, F1, RD_X1, WE],
        further: &[RS2],
        rest: &[RS2_X1, T2],
        output: 0,
        strict: Strict::Accepts,
        breaks: |s| s.is_op(2) && s.has(WE) && s.writes() && s.rd.0 != u64::from(s.below_signed()),
    },
    Unbound {
        name: "SLLI of something else than RS1",
        named: &[OP0, OP1, OP4, F0, RD_X1, WE, SHIFT],
        further: &[RS1],
        rest: &[RS1_X1, T1],
        output: 0,
        strict: Strict::Accepts,
        breaks: |s| {
            s.is_op_imm(1)
                && s.has(WE)
                && s.has(SHIFT)
                && s.writes()
                && s.rd.0 != s.rs1.0 << (s.imm.0 & 63)
        },
    },
    Unbound {
        name: "SLL, last stage, does not shift",
        named: &[OP0, OP1, OP4, OP5, F0, RD_X1, WE],
        further: &[RS1],
        rest: &[RS1_X1, T1],
        output: 0,
        strict: Strict::Accepts,
        breaks: |s| s.is_op(1) && s.has(WE) && s.writes() && s.rd.0 != s.rs1.0 << (s.rs2.0 & 63),
    },
    Unbound {
        name: "LUI writes anything",
        named: &[OP0, OP1, OP2, OP4, OP5, RD_X1, WE],
        further: &[RD, ALU],
        rest: &[],
        output: 0,
        strict: Strict::Accepts,
        breaks: |s| s.opcode == 0x37 && s.has(WE) && s.writes() && s.rd.0 & 0xfff != 0,
    },
    Unbound {
        name: "ADDIW keeps more than 32 bits",
        named: &[OP0, OP1, OP3, OP4, RD_X1, WE, ARITH],
        further: &[RS1 + 32, T1 + 32, ALU + 32, RD + 32],
        rest: &[RS1_X1],
        output: 0,
        strict: Strict::Accepts,
        breaks: |s| {
            let sum = (s.rs1 + s.imm).0 as i32 as u64;
            s.opcode == 0x1b
                && s.funct3 == 0
                && s.adds_to_rd()
                && s.t1 == s.rs1
                && s.t2 == s.imm
                && s.rd.0 != sum
        },
    },
    Unbound {
        name: "LB of a negative byte, sign not extended",
        named: &[OP0, OP1, RD_X1, LOAD, LD_BYTE],
        further: &[LOAD_VAL + 7, RD + 7],
        rest: &[WE, ARITH],
        output: 0,
        strict: Strict::Accepts,
        breaks: |s| s.is_load(0) && s.loads(LD_BYTE) && s.off == 0 && s.rd != s.signed_byte(0),
    },
    Unbound {
        name: "LH of a negative half, sign not extended",
        named: &[OP0, OP1, F0, RD_X1, LOAD, LD_HALF],
        further: &[LOAD_VAL + 15, RD + 15],
        rest: &[WE, ARITH],
        output: 0,
        strict: Strict::Accepts,
        breaks: |s| {
            s.is_load(1) && s.loads(LD_HALF) && s.off == 0 && s.rd.0 != s.load_val as i16 as u64
        },
    },
    Unbound {
        name: "LW of all 64 bits",
        named: &[OP0, OP1, F1, RD_X1, LOAD, LD_WORD],
        further: &[LOAD_VAL + 32, RD + 32],
        rest: &[WE, ARITH],
        output: 0,
        strict: Strict::Accepts,
        breaks: |s| {
            s.is_load(2) && s.loads(LD_WORD) && s.off == 0 && s.rd.0 != s.load_val as i32 as u64
        },
    },
    Unbound {
        name: "LW at offset 4 of the lower half",
        named: &[OP0, OP1, F1, RD_X1, LOAD, LD_WORD, OFF + 2],
        further: &[LOAD_VAL, RD],
        rest: &[WE, ARITH, IMM + 2, T2 + 2, ALU + 2],
        output: 0,
        strict: Strict::Accepts,
        breaks: |s| {
            s.is_load(2)
                && s.loads(LD_WORD)
                && s.off == 4
                && s.rd.0 != (s.load_val >> 32) as i32 as u64
        },
    },
    Unbound {
        name: "LH at offset 7 takes its upper byte from lane 0",
        named: &[OP0, OP1, F0, RD_X1, LOAD, LD_HALF, OFF, OFF + 1, OFF + 2],
        further: &[LOAD_VAL, RD + 8],
        rest: &[
            WE,
            ARITH,
            IMM,
            IMM + 1,
            IMM + 2,
            T2,
            T2 + 1,
            T2 + 2,
            ALU,
            ALU + 1,
            ALU + 2,
        ],
        output: 0,
        strict: Strict::Accepts,
        // The byte behind lane 7 is in the next word of memory, which is not in the row.
        breaks: |s| s.is_load(1) && s.loads(LD_HALF) && s.off == 7 && s.rd.0 >> 8 & 0xff != 0,
    },
    Unbound {
        name: "LB of another byte than its address says",
        named: &[OP0, OP1, RD_X1, LOAD, LD_BYTE],
        further: &[OFF, LOAD_VAL],
        rest: &[WE, ARITH],
        output: 0,
        strict: Strict::Accepts,
        breaks: |s| {
            let address = (s.rs1 + s.imm).0 & 7;
            s.is_load(0) && s.loads(LD_BYTE) && s.off != address && s.rd != s.signed_byte(address)
        },
    },
    Unbound {
        name: "SB to another address than RS1 and the immediate say",
        named: &[OP0, OP1, OP5, STORE],
        further: &[IMM + 3],
        rest: &[RD_X0, T2 + 3],
        output: 0,
        strict: Strict::Accepts,
        breaks: |s| {
            s.opcode == 0x23
                && s.has(STORE)
                && !s.has(LOAD)
                && s.ram_addr != (s.rs1 + s.imm).0 >> 3 & 0xff
        },
    },
    Unbound {
        name: "LB with load and store set, at any address",
        named: &[OP0, OP1, LOAD, STORE],
        further: &[RAM_ADDR],
        rest: &[RD_X0, WE, ARITH, LD_BYTE],
        output: 0,
        strict: Strict::Fails(483),
        breaks: |s| s.is_load(0) && s.has(LOAD) && s.has(STORE) && s.ram_addr != s.alu >> 3 & 0xff,
    },
    Unbound {
        name: "LB with LD_BYTE and LD_HALF set takes two bytes",
        named: &[OP0, OP1, RD_X1, LOAD, LD_BYTE, LD_HALF],
        further: &[LOAD_VAL + 8, RD + 8],
        rest: &[WE, ARITH],
        output: 0,
        strict: Strict::Fails(484),
        breaks: |s| {
            s.is_load(0)
                && s.loads(LD_BYTE)
                && s.has(LD_HALF)
                && s.off == 0
                && s.rd.0 > 0xff
                && s.rd != s.signed_byte(0)
        },
    },
    Unbound {
        name: "LB with LD_BYTE and LD_WORD set takes all 64 bits",
        named: &[OP0, OP1, RD_X1, LOAD, LD_BYTE, LD_WORD],
        further: &[LOAD_VAL + 32, RD + 32],
        rest: &[WE, ARITH],
        output: 0,
        strict: Strict::Fails(485),
        breaks: |s| {
            s.is_load(0)
                && s.loads(LD_BYTE)
                && s.has(LD_WORD)
                && s.off == 0
                && s.rd.0 > 0xffff
                && s.rd != s.signed_byte(0)
        },
    },
    Unbound {
        name: "LB with LD_WORD set alone takes all 64 bits",
        named: &[OP0, OP1, RD_X1, LOAD, LD_WORD],
        further: &[LOAD_VAL + 32, RD + 32],
        rest: &[WE, ARITH],
        output: 0,
        strict: Strict::Accepts,
        breaks: |s| {
            s.is_load(0)
                && s.loads(LD_WORD)
                && s.off == 0
                && s.rd.0 > 0xffff
                && s.rd != s.signed_byte(0)
        },
    },
    Unbound {
        name: "LH with LD_HALF and LD_WORD set takes all 64 bits",
        named: &[OP0, OP1, F0, RD_X1, LOAD, LD_HALF, LD_WORD],
        further: &[LOAD_VAL + 32, RD + 32],
        rest: &[WE, ARITH],
        output: 0,
        strict: Strict::Fails(486),
        breaks: |s| {
            s.is_load(1)
                && s.loads(LD_HALF)
                && s.has(LD_WORD)
                && s.off == 0
                && s.rd.0 > 0xffff
                && s.rd.0 != s.load_val as i16 as u64
        },
    },
    Unbound {
        name: "LB with load clear and LD_BYTE set writes more than a byte",
        named: &[OP0, OP1, RD_X1, LD_BYTE],
        further: &[RD + 8],
        // With WE set RD is ALU, which is the address.
        rest: &[WE, ARITH, IMM + 8, T2 + 8, ALU + 8, RAM_ADDR + 5],
        output: 0,
        strict: Strict::Fails(487),
        breaks: |s| {
            s.is_load(0)
                && !s.has(LOAD)
                && s.has(LD_BYTE)
                && s.writes()
                && s.off == 0
                && s.rd.0 > 0xff
                && s.rd != s.signed_byte(0)
        },
    },
    Unbound {
        name: "LH with load clear and LD_HALF set writes more than a half",
        named: &[OP0, OP1, F0, RD_X1, LD_HALF],
        further: &[RD + 16],
        // The same, with the address in RS1.
        rest: &[WE, ARITH, RS1_X1, RS1 + 16, T1 + 16, ALU + 16],
        output: 0,
        strict: Strict::Fails(488),
        breaks: |s| {
            s.is_load(1)
                && !s.has(LOAD)
                && s.has(LD_HALF)
                && s.writes()
                && s.off == 0
                && s.rd.0 > 0xffff
                && s.rd.0 != s.load_val as i16 as u64
        },
    },
    Unbound {
        name: "LD with load clear and LD_WORD set, at any address",
        named: &[OP0, OP1, F0, F1, LD_WORD],
        further: &[RAM_ADDR],
        rest: &[RD_X0, WE, ARITH],
        output: 0,
        strict: Strict::Fails(489),
        breaks: |s| {
            let address = (s.rs1 + s.imm).0;
            s.is_load(3)
                && !s.has(LOAD)
                && s.has(LD_WORD)
                && s.alu == address
                && s.ram_addr != address >> 3 & 0xff
        },
    },
    Unbound {
        name: "LB with load set and no width writes any byte",
        named: &[OP0, OP1, RD_X1, LOAD],
        further: &[RD],
        rest: &[WE, ARITH],
        output: 0,
        strict: Strict::Fails(490),
        breaks: |s| {
            let widths = [LD_BYTE, LD_HALF, LD_WORD];
            s.is_load(0)
                && s.has(LOAD)
                && !widths.into_iter().any(|width| s.has(width))
                && s.writes()
                && s.off == 0
                && s.rd.0 as u8 != s.load_val as u8
        },
    },
    Unbound {
        name: "LB from x0 that is 1",
        named: &[OP0, OP1],
        further: &[RS1],
        rest: &[RD_X0, WE, LOAD, LD_BYTE, ARITH, T1, ALU, OFF],
        output: 0,
        strict: Strict::Accepts,
        breaks: |s| s.is_load(0) && s.bus_rs1 == 0 && s.rs1.0 != 0,
    },
    Unbound {
        name: "LB that writes x0",
        named: &[OP0, OP1],
        further: &[RD],
        rest: &[WE, LOAD, LD_BYTE, ARITH, LOAD_VAL],
        output: 0,
        strict: Strict::Accepts,
        breaks: |s| s.is_load(0) && s.bus_rd == 0 && s.rd.0 != 0,
    },
    Unbound {
        name: "SB of x0 that is 1",
        named: &[OP0, OP1, OP5],
        further: &[RS2],
        rest: &[RD_X0, STORE],
        output: 0,
        strict: Strict::Accepts,
        breaks: |s| s.opcode == 0x23 && s.bus_rs2 == 0 && s.rs2.0 != 0,
    },
    Unbound {
        name: "AUIPC that does not read the pc",
        named: &[OP0, OP1, OP2, OP4, RD_X1, WE],
        further: &[PC],
        rest: &[],
        output: 0,
        strict: Strict::Accepts,
        breaks: |s| {
            s.opcode == 0x17 && s.has(WE) && s.writes() && s.imm.0 == 0 && s.rd.0 != 4 * s.pc
        },
    },
    Unbound {
        name: "ECALL that puts out another register than x10",
        named: &[OP0, OP1, OP4, OP5, OP6],
        further: &[RS1, RD],
        rest: &[RD_X0, T1, ALU],
        output: 1,
        strict: Strict::Accepts,
        breaks: |s| s.opcode == 0x73 && s.bus_rs1 != 10 && s.rd.0 == 1,
    },
];

pub fn tests() -> Vec<Test> {
    let mut tests: Vec<Test> = ALL
        .iter()
        .map(|unbound| {
            let name = format!("accepted, and no step of RV64I: {}", unbound.name);
            test(name, 2 * OF_A_ROW + 1, |tally| holds(tally, unbound))
        })
        .collect();
    tests.extend([
        test(
            "accepted, and no step of RV64I: JAL that does not write the return address",
            4,
            jump,
        ),
        test(
            "BEQ of equal registers, not taken: the column",
            2,
            not_taken,
        ),
        test(
            "accepted, and no step of RV64I: a branch with funct3 2 or 3, which RV64I reserves",
            2 * 2 * 5,
            reserved_branch,
        ),
        test(
            "accepted, and no step of RV64I: the next cycle at any pc",
            6,
            next_pc,
        ),
        test(
            "accepted, and no step of RV64I: a load that does not see the store before it",
            6,
            stored_word,
        ),
        test(
            "the ISA's own LB, LH, LW and SLTU fail",
            4 * 3,
            isa_results_fail,
        ),
    ]);
    tests
}

/// The columns that are 1 in each cycle, filled.
fn filled(cycles: &[&[usize]], output: u64) -> Batch {
    let cpi = cycles.len();
    let mut batch = Batch::zero(cpi);
    for (cycle, columns) in cycles.iter().enumerate() {
        for &column in columns.iter() {
            batch.put(batch_column(cpi, column, cycle), 1);
        }
    }
    batch.put(batch_column(cpi, ONE_COLUMN, 0), 1);
    batch.put(batch_column(cpi, ONE_COLUMN + 1, 0), output.into());
    let mut words = batch.words.words().to_vec();
    let answer = product::fill(cpi, &mut words);
    assert_eq!(answer, 0, "the filler turns down {cycles:?}");
    for (at, element) in elements_of(&words).into_iter().enumerate() {
        batch.put(at, element.0);
    }
    batch
}

/// What the product, in both its forms, and the original say of a batch.
fn verdicts(batch: &Batch) -> ([u64; FORMS], Option<Relation>) {
    let spec = original::build_circuit_batched(batch.cpi);
    let by_product = forms::of_known(Known::House, batch.cpi, batch.words.words());
    (by_product, original::check_row(&spec, &batch.z))
}

fn accepted(cpi: usize) -> [u64; FORMS] {
    [known::verdict(Known::House, cpi, None).number(); FORMS]
}

/// What the strict listing says of a batch, by the product in both its forms and by evaluation: which row is the
/// first that does not hold, if there is one.
fn strictly(
    tally: &mut Tally,
    batch: &Batch,
    first: Option<(Relation, usize)>,
    place: &dyn Fn() -> String,
) {
    let right = known::verdict(Known::Strict, batch.cpi, first);
    let by_product = forms::of_known(Known::Strict, batch.cpi, batch.words.words());
    let evaluated = known::judge(Known::Strict, batch.cpi).constraints;
    let seen = (by_product, evaluated.verdict(&batch.z));
    let strict = || format!("{}, the strict listing", place());
    tally.same(strict, seen, ([right.number(); FORMS], right));
}

fn row_holds(tally: &mut Tally, unbound: &Unbound, columns: &[usize], place: &dyn Fn() -> String) {
    let batch = filled(&[columns], unbound.output);
    let (by_product, by_original) = verdicts(&batch);
    tally.same(place, by_product, accepted(1));
    let first_unmet = product::first_unmet(1, batch.words.words(), 0);
    tally.same(|| format!("{}, conditions", place()), first_unmet, 0);
    tally.same(|| format!("{}, original", place()), by_original, None);
    let first = match unbound.strict {
        Strict::Accepts => None,
        Strict::Fails(row) => Some((Relation::Bin, row)),
    };
    strictly(tally, &batch, first, place);
    let step = Step::of(&|column| batch.z[column].0 == 1);
    let breaks = || format!("{}, RV64I broken", place());
    tally.same(breaks, (unbound.breaks)(&step), true);
}

fn holds(tally: &mut Tally, unbound: &Unbound) {
    let smallest = [unbound.named, unbound.further].concat();
    let whole = [&smallest[..], unbound.rest].concat();
    row_holds(tally, unbound, &smallest, &|| "smallest row".into());
    row_holds(tally, unbound, &whole, &|| {
        "all else as it should be".into()
    });
    let fewer = fewer(unbound);
    tally.same(|| "a row with fewer columns".into(), fewer, None);
}

/// A choice of fewer further columns that does as well. Up to two are chosen among all given
/// columns, three among the instruction, the flags and a few bits of each word.
fn fewer(unbound: &Unbound) -> Option<Vec<usize>> {
    let most = unbound.further.len() - 1;
    let few = |column: &usize| *column >= SUB || matches!(column % 64, 0 | 31 | 32 | 63);
    let columns: Vec<usize> = match most {
        3.. => given()
            .filter(few)
            .filter(|&column| column < IMM + 13)
            .collect(),
        _ => given().collect(),
    };
    let mut set = vec![false; ONE_COLUMN];
    for &column in unbound.named {
        set[column] = true;
    }
    let mut chosen = Vec::new();
    search(unbound, &columns, most, &mut set, &mut chosen)
}

fn search(
    unbound: &Unbound,
    columns: &[usize],
    most: usize,
    set: &mut Vec<bool>,
    chosen: &mut Vec<usize>,
) -> Option<Vec<usize>> {
    let step = Step::of(&|column| set[column]);
    if (unbound.breaks)(&step) && step.meets_all(unbound.output) {
        return Some(chosen.clone());
    }
    if most == 0 {
        return None;
    }
    for (i, &column) in columns.iter().enumerate() {
        if set[column] {
            continue;
        }
        set[column] = true;
        chosen.push(column);
        let found = search(unbound, &columns[i + 1..], most - 1, set, chosen);
        set[column] = false;
        chosen.pop();
        if found.is_some() {
            return found;
        }
    }
    None
}

/// JAL x1, 0 at pc 0 must write 4. RD is tied to ALU, and ALU to nothing; the target stands in no
/// column.
fn jump(tally: &mut Tally) {
    let batch = filled(&[&[OP0, OP1, OP2, OP3, OP5, OP6, RD_X1, WE]], 0);
    tally.same(|| "JAL x1, 0".into(), verdicts(&batch), (accepted(1), None));
    strictly(tally, &batch, None, &|| "JAL x1, 0".into());
    let step = Step::of(&|column| batch.z[column].0 == 1);
    tally.same(|| "opcode".into(), step.opcode, 0x6f);
    tally.same(|| "RD".into(), step.rd.0, 0);
}

/// ALU 0 takes the branch and ALU 1 does not, whatever the registers.
fn not_taken(tally: &mut Tally) {
    const BEQ: [usize; 4] = [OP0, OP1, OP5, OP6];
    for (alu, right) in [(vec![], 1), (vec![ALU], 0)] {
        let batch = filled(&[&[&BEQ[..], &alu].concat()], 0);
        tally.same(|| format!("taken, ALU {alu:?}"), batch.z[TAKEN].0, right);
    }
}

/// With all flags clear, and with the adder set to compare x0 with x0. Both have taken 0, and are read as
/// reserved.
fn reserved_branch(tally: &mut Tally) {
    const BRANCH: [usize; 4] = [OP0, OP1, OP5, OP6];
    let all_ones = (0..64).map(|i| T2 + i);
    let compares: Vec<usize> = all_ones.chain([RD_X0, SUB, ARITH]).collect();
    for (funct3, columns) in [(2, &[F1][..]), (3, &[F0, F1])] {
        for (flags, rest) in [("clear", &[][..]), ("as they compare", &compares)] {
            let batch = filled(&[&[&BRANCH[..], columns, rest].concat()], 0);
            let place = |what| format!("funct3 {funct3}, flags {flags}: {what}");
            tally.same(|| place("verdicts"), verdicts(&batch), (accepted(1), None));
            strictly(tally, &batch, None, &|| place("verdicts"));
            tally.same(|| place("taken"), batch.z[TAKEN].0, 0);
            let step = step_of(&batch, 0);
            let instruction = (step.opcode, step.funct3);
            tally.same(|| place("the instruction"), instruction, (0x63, funct3));
            let read = product::read_branch(0x63, funct3 as u32, step.rs1.0, step.rs2.0);
            tally.same(|| place("its reading"), read, product::reading::RESERVED);
        }
    }
}

/// Two ADDI x0, x0, 0, both at pc 0: the second must be at pc 1.
fn next_pc(tally: &mut Tally) {
    const ADDI: [usize; 3] = [OP0, OP1, OP4];
    const REST: [usize; 3] = [RD_X0, WE, ARITH];
    let whole = [ADDI, REST].concat();
    for columns in [&ADDI[..], &whole] {
        let batch = filled(&[columns, columns], 0);
        tally.same(|| "two ADDI".into(), verdicts(&batch), (accepted(2), None));
        strictly(tally, &batch, None, &|| "two ADDI".into());
        let pcs = [0, 1].map(|cycle| step_of(&batch, cycle).pc);
        tally.same(|| "their pcs".into(), pcs, [0; 2]);
    }
}

/// SB of 1 to address 0, then LB from there: it must load 1. The word that is stored stands in no
/// column.
fn stored_word(tally: &mut Tally) {
    const SB: [usize; 5] = [OP0, OP1, OP5, STORE, RS2];
    const LB: [usize; 5] = [OP0, OP1, RD_X1, LOAD, LD_BYTE];
    let whole_sb = [&SB[..], &[RD_X0, RS2_X1]].concat();
    let whole_lb = [&LB[..], &[WE, ARITH]].concat();
    for columns in [[&SB[..], &LB], [&whole_sb, &whole_lb]] {
        let batch = filled(&columns, 0);
        let place = || "SB, LB".into();
        tally.same(place, verdicts(&batch), (accepted(2), None));
        strictly(tally, &batch, None, &place);
        let (store, load) = (step_of(&batch, 0), step_of(&batch, 1));
        let seen = (store.rs2.0, store.ram_addr, load.ram_addr, load.rd.0);
        tally.same(
            || "stored, where, from where, loaded".into(),
            seen,
            (1, 0, 0, 0),
        );
    }
}

fn step_of(batch: &Batch, cycle: usize) -> Step {
    Step::of(&|column| batch.z[batch_column(batch.cpi, column, cycle)].0 == 1)
}

/// With every flag as the interpreter sets it.
fn isa_results_fail(tally: &mut Tally) {
    let high = |from: usize| (from..64).map(|i| RD + i);
    let lb = [OP0, OP1, RD_X1, LOAD, LD_BYTE, WE, ARITH, LOAD_VAL + 7];
    let lh = [OP0, OP1, F0, RD_X1, LOAD, LD_HALF, WE, ARITH];
    let lw = [OP0, OP1, F1, RD_X1, LOAD, LD_WORD, WE, ARITH, LOAD_VAL + 32];
    // SLTU x1, x1, x0 of 1 and 0, which is 0; the difference is 1.
    let sltu = [OP0, OP1, OP4, OP5, F0, F1, RD_X1, RS1_X1, WE, ARITH, SUB];
    let all_ones = (0..64).map(|i| T2 + i);
    let cases: [(&str, Vec<usize>, Relation, usize); 4] = [
        (
            "LB",
            lb.into_iter().chain(high(7)).collect(),
            Relation::Bin,
            322,
        ),
        (
            "LH",
            lh.into_iter()
                .chain([LOAD_VAL + 15])
                .chain(high(15))
                .collect(),
            Relation::Bin,
            322,
        ),
        ("LW", lw.to_vec(), Relation::Fld, 6),
        (
            "SLTU",
            sltu.into_iter()
                .chain([RS1, T1, ALU])
                .chain(all_ones)
                .collect(),
            Relation::Fld,
            0,
        ),
    ];
    for (name, columns, relation, batch_row) in cases {
        let batch = filled(&[&columns], 0);
        let (by_product, by_original) = verdicts(&batch);
        let first = Some((relation, batch_row));
        let right = known::verdict(Known::House, 1, first);
        tally.same(|| name.into(), by_product, [right.number(); FORMS]);
        tally.same(|| format!("{name}, original"), by_original, Some(relation));
        strictly(tally, &batch, first, &|| name.into());
    }
}
