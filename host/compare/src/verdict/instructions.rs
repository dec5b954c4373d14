//! RV64I instruction words, by their formats in the ISA manual.

const LOAD: u32 = 0x03;
const OP_IMM: u32 = 0x13;
const AUIPC: u32 = 0x17;
const OP_IMM_32: u32 = 0x1b;
const STORE: u32 = 0x23;
const OP: u32 = 0x33;
const LUI: u32 = 0x37;
const OP_32: u32 = 0x3b;
const BRANCH: u32 = 0x63;
const JALR: u32 = 0x67;
const JAL: u32 = 0x6f;

pub const ECALL: u32 = 0x0000_0073;
pub const EBREAK: u32 = 0x0010_0073;
pub const FENCE: u32 = 0x0ff0_000f;

/// funct7 of SUB and SRA, and of SRAI's immediate.
pub const OTHER: u32 = 0x20;

pub fn op(funct7: u32, funct3: u32, rd: u32, rs1: u32, rs2: u32) -> u32 {
    funct7 << 25 | rs2 << 20 | rs1 << 15 | funct3 << 12 | rd << 7 | OP
}

pub fn op_32(funct3: u32, rd: u32, rs1: u32, rs2: u32) -> u32 {
    rs2 << 20 | rs1 << 15 | funct3 << 12 | rd << 7 | OP_32
}

pub fn op_imm(funct3: u32, rd: u32, rs1: u32, imm: i32) -> u32 {
    i_format(OP_IMM, funct3, rd, rs1, imm)
}

pub fn op_imm_32(funct3: u32, rd: u32, rs1: u32, imm: i32) -> u32 {
    i_format(OP_IMM_32, funct3, rd, rs1, imm)
}

pub fn load(funct3: u32, rd: u32, rs1: u32, imm: i32) -> u32 {
    i_format(LOAD, funct3, rd, rs1, imm)
}

pub fn jalr(rd: u32, rs1: u32, imm: i32) -> u32 {
    i_format(JALR, 0, rd, rs1, imm)
}

fn i_format(opcode: u32, funct3: u32, rd: u32, rs1: u32, imm: i32) -> u32 {
    (imm as u32) << 20 | rs1 << 15 | funct3 << 12 | rd << 7 | opcode
}

pub fn store(funct3: u32, rs1: u32, rs2: u32, imm: i32) -> u32 {
    let imm = imm as u32;
    (imm >> 5) << 25 | rs2 << 20 | rs1 << 15 | funct3 << 12 | (imm & 31) << 7 | STORE
}

pub fn branch(funct3: u32, rs1: u32, rs2: u32, imm: i32) -> u32 {
    let imm = imm as u32;
    let high = (imm >> 12 & 1) << 31 | (imm >> 5 & 63) << 25;
    let low = (imm >> 1 & 15) << 8 | (imm >> 11 & 1) << 7;
    high | rs2 << 20 | rs1 << 15 | funct3 << 12 | low | BRANCH
}

pub fn lui(rd: u32, imm: u32) -> u32 {
    imm << 12 | rd << 7 | LUI
}

pub fn auipc(rd: u32, imm: u32) -> u32 {
    imm << 12 | rd << 7 | AUIPC
}

pub fn jal(rd: u32, imm: i32) -> u32 {
    let imm = imm as u32;
    let low = (imm >> 1 & 1023) << 21 | (imm >> 11 & 1) << 20;
    (imm >> 20 & 1) << 31 | low | (imm >> 12 & 255) << 12 | rd << 7 | JAL
}
