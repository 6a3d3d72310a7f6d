//! The layout of a code word: opcode, rd, rs, rt and the low sixteen bits.

pub const HALT: u32 = 0;
pub const JMP: u32 = 1;
pub const BNZ: u32 = 2;
pub const LOAD: u32 = 3;
pub const STORE: u32 = 4;
pub const ADD: u32 = 5;
pub const SUB: u32 = 6;
pub const AND: u32 = 7;
pub const XOR: u32 = 8;
pub const SLT: u32 = 9;
pub const ADD_IMMEDIATE: u32 = 10;
pub const SUB_IMMEDIATE: u32 = 11;
pub const AND_IMMEDIATE: u32 = 12;
pub const XOR_IMMEDIATE: u32 = 13;
pub const SLT_IMMEDIATE: u32 = 14;

/// Masks of the parts.
pub const OPCODE: u32 = 0xf000_0000;
pub const RD: u32 = 0x0f00_0000;
pub const RS: u32 = 0x00f0_0000;
pub const RT: u32 = 0x000f_0000;
pub const LOW: u32 = 0x0000_ffff;

pub fn opcode(word: u32) -> u32 {
    word >> 28
}

pub fn rd(word: u32) -> usize {
    (word >> 24 & 15) as usize
}

pub fn rs(word: u32) -> usize {
    (word >> 20 & 15) as usize
}

pub fn rt(word: u32) -> usize {
    (word >> 16 & 15) as usize
}

/// A target or a field offset.
pub fn low(word: u32) -> u32 {
    word & LOW
}

/// The low sixteen bits, sign-extended.
pub fn immediate(word: u32) -> u32 {
    word as i16 as u32
}

/// The word with these parts; each part must fit its place.
pub fn build(opcode: u32, rd: u32, rs: u32, rt: u32, low: u32) -> u32 {
    opcode << 28 | rd << 24 | rs << 20 | rt << 16 | low
}
