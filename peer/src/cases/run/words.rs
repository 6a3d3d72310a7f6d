//! Single code words: valid ones, damaged ones, edges and noise.

use crate::random::Random;
use crate::word::*;

/// `tame` words write r0 to r10 only. Above them are a loop's counter and the
/// bases r12 to r15, which start in the lower half of the heap.
const LAST_WRITTEN: u32 = 10;
pub const COUNTER: u32 = 11;
pub const FIRST_BASE: u32 = 12;

/// Any register, r0 often.
fn register(random: &mut Random) -> u32 {
    if random.once_in(8) {
        0
    } else {
        random.below(16)
    }
}

fn immediate(random: &mut Random) -> u32 {
    match random.below(3) {
        0 => random.pick(&[0, 1, 0x7fff, 0x8000, 0xffff]),
        1 => random.below(16),
        _ => random.below(0x10000),
    }
}

/// Offsets inside the heap, about its end, and far past it.
fn offset(random: &mut Random, heap_words: u32) -> u32 {
    match random.below(4) {
        0 => random.below(4),
        1 => random.below(heap_words + 1),
        2 => (heap_words + random.below(4)).saturating_sub(2),
        _ => random.pick(&[0, 1, 15, 16, 0x7fff, 0x8000, 0xffff]),
    }
}

fn arithmetic(random: &mut Random, rd: u32) -> u32 {
    let rs = register(random);
    if random.once_in(2) {
        build(random.between(ADD, SLT), rd, rs, register(random), 0)
    } else {
        build(random.between(ADD_IMMEDIATE, SLT_IMMEDIATE), rd, rs, 0, immediate(random))
    }
}

/// Arithmetic, load or store that goes on, whatever the registers hold.
pub fn tame(random: &mut Random, heap_words: u32) -> u32 {
    let rd = random.between(0, LAST_WRITTEN);
    if heap_words == 0 || random.once_in(2) {
        return arithmetic(random, rd);
    }
    let base = random.pick(&[0, FIRST_BASE, FIRST_BASE + 1, FIRST_BASE + 2, FIRST_BASE + 3]);
    let offset = random.below(heap_words.div_ceil(2));
    if random.once_in(2) {
        build(LOAD, rd, base, 0, offset)
    } else {
        build(STORE, base, register(random), 0, offset)
    }
}

/// A word with no fault in its layout and any registers; jumps go to `target`.
pub fn valid(random: &mut Random, heap_words: u32, target: u32) -> u32 {
    match random.below(16) {
        0 => build(HALT, 0, 0, 0, 0),
        1 => build(JMP, 0, 0, 0, target),
        2 | 3 => build(BNZ, 0, register(random), 0, target),
        4 | 5 => {
            let opcode = random.pick(&[LOAD, STORE]);
            build(opcode, register(random), register(random), 0, offset(random, heap_words))
        }
        6..=9 => tame(random, heap_words),
        _ => {
            let rd = register(random);
            arithmetic(random, rd)
        }
    }
}

/// A valid word with one bit flipped or one part overwritten; where its opcode
/// does not use that part, it traps.
pub fn damaged(random: &mut Random, heap_words: u32, target: u32) -> u32 {
    let word = valid(random, heap_words, target);
    if random.once_in(2) {
        return word ^ 1 << random.below(32);
    }
    let part = random.pick(&[OPCODE, RD, RS, RT, LOW]);
    let value = if random.once_in(2) { random.word() } else { u32::MAX };
    word & !part | value & part
}

/// A word of any layout.
pub fn noise(random: &mut Random) -> u32 {
    match random.below(4) {
        0 => random.word(),
        1 => random.pick(&[0, 1, 0x7fff_ffff, 0x8000_0000, 0xf000_0000, 0xffff_ffff]),
        2 => random.below(16) << 28,
        _ => random.below(16) << 28 | random.below(0x10000),
    }
}
