//! Heap sizes, start registers and budgets, and the lengths at which the call refuses.

use super::words::FIRST_BASE;
use crate::random::Random;
use crate::run_call::{BUDGET, CODE_WORDS, HEAP_WORDS, REGISTER_BYTES};

/// Small heaps mostly, since a full one takes long to compare.
pub fn heap_words(random: &mut Random) -> u32 {
    let full = HEAP_WORDS as u32;
    match random.below(40) {
        0 => random.pick(&[full - 1, full]),
        1..=4 => 0,
        5..=8 => 1,
        9..=12 => random.between(30, 300),
        _ => random.between(2, 24),
    }
}

/// r0 is often not 0; the bases lie in the lower half of the heap.
pub fn registers(random: &mut Random, heap_words: u32) -> [u32; 16] {
    let mut regs = [0; 16].map(|_: u32| register(random, heap_words));
    for base in &mut regs[FIRST_BASE as usize..] {
        *base = random.below(heap_words / 2 + 1);
    }
    regs
}

/// Small numbers, any word, addresses about the heap's end, edges of the signed
/// words, and bases whose sum with an offset passes 2^32.
fn register(random: &mut Random, heap_words: u32) -> u32 {
    match random.below(6) {
        0 => 0,
        1 => random.below(20),
        2 => random.word(),
        3 => (heap_words + random.below(4)).saturating_sub(2),
        4 => random.pick(&[0x8000_0000, 0x8000_0001, 0x7fff_ffff, 0xffff_ffff, 0xffff_0001]),
        _ => u32::MAX - random.below(20),
    }
}

/// A budget with which even an endless program is compared quickly, but for one in 2,000.
pub fn run_budget(random: &mut Random) -> u32 {
    if random.once_in(2_000) {
        return random.pick(&[BUDGET - 1, BUDGET]);
    }
    let most = random.pick(&[2, 20, 300, 3_000]);
    random.below(most)
}

pub fn any_budget(random: &mut Random) -> u32 {
    match random.below(8) {
        0 => random.pick(&[BUDGET - 1, BUDGET]),
        1 if random.once_in(2) => random.pick(&[BUDGET + 1, u32::MAX]),
        _ => run_budget(random),
    }
}

/// A code length in bytes: none, one word, the limit, one word past it, or ragged.
pub fn border_code(random: &mut Random) -> usize {
    let words = random.pick(&[0, 1, 7, CODE_WORDS, CODE_WORDS, CODE_WORDS + 1]);
    4 * words + rag(random)
}

pub fn border_heap(random: &mut Random) -> usize {
    let words =
        if random.once_in(2) { 9 } else { random.pick(&[0, 1, HEAP_WORDS, HEAP_WORDS + 1]) };
    4 * words + rag(random)
}

pub fn border_registers(random: &mut Random) -> usize {
    if random.once_in(2) {
        REGISTER_BYTES
    } else {
        random.pick(&[0, 60, 63, 65, 68])
    }
}

/// Bytes past the last whole word, seldom any.
fn rag(random: &mut Random) -> usize {
    if random.once_in(5) {
        random.between(1, 3) as usize
    } else {
        0
    }
}
