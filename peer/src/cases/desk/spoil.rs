//! Starts with faults: rows, pointer fields and registers made bad, one or several.

use super::layout::{behind, end, Layout, Row};
use crate::listing::types::{Type, Types};
use crate::random::Random;

/// Bad values are tried so often before the one is taken that is always bad.
const TRIES: u32 = 20;

/// Makes one to three rows bad, in a heap of so many words: rows that are there,
/// or others between them.
pub fn rows(random: &mut Random, shapes: &[Types], rows: &mut Vec<Row>, heap_words: u32) {
    for _ in 0..random.pick(&[1, 1, 1, 2, 3]) {
        let count = rows.len();
        let any = random.below(count as u32 + 1) as usize;
        let place = random.pick(&[count, count.saturating_sub(1), any]);
        if place == rows.len() || random.once_in(2) {
            let shape = random.below(shapes.len().max(1) as u32);
            rows.insert(place, [behind(shapes, &rows[..place]), shape]);
        }
        rows[place] = bad_row(random, shapes, rows, place, heap_words);
    }
}

/// Another row for the place: of no shape, in or below the block before, at the heap's
/// end or past it, or so high that a sum of 32 bits would be small.
fn bad_row(
    random: &mut Random,
    shapes: &[Types],
    rows: &[Row],
    place: usize,
    heap_words: u32,
) -> Row {
    let row @ [base, shape] = rows[place];
    let size = end(shapes, [0, shape]).unwrap_or(1) as u32;
    let count = shapes.len() as u32;
    let before = if place == 0 { row } else { rows[place - 1] };
    match random.below(13) {
        0 | 1 => [base, count],
        2 => [base, random.pick(&[count + 1, shape ^ 0x100, shape ^ 0x1_0000, u32::MAX])],
        3 => [before[0], shape],
        4 | 5 => [behind(shapes, &rows[..place]).saturating_sub(1), shape],
        6 => [random.below(before[0].max(1)), shape],
        7 | 8 => [(heap_words + 1).saturating_sub(size), shape],
        9 => [heap_words, shape],
        10 => [0_u32.wrapping_sub(size), shape],
        11 => [before[0].wrapping_add(1), shape],
        _ => [u32::MAX - random.below(20), shape],
    }
}

/// Makes one to three pointer fields bad, if there are any.
pub fn fields(random: &mut Random, layout: &Layout, heap: &mut [u32]) {
    let pointers: Vec<(usize, Type)> =
        layout.words(heap.len()).filter(|(_, found)| found.is_pointer()).collect();
    for _ in 0..any_count(random, &pointers) {
        let (address, pointer) = random.pick(&pointers);
        heap[address] = bad_pointer(random, layout, pointer, heap.len() as u32);
    }
}

/// Makes r0 bad, or one to three of the pointers that the first label lists, or both.
pub fn registers(
    random: &mut Random,
    layout: &Layout,
    first: &Types,
    heap_words: u32,
    regs: &mut [u32; 16],
) {
    let pointers: Vec<usize> = (1..16).filter(|&index| first[index].is_pointer()).collect();
    if pointers.is_empty() || random.once_in(3) {
        regs[0] = random.pick(&[1, 0x100, 0x8000_0000, u32::MAX]);
    }
    if regs[0] == 0 || random.once_in(2) {
        for _ in 0..any_count(random, &pointers) {
            let index = random.pick(&pointers);
            regs[index] = bad_pointer(random, layout, first[index], heap_words);
        }
    }
}

/// How many to make bad of these.
fn any_count<T>(random: &mut Random, pointers: &[T]) -> u32 {
    if pointers.is_empty() {
        0
    } else {
        random.pick(&[1, 1, 2, 3])
    }
}

/// Next to a base, a base of another shape, an address about the heap's end, a base
/// with a high bit set, or any word.
fn bad_pointer(random: &mut Random, layout: &Layout, pointer: Type, heap_words: u32) -> u32 {
    let mut any = || {
        let good = layout.any_word(random, pointer);
        let other = random.pick(&layout.rows)[0];
        let inside = random.below(heap_words.max(1));
        match random.below(10) {
            0 => good.wrapping_add(1),
            1 => good.wrapping_sub(1),
            2 => good.wrapping_add(random.pick(&[0x100, 0x1_0000, 0x8000_0000])),
            3 | 4 => other,
            5 => inside,
            6 => 0,
            7 => random.pick(&[heap_words, heap_words.wrapping_sub(1)]),
            _ => random.word(),
        }
    };
    let tried = (0..TRIES).map(|_| any()).find(|&word| !layout.allows(pointer, word));
    tried.unwrap_or(u32::MAX)
}
