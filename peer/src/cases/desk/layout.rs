//! Where blocks lie in a heap, and words that fit them.

use crate::listing::types::{fields, Type, Types};
use crate::random::Random;

/// A base and a shape number.
pub type Row = [u32; 2];

/// Rows that are good in a heap that is long enough: at least so many, where there
/// are shapes, and all shapes that the first label's pointers lead to.
pub fn any_rows(random: &mut Random, shapes: &[Types], first: &Types, least: usize) -> Vec<Row> {
    let mut wanted: Vec<usize> = first.iter().filter_map(|found| found.shape()).collect();
    let others = random.pick(&[0, 1, 1, 3]);
    if !shapes.is_empty() {
        wanted.extend((0..others).map(|_| random.below(shapes.len() as u32) as usize));
    }
    let reached = reached(shapes, wanted);
    let mut blocks = reached.clone();
    if !reached.is_empty() {
        let more = random.pick(&[0, 1, 2, 4, 12, 40]);
        let count = least.max(blocks.len() + more);
        blocks.resize_with(count, || random.pick(&reached));
    }
    random.shuffle(&mut blocks);
    placed(random, shapes, &blocks)
}

/// The shapes that pointers lead to from these, themselves included.
fn reached(shapes: &[Types], mut ahead: Vec<usize>) -> Vec<usize> {
    let mut reached = vec![];
    while let Some(shape) = ahead.pop() {
        if !reached.contains(&shape) {
            reached.push(shape);
            ahead.extend(fields(&shapes[shape]).iter().filter_map(|field| field.shape()));
        }
    }
    reached
}

/// Many blocks touch, and the first one often starts the heap.
fn placed(random: &mut Random, shapes: &[Types], blocks: &[usize]) -> Vec<Row> {
    let gaps: &[u32] = random.pick(&[&[0][..], &[0, 0, 1, 3], &[0, 1, 2]]);
    let mut behind = 0;
    let mut place = |&shape: &usize| {
        let base = behind + random.pick(gaps);
        behind = base + fields(&shapes[shape]).len() as u32;
        [base, shape as u32]
    };
    blocks.iter().map(&mut place).collect()
}

/// The first word behind a block; nothing is known of a shape that is not there.
pub fn end(shapes: &[Types], [base, shape]: Row) -> Option<u64> {
    let shape = shapes.get(shape as usize)?;
    Some(u64::from(base) + fields(shape).len() as u64)
}

/// The first word behind all these blocks.
pub fn behind(shapes: &[Types], rows: &[Row]) -> u32 {
    rows.iter().filter_map(|&row| end(shapes, row)).max().unwrap_or(0) as u32
}

/// Rows, which may be bad, and what they make of a heap.
pub struct Layout<'a> {
    shapes: &'a [Types],
    pub rows: Vec<Row>,
    /// By the number of the shape; they rise.
    bases: Vec<Vec<u32>>,
}

impl<'a> Layout<'a> {
    pub fn new(shapes: &'a [Types], rows: Vec<Row>) -> Self {
        let mut bases = vec![vec![]; shapes.len()];
        for &[base, shape] in &rows {
            if let Some(bases) = bases.get_mut(shape as usize) {
                bases.push(base);
            }
        }
        bases.iter_mut().for_each(|bases| bases.sort());
        Layout { shapes, rows, bases }
    }

    /// The words of the blocks, by their addresses, in a heap of so many words.
    pub fn words(&self, heap_words: usize) -> impl Iterator<Item = (usize, Type)> + '_ {
        let block = |&[base, shape]: &Row| {
            let shape = self.shapes.get(shape as usize).map_or(&[][..], |shape| fields(shape));
            (base as usize..).zip(shape.iter().copied())
        };
        self.rows.iter().flat_map(block).filter(move |&(address, _)| address < heap_words)
    }

    /// The bases of the blocks to which such a pointer may point.
    fn bases(&self, pointer: Type) -> &[u32] {
        &self.bases[pointer.shape().expect("a pointer")]
    }

    /// Whether a word may be of this type.
    pub fn allows(&self, found: Type, word: u32) -> bool {
        !found.is_pointer() || self.bases(found).binary_search(&word).is_ok()
    }

    /// A word of this type; any word for a pointer that can point nowhere.
    pub fn any_word(&self, random: &mut Random, found: Type) -> u32 {
        if found.is_pointer() && !self.bases(found).is_empty() {
            random.pick(self.bases(found))
        } else {
            any_integer(random)
        }
    }

    /// A heap of so many words, whose block words fit.
    pub fn any_heap(&self, random: &mut Random, heap_words: usize) -> Vec<u32> {
        let mut heap: Vec<u32> = (0..heap_words).map(|_| random.word()).collect();
        for (address, found) in self.words(heap_words) {
            heap[address] = self.any_word(random, found);
        }
        heap
    }

    /// Registers that fit the first label's list; those not listed hold anything.
    pub fn any_registers(&self, random: &mut Random, first: &Types) -> [u32; 16] {
        let mut regs = first.map(|found| self.any_word(random, found));
        regs[0] = 0;
        regs
    }
}

/// Zero often, for branches, and small ones, for loops that end.
fn any_integer(random: &mut Random) -> u32 {
    match random.below(8) {
        0..=2 => 0,
        3 | 4 => random.below(6),
        5 => random.pick(&[1, 0x7fff_ffff, 0x8000_0000, 0xffff_ffff]),
        _ => random.word(),
    }
}
