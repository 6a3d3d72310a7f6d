//! The start check of 01 on words: block rows, pointer fields, start registers.

use crate::listing::types::{fields, Type, Types};
use crate::packet::Refusal;

pub const BAD_ROW: u8 = 31;
pub const BAD_FIELD: u8 = 32;
pub const BAD_REGISTER: u8 = 33;

/// A base and a shape number.
type Row = [u32; 2];

/// Accepts the start of a listing whose first label lists registers of these
/// types, or gives its first fault. The block table is of whole rows.
pub fn check(
    shapes: &[Types],
    first: &Types,
    heap: &[u32],
    blocks: &[u32],
    regs: &[u32; 16],
) -> Result<(), Refusal> {
    let (rows, _) = blocks.as_chunks();
    let bases = Bases::of(shapes, rows, heap.len())?;
    check_fields(shapes, rows, heap, &bases)?;
    check_registers(first, regs, &bases)
}

/// By address: the kind of the pointers to the block that begins there, or 0.
struct Bases(Vec<u8>);

impl Bases {
    /// The bases of all rows, in a heap of so many words; an error is the first bad row.
    fn of(shapes: &[Types], rows: &[Row], words: usize) -> Result<Self, Refusal> {
        let mut kinds = vec![0; words];
        // The first word behind the blocks so far. As no shape is empty, bases
        // that are not below it rise.
        let mut behind = 0;
        for (place, &[base, shape]) in rows.iter().enumerate() {
            let base = base as usize;
            match end(shapes, base, shape) {
                Some(end) if behind <= base && end <= words => {
                    kinds[base] = shape as u8 + 1;
                    behind = end;
                }
                _ => return Err(Refusal { number: BAD_ROW, place: place as u32 }),
            }
        }
        Ok(Bases(kinds))
    }

    /// Whether the word is an integer, or points to a block of its shape.
    #[inline]
    fn allow(&self, found: Type, word: u32) -> bool {
        !found.is_pointer() || self.0.get(word as usize) == Some(&found.kind())
    }
}

/// The first word behind a block; none if there is no such shape, or no such word.
fn end(shapes: &[Types], base: usize, shape: u32) -> Option<usize> {
    let shape = shapes.get(shape as usize)?;
    base.checked_add(fields(shape).len())
}

/// As the rows' bases rise, so do the addresses.
fn check_fields(
    shapes: &[Types],
    rows: &[Row],
    heap: &[u32],
    bases: &Bases,
) -> Result<(), Refusal> {
    for &[base, shape] in rows {
        let words = &heap[base as usize..];
        let mut pairs = fields(&shapes[shape as usize]).iter().zip(words);
        if let Some(field) = pairs.position(|(&field, &word)| !bases.allow(field, word)) {
            return Err(Refusal { number: BAD_FIELD, place: base + field as u32 });
        }
    }
    Ok(())
}

/// r0 comes first, and is in no list that could name a pointer.
fn check_registers(first: &Types, regs: &[u32; 16], bases: &Bases) -> Result<(), Refusal> {
    let mut pairs = first.iter().zip(regs);
    let bad = if regs[0] != 0 {
        Some(0)
    } else {
        pairs.position(|(&found, &word)| !bases.allow(found, word))
    };
    bad.map_or(Ok(()), |register| Err(Refusal { number: BAD_REGISTER, place: register as u32 }))
}
