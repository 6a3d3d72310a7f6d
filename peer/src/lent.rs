//! A buffer between guard bytes, to show that a call writes nothing beside it.

use std::ops::Range;

pub const GUARD: usize = 64;

pub struct Lent {
    bytes: Vec<u8>,
    inside: Range<usize>,
}

impl Lent {
    /// The contents between guards, `shift` bytes further in.
    pub fn new(contents: &[u8], shift: usize) -> Self {
        let start = GUARD + shift;
        let inside = start..start + contents.len();
        let mut bytes: Vec<u8> = (0..inside.end + GUARD).map(guard).collect();
        bytes[inside.clone()].copy_from_slice(contents);
        Lent { bytes, inside }
    }

    pub fn inside(&self) -> &[u8] {
        &self.bytes[self.inside.clone()]
    }

    pub fn inside_mut(&mut self) -> &mut [u8] {
        &mut self.bytes[self.inside.clone()]
    }

    pub fn guards_hold(&self) -> bool {
        let outside = (0..self.inside.start).chain(self.inside.end..self.bytes.len());
        outside.into_iter().all(|place| self.bytes[place] == guard(place))
    }
}

/// The guard byte at a place; no two neighbours are equal, so a shifted copy shows.
pub fn guard(place: usize) -> u8 {
    (place as u8).wrapping_mul(37) ^ 0xa5
}
