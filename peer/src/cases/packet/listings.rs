//! Listings with no fault, of any size, as their numbers.

use crate::packet::grammar::*;
use crate::packet::number::encode_all;
use crate::random::Random;
use crate::word::SLT_IMMEDIATE;
use std::convert::Infallible;
use std::ops::RangeInclusive;

/// A number of a listing, with what it is and the range that it is in.
pub struct Entry {
    pub due: Due,
    pub least: u32,
    pub most: u32,
    pub value: u32,
}

pub fn packet_of(entries: &[Entry]) -> Vec<u8> {
    encode_all(entries.iter().map(|entry| entry.value))
}

/// First and last of the range that each count is taken from, in packet order:
/// shapes, fields, labels, stack, registers, items.
pub type Sizes = [(u32, u32); 6];

const TINY: Sizes = [(0, 1), (1, 2), (1, 2), (0, 2), (0, 2), (1, 4)];
pub const SMALL: Sizes = [(0, 3), (1, 4), (1, 5), (0, 3), (0, 4), (1, 20)];
pub const MIDDLING: Sizes = [(4, 10), (1, 8), (6, 12), (0, 4), (2, 12), (60, 60)];
pub const LARGEST: Sizes = [
    (SHAPES, SHAPES),
    (FIELDS, FIELDS),
    (LABELS, LABELS),
    (STACK, STACK),
    (LISTED, LISTED),
    (ITEMS, ITEMS),
];

/// Tiny and small ones mostly; some with one or more counts at their limits.
pub fn any_sizes(random: &mut Random) -> Sizes {
    match random.below(60) {
        0..=19 => TINY,
        20..=44 => SMALL,
        45..=49 => MIDDLING,
        50..=57 => with_largest(random, 1),
        _ => {
            let counts = random.between(2, 6);
            with_largest(random, counts)
        }
    }
}

/// Tiny but for so many counts in a row.
fn with_largest(random: &mut Random, counts: u32) -> Sizes {
    let first = random.between(0, 6 - counts) as usize;
    let row = first..first + counts as usize;
    let mut sizes = TINY;
    sizes[row.clone()].copy_from_slice(&LARGEST[row]);
    sizes
}

pub fn any_listing(random: &mut Random, sizes: Sizes) -> Vec<Entry> {
    make(random, sizes, any_value)
}

/// The listing of the longest packet.
pub fn longest_listing() -> Vec<Entry> {
    make(&mut Random::new(0, 0), LARGEST, longest_value)
}

fn make(random: &mut Random, sizes: Sizes, value: Choice) -> Vec<Entry> {
    let mut maker = Maker { random, sizes, value, registers_left: 0, entries: Vec::new() };
    let Ok(()) = listing(&mut maker);
    maker.entries
}

/// Makes a listing up, number by number.
struct Maker<'a> {
    random: &'a mut Random,
    sizes: Sizes,
    value: Choice,
    /// Registers that the context has still to list.
    registers_left: u32,
    entries: Vec<Entry>,
}

/// Chooses a number that is neither a count nor a register's index, from its range.
type Choice = fn(&mut Random, Due, u32, u32) -> u32;

/// Both ends often, and small numbers.
fn any_value(random: &mut Random, _: Due, least: u32, most: u32) -> u32 {
    match random.below(6) {
        0 => least,
        1 => most,
        2 => random.between(least, most.min(least + 0x100)),
        _ => random.between(least, most),
    }
}

/// As many bytes as the number may have, and the items with the most.
fn longest_value(_: &mut Random, due: Due, _: u32, most: u32) -> u32 {
    if due == Due::ItemNumber {
        SLT_IMMEDIATE
    } else {
        most
    }
}

impl Maker<'_> {
    fn count(&mut self, index: usize) -> u32 {
        let (first, last) = self.sizes[index];
        self.random.between(first, last)
    }

    fn register_count(&mut self) -> u32 {
        self.registers_left = self.count(4);
        self.registers_left
    }

    /// Leaves room above it for the others.
    fn register_index(&mut self, least: u32, most: u32) -> u32 {
        self.registers_left -= 1;
        self.random.between(least, most - self.registers_left)
    }
}

impl Source for Maker<'_> {
    type Fault = Infallible;

    fn number(&mut self, due: Due, range: RangeInclusive<u32>) -> Result<u32, Infallible> {
        let (least, most) = range.into_inner();
        let value = match due {
            Due::ShapeCount => self.count(0),
            Due::FieldCount => self.count(1),
            Due::LabelCount => self.count(2),
            Due::StackLength => self.count(3),
            Due::RegisterCount => self.register_count(),
            Due::RegisterIndex => self.register_index(least, most),
            Due::ItemCount => self.count(5),
            _ => (self.value)(self.random, due, least, most),
        };
        self.entries.push(Entry { due, least, most, value });
        Ok(value)
    }
}
