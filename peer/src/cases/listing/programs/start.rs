//! What a program starts from: levels to choose from, shapes, registers.

use crate::listing::types::{Type, Types};
use crate::packet::grammar::{FIELDS, LISTED, SHAPES};
use crate::random::Random;

/// A few levels, so that many are equal: the ends, and any sets of compartments.
pub fn any_levels(random: &mut Random) -> Vec<u8> {
    let mut levels = vec![0, 255];
    for _ in 0..random.below(5) {
        let [level, other] = [0; 2].map(|_| random.word() as u8);
        levels.push(random.pick(&[level, level & other, 1 << (level % 8)]));
    }
    levels
}

/// A few small shapes; seldom as many as there may be.
pub fn any_shapes(random: &mut Random, levels: &[u8]) -> Vec<Types> {
    let count = if random.once_in(100) { SHAPES } else { random.pick(&[0, 1, 1, 2, 3, 5]) };
    (0..count).map(|_| any_shape(random, levels, count)).collect()
}

fn any_shape(random: &mut Random, levels: &[u8], shapes: u32) -> Types {
    let count = if random.once_in(20) { FIELDS } else { random.between(1, 5) };
    let mut fields = [Type::NONE; 16];
    for field in &mut fields[..count as usize] {
        *field = any_type(random, levels, shapes);
    }
    fields
}

pub fn any_type(random: &mut Random, levels: &[u8], shapes: u32) -> Type {
    let kind = if random.once_in(2) { 0 } else { random.below(shapes + 1) };
    Type::new(kind as u8, random.pick(levels))
}

/// The registers of a context that no other one leads to.
pub fn any_types(random: &mut Random, levels: &[u8], shapes: u32) -> Types {
    let mut types = [Type::NONE; 16];
    types[0] = Type::R0;
    let listed = random.pick(&[0, 2, 5, 8, 12, LISTED, LISTED]);
    for found in &mut types[1..] {
        if random.below(LISTED) < listed {
            *found = any_type(random, levels, shapes);
        }
    }
    types
}
