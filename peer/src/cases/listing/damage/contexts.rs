//! Contexts changed, one put in for a label that no item places; shapes changed.

use super::super::draft::Draft;
use super::super::programs::any_type;
use crate::listing::context::{Context, Stack};
use crate::listing::item::Item;
use crate::listing::types::{fields, Type};
use crate::packet::grammar::LABELS;
use crate::random::Random;

pub fn change(random: &mut Random, draft: &mut Draft) {
    let labels = draft.contexts.len();
    let shapes = draft.shapes.len() as u32;
    let label = any_label(random, draft);
    let context = &mut draft.contexts[label];
    match random.below(16) {
        0..=3 => context.pc = other_level(random, context.pc),
        4..=7 => context.stack = other_stack(random, context.stack, labels as u32),
        8..=14 => change_register(random, context, shapes),
        _ => {
            if labels < LABELS as usize {
                let more = *context;
                draft.contexts.push(more);
            }
        }
    }
}

/// The label of item 0 often, since it has a rule of its own, and one with the
/// deepest stack.
fn any_label(random: &mut Random, draft: &Draft) -> usize {
    let labels = 0..draft.contexts.len();
    match (random.below(8), draft.items.first()) {
        (0 | 1, Some(&Item::Label(first))) => usize::from(first),
        (2 | 3, _) => labels.max_by_key(|&label| draft.contexts[label].stack.depth()).unwrap_or(0),
        _ => random.below(labels.len() as u32) as usize,
    }
}

/// A bit more or less, an end, or any level.
fn other_level(random: &mut Random, level: u8) -> u8 {
    let (bit, any) = (1 << random.below(8), random.word() as u8);
    random.pick(&[level ^ bit, level | bit, level & !bit, 0, 255, any])
}

/// A label put in at any depth, taken out, or changed.
fn other_stack(random: &mut Random, stack: Stack, labels: u32) -> Stack {
    let mut all: Vec<u8> = stack.labels().collect();
    let label = random.below(labels) as u8;
    let depth = random.below(all.len() as u32 + 1) as usize;
    match random.below(4) {
        0 if !stack.is_full() => all.insert(depth, label),
        1 if depth < all.len() => drop(all.remove(depth)),
        _ if depth < all.len() => all[depth] = label,
        _ => all.truncate(depth.saturating_sub(1)),
    }
    Stack::of(all.into_iter())
}

fn other_type(random: &mut Random, shapes: u32) -> Type {
    let any = random.word() as u8;
    any_type(random, &[0, 255, any], shapes)
}

/// A register dropped or put in, or its kind or level changed.
fn change_register(random: &mut Random, context: &mut Context, shapes: u32) {
    let register = &mut context.types[random.between(1, 15) as usize];
    let any = other_type(random, shapes);
    *register = match random.below(4) {
        0 => Type::NONE,
        1 if register.is_some() => {
            Type::new(register.kind(), other_level(random, register.level()))
        }
        2 if register.is_some() => Type::new(any.kind(), register.level()),
        _ => any,
    };
}

/// A field changed in kind or level, put in behind the others, or the last one left out.
pub fn change_shape(random: &mut Random, draft: &mut Draft) {
    let shapes = draft.shapes.len() as u32;
    if shapes == 0 {
        return change(random, draft);
    }
    let shape = &mut draft.shapes[random.below(shapes) as usize];
    let count = fields(shape).len();
    let field = random.below(count as u32) as usize;
    let any = other_type(random, shapes);
    match random.below(6) {
        0 if count < shape.len() => shape[count] = any,
        1 if count > 1 => shape[count - 1] = Type::NONE,
        2 | 3 => shape[field] = Type::new(any.kind(), shape[field].level()),
        _ => {
            shape[field] = Type::new(shape[field].kind(), other_level(random, shape[field].level()))
        }
    }
}
