//! Items changed, moved, left out or doubled.

use super::super::draft::Draft;
use super::super::items::{any_item, with_operand_changed};
use crate::packet::grammar::{ITEMS, LABEL};
use crate::random::Random;

pub fn change(random: &mut Random, draft: &mut Draft) {
    let labels = draft.contexts.len();
    let items = &mut draft.items;
    let place = random.below(items.len() as u32) as usize;
    let next = items.len().min(place + 2) - 1;
    let other = random.below(items.len() as u32) as usize;
    let full = items.len() == ITEMS as usize;
    match random.below(24) {
        0..=7 => items[place] = with_operand_changed(random, items[place], labels),
        8..=11 => {
            let number = random.between(0, LABEL);
            items[place] = any_item(random, number, labels);
        }
        12 | 13 => items.swap(place, other),
        14 | 15 => items.swap(place, next),
        16 | 17 if items.len() > 1 => drop(items.remove(place)),
        18 | 19 if !full => items.insert(place, items[place]),
        20 | 21 if !full => {
            let number = random.between(0, LABEL);
            items.insert(place, any_item(random, number, labels));
        }
        _ => items.truncate(place + 1),
    }
}
