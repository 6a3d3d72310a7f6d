//! Listings with faults: items, contexts or shapes of an accepted one changed.

mod contexts;
mod items;
mod pushes;

use super::draft::Draft;
use crate::random::Random;
pub use pushes::{put_in_full_stack, put_in_pushes};

/// Changes one to three things; what comes of it may still be accepted.
pub fn damage(random: &mut Random, draft: &mut Draft) {
    for _ in 0..random.pick(&[1, 1, 1, 2, 3]) {
        change(random, draft);
    }
}

fn change(random: &mut Random, draft: &mut Draft) {
    match random.below(20) {
        0..=9 => items::change(random, draft),
        10..=17 => contexts::change(random, draft),
        _ => contexts::change_shape(random, draft),
    }
}
