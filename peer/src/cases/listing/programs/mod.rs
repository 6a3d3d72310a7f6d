//! Programs that are accepted: arithmetic, ifs and loops, regions between cpush
//! and cjmp, heap words through typed pointers, blocks that no run reaches.
//! `maker` writes single items, `structures` puts them together.

mod maker;
mod simple;
mod start;
mod stray;
mod structures;

use super::draft::Draft;
use crate::packet::grammar::{ITEMS, LABELS};
use crate::random::Random;
use maker::Maker;
pub use start::any_type;

/// A label and a halt, or a jump back to the label.
pub const FEWEST_ITEMS: usize = 2;

pub struct Style {
    /// The items that it may have; it seldom has fewer.
    pub items: usize,
    pub labels: usize,
    /// How many of ten statements are more than one item.
    pub structured: u32,
    /// Whether regions are put in regions, as deep as they go.
    pub nested: bool,
    /// Whether there are loops, which seldom end.
    pub loops: bool,
    /// A label drops each register once in so many times.
    pub dropped_once_in: u32,
    /// Whether all contexts list an integer at level 255, so that there is always
    /// an item that may come next.
    pub sink: bool,
}

impl Style {
    pub fn any(random: &mut Random) -> Self {
        let items = any_size(random);
        Style::of_size(random, items)
    }

    pub fn of_size(random: &mut Random, items: usize) -> Self {
        let labels = random.pick(&[1, 2, 3, 6, 12, 40, LABELS as usize, LABELS as usize]);
        Style {
            items,
            labels,
            structured: random.pick(&[1, 3, 3, 5, 9]),
            nested: random.once_in(4),
            loops: true,
            dropped_once_in: random.pick(&[3, 10, 40, 400]),
            sink: random.below(4) > 0,
        }
    }
}

/// Small ones mostly.
fn any_size(random: &mut Random) -> usize {
    let most = ITEMS as usize;
    match random.below(50) {
        0..=11 => random.between(FEWEST_ITEMS as u32, 7) as usize,
        12..=38 => random.between(5, 40) as usize,
        39..=46 => random.between(40, 200) as usize,
        47 | 48 => random.between(200, ITEMS) as usize,
        _ => most,
    }
}

/// A program of this style; it is checked that the peer accepts it.
pub fn any_program(random: &mut Random, style: Style) -> Draft {
    let draft = Maker::new(random, style).program();
    let names = any_names(random, draft.contexts.len());
    let draft = draft.renamed(&names);
    draft.assert_accepted();
    draft
}

/// The labels' numbers in any order.
fn any_names(random: &mut Random, count: usize) -> Vec<u8> {
    let mut names: Vec<u8> = (0..count as u8).collect();
    random.shuffle(&mut names);
    names
}
