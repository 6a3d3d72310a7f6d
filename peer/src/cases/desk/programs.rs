//! Accepted programs for the desk: smaller ones than for the checker, as each is
//! run, and more of them with loads and stores.

use crate::cases::listing::draft::Draft;
use crate::cases::listing::programs::{any_program, Style, FEWEST_ITEMS};
use crate::listing::item::Item;
use crate::packet::grammar::ITEMS;
use crate::random::Random;

/// Programs are tried so often before one is taken that is not as it should be.
const TRIES: u32 = 8;

/// A program that loads and stores and will do otherwise, if one is found soon. Its
/// style is chosen for a number of items.
pub fn any_over_heap(
    random: &mut Random,
    style: impl Fn(&mut Random, usize) -> Style,
    will_do: impl Fn(&Draft) -> bool,
) -> Draft {
    let mut any = || {
        let items = any_size(random);
        let style = style(random, items);
        any_program(random, style)
    };
    let tried = (1..TRIES).map(|_| any()).find(|draft| uses_heap(draft) && will_do(draft));
    tried.unwrap_or_else(any)
}

fn any_size(random: &mut Random) -> usize {
    let most = match random.below(200) {
        0 => ITEMS,
        1..=4 => 400,
        5..=39 => 120,
        _ => 40,
    };
    random.between(FEWEST_ITEMS as u32, most) as usize
}

fn uses_heap(draft: &Draft) -> bool {
    let has = |such: fn(&Item) -> bool| draft.items.iter().any(such);
    has(|item| matches!(item, Item::Load { .. })) && has(|item| matches!(item, Item::Store { .. }))
}
