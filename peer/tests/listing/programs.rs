//! The makers of cases: their programs are accepted, and data and numbers agree.

use crate::{outcome, packet};
use peer::cases::listing::draft::Draft;
use peer::cases::listing::programs::{any_program, Style, FEWEST_ITEMS};
use peer::listing::item::Item;
use peer::listing::Listing;
use peer::packet::grammar::ITEMS;
use peer::random::{seed, Random};

#[test]
fn programs_are_accepted_and_have_the_items_asked_for() {
    let mut full = 0;
    for number in 0..3_000 {
        let mut random = Random::new(seed(), number);
        let items = random.between(FEWEST_ITEMS as u32, ITEMS) as usize;
        let style = Style { sink: true, ..Style::of_size(&mut random, items) };
        let draft = any_program(&mut random, style);
        assert!(draft.items.len() <= items);
        full += u32::from(draft.items.len() == items);
        let code = outcome(&draft.packet()).unwrap_or_else(|_| panic!("case {number}: {draft:?}"));
        let dropped = |item: &&Item| matches!(item, Item::Label(_) | Item::Cpush(_));
        assert_eq!(code.len(), draft.items.len() - draft.items.iter().filter(dropped).count());
    }
    assert!(full >= 2_000, "only {full} have just as many items as asked for");
}

#[test]
fn a_draft_is_read_as_it_was_written() {
    for number in 0..3_000 {
        let mut random = Random::new(seed(), number);
        let style = Style::any(&mut random);
        let draft = any_program(&mut random, style);
        let numbers = draft.numbers();
        let listing = Listing::of(&numbers);
        let items = listing.items().collect();
        assert_eq!(Draft { shapes: listing.shapes, contexts: listing.contexts, items }, draft);
    }
}

/// All listings of one item, and all of two whose first is the label.
#[test]
fn the_fewest_items_are_two() {
    let operands = |number| match number {
        0 => 0,
        1 | 15..=17 => 1,
        2 => 2,
        _ => 3,
    };
    let entry: &[u32] = &[0, 0, 0];
    let mut accepted = vec![];
    for number in 0..=17 {
        let item = &[number, 0, 0, 0][..1 + operands(number)];
        assert!(outcome(&packet(&[], &[entry], &[item])).is_err());
        if outcome(&packet(&[], &[entry], &[&[17, 0], item])).is_ok() {
            accepted.push(number);
        }
    }
    assert_eq!(accepted, [0, 1]);
}
