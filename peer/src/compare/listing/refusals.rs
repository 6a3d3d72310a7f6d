//! At which items the refusals fall, and which others compete with them there.

use super::parts::parts;
use crate::cases::listing::premises::{failing, failing_at_the_end};
use crate::cases::listing::{sort, PAIRS};
use crate::checker::*;
use crate::listing::Listing;
use std::collections::BTreeMap;
use std::fmt;

#[derive(Default)]
pub struct Refused {
    /// By refusal and item number.
    places: BTreeMap<(u8, u32), u64>,
    /// By the item's sort and the two refusals, in 01's order.
    pairs: BTreeMap<(u32, u8, u8), u64>,
    /// By refusal and the part of its rule that alone fails.
    parts: BTreeMap<&'static str, u64>,
}

/// The sort of what stands behind the last item.
const END: u32 = 18;

impl Refused {
    /// The listing is refused with this number at this place.
    pub fn add(&mut self, listing: &Listing, number: u8, place: usize) {
        let mut walk = Walk::new(&listing.shapes, &listing.contexts);
        let mut items = listing.items();
        for item in items.by_ref().take(place) {
            walk.step(item).expect("the items before are accepted");
        }
        let (sort, failed) = match items.next() {
            None => (END, failing_at_the_end(&walk)),
            Some(item) => {
                let item_number = item.numbers()[0];
                *self.places.entry((number, item_number)).or_default() += 1;
                for part in parts(&walk, item, number) {
                    *self.parts.entry(part).or_default() += 1;
                }
                (sort(item_number), failing(&walk, item))
            }
        };
        assert_eq!(failed.in_order().next(), Some(number), "the first of {failed:?}");
        for (index, first) in failed.in_order().enumerate() {
            for second in failed.in_order().skip(index + 1) {
                *self.pairs.entry((sort, first, second)).or_default() += 1;
            }
        }
    }

    /// Each refusal falls at all items that can earn it, and each pair that can
    /// compete does so; there are no others.
    pub fn assert_full(&self) {
        let places = places();
        let found: Vec<_> = self.places.keys().copied().collect();
        assert_eq!(found, places, "refusals by item");
        let seldom = self.places.iter().min_by_key(|(_, &times)| times);
        assert!(seldom.is_some_and(|(_, &times)| times >= 30), "too seldom: {seldom:?}");
        let found: Vec<_> = self.pairs.keys().copied().collect();
        assert_eq!(found, pairs(), "pairs of refusals");
        let seldom = self.pairs.iter().min_by_key(|(_, &times)| times);
        assert!(seldom.is_some_and(|(_, &times)| times >= 100), "too seldom: {seldom:?}");
        super::parts::assert_full(&self.parts);
    }
}

/// All refusals of items, by the numbers of the items that can earn them.
fn places() -> Vec<(u8, u32)> {
    let jumps = [0, 1, 2, 16, 17];
    let with_registers = 2..=14;
    let mut places = vec![(PLACED_TWICE, 17), (FIRST_STACK, 17), (PUSH_TOO_DEEP, 15)];
    places.extend((0..=16).map(|item| (NO_LABEL, item)));
    places.extend((3..=14).filter(|&item| item != 4).map(|item| (WRITES_R0, item)));
    places.extend(with_registers.clone().flat_map(|item| [(NOT_LISTED, item), (WRONG_SORT, item)]));
    places.extend([(NO_FIELD, 3), (NO_FIELD, 4), (NOT_THE_FIELDS, 4)]);
    places.extend(jumps.map(|item| (STACK_RULE, item)));
    places.extend(jumps[1..].iter().map(|&item| (LIST_NOT_MET, item)));
    places.extend([1, 15, 17].into_iter().chain(with_registers).map(|item| (LEVEL_RULE, item)));
    places.sort();
    places
}

fn pairs() -> Vec<(u32, u8, u8)> {
    let of_items = PAIRS
        .iter()
        .flat_map(|&(sort, pairs)| pairs.iter().map(move |&(first, second)| (sort, first, second)));
    let mut pairs: Vec<_> = of_items.chain([(END, OPEN_END, NEVER_PLACED)]).collect();
    pairs.sort();
    pairs
}

impl fmt::Display for Refused {
    fn fmt(&self, f: &mut fmt::Formatter) -> fmt::Result {
        let seldom = self.places.iter().min_by_key(|(_, &times)| times);
        writeln!(f, "refusals by item: {} kinds, seldomest {seldom:?}", self.places.len())?;
        let seldom = self.pairs.iter().min_by_key(|(_, &times)| times);
        writeln!(f, "pairs at one item: {} kinds, seldomest {seldom:?}", self.pairs.len())?;
        write!(f, "parts that alone fail: {:?}", self.parts)
    }
}
