//! Items that are made to fail two premises at once, so that the order in which
//! they are asked shows, or just one, so that a checker without it would go on.

use super::draft::Draft;
use super::items::any_item;
use super::premises::failing;
use crate::checker::*;
use crate::listing::item::Item;
use crate::packet::grammar::{CJMP, CPUSH, ITEMS, LABEL};
use crate::random::Random;
use crate::word::*;

type Pair = (u8, u8);

const JUMP: [Pair; 3] =
    [(STACK_RULE, LIST_NOT_MET), (STACK_RULE, LEVEL_RULE), (LIST_NOT_MET, LEVEL_RULE)];

const ARITHMETIC: [Pair; 7] = [
    (NO_LABEL, WRITES_R0),
    (WRITES_R0, NOT_LISTED),
    (WRITES_R0, WRONG_SORT),
    (WRITES_R0, LEVEL_RULE),
    (NOT_LISTED, WRONG_SORT),
    (NOT_LISTED, LEVEL_RULE),
    (WRONG_SORT, LEVEL_RULE),
];

/// All pairs of refusals that one item can earn, by the item's sort: its number,
/// or the first of its five if it is arithmetic.
pub const PAIRS: [(u32, &[Pair]); 11] = [
    (JMP, &JUMP),
    (BNZ, &JUMP),
    (
        BNZ,
        &[
            (NOT_LISTED, STACK_RULE),
            (NOT_LISTED, LIST_NOT_MET),
            (NOT_LISTED, LEVEL_RULE),
            (WRONG_SORT, STACK_RULE),
            (WRONG_SORT, LIST_NOT_MET),
            (WRONG_SORT, LEVEL_RULE),
        ],
    ),
    (
        LOAD,
        &[
            (NO_LABEL, WRITES_R0),
            (WRITES_R0, NOT_LISTED),
            (WRITES_R0, WRONG_SORT),
            (WRITES_R0, NO_FIELD),
            (WRITES_R0, LEVEL_RULE),
            (NOT_LISTED, WRONG_SORT),
            (NOT_LISTED, NO_FIELD),
            (NOT_LISTED, LEVEL_RULE),
            (WRONG_SORT, LEVEL_RULE),
            (NO_FIELD, LEVEL_RULE),
        ],
    ),
    (
        STORE,
        &[
            (NOT_LISTED, WRONG_SORT),
            (NOT_LISTED, NO_FIELD),
            (NOT_LISTED, LEVEL_RULE),
            (NOT_THE_FIELDS, LEVEL_RULE),
        ],
    ),
    (ADD, &ARITHMETIC),
    (ADD_IMMEDIATE, &ARITHMETIC),
    (CPUSH, &[(PUSH_TOO_DEEP, LEVEL_RULE)]),
    (CJMP, &[(STACK_RULE, LIST_NOT_MET)]),
    (LABEL, &JUMP),
    (
        LABEL,
        &[(PLACED_TWICE, STACK_RULE), (PLACED_TWICE, LIST_NOT_MET), (PLACED_TWICE, LEVEL_RULE)],
    ),
];

/// Refusals that are else too seldom given alone, by the item's sort.
const ALONE: [(u32, u8); 13] = [
    (JMP, LEVEL_RULE),
    (BNZ, LEVEL_RULE),
    (LOAD, WRONG_SORT),
    (LOAD, NO_FIELD),
    (LOAD, LEVEL_RULE),
    (STORE, WRONG_SORT),
    (STORE, NO_FIELD),
    (STORE, NOT_THE_FIELDS),
    (STORE, NOT_THE_FIELDS),
    (STORE, NOT_THE_FIELDS),
    (STORE, LEVEL_RULE),
    (ADD, LEVEL_RULE),
    (CJMP, STACK_RULE),
];

/// The sort of an item, by its number.
pub fn sort(number: u32) -> u32 {
    match number {
        ADD..=SLT => ADD,
        ADD_IMMEDIATE..=SLT_IMMEDIATE => ADD_IMMEDIATE,
        _ => number,
    }
}

/// Places and items that are tried before an aim is given up.
const TRIES: u32 = 300;

/// Puts in an item that fails both premises of a pair, or one alone; false if none
/// was found.
pub fn put_in(random: &mut Random, draft: &mut Draft) -> bool {
    let Some((place, item)) = found(random, draft) else { return false };
    let full = draft.items.len() == ITEMS as usize;
    if place < draft.items.len() && (full || random.once_in(2)) {
        draft.items[place] = item;
    } else if !full {
        draft.items.insert(place, item);
    }
    true
}

/// A place and an item that fails there as it is aimed at.
fn found(random: &mut Random, draft: &Draft) -> Option<(usize, Item)> {
    let (sort, (first, second)) = any_aim(random);
    let walks = draft.walks();
    (0..TRIES).find_map(|_| {
        let place = random.below(walks.len() as u32) as usize;
        let to_r0 = [first, second].contains(&WRITES_R0);
        let item = any_of_sort(random, sort, draft.contexts.len(), to_r0);
        let failed = failing(&walks[place], item);
        let reached = if first == second {
            failed.is_only(first)
        } else {
            failed.has(first) && failed.has(second)
        };
        reached.then_some((place, item))
    })
}

/// A sort of item and a pair of refusals, which are the same where one is to be alone.
fn any_aim(random: &mut Random) -> (u32, Pair) {
    if random.once_in(3) {
        let (sort, refusal) = random.pick(&ALONE);
        return (sort, (refusal, refusal));
    }
    let aims: Vec<(u32, Pair)> = PAIRS
        .iter()
        .flat_map(|&(sort, pairs)| pairs.iter().map(move |&pair| (sort, pair)))
        .collect();
    random.pick(&aims)
}

fn any_of_sort(random: &mut Random, sort: u32, labels: usize, to_r0: bool) -> Item {
    let number = match sort {
        ADD | ADD_IMMEDIATE => sort + random.below(5),
        _ => sort,
    };
    match any_item(random, number, labels) {
        Item::Registers { number, rs, rt, .. } if to_r0 => {
            Item::Registers { number, rd: 0, rs, rt }
        }
        Item::Immediate { number, rs, immediate, .. } if to_r0 => {
            Item::Immediate { number, rd: 0, rs, immediate }
        }
        Item::Load { rs, field, .. } if to_r0 => Item::Load { rd: 0, rs, field },
        item => item,
    }
}
