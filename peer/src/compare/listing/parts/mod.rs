//! Which part of a premise fails alone, where a premise has several: a checker that
//! forgot that part would accept.

mod jumps;
mod levels;

use crate::checker::*;
use crate::listing::context::Context;
use crate::listing::item::Item;
use crate::listing::types::Type;
use jumps::{lists, stacks};
use levels::levels;
use std::collections::BTreeMap;

const PARTS: [&str; 32] = [
    "10: behind a closed block",
    "10: item 0",
    "11: behind a closed block",
    "11: fallen into",
    "13: rd",
    "13: rs",
    "13: rt",
    "14: rs",
    "14: rt",
    "15: the branch's level",
    "15: the field's to rd",
    "15: the pc to rd",
    "15: the pc to the field",
    "15: the pointer's to the field",
    "15: the pc to the target",
    "15: the pc to what is pushed",
    "15: rs to rd",
    "15: rt to rd",
    "17: another label",
    "17: another label deeper",
    "17: cjmp from an empty stack",
    "17: cjmp, a full stack below",
    "17: cjmp, another rest",
    "17: cjmp, another top",
    "17: less deep",
    "17: deeper",
    "18: another kind",
    "18: another level",
    "18: not listed",
    "23: another kind",
    "23: another level",
    "23: both",
];

pub fn assert_full(found: &BTreeMap<&'static str, u64>) {
    for part in PARTS {
        let times = found.get(part).copied().unwrap_or(0);
        assert!(times >= 50, "{part} only {times} times");
    }
    assert_eq!(found.len(), PARTS.len(), "{found:?}");
}

/// The parts of the refusal's rule that fail alone, for the refused item.
pub fn parts(walk: &Walk, item: Item, refusal: u8) -> Vec<&'static str> {
    match refusal {
        NO_LABEL if walk.placed == 0 => vec!["10: item 0"],
        NO_LABEL => vec!["10: behind a closed block"],
        PLACED_TWICE if walk.open => vec!["11: fallen into"],
        PLACED_TWICE => vec!["11: behind a closed block"],
        NOT_LISTED => {
            only(&registers(walk, item, ["13: rd", "13: rs", "13: rt"], |found| !found.is_some()))
        }
        WRONG_SORT => only(&registers(walk, item, ["", "14: rs", "14: rt"], Type::is_pointer)),
        LEVEL_RULE => only(&levels(walk, item)),
        STACK_RULE => stacks(walk, item),
        LIST_NOT_MET => only(&lists(&walk.now, target(walk, item))),
        NOT_THE_FIELDS => stored(walk, item),
        _ => vec![],
    }
}

/// The name, if just one fails.
fn only(parts: &[(&'static str, bool)]) -> Vec<&'static str> {
    let failing: Vec<_> = parts.iter().filter(|part| part.1).map(|part| part.0).collect();
    if failing.len() == 1 {
        failing
    } else {
        vec![]
    }
}

fn register(walk: &Walk, register: u8) -> Type {
    walk.now.types[usize::from(register)]
}

fn target<'a>(walk: &Walk<'a>, item: Item) -> &'a Context {
    match item {
        Item::Jmp(label)
        | Item::Bnz { label, .. }
        | Item::Cpush(label)
        | Item::Cjmp(label)
        | Item::Label(label) => &walk.contexts[usize::from(label)],
        _ => unreachable!("the item names a label"),
    }
}

/// Each register of the item, by its role, and whether it fails; an rd is asked
/// only whether it is listed.
fn registers(
    walk: &Walk,
    item: Item,
    names: [&'static str; 3],
    fails: impl Fn(Type) -> bool,
) -> Vec<(&'static str, bool)> {
    let [rd, rs, rt] = match item {
        Item::Registers { rd, rs, rt, .. } => [Some(rd), Some(rs), Some(rt)],
        Item::Immediate { rd, rs, .. } | Item::Load { rd, rs, .. } | Item::Store { rd, rs, .. } => {
            [Some(rd), Some(rs), None]
        }
        Item::Bnz { rs, .. } => [None, Some(rs), None],
        _ => [None; 3],
    };
    let roles = names.into_iter().zip([rd, rs, rt]).filter(|(name, _)| !name.is_empty());
    roles.map(|(name, role)| (name, role.is_some_and(|role| fails(register(walk, role))))).collect()
}

fn field(walk: &Walk, base: Type, field: u8) -> Type {
    walk.shapes[base.shape().expect("a pointer")][usize::from(field)]
}

fn stored(walk: &Walk, item: Item) -> Vec<&'static str> {
    let Item::Store { rd, field: index, rs } = item else { return vec![] };
    let (found, from) = (field(walk, register(walk, rd), index), register(walk, rs));
    vec![match (found.kind() == from.kind(), found.level() == from.level()) {
        (false, true) => "23: another kind",
        (true, false) => "23: another level",
        _ => "23: both",
    }]
}
