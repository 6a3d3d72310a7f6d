//! The level rules, part by part.

use super::{field, register, target};
use crate::checker::Walk;
use crate::listing::item::Item;
use crate::listing::types::at_or_below;

pub fn levels(walk: &Walk, item: Item) -> Vec<(&'static str, bool)> {
    let pc = walk.now.pc;
    let level = |index| register(walk, index).level();
    let above = |lower, upper| !at_or_below(lower, upper);
    match item {
        Item::Registers { rd, rs, rt, .. } => vec![
            ("15: the pc to rd", above(pc, level(rd))),
            ("15: rs to rd", above(level(rs), level(rd))),
            ("15: rt to rd", above(level(rt), level(rd))),
        ],
        Item::Immediate { rd, rs, .. } => vec![
            ("15: the pc to rd", above(pc, level(rd))),
            ("15: rs to rd", above(level(rs), level(rd))),
        ],
        Item::Load { rd, rs, field: index } => {
            let found = field(walk, register(walk, rs), index).level();
            vec![
                ("15: the pc to the field", above(pc, found)),
                ("15: the pointer's to the field", above(level(rs), found)),
                ("15: the field's to rd", above(found, level(rd))),
            ]
        }
        Item::Store { rd, field: index, .. } => {
            let found = field(walk, register(walk, rd), index).level();
            vec![
                ("15: the pc to the field", above(pc, found)),
                ("15: the pointer's to the field", above(level(rd), found)),
            ]
        }
        Item::Cpush(_) => vec![("15: the pc to what is pushed", true)],
        Item::Bnz { rs, .. } => vec![
            ("15: the branch's level", above(level(rs), target(walk, item).pc)),
            ("15: the pc to the target", above(pc, target(walk, item).pc)),
        ],
        _ => vec![("15: the pc to the target", true)],
    }
}
