//! Which premises of an item fail, all of them and not the first alone. A premise
//! counts where it can be judged by itself: one about an unlisted register or an
//! unknown field counts as failed only if it fails whatever that would be.

use crate::checker::*;
use crate::listing::context::Context;
use crate::listing::item::Item;
use crate::listing::types::{at_or_below, Type};

/// A set of refusals, a bit for each number.
#[derive(Clone, Copy, Debug, Default, PartialEq, Eq)]
pub struct Refusals(u32);

/// The order of 01's table.
const ORDER: [u8; 14] = [
    NO_LABEL,
    PLACED_TWICE,
    FIRST_STACK,
    WRITES_R0,
    NOT_LISTED,
    WRONG_SORT,
    NO_FIELD,
    NOT_THE_FIELDS,
    STACK_RULE,
    PUSH_TOO_DEEP,
    LIST_NOT_MET,
    LEVEL_RULE,
    OPEN_END,
    NEVER_PLACED,
];

impl Refusals {
    fn add(&mut self, refusal: u8, fails: bool) {
        self.0 |= u32::from(fails) << refusal;
    }

    pub fn has(self, refusal: u8) -> bool {
        self.0 >> refusal & 1 == 1
    }

    pub fn is_only(self, refusal: u8) -> bool {
        self.0 == 1 << refusal
    }

    /// The refusals in the table's order.
    pub fn in_order(self) -> impl Iterator<Item = u8> + Clone {
        ORDER.into_iter().filter(move |&refusal| self.has(refusal))
    }
}

/// The failing premises of an item at which the walk has come.
pub fn failing(walk: &Walk, item: Item) -> Refusals {
    let mut failed = Refusals::default();
    match item {
        Item::Label(label) => label_fails(&mut failed, walk, label),
        _ if !walk.open => {
            failed.add(NO_LABEL, true);
            failed.add(WRITES_R0, writes_r0(item));
        }
        _ => {
            failed.add(WRITES_R0, writes_r0(item));
            in_a_block_fails(&mut failed, walk, item);
        }
    }
    failed
}

/// The same behind the last item.
pub fn failing_at_the_end(walk: &Walk) -> Refusals {
    let mut failed = Refusals::default();
    let all = u128::MAX >> (128 - walk.contexts.len());
    failed.add(OPEN_END, walk.open);
    failed.add(NEVER_PLACED, walk.placed != all);
    failed
}

fn writes_r0(item: Item) -> bool {
    matches!(
        item,
        Item::Load { rd: 0, .. } | Item::Registers { rd: 0, .. } | Item::Immediate { rd: 0, .. }
    )
}

fn in_a_block_fails(failed: &mut Refusals, walk: &Walk, item: Item) {
    let register = |register: u8| walk.now.types[usize::from(register)];
    let target = |label: u8| &walk.contexts[usize::from(label)];
    let now = &walk.now;
    match item {
        Item::Registers { rd, rs, rt, .. } => {
            arithmetic_fails(failed, now.pc, register(rd), &[register(rs), register(rt)]);
        }
        Item::Immediate { rd, rs, .. } => {
            arithmetic_fails(failed, now.pc, register(rd), &[register(rs)]);
        }
        Item::Load { rd, rs, field } => load_fails(failed, walk, register(rd), register(rs), field),
        Item::Store { rd, field, rs } => {
            store_fails(failed, walk, register(rd), field, register(rs));
        }
        Item::Bnz { rs, label } => {
            failed.add(NOT_LISTED, !register(rs).is_some());
            failed.add(WRONG_SORT, register(rs).is_pointer());
            jump_fails(failed, now, now.pc | known_level(register(rs), 0), target(label));
        }
        Item::Jmp(label) => jump_fails(failed, now, now.pc, target(label)),
        Item::Cpush(label) => {
            failed.add(PUSH_TOO_DEEP, now.stack.depth() == 16);
            failed.add(LEVEL_RULE, !at_or_below(now.pc, target(label).pc));
        }
        Item::Cjmp(label) => {
            let wanted = [label].into_iter().chain(target(label).stack.labels());
            failed.add(STACK_RULE, !wanted.eq(now.stack.labels()));
            failed.add(LIST_NOT_MET, lacks(now, target(label)));
        }
        Item::Halt => failed.add(STACK_RULE, now.stack.depth() > 0),
        Item::Label(_) => unreachable!("a label starts a block"),
    }
}

fn label_fails(failed: &mut Refusals, walk: &Walk, label: u8) {
    let target = &walk.contexts[usize::from(label)];
    failed.add(PLACED_TWICE, walk.placed >> label & 1 == 1);
    failed.add(FIRST_STACK, walk.placed == 0 && target.stack.depth() > 0);
    if walk.open {
        jump_fails(failed, &walk.now, walk.now.pc, target);
    }
}

fn jump_fails(failed: &mut Refusals, now: &Context, pc: u8, target: &Context) {
    failed.add(STACK_RULE, !now.stack.labels().eq(target.stack.labels()));
    failed.add(LIST_NOT_MET, lacks(now, target));
    failed.add(LEVEL_RULE, !at_or_below(pc, target.pc));
}

fn lacks(now: &Context, target: &Context) -> bool {
    (1..16).any(|index| target.types[index].is_some() && target.types[index] != now.types[index])
}

/// The level, or one that no rule minds.
fn known_level(found: Type, unknown: u8) -> u8 {
    if found.is_some() {
        found.level()
    } else {
        unknown
    }
}

fn arithmetic_fails(failed: &mut Refusals, pc: u8, to: Type, sources: &[Type]) {
    let unlisted = |found: &Type| !found.is_some();
    failed.add(NOT_LISTED, unlisted(&to) || sources.iter().any(unlisted));
    failed.add(WRONG_SORT, sources.iter().any(|source| source.is_pointer()));
    let sources = sources.iter().fold(pc, |join, &source| join | known_level(source, 0));
    failed.add(LEVEL_RULE, !at_or_below(sources, known_level(to, 255)));
}

/// The field, none if the register does not point to a shape that has it.
fn field_of(walk: &Walk, base: Type, field: u8) -> Type {
    base.shape().map_or(Type::NONE, |shape| walk.shapes[shape][usize::from(field)])
}

fn load_fails(failed: &mut Refusals, walk: &Walk, to: Type, base: Type, field: u8) {
    let field = field_of(walk, base, field);
    failed.add(NOT_LISTED, !to.is_some() || !base.is_some());
    failed.add(WRONG_SORT, base.is_some() && !base.is_pointer());
    failed.add(NO_FIELD, base.is_pointer() && !field.is_some());
    let (lower, upper) = (walk.now.pc | known_level(base, 0), known_level(to, 255));
    let up_to_field = at_or_below(lower, known_level(field, upper));
    failed.add(LEVEL_RULE, !(up_to_field && at_or_below(known_level(field, lower), upper)));
}

fn store_fails(failed: &mut Refusals, walk: &Walk, base: Type, field: u8, from: Type) {
    let field = field_of(walk, base, field);
    failed.add(NOT_LISTED, !base.is_some() || !from.is_some());
    failed.add(WRONG_SORT, base.is_some() && !base.is_pointer());
    failed.add(NO_FIELD, base.is_pointer() && !field.is_some());
    failed.add(NOT_THE_FIELDS, field.is_some() && from.is_some() && from != field);
    let lower = walk.now.pc | known_level(base, 0);
    failed.add(LEVEL_RULE, !at_or_below(lower, known_level(field, 255)));
}
