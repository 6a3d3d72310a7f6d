//! The SIF checker: 01's walk down the items, with the refusals of its table.
//! `rules` has the typing rules.

mod rules;

use crate::listing::context::{Context, Stack};
use crate::listing::item::Item;
use crate::listing::types::{Type, Types};
use crate::listing::Listing;
use crate::packet::Refusal;

pub const NO_LABEL: u8 = 10;
pub const PLACED_TWICE: u8 = 11;
pub const FIRST_STACK: u8 = 12;
pub const WRITES_R0: u8 = 19;
pub const NOT_LISTED: u8 = 13;
pub const WRONG_SORT: u8 = 14;
pub const NO_FIELD: u8 = 16;
pub const NOT_THE_FIELDS: u8 = 23;
pub const STACK_RULE: u8 = 17;
pub const PUSH_TOO_DEEP: u8 = 20;
pub const LIST_NOT_MET: u8 = 18;
pub const LEVEL_RULE: u8 = 15;
pub const OPEN_END: u8 = 21;
pub const NEVER_PLACED: u8 = 22;

/// Accepts the listing, or gives its first fault.
pub fn check(listing: &Listing) -> Result<(), Refusal> {
    let mut walk = Walk::new(&listing.shapes, &listing.contexts);
    let mut place = 0;
    for item in listing.items() {
        walk.step(item).map_err(|number| Refusal { number, place })?;
        place += 1;
    }
    walk.end().map_err(|number| Refusal { number, place })
}

/// Where the walk stands: before an item, all items before it accepted.
#[derive(Clone, Copy)]
pub struct Walk<'a> {
    pub shapes: &'a [Types],
    pub contexts: &'a [Context],
    /// The current context, which counts while the block is open.
    pub now: Context,
    pub open: bool,
    /// A bit for each label that is placed; none only before item 0.
    pub placed: u128,
}

impl<'a> Walk<'a> {
    pub fn new(shapes: &'a [Types], contexts: &'a [Context]) -> Self {
        let now = Context { pc: 0, stack: Stack::EMPTY, types: [Type::NONE; 16] };
        Walk { shapes, contexts, now, open: false, placed: 0 }
    }

    /// Goes past the item; an error is its refusal. As it is inlined, and the next
    /// item's decoding too, no item is put in memory between them.
    #[inline(always)]
    pub fn step(&mut self, item: Item) -> Result<(), u8> {
        match item {
            Item::Label(label) => self.label(label),
            Item::Registers { rd, rs, rt, .. } => self.in_block()?.arithmetic(rd, rs, rt),
            // r0 is such a source as an immediate is.
            Item::Immediate { rd, rs, .. } => self.in_block()?.arithmetic(rd, rs, 0),
            Item::Load { rd, rs, field } => self.in_block()?.load(rd, rs, field),
            Item::Store { rd, field, rs } => self.in_block()?.store(rd, field, rs),
            Item::Bnz { rs, label } => self.in_block()?.bnz(rs, label),
            Item::Jmp(label) => self.in_block()?.jmp(label),
            Item::Cpush(label) => self.in_block()?.cpush(label),
            Item::Cjmp(label) => self.in_block()?.cjmp(label),
            Item::Halt => self.in_block()?.halt(),
        }
    }

    /// The walk itself, unless a label is due.
    #[inline]
    fn in_block(&mut self) -> Result<&mut Self, u8> {
        premise(self.open, NO_LABEL)?;
        Ok(self)
    }

    /// What is refused behind the last item.
    pub fn end(&self) -> Result<(), u8> {
        premise(!self.open, OPEN_END)?;
        premise(self.placed.count_ones() as usize == self.contexts.len(), NEVER_PLACED)
    }
}

/// The refusal, unless the premise holds.
#[inline]
fn premise(holds: bool, refusal: u8) -> Result<(), u8> {
    if holds {
        Ok(())
    } else {
        Err(refusal)
    }
}
