//! Blocks that no jump comes to. They are typed as all others; their contexts may
//! be any.

use super::maker::Maker;
use crate::listing::context::{Context, Stack};
use crate::listing::item::Item;
use crate::packet::grammar::STACK;

impl Maker<'_> {
    /// Whether a stray block may be put here, before an item count.
    pub fn room_for_stray(&self, end: usize) -> bool {
        self.draft.items.len() + 2 <= end && self.labels_left() >= 1
    }

    /// A block or several, of at most so many items, behind a closed block. The
    /// context is then what it was.
    pub fn stray(&mut self, room: usize) {
        let (now, held) = (self.now, self.held);
        let pc = self.random.pick(&self.levels);
        self.now = Context { pc, stack: Stack::EMPTY, types: self.fresh_types() };
        self.held = self.sink_bit();
        match self.random.below(3) {
            0 => self.stray_to_halt(room),
            1 => self.stray_to_label(room),
            _ => self.stray_to_itself(room),
        }
        (self.now, self.held) = (now, held);
    }

    fn stray_to_halt(&mut self, room: usize) {
        let start = self.label_here();
        self.place(start);
        self.body(room - 2);
        self.emit(Item::Halt);
    }

    /// A stack that some label wants on top of its own; the block ends in a cjmp to it.
    fn stray_to_label(&mut self, room: usize) {
        let label = self.random.below(self.draft.contexts.len() as u32) as u8;
        let target = self.draft.contexts[usize::from(label)];
        if target.stack.is_full() {
            return self.stray_to_halt(room);
        }
        self.now.stack = target.stack.push(label);
        for register in 1..16 {
            if target.types[register].is_some() {
                self.now.types[register] = target.types[register];
                self.held |= 1 << register;
            }
        }
        let start = self.label_here();
        self.place(start);
        self.body(room - 2);
        self.cjmp(label);
    }

    /// Any stack; the block has simple items only and jumps to its own start.
    fn stray_to_itself(&mut self, room: usize) {
        let start = self.draft.contexts.len() as u32;
        let depth = if self.random.once_in(3) { STACK } else { self.random.below(STACK + 1) };
        for _ in 0..depth {
            self.now.stack = self.now.stack.push(self.random.below(start + 1) as u8);
        }
        self.held = u16::MAX;
        let start = self.label_here();
        self.place(start);
        let end = self.draft.items.len() + room - 2;
        while self.draft.items.len() < end && self.simple() {}
        self.jmp(start);
    }
}
