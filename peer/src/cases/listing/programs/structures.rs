//! Statements of more than one item. Each leaves the block open, on the stack on
//! which it found it, and has no more items than the room.

use super::maker::Maker;
use crate::listing::item::Item;
use crate::listing::types::{at_or_below, Type};

impl Maker<'_> {
    /// Statements that fill the room, or as much of it as can be filled.
    pub fn body(&mut self, room: usize) {
        let end = self.draft.items.len() + room;
        loop {
            let left = end - self.draft.items.len();
            if left == 0 || !(self.structure(left) || self.simple()) {
                return;
            }
        }
    }

    /// One statement of more than one item; false if none is chosen or none fits.
    fn structure(&mut self, room: usize) -> bool {
        let labels = self.labels_left();
        let may_push = !self.now.stack.is_full();
        if self.random.below(10) >= self.style.structured {
            return false;
        }
        let deeper = self.style.nested && self.random.below(4) > 0;
        match if deeper { 6 } else { self.random.below(8) } {
            0 if labels >= 1 => self.pass_a_label(),
            1 if labels >= 1 && room >= 2 => self.skip(room),
            2 if labels >= 1 && room >= 2 => self.one_arm(room),
            3 if labels >= 2 && room >= 4 => self.two_arms(room),
            4 if labels >= 1 && room >= 2 && self.style.loops => self.loop_to_the_end(room),
            5 if labels >= 2 && room >= 4 && self.style.loops => self.loop_from_the_head(room),
            6 if labels >= 1 && room >= 3 && may_push => self.region(room),
            7 if labels >= 2 && room >= 7 && may_push => self.secret_arms(room),
            _ => return false,
        }
        true
    }

    /// Where the pc level stays high until the program's end, it seldom rises.
    fn may_raise(&mut self) -> bool {
        !self.now.stack.is_empty() || self.random.once_in(8)
    }

    /// The pc level here, or a higher one.
    fn pc_ahead(&mut self) -> u8 {
        let level = self.random.pick(&self.levels);
        let raised = self.random.once_in(3) && self.may_raise();
        self.now.pc | if raised { level } else { 0 }
    }

    /// A register to branch on.
    fn condition(&mut self) -> u8 {
        let (pc, may_raise) = (self.now.pc, self.may_raise());
        let r0_too = self.random.once_in(8);
        let fit =
            |found: Type| !found.is_pointer() && (may_raise || at_or_below(found.level(), pc));
        self.any_register(|register, found| fit(found) && (r0_too || register != 0)).unwrap_or(0)
    }

    fn pass_a_label(&mut self) {
        let pc = self.pc_ahead();
        let label = self.label_ahead(pc);
        self.fall(label);
    }

    /// A jump to the next block, over stray ones if there is room.
    fn skip(&mut self, room: usize) {
        let end = self.draft.items.len() + room;
        let pc = self.pc_ahead();
        let label = self.label_ahead(pc);
        self.jmp(label);
        if self.random.once_in(2) && self.room_for_stray(end - 1) {
            let left = end - 1 - self.draft.items.len();
            let room = 2 + self.share(left - 2);
            self.stray(room);
        }
        self.place(label);
    }

    fn one_arm(&mut self, room: usize) {
        let pc = self.pc_ahead();
        let behind = self.label_ahead(pc);
        let rs = self.condition();
        self.bnz(rs, behind);
        let room = self.share(room - 2);
        self.body(room);
        self.fall(behind);
    }

    /// Both arms come to one label, by a jump or a fall; the first may halt instead.
    fn two_arms(&mut self, room: usize) {
        let room = self.share(room - 4);
        let first = self.share(room);
        let pc = self.pc_ahead();
        let (other, join) = (self.label_ahead(pc), self.label_ahead(pc));
        let rs = self.condition();
        self.bnz(rs, other);
        self.body(first);
        if self.now.stack.is_empty() && self.random.once_in(4) {
            self.emit(Item::Halt);
        } else {
            self.jmp(join);
        }
        self.place(other);
        self.body(room - first);
        self.fall(join);
    }

    /// A label, a body, and a branch back if the pc level still allows it.
    fn loop_to_the_end(&mut self, room: usize) {
        let (head, held) = self.loop_head();
        let room = self.share(room - 2);
        self.body(room);
        let pc = self.draft.contexts[usize::from(head)].pc;
        let fit = |_, found: Type| !found.is_pointer() && at_or_below(found.level(), pc);
        let rs = self.any_register(fit).expect("r0 will do");
        if at_or_below(self.now.pc, pc) {
            self.bnz(rs, head);
        }
        self.held = held;
    }

    /// A label, a branch out, a body, and a jump back if the pc level still allows it.
    fn loop_from_the_head(&mut self, room: usize) {
        let (head, held) = self.loop_head();
        let pc = self.draft.contexts[usize::from(head)].pc;
        let out = self.label_ahead(pc);
        let rs = self.condition();
        self.bnz(rs, out);
        let room = self.share(room - 4);
        self.body(room);
        if at_or_below(self.now.pc, pc) {
            self.jmp(head);
            self.place(out);
        } else {
            self.fall(out);
        }
        self.held = held;
    }

    /// Falls into a label to which a loop comes back, and holds the registers that
    /// it lists; gives the registers that were held before, too.
    fn loop_head(&mut self) -> (u8, u16) {
        let held = self.held;
        let pc = self.pc_ahead();
        let head = self.label_ahead(pc);
        self.fall(head);
        let listed = (1..16).filter(|&register| self.now.types[register].is_some());
        self.held |= listed.map(|register| 1 << register).sum::<u16>();
        (head, held)
    }

    /// A label is pushed and jumped to, whatever the pc level has become.
    fn region(&mut self, room: usize) {
        let pc = self.pc_ahead();
        let back = self.label_ahead(pc);
        self.cpush(back);
        let room = if self.style.nested { room - 3 } else { self.share(room - 3) };
        self.body(room);
        self.cjmp(back);
        self.place(back);
    }

    /// As bench piece K1 has it.
    fn secret_arms(&mut self, room: usize) {
        let room = self.share(room - 7);
        let first = self.share(room);
        let pc = self.pc_ahead();
        let back = self.label_ahead(pc);
        self.cpush(back);
        let rs = self.condition();
        let pc = self.pc_ahead();
        let other = self.label_ahead(pc);
        self.bnz(rs, other);
        self.body(first);
        self.cjmp(back);
        self.place(other);
        self.body(room - first);
        self.cjmp(back);
        self.place(back);
    }
}
