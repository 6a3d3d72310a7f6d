//! Arithmetic, load and store that the context here allows.

use super::super::items::immediate;
use super::maker::{is_in, Maker};
use crate::listing::item::Item;
use crate::listing::types::{at_or_below, Type};
use crate::word::*;

impl Maker<'_> {
    /// One item; false if there is none.
    pub fn simple(&mut self) -> bool {
        match self.random.below(5) {
            0 | 1 => self.load() || self.arithmetic(),
            2 => self.store() || self.arithmetic(),
            _ => self.arithmetic() || self.load() || self.store(),
        }
    }

    /// A pointer that is written becomes an integer, so that is done seldom.
    fn arithmetic(&mut self) -> bool {
        let (pc, held) = (self.now.pc, self.held);
        let over_pointers = self.random.once_in(8);
        let rd = self.any_register(|register, found| {
            let kept = is_in(register, held) || !over_pointers;
            register != 0 && at_or_below(pc, found.level()) && !(kept && found.is_pointer())
        });
        let Some(rd) = rd else { return false };
        let level = self.now.types[usize::from(rd)].level();
        let [rs, rt] = [0; 2].map(|_| {
            let source = |_, found: Type| !found.is_pointer() && at_or_below(found.level(), level);
            self.any_register(source).expect("r0 will do")
        });
        let number = self.random.between(ADD, SLT_IMMEDIATE);
        let item = if number <= SLT {
            Item::Registers { number: number as u8, rd, rs, rt }
        } else {
            let immediate = immediate(self.random) as u16;
            Item::Immediate { number: number as u8, rd, rs, immediate }
        };
        self.emit(item);
        self.now.types[usize::from(rd)] = Type::new(0, level);
        true
    }

    /// A pointer register and a field that may be used through it.
    fn any_field(&mut self) -> Option<(u8, u8, Type)> {
        let base = self.any_register(|_, found| found.is_pointer())?;
        let pointer = self.now.types[usize::from(base)];
        let shape = self.draft.shapes[pointer.shape()?];
        let reached = |field: &usize| {
            let found = shape[*field];
            found.is_some() && at_or_below(self.now.pc | pointer.level(), found.level())
        };
        let fields: Vec<usize> = (0..16).filter(reached).collect();
        if fields.is_empty() {
            return None;
        }
        let field = self.random.pick(&fields);
        Some((base, field as u8, shape[field]))
    }

    fn load(&mut self) -> bool {
        let Some((rs, field, found)) = self.any_field() else { return false };
        let held = self.held;
        let rd = self.any_register(|register, to| {
            let may_change = !is_in(register, held) || to.kind() == found.kind();
            register != 0 && may_change && at_or_below(found.level(), to.level())
        });
        let Some(rd) = rd else { return false };
        self.emit(Item::Load { rd, rs, field });
        let to = &mut self.now.types[usize::from(rd)];
        *to = Type::new(found.kind(), to.level());
        true
    }

    fn store(&mut self) -> bool {
        let Some((rd, field, found)) = self.any_field() else { return false };
        let Some(rs) = self.any_register(|_, from| from == found) else { return false };
        self.emit(Item::Store { rd, field, rs });
        true
    }
}
