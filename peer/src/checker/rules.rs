//! 01's typing rules: the premises of each in the order of its table of refusals.

use super::*;
use crate::listing::types::{at_or_below, meets};

impl<'a> Walk<'a> {
    #[inline]
    fn register(&self, register: u8) -> Type {
        self.now.types[usize::from(register)]
    }

    #[inline]
    fn target(&self, label: u8) -> &'a Context {
        &self.contexts[usize::from(label)]
    }

    #[inline]
    pub(super) fn arithmetic(&mut self, rd: u8, rs: u8, rt: u8) -> Result<(), u8> {
        premise(rd != 0, WRITES_R0)?;
        let [to, from, other] = [rd, rs, rt].map(|register| self.register(register));
        premise(to.is_some() && from.is_some() && other.is_some(), NOT_LISTED)?;
        premise(!from.is_pointer() && !other.is_pointer(), WRONG_SORT)?;
        let sources = self.now.pc | from.level() | other.level();
        premise(at_or_below(sources, to.level()), LEVEL_RULE)?;
        self.now.types[usize::from(rd)] = Type::new(0, to.level());
        Ok(())
    }

    #[inline]
    pub(super) fn load(&mut self, rd: u8, rs: u8, field: u8) -> Result<(), u8> {
        premise(rd != 0, WRITES_R0)?;
        let (to, base) = (self.register(rd), self.register(rs));
        premise(to.is_some() && base.is_some(), NOT_LISTED)?;
        let field = self.field(base, field)?;
        let enters = at_or_below(self.now.pc | base.level(), field.level());
        premise(enters && at_or_below(field.level(), to.level()), LEVEL_RULE)?;
        self.now.types[usize::from(rd)] = Type::new(field.kind(), to.level());
        Ok(())
    }

    #[inline]
    pub(super) fn store(&mut self, rd: u8, field: u8, rs: u8) -> Result<(), u8> {
        let (base, from) = (self.register(rd), self.register(rs));
        premise(base.is_some() && from.is_some(), NOT_LISTED)?;
        let field = self.field(base, field)?;
        premise(from == field, NOT_THE_FIELDS)?;
        premise(at_or_below(self.now.pc | base.level(), field.level()), LEVEL_RULE)
    }

    /// The field of the shape that a listed register must point to.
    #[inline]
    fn field(&self, base: Type, field: u8) -> Result<Type, u8> {
        let shape = base.shape().ok_or(WRONG_SORT)?;
        let field = self.shapes[shape][usize::from(field)];
        premise(field.is_some(), NO_FIELD)?;
        Ok(field)
    }

    /// The premises of jmp, of bnz and of falling into a label.
    #[inline]
    fn jump(&self, target: &Context) -> Result<(), u8> {
        premise(self.now.stack == target.stack, STACK_RULE)?;
        premise(meets(&self.now.types, &target.types), LIST_NOT_MET)?;
        premise(at_or_below(self.now.pc, target.pc), LEVEL_RULE)
    }

    #[inline]
    pub(super) fn jmp(&mut self, label: u8) -> Result<(), u8> {
        self.jump(self.target(label))?;
        self.open = false;
        Ok(())
    }

    #[inline]
    pub(super) fn bnz(&mut self, rs: u8, label: u8) -> Result<(), u8> {
        let condition = self.register(rs);
        premise(condition.is_some(), NOT_LISTED)?;
        premise(!condition.is_pointer(), WRONG_SORT)?;
        self.now.pc |= condition.level();
        self.jump(self.target(label))
    }

    #[inline]
    pub(super) fn cpush(&mut self, label: u8) -> Result<(), u8> {
        premise(!self.now.stack.is_full(), PUSH_TOO_DEEP)?;
        premise(at_or_below(self.now.pc, self.target(label).pc), LEVEL_RULE)?;
        self.now.stack = self.now.stack.push(label);
        Ok(())
    }

    #[inline]
    pub(super) fn cjmp(&mut self, label: u8) -> Result<(), u8> {
        let target = self.target(label);
        let stack = self.now.stack;
        premise(stack.top() == Some(label) && stack.rest() == target.stack, STACK_RULE)?;
        premise(meets(&self.now.types, &target.types), LIST_NOT_MET)?;
        self.open = false;
        Ok(())
    }

    #[inline]
    pub(super) fn halt(&mut self) -> Result<(), u8> {
        premise(self.now.stack.is_empty(), STACK_RULE)?;
        self.open = false;
        Ok(())
    }

    #[inline]
    pub(super) fn label(&mut self, label: u8) -> Result<(), u8> {
        let bit = 1 << label;
        let context = self.target(label);
        premise(self.placed & bit == 0, PLACED_TWICE)?;
        premise(self.placed != 0 || context.stack.is_empty(), FIRST_STACK)?;
        if self.open {
            self.jump(context)?;
        }
        self.placed |= bit;
        self.now = *context;
        self.open = true;
        Ok(())
    }
}
