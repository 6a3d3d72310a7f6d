//! Label contexts.

use super::types::Types;

#[derive(Clone, Copy, Debug, PartialEq, Eq)]
pub struct Context {
    pub pc: u8,
    pub stack: Stack,
    /// r0 is always listed.
    pub types: Types,
}

/// A stack of at most sixteen labels, a byte for each, the top in the lowest.
#[derive(Clone, Copy, Debug, PartialEq, Eq)]
pub struct Stack(u128);

/// A bit in the byte of every label, which tells it from no label.
const SOME: u8 = 0x80;
const LABEL_BITS: u32 = 8;

impl Stack {
    pub const EMPTY: Stack = Stack(0);

    #[inline]
    pub fn is_empty(self) -> bool {
        self == Stack::EMPTY
    }

    #[inline]
    pub fn is_full(self) -> bool {
        self.0 >> (128 - LABEL_BITS) != 0
    }

    /// The stack with the label on top; a full one would lose its last.
    #[inline]
    pub fn push(self, label: u8) -> Self {
        Stack(self.0 << LABEL_BITS | u128::from(SOME | label))
    }

    #[inline]
    pub fn top(self) -> Option<u8> {
        let top = self.0 as u8;
        (top != 0).then_some(top & !SOME)
    }

    /// All but the top.
    #[inline]
    pub fn rest(self) -> Self {
        Stack(self.0 >> LABEL_BITS)
    }

    /// The labels, top first.
    pub fn labels(self) -> impl Iterator<Item = u8> {
        let stacks = std::iter::successors(Some(self), |stack| Some(stack.rest()));
        stacks.map_while(Stack::top)
    }

    /// The stack of these labels, top first.
    pub fn of(labels: impl DoubleEndedIterator<Item = u8>) -> Self {
        labels.rev().fold(Stack::EMPTY, Stack::push)
    }

    pub fn depth(self) -> usize {
        self.labels().count()
    }
}
