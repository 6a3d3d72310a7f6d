//! Items, and their numbers in a packet.

use crate::packet::grammar::{CJMP, CPUSH, LABEL};
use crate::word::*;

/// Registers, fields and labels by their numbers.
#[derive(Clone, Copy, Debug, PartialEq, Eq)]
pub enum Item {
    Halt,
    Jmp(u8),
    Bnz {
        rs: u8,
        label: u8,
    },
    Load {
        rd: u8,
        rs: u8,
        field: u8,
    },
    Store {
        rd: u8,
        field: u8,
        rs: u8,
    },
    /// Arithmetic of two registers; `number` is the item's, 5 to 9.
    Registers {
        number: u8,
        rd: u8,
        rs: u8,
        rt: u8,
    },
    /// Arithmetic with an immediate, which is 32,768 more than it stands for; 10 to 14.
    Immediate {
        number: u8,
        rd: u8,
        rs: u8,
        immediate: u16,
    },
    Cpush(u8),
    Cjmp(u8),
    Label(u8),
}

/// The items that numbers stand for.
#[derive(Clone)]
pub struct Items<'a> {
    numbers: &'a [u32],
}

impl<'a> Items<'a> {
    /// The numbers are whole items, as the reader takes them.
    pub fn new(numbers: &'a [u32]) -> Self {
        Items { numbers }
    }
}

impl Iterator for Items<'_> {
    type Item = Item;

    #[inline(always)]
    fn next(&mut self) -> Option<Item> {
        let (item, rest) = match *self.numbers {
            [] => return None,
            [HALT, ref rest @ ..] => (Item::Halt, rest),
            [JMP, label, ref rest @ ..] => (Item::Jmp(label as u8), rest),
            [BNZ, rs, label, ref rest @ ..] => {
                (Item::Bnz { rs: rs as u8, label: label as u8 }, rest)
            }
            [LOAD, rd, rs, field, ref rest @ ..] => {
                (Item::Load { rd: rd as u8, rs: rs as u8, field: field as u8 }, rest)
            }
            [STORE, rd, field, rs, ref rest @ ..] => {
                (Item::Store { rd: rd as u8, field: field as u8, rs: rs as u8 }, rest)
            }
            [number @ ADD..=SLT, rd, rs, rt, ref rest @ ..] => {
                let (number, rd, rs, rt) = (number as u8, rd as u8, rs as u8, rt as u8);
                (Item::Registers { number, rd, rs, rt }, rest)
            }
            [number @ ADD_IMMEDIATE..=SLT_IMMEDIATE, rd, rs, immediate, ref rest @ ..] => {
                let (number, rd, rs) = (number as u8, rd as u8, rs as u8);
                (Item::Immediate { number, rd, rs, immediate: immediate as u16 }, rest)
            }
            [CPUSH, label, ref rest @ ..] => (Item::Cpush(label as u8), rest),
            [CJMP, label, ref rest @ ..] => (Item::Cjmp(label as u8), rest),
            [LABEL, label, ref rest @ ..] => (Item::Label(label as u8), rest),
            _ => unreachable!("the numbers are whole items"),
        };
        self.numbers = rest;
        Some(item)
    }
}

impl Item {
    /// Whether erasing keeps the item.
    pub fn is_kept(self) -> bool {
        !matches!(self, Item::Label(_) | Item::Cpush(_))
    }

    /// The item's number and its operands.
    pub fn numbers(self) -> Vec<u32> {
        match self {
            Item::Halt => vec![HALT],
            Item::Jmp(label) => vec![JMP, label.into()],
            Item::Bnz { rs, label } => vec![BNZ, rs.into(), label.into()],
            Item::Load { rd, rs, field } => vec![LOAD, rd.into(), rs.into(), field.into()],
            Item::Store { rd, field, rs } => vec![STORE, rd.into(), field.into(), rs.into()],
            Item::Registers { number, rd, rs, rt } => [number, rd, rs, rt].map(u32::from).to_vec(),
            Item::Immediate { number, rd, rs, immediate } => {
                vec![number.into(), rd.into(), rs.into(), immediate.into()]
            }
            Item::Cpush(label) => vec![CPUSH, label.into()],
            Item::Cjmp(label) => vec![CJMP, label.into()],
            Item::Label(label) => vec![LABEL, label.into()],
        }
    }
}
