//! The eraser: 01's "Erased code and the machine".

use crate::listing::item::{Item, Items};
use crate::packet::grammar::LABELS;
use crate::word::*;

/// By the label's number.
type Addresses = [u32; LABELS as usize];

/// The code words of accepted items.
pub fn erase(items: Items) -> Vec<u32> {
    let addresses = addresses(items.clone());
    items.filter_map(|item| word(item, &addresses)).collect()
}

/// A label's address is the count of kept items before it.
fn addresses(items: Items) -> Addresses {
    let mut addresses = [0; LABELS as usize];
    let mut kept = 0;
    for item in items {
        match item {
            Item::Label(label) => addresses[usize::from(label)] = kept,
            Item::Cpush(_) => {}
            _ => kept += 1,
        }
    }
    addresses
}

/// The word of an item that is kept.
fn word(item: Item, addresses: &Addresses) -> Option<u32> {
    let address = |label| addresses[usize::from(label)];
    let parts = |opcode: u8, rd: u8, rs: u8, rt: u8, low| {
        Some(build(opcode.into(), rd.into(), rs.into(), rt.into(), low))
    };
    match item {
        Item::Halt => parts(HALT as u8, 0, 0, 0, 0),
        Item::Jmp(label) | Item::Cjmp(label) => parts(JMP as u8, 0, 0, 0, address(label)),
        Item::Bnz { rs, label } => parts(BNZ as u8, 0, rs, 0, address(label)),
        Item::Load { rd, rs, field } => parts(LOAD as u8, rd, rs, 0, field.into()),
        Item::Store { rd, field, rs } => parts(STORE as u8, rd, rs, 0, field.into()),
        Item::Registers { number, rd, rs, rt } => parts(number, rd, rs, rt, 0),
        Item::Immediate { number, rd, rs, immediate } => {
            // What it stands for, modulo 65,536.
            parts(number, rd, rs, 0, immediate.wrapping_sub(32_768).into())
        }
        Item::Cpush(_) | Item::Label(_) => None,
    }
}
