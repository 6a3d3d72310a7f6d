//! Single items of any operands.

use crate::listing::item::{Item, Items};
use crate::packet::grammar::{CJMP, CPUSH, LABEL};
use crate::random::Random;
use crate::word::*;

/// An item of this number; its registers, field and label are any.
pub fn any_item(random: &mut Random, number: u32, labels: usize) -> Item {
    let label = random.below(labels as u32);
    let [rd, rs, rt] = [0; 3].map(|_| register(random));
    let operands = match number {
        JMP | CPUSH | CJMP | LABEL => vec![label],
        BNZ => vec![rs, label],
        LOAD => vec![rd, rs, field(random)],
        STORE => vec![rd, field(random), rs],
        ADD..=SLT => vec![rd, rs, rt],
        ADD_IMMEDIATE..=SLT_IMMEDIATE => vec![rd, rs, immediate(random)],
        _ => vec![], // halt
    };
    only_item(&[&[number], &operands[..]].concat())
}

/// The item with one operand changed; halt has none.
pub fn with_operand_changed(random: &mut Random, item: Item, labels: usize) -> Item {
    let mut numbers = item.numbers();
    let others = any_item(random, numbers[0], labels).numbers();
    if numbers.len() > 1 {
        let place = random.between(1, numbers.len() as u32 - 1) as usize;
        numbers[place] = others[place];
    }
    only_item(&numbers)
}

/// The item of these numbers.
fn only_item(numbers: &[u32]) -> Item {
    Items::new(numbers).next().expect("the numbers are an item")
}

/// Any register, r0 often.
fn register(random: &mut Random) -> u32 {
    if random.once_in(8) {
        0
    } else {
        random.below(16)
    }
}

/// Small ones often, since most shapes have few fields.
fn field(random: &mut Random) -> u32 {
    if random.once_in(2) {
        random.below(4)
    } else {
        random.below(16)
    }
}

/// An immediate as it is written, at its ends and about 0 often.
pub fn immediate(random: &mut Random) -> u32 {
    match random.below(3) {
        0 => random.pick(&[0, 1, 32_767, 32_768, 32_769, 65_534, 65_535]),
        _ => random.below(65_536),
    }
}
