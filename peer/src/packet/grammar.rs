//! Which numbers a packet has, in order, and the range of each: 01's section
//! "The packet", whose numbers are asked one by one of a `Source`.

use crate::word::*;
use std::ops::RangeInclusive;

const EDITION: u32 = 1;
pub const SHAPES: u32 = 64;
pub const FIELDS: u32 = 16;
pub const LABELS: u32 = 128;
pub const STACK: u32 = 16;
/// The most registers a context lists: all but r0.
pub const LISTED: u32 = 15;
pub const ITEMS: u32 = 1_024;

const LAST_REGISTER: u32 = 15;
const LAST_FIELD: u32 = 15;
const LAST_LEVEL: u32 = 255;
const LAST_IMMEDIATE: u32 = 65_535;

/// The items above the opcodes.
pub const CPUSH: u32 = 15;
pub const CJMP: u32 = 16;
pub const LABEL: u32 = 17;

/// The numbers of the largest listing.
pub const MOST_NUMBERS: usize = {
    let shape = 1 + 2 * FIELDS;
    let context = 3 + STACK + 3 * LISTED;
    (4 + SHAPES * shape + LABELS * context + ITEMS * 4) as usize
};

/// What a number is.
#[derive(Clone, Copy, Debug, PartialEq, Eq, PartialOrd, Ord)]
pub enum Due {
    Edition,
    ShapeCount,
    FieldCount,
    FieldKind,
    FieldLevel,
    LabelCount,
    PcLevel,
    StackLength,
    StackLabel,
    RegisterCount,
    RegisterIndex,
    RegisterKind,
    RegisterLevel,
    ItemCount,
    ItemNumber,
    /// By the number of the item, and the operand's place from 0.
    Operand {
        item: u32,
        place: usize,
    },
}

/// What gives the numbers: a packet that is read, or a maker of listings.
pub trait Source {
    type Fault;

    /// The next number, which is in the range.
    fn number(&mut self, due: Due, range: RangeInclusive<u32>) -> Result<u32, Self::Fault>;
}

/// Asks for all numbers of a listing.
pub fn listing<S: Source>(source: &mut S) -> Result<(), S::Fault> {
    source.number(Due::Edition, EDITION..=EDITION)?;
    let shapes = source.number(Due::ShapeCount, 0..=SHAPES)?;
    for _ in 0..shapes {
        shape(source, shapes)?;
    }
    let labels = source.number(Due::LabelCount, 1..=LABELS)?;
    for _ in 0..labels {
        context(source, shapes, labels)?;
    }
    let items = source.number(Due::ItemCount, 1..=ITEMS)?;
    for _ in 0..items {
        item(source, labels)?;
    }
    Ok(())
}

fn shape<S: Source>(source: &mut S, shapes: u32) -> Result<(), S::Fault> {
    let fields = source.number(Due::FieldCount, 1..=FIELDS)?;
    for _ in 0..fields {
        source.number(Due::FieldKind, 0..=shapes)?;
        source.number(Due::FieldLevel, 0..=LAST_LEVEL)?;
    }
    Ok(())
}

fn context<S: Source>(source: &mut S, shapes: u32, labels: u32) -> Result<(), S::Fault> {
    source.number(Due::PcLevel, 0..=LAST_LEVEL)?;
    let depth = source.number(Due::StackLength, 0..=STACK)?;
    for _ in 0..depth {
        source.number(Due::StackLabel, 0..=labels - 1)?;
    }
    let registers = source.number(Due::RegisterCount, 0..=LISTED)?;
    let mut index = 0;
    for _ in 0..registers {
        index = source.number(Due::RegisterIndex, index + 1..=LAST_REGISTER)?;
        source.number(Due::RegisterKind, 0..=shapes)?;
        source.number(Due::RegisterLevel, 0..=LAST_LEVEL)?;
    }
    Ok(())
}

fn item<S: Source>(source: &mut S, labels: u32) -> Result<(), S::Fault> {
    let item = source.number(Due::ItemNumber, 0..=LABEL)?;
    for (place, operand) in operands(item).iter().enumerate() {
        let last = match operand {
            Operand::Label => labels - 1,
            Operand::Register => LAST_REGISTER,
            Operand::Field => LAST_FIELD,
            Operand::Immediate => LAST_IMMEDIATE,
        };
        source.number(Due::Operand { item, place }, 0..=last)?;
    }
    Ok(())
}

enum Operand {
    Label,
    Register,
    Field,
    Immediate,
}

/// 01's table of items.
fn operands(item: u32) -> &'static [Operand] {
    use Operand::*;
    match item {
        JMP | CPUSH | CJMP | LABEL => &[Label],
        BNZ => &[Register, Label],
        LOAD => &[Register, Register, Field],
        STORE => &[Register, Field, Register],
        ADD..=SLT => &[Register, Register, Register],
        ADD_IMMEDIATE..=SLT_IMMEDIATE => &[Register, Register, Immediate],
        _ => &[], // halt
    }
}
