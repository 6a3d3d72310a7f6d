//! Which faults a desk call has, all of them and not the first alone. Where a fault
//! hides a later one, that is looked for in what can be seen: in the listing that
//! the packet was made of, in whole words, in rows whose shape is there.

use super::layout::{end, Layout, Row};
use super::Case;
use crate::bytes::words_of;
use crate::checker;
use crate::desk_call::TABLE_WORDS;
use crate::listing::types::{Type, Types};
use crate::listing::Listing;
use crate::packet;
use crate::run_call::{BUDGET, HEAP_WORDS, REGISTER_BYTES};

/// In 01's order; 30 by its causes.
#[derive(Clone, Copy, Debug, PartialEq, Eq, PartialOrd, Ord)]
pub enum Fault {
    Packet,
    Items,
    CodeShort,
    HeapLong,
    TableLong,
    TableOdd,
    CodeRagged,
    HeapRagged,
    TableRagged,
    RegistersLength,
    BudgetLarge,
    BadRow,
    BadField,
    BadRegister,
}

use Fault::*;

pub const FAULTS: [Fault; 14] = [
    Packet,
    Items,
    CodeShort,
    HeapLong,
    TableLong,
    TableOdd,
    CodeRagged,
    HeapRagged,
    TableRagged,
    RegistersLength,
    BudgetLarge,
    BadRow,
    BadField,
    BadRegister,
];

/// The code words that are needed, and where the start is bad, each list rising.
pub struct Places {
    pub words: usize,
    pub rows: Vec<usize>,
    pub fields: Vec<usize>,
    pub registers: Vec<usize>,
}

/// The faults in 01's order, and their places.
pub fn faults(case: &Case) -> (Vec<Fault>, Places) {
    let read = packet::read(&case.packet);
    let listing = Listing::of(read.as_ref().unwrap_or(&case.numbers));
    let places = places(&listing, case);
    let has = |fault: &Fault| match fault {
        Packet => read.is_err(),
        Items => checker::check(&listing).is_err(),
        CodeShort => case.code.len() / 4 < places.words,
        HeapLong => case.heap.len() / 4 > HEAP_WORDS,
        TableLong => case.blocks.len() / 4 > TABLE_WORDS,
        TableOdd => case.blocks.len() / 4 % 2 == 1,
        CodeRagged => !case.code.len().is_multiple_of(4),
        HeapRagged => !case.heap.len().is_multiple_of(4),
        TableRagged => !case.blocks.len().is_multiple_of(4),
        RegistersLength => case.regs.len() != REGISTER_BYTES,
        BudgetLarge => case.budget > BUDGET,
        BadRow => !places.rows.is_empty(),
        BadField => !places.fields.is_empty(),
        BadRegister => !places.registers.is_empty(),
    };
    (FAULTS.into_iter().filter(has).collect(), places)
}

/// The rows of a block table, without half a row.
pub fn rows_of(blocks: &[u8]) -> Vec<Row> {
    let words = words_of(blocks);
    let (rows, _) = words.as_chunks();
    rows.to_vec()
}

fn places(listing: &Listing, case: &Case) -> Places {
    let (heap, regs) = (words_of(&case.heap), words_of(&case.regs));
    let layout = Layout::new(&listing.shapes, rows_of(&case.blocks));
    let rows = bad_rows(&listing.shapes, &layout.rows, heap.len());
    let bad_word = |&(address, found): &(usize, Type)| !layout.allows(found, heap[address]);
    let mut fields: Vec<usize> =
        layout.words(heap.len()).filter(bad_word).map(|(address, _)| address).collect();
    fields.sort();
    let listed = listing.first().map_or([Type::NONE; 16], |first| first.types);
    let bad_register =
        |&index: &usize| !layout.allows(listed[index], regs[index]) || index == 0 && regs[0] != 0;
    let registers = (0..regs.len().min(16)).filter(bad_register).collect();
    let words = listing.items().filter(|item| item.is_kept()).count();
    Places { words, rows, fields, registers }
}

/// Each row is looked at with those before it, be they good or bad.
fn bad_rows(shapes: &[Types], rows: &[Row], heap_words: usize) -> Vec<usize> {
    let mut lowest = 0;
    let mut bad = vec![];
    for (place, &row) in rows.iter().enumerate() {
        let end = end(shapes, row);
        let inside = end.is_some_and(|end| end <= heap_words as u64);
        if !inside || u64::from(row[0]) < lowest {
            bad.push(place);
        }
        lowest = lowest.max(end.unwrap_or(0));
    }
    bad
}
