//! Cases for the desk call: a listing, a start that is made from its shapes, and
//! faults of either. `layout` makes starts, `spoil` and `buffers` put in faults,
//! `faults` finds them.

mod buffers;
pub mod faults;
pub mod layout;
pub mod programs;
mod spoil;

use super::listing::damage::damage;
use super::listing::draft::Draft;
use super::listing::programs::Style;
use crate::bytes::bytes_of;
use crate::checker;
use crate::eraser;
use crate::listing::types::Types;
use crate::listing::Listing;
use crate::machine;
use crate::random::Random;
use crate::run_call::Words;
use faults::{Fault, FAULTS};
use layout::{any_rows, behind, Layout, Row};

pub struct Case {
    pub packet: Vec<u8>,
    /// The numbers that the packet was made of, though its bytes may have a fault.
    pub numbers: Vec<u32>,
    pub code: Vec<u8>,
    pub heap: Vec<u8>,
    pub blocks: Vec<u8>,
    pub regs: Vec<u8>,
    pub budget: u32,
}

impl Case {
    /// Most cases run; the others have one fault or several, which then compete.
    pub fn new(seed: u64, number: u64) -> Self {
        let mut random = Random::new(seed, number);
        let plan = any_plan(&mut random);
        let draft = any_draft(&mut random, &plan);
        let numbers = draft.numbers();
        let listing = Listing::of(&numbers);
        let first = listing.first().unwrap_or(&listing.contexts[0]).types;
        let (words, rows) = any_start(&mut random, &plan, &listing.shapes, &first);
        let code = eraser::erase(listing.items());
        let budget = any_budget(&mut random, &plan, &code, &words);
        Case {
            packet: buffers::packet(&mut random, &plan, draft.packet()),
            code: buffers::code(&mut random, &plan, code.len()),
            heap: buffers::heap(&mut random, &plan, &words.heap),
            blocks: buffers::blocks(&mut random, &plan, rows.as_flattened()),
            regs: buffers::registers(&mut random, &plan, bytes_of(&words.regs)),
            budget,
            numbers,
        }
    }
}

/// The faults that are to be put in. One that is alone is mostly of the start, which
/// can be bad in many ways.
fn any_plan(random: &mut Random) -> Vec<Fault> {
    let count = random.pick(&[0, 0, 0, 0, 0, 0, 1, 2, 2, 3]);
    if count == 1 && random.below(4) > 0 {
        return vec![random.pick(&[
            Fault::BadRow,
            Fault::BadRow,
            Fault::BadField,
            Fault::BadRegister,
        ])];
    }
    (0..count).map(|_| random.pick(&FAULTS)).collect()
}

/// A program that is accepted, or one with item faults.
fn any_draft(random: &mut Random, plan: &[Fault]) -> Draft {
    let mut draft = programs::any_over_heap(random, Style::of_size, |draft| {
        let pointers = draft.shapes.iter().flatten().any(|field| field.is_pointer());
        pointers || !plan.contains(&Fault::BadField)
    });
    while plan.contains(&Fault::Items) && is_accepted(&draft) {
        damage(random, &mut draft);
    }
    draft
}

fn is_accepted(draft: &Draft) -> bool {
    checker::check(&Listing::of(&draft.numbers())).is_ok()
}

/// Heap, registers and rows. Rows are made bad first, so that pointers to their
/// blocks can still be good.
fn any_start(
    random: &mut Random,
    plan: &[Fault],
    shapes: &[Types],
    first: &Types,
) -> (Words, Vec<Row>) {
    let least = buffers::least_rows(random, plan);
    let mut rows = any_rows(random, shapes, first, least);
    let heap_words = buffers::heap_words(random, plan, behind(shapes, &rows));
    if plan.contains(&Fault::BadRow) {
        spoil::rows(random, shapes, &mut rows, heap_words);
    }
    let layout = Layout::new(shapes, rows);
    let mut heap = layout.any_heap(random, heap_words as usize);
    let mut regs = layout.any_registers(random, first);
    if plan.contains(&Fault::BadField) {
        spoil::fields(random, &layout, &mut heap);
    }
    if plan.contains(&Fault::BadRegister) {
        spoil::registers(random, &layout, first, heap_words, &mut regs);
    }
    (Words { heap, regs }, layout.rows)
}

/// Where nothing else is wrong, the budget is chosen by the run.
fn any_budget(random: &mut Random, plan: &[Fault], code: &[u32], words: &Words) -> u32 {
    if !plan.is_empty() {
        return buffers::budget(random, plan);
    }
    let (mut heap, mut regs) = (words.heap.clone(), words.regs);
    let (status, count) = machine::run(code, &mut heap, &mut regs, buffers::LOOKED_AT);
    buffers::run_budget(random, status, count)
}
