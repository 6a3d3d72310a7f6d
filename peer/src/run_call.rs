//! The bare machine's call on byte buffers, as the C program has it.

use crate::answer;
use crate::bytes::{registers_of, words_of, write_words};
use crate::machine;
use crate::packet::Refusal;

pub const CODE_WORDS: usize = 1_024;
pub const HEAP_WORDS: usize = 16_384;
pub const REGISTER_BYTES: usize = 64;
pub const BUDGET: u32 = 1_000_000;

pub const CODE_TOO_LONG: u8 = 36;
pub const BAD_BUFFER: u8 = 30;
pub const BUDGET_TOO_LARGE: u8 = 34;

/// The refusals that apply to lent buffers of these lengths, in 01's order. The first is given.
pub fn refusals(code: usize, heap: usize, regs: usize, budget: u32) -> impl Iterator<Item = u8> {
    let whole_words = code.is_multiple_of(4) && heap.is_multiple_of(4);
    let good_buffers = whole_words && heap / 4 <= HEAP_WORDS && regs == REGISTER_BYTES;
    [
        (CODE_TOO_LONG, code / 4 > CODE_WORDS),
        (BAD_BUFFER, !good_buffers),
        (BUDGET_TOO_LARGE, budget > BUDGET),
    ]
    .into_iter()
    .filter_map(|(number, applies)| applies.then_some(number))
}

/// The first of them, with its place.
pub fn check(code: usize, heap: usize, regs: usize, budget: u32) -> Result<(), Refusal> {
    let first = refusals(code, heap, regs, budget).next();
    first.map_or(Ok(()), |number| Err(Refusal { number, place: 0 }))
}

/// Runs the code, or refuses and leaves the lent buffers as they are. All places are 0.
pub fn run(code: &[u8], heap: &mut [u8], regs: &mut [u8], budget: u32) -> u64 {
    match check(code.len(), heap.len(), regs.len(), budget) {
        Err(Refusal { number, place }) => answer::pack(number, place, 0),
        Ok(()) => Words::of(heap, regs).run(&words_of(code), heap, regs, budget),
    }
}

/// The words of a lent heap and of lent registers.
pub struct Words {
    pub heap: Vec<u32>,
    pub regs: [u32; 16],
}

impl Words {
    /// The lengths are such as `check` takes.
    pub fn of(heap: &[u8], regs: &[u8]) -> Self {
        Words { heap: words_of(heap), regs: registers_of(regs) }
    }

    /// Runs the code from here, and writes what then is over the lent bytes.
    pub fn run(mut self, code: &[u32], heap: &mut [u8], regs: &mut [u8], budget: u32) -> u64 {
        let (status, count) = machine::run(code, &mut self.heap, &mut self.regs, budget);
        write_words(&self.heap, heap);
        write_words(&self.regs, regs);
        answer::pack(status as u8, 0, count)
    }
}
