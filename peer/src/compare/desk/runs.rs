//! How runs go that have passed all checks, and how they end.

use super::marks::Marks;
use crate::answer::unpack;
use crate::bytes::{registers_of, words_of};
use crate::cases::desk::Case;
use crate::eraser::erase;
use crate::listing::Listing;
use crate::machine::path;
use crate::run_call::{BUDGET, CODE_WORDS};
use crate::word::{opcode, HALT, LOAD, STORE};
use std::fmt;

/// Enough of each run to see which opcodes it reaches.
const STEPS_LOOKED_AT: u32 = 300;

#[derive(Default)]
pub struct Runs {
    code_buffers: Marks,
    acted_on: Marks,
    ends: Marks,
    rare_ends: Marks,
}

impl Runs {
    pub fn add(&mut self, case: &Case, answer: u64) {
        let code = erase(Listing::of(&case.numbers).items());
        self.code_buffers.add([
            ("exact", case.code.len() == 4 * code.len()),
            ("longer", case.code.len() > 4 * code.len()),
            ("longer than code may be", case.code.len() > 4 * CODE_WORDS),
        ]);
        let (number, _, count) = unpack(answer);
        // One word more than the budget, to see whether that would have halted.
        let budget = case.budget.min(STEPS_LOOKED_AT) + 1;
        let path = path(&code, &mut words_of(&case.heap), &registers_of(&case.regs), budget);
        let opcodes: Vec<u32> = path.iter().map(|&pc| opcode(code[pc])).collect();
        let acted_on = &opcodes[..opcodes.len().min(count as usize)];
        let [loads, stores] = [LOAD, STORE].map(|opcode| acted_on.contains(&opcode));
        self.acted_on.add([("load", loads), ("store", stores), ("both", loads && stores)]);
        let halted = number == 0;
        self.ends.add([
            ("halted with budget left", halted && count < case.budget),
            ("halted with the last of the budget", halted && count == case.budget),
            ("halted with the greatest budget", halted && case.budget == BUDGET),
            ("stopped before the first word", count == 0),
            ("stopped before the halt", !halted && opcodes.last() == Some(&HALT)),
            ("stopped after 1,000 words", !halted && count > 1_000),
        ]);
        self.rare_ends.add([("stopped with the greatest budget", !halted && count == BUDGET)]);
    }

    /// Of so many calls more than a third load and store.
    pub fn assert_full(&self, calls: u64) {
        self.code_buffers.assert_full(3, 5_000);
        self.acted_on.assert_full(3, calls / 3 + 1);
        self.ends.assert_full(6, 1_000);
        self.rare_ends.assert_full(1, 3);
    }
}

impl fmt::Display for Runs {
    fn fmt(&self, f: &mut fmt::Formatter) -> fmt::Result {
        writeln!(f, "code buffers of runs: {}", self.code_buffers)?;
        writeln!(f, "runs that act on: {}", self.acted_on)?;
        write!(f, "runs that: {} {}", self.ends, self.rare_ends)
    }
}
