//! What the cases reached, so that the comparison cannot become empty unseen.

use crate::answer::unpack;
use crate::bytes::{registers_of, words_of};
use crate::cases::run::Case;
use crate::compare::{agreed_case, assert_often, Comparison};
use crate::machine::{Machine, Status};
use crate::run_call::refusals;
use crate::word::{opcode, LOAD, STORE};
use std::collections::BTreeMap;
use std::fmt;

/// Enough of each run to see which opcodes it reaches.
const STEPS_LOOKED_AT: u32 = 300;
const LONG_RUN: u32 = 1_000;

#[derive(Default)]
pub struct Tally {
    answers: BTreeMap<u8, u64>,
    acted: [u64; 15],
    bad_words: [u64; 16],
    outside_heap: [u64; 15],
    long_runs: u64,
    competing_refusals: u64,
}

impl Tally {
    fn add(&mut self, case: &Case, answer: u64) {
        let (number, _, count) = unpack(answer);
        *self.answers.entry(number).or_default() += 1;
        self.long_runs += u64::from(count >= LONG_RUN);
        match refusals(case.code.len(), case.heap.len(), case.regs.len(), case.budget).count() {
            0 => self.add_steps(case),
            1 => {}
            _ => self.competing_refusals += 1,
        }
    }

    fn add_steps(&mut self, case: &Case) {
        let code = words_of(&case.code);
        let mut heap = words_of(&case.heap);
        let mut machine = Machine::new(&registers_of(&case.regs));
        for _ in 0..case.budget.min(STEPS_LOOKED_AT) {
            let word = code.get(machine.pc());
            let stop = machine.step(&code, &mut heap).err();
            if let Some(&word) = word {
                self.add_step(opcode(word), stop);
            }
            if stop.is_some() {
                return;
            }
        }
    }

    fn add_step(&mut self, opcode: u32, stop: Option<Status>) {
        match stop {
            Some(Status::BadWord) => self.bad_words[opcode as usize] += 1,
            Some(Status::OutsideHeap) => self.outside_heap[opcode as usize] += 1,
            _ => self.acted[opcode as usize] += 1,
        }
    }
}

impl Comparison for Tally {
    const NAME: &'static str = "vans_run";
    const ENOUGH: u64 = 400_000;

    fn add_case(&mut self, seed: u64, number: u64) -> Result<(), String> {
        let (case, effect) = agreed_case::<Case>(seed, number)?;
        self.add(&case, effect.answer);
        Ok(())
    }

    fn assert_full(&self) {
        assert_often(&self.answers, [0, 40, 41, 42, 43, 36, 30, 34], 1_000);
        let seldom = |times: &[u64], least| times.iter().any(|&times| times < least);
        assert!(!seldom(&self.acted, 10_000), "an opcode is acted on too seldom");
        assert!(!seldom(&self.bad_words, 200), "an opcode is damaged too seldom");
        let addresses = [LOAD, STORE].map(|opcode| self.outside_heap[opcode as usize]);
        assert!(!seldom(&addresses, 1_000), "too few bad addresses");
        assert!(self.long_runs >= 1_000, "too few long runs");
        assert!(self.competing_refusals >= 1_000, "too few competing refusals");
    }
}

impl fmt::Display for Tally {
    fn fmt(&self, f: &mut fmt::Formatter) -> fmt::Result {
        writeln!(f, "cases by answer: {:?}", self.answers)?;
        writeln!(f, "words acted on by opcode from 0: {:?}", self.acted)?;
        writeln!(f, "bad words (41) by opcode from 0: {:?}", self.bad_words)?;
        writeln!(f, "outside the heap (42) by opcode from 0: {:?}", self.outside_heap)?;
        writeln!(f, "runs of {LONG_RUN} steps or more: {}", self.long_runs)?;
        write!(f, "cases with more than one refusal: {}", self.competing_refusals)
    }
}
