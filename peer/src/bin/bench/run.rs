//! The bare machine: a step of a long run, and a call of few steps.

use crate::{row, timed};
use peer::answer::unpack;
use peer::bytes::bytes_of;
use peer::cases::run::K1;
use peer::run_call::{BUDGET, HEAP_WORDS};
use peer::word::*;
use peer::{proved, run_call};
use std::hint::black_box;

type Call = fn(&[u8], &mut [u8], &mut [u8], u32) -> u64;

struct Work {
    name: &'static str,
    code: Vec<u8>,
    heap: Vec<u8>,
    start: Vec<u8>,
    calls_in_a_round: u32,
    /// The words each call acts on before it halts.
    steps: u32,
    /// What a figure is for: all steps of a call, or one.
    per_step: bool,
}

pub fn rows() {
    let works = [
        steps(),
        k1("a call of 5 steps, heap of 16 words", 16, 10_000),
        k1("a call of 5 steps, heap of 16,384 words", HEAP_WORDS, 100),
    ];
    for work in works {
        row(work.name, || round(&work, proved::vans_run), || round(&work, run_call::run));
    }
}

/// Nanoseconds for one figure's worth, over the calls of a round.
fn round(work: &Work, call: Call) -> f64 {
    let (mut heap, mut regs) = (work.heap.clone(), work.start.clone());
    let parts = work.calls_in_a_round * if work.per_step { work.steps } else { 1 };
    timed(parts, || {
        for _ in 0..work.calls_in_a_round {
            regs.copy_from_slice(&work.start);
            let answer =
                call(black_box(&work.code), black_box(&mut heap), black_box(&mut regs), BUDGET);
            assert_eq!(unpack(answer), (0, 0, work.steps));
        }
    })
}

/// Arithmetic, load, store and bnz over sixteen words, close to the whole budget.
fn steps() -> Work {
    let code = [
        build(LOAD, 2, 4, 0, 0),
        build(ADD, 2, 2, 1, 0),
        build(XOR, 3, 3, 2, 0),
        build(STORE, 4, 3, 0, 0),
        build(ADD_IMMEDIATE, 4, 4, 0, 1),
        build(AND_IMMEDIATE, 4, 4, 0, 15),
        build(SUB_IMMEDIATE, 1, 1, 0, 1),
        build(BNZ, 0, 1, 0, 0),
        build(HALT, 0, 0, 0, 0),
    ];
    let turns = 124_000;
    let mut start = [0; 16];
    start[1] = turns;
    Work {
        name: "one step of a loop of 8 words",
        code: bytes_of(&code),
        heap: vec![0; 4 * 16],
        start: bytes_of(&start),
        calls_in_a_round: 1,
        steps: 8 * turns + 1,
        per_step: true,
    }
}

/// K1's five steps, where the costs that every call has show.
fn k1(name: &'static str, heap_words: usize, calls_in_a_round: u32) -> Work {
    Work {
        name,
        code: bytes_of(&K1),
        heap: vec![0; 4 * heap_words],
        start: vec![0; 64],
        calls_in_a_round,
        steps: 5,
        per_step: false,
    }
}
