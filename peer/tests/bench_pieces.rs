//! 01's bench pieces about the machine, through both calls.

use peer::answer::unpack;
use peer::bytes::{bytes_of, words_of};
use peer::cases::run::K1;
use peer::word::{build, ADD_IMMEDIATE, HALT, SLT, SLT_IMMEDIATE};
use peer::{proved, run_call};

const HALTED: u8 = 0;
const BUDGET_USED: u8 = 43;

/// Runs over an empty heap through both calls, which must agree: number, count and registers.
fn run(code: &[u32], regs: &[u32; 16], budget: u32) -> (u8, u32, Vec<u32>) {
    let [by_peer, by_proved] = [run_call::run, proved::vans_run].map(|call| {
        let mut regs = bytes_of(regs);
        let answer = call(&bytes_of(code), &mut [], &mut regs, budget);
        (answer, words_of(&regs))
    });
    assert_eq!(by_peer, by_proved);
    let (number, _, count) = unpack(by_peer.0);
    (number, count, by_peer.1)
}

/// Start registers with r1 and r2 set.
fn start(r1: u32, r2: u32) -> [u32; 16] {
    let mut regs = [0; 16];
    (regs[1], regs[2]) = (r1, r2);
    regs
}

/// The one word and a halt; what is then in r3.
fn r3_after(word: u32, r1: u32, r2: u32) -> u32 {
    let (number, count, regs) = run(&[word, build(HALT, 0, 0, 0, 0)], &start(r1, r2), 2);
    assert_eq!((number, count), (HALTED, 2));
    regs[3]
}

#[test]
fn k1_halts_after_five_steps_on_both_ways() {
    for (r1, r2) in [(0, 1), (9, 2)] {
        let mut expected = start(r1, r2);
        expected[3] = 3;
        assert_eq!(run(&K1, &start(r1, 0), 1_000_000), (HALTED, 5, expected.to_vec()));
    }
}

#[test]
fn k10_slt_is_signed() {
    let slt = build(SLT, 3, 1, 2, 0);
    assert_eq!(r3_after(slt, 0x8000_0000, 0), 1);
    assert_eq!(r3_after(slt, 0x7fff_ffff, 0x8000_0000), 0);
    assert_eq!(r3_after(build(SLT_IMMEDIATE, 3, 1, 0, 0), 0x8000_0000, 0), 1);
}

#[test]
fn k11_immediates_are_sign_extended() {
    assert_eq!(r3_after(build(ADD_IMMEDIATE, 3, 0, 0, 0xffff), 0, 0), 0xffff_ffff);
}

#[test]
fn k15_a_budget_of_four_is_used_and_five_halts() {
    let (number, count, _) = run(&K1, &start(0, 0), 4);
    assert_eq!((number, count), (BUDGET_USED, 4));
    let (number, count, _) = run(&K1, &start(0, 0), 5);
    assert_eq!((number, count), (HALTED, 5));
}
