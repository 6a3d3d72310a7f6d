//! Code of several sorts: loops, straight code, jumps ahead or anywhere, noise.

use super::words::{self, COUNTER};
use crate::random::Random;
use crate::run_call::CODE_WORDS;
use crate::word::*;

pub struct Program {
    pub code: Vec<u32>,
    /// Whether it hardly ever runs for long, so that any budget will do.
    pub ends_soon: bool,
}

pub fn program(random: &mut Random, heap_words: u32) -> Program {
    let (code, ends_soon) = match random.below(20) {
        0..=5 => (counted_loop(random, heap_words), true),
        6 => {
            let length = random.pick(&[1, 2, CODE_WORDS - 1, CODE_WORDS]);
            (straight(random, heap_words, length), true)
        }
        7..=9 => {
            let length = random.pick(&[0, 1, 2, 5, 10, 30, CODE_WORDS - 1, CODE_WORDS]);
            (ahead(random, heap_words, length), true)
        }
        10..=16 => (anywhere(random, heap_words), false),
        17 => (noise(random), false),
        _ => (endless(random, heap_words), false),
    };
    Program { code, ends_soon }
}

fn counted_loop(random: &mut Random, heap_words: u32) -> Vec<u32> {
    let most_turns = random.pick(&[1, 2, 5, 40, 200]);
    let turns = random.between(1, most_turns);
    let mut code = vec![build(ADD_IMMEDIATE, COUNTER, 0, 0, turns)];
    code.extend(body(random, heap_words));
    code.push(build(SUB_IMMEDIATE, COUNTER, COUNTER, 0, 1));
    code.push(build(BNZ, 0, COUNTER, 0, 1));
    code.extend(ending(random, heap_words));
    code
}

fn endless(random: &mut Random, heap_words: u32) -> Vec<u32> {
    let mut code = body(random, heap_words);
    code.push(build(JMP, 0, 0, 0, 0));
    code
}

fn body(random: &mut Random, heap_words: u32) -> Vec<u32> {
    let length = random.between(1, 12) as usize;
    straight(random, heap_words, length)
}

fn straight(random: &mut Random, heap_words: u32, length: usize) -> Vec<u32> {
    (0..length).map(|_| words::tame(random, heap_words)).collect()
}

/// A halt, a word of any trap, or nothing, so that the run leaves the code.
fn ending(random: &mut Random, heap_words: u32) -> Option<u32> {
    match random.below(6) {
        0 => None,
        1 => Some(build(JMP, 0, 0, 0, random.pick(&[0x100, 0x7fff, 0x8000, 0xffff]))),
        2 => Some(words::damaged(random, heap_words, 0xffff)),
        3 => Some(build(random.pick(&[LOAD, STORE]), 0, 0, 0, heap_words)),
        _ => Some(build(HALT, 0, 0, 0, 0)),
    }
}

/// Jumps go ahead, many of them to the code's last words or just past them; few words are damaged.
pub fn ahead(random: &mut Random, heap_words: u32, length: usize) -> Vec<u32> {
    let length = length as u32;
    let mut word_at = |place: u32| {
        let step_ahead = place + 1 + random.below(4);
        let about_the_end = (length + random.below(3)).saturating_sub(2).max(place + 1);
        let target = random.pick(&[step_ahead, about_the_end]);
        if place == 0 && random.once_in(2) {
            build(JMP, 0, 0, 0, target)
        } else if random.once_in(24) {
            words::damaged(random, heap_words, target)
        } else {
            words::valid(random, heap_words, target)
        }
    };
    (0..length).map(&mut word_at).collect()
}

fn anywhere(random: &mut Random, heap_words: u32) -> Vec<u32> {
    let length = random.between(1, 24);
    let mut word = || {
        let target = random.below(length + 1);
        match random.below(48) {
            0 => words::noise(random),
            1 | 2 => words::damaged(random, heap_words, target),
            _ => words::valid(random, heap_words, target),
        }
    };
    (0..length).map(|_| word()).collect()
}

fn noise(random: &mut Random) -> Vec<u32> {
    (0..random.below(12)).map(|_| words::noise(random)).collect()
}
