//! Cases for the bare run.

mod buffers;
mod programs;
mod words;

use crate::bytes::bytes_of;
use crate::random::Random;

/// The code of 01's bench piece K1.
pub const K1: [u32; 7] =
    [0x20100003, 0xA2000001, 0x10000005, 0xA2000002, 0x10000005, 0xA3000003, 0x00000000];

pub struct Case {
    pub code: Vec<u8>,
    pub heap: Vec<u8>,
    pub regs: Vec<u8>,
    pub budget: u32,
}

impl Case {
    /// Most cases run; one in six stands at the borders of what is refused.
    pub fn new(seed: u64, number: u64) -> Self {
        let mut random = Random::new(seed, number);
        if random.once_in(6) {
            border(&mut random)
        } else {
            runnable(&mut random)
        }
    }
}

fn runnable(random: &mut Random) -> Case {
    let heap_words = buffers::heap_words(random);
    let program = programs::program(random, heap_words);
    let budget =
        if program.ends_soon { buffers::any_budget(random) } else { buffers::run_budget(random) };
    Case {
        code: bytes_of(&program.code),
        heap: random.bytes(4 * heap_words as usize),
        regs: bytes_of(&buffers::registers(random, heap_words)),
        budget,
    }
}

/// Each of the four may be off, so that refusals compete, or just in order.
fn border(random: &mut Random) -> Case {
    let heap_length = buffers::border_heap(random);
    let heap_words = heap_length as u32 / 4;
    let code_length = buffers::border_code(random);
    let words = programs::ahead(random, heap_words, code_length.div_ceil(4));
    let mut code = bytes_of(&words);
    code.truncate(code_length);
    let mut regs = bytes_of(&buffers::registers(random, heap_words));
    regs.resize(buffers::border_registers(random), 0xa5);
    Case { code, heap: random.bytes(heap_length), regs, budget: buffers::any_budget(random) }
}
