//! Runs of the proved desk call, with the path that the peer's machine takes over
//! the same code.

use super::pair::Start;
use crate::answer::unpack;
use crate::bytes::{bytes_of, words_of};
use crate::cases::desk::layout::Row;
use crate::machine::path;
use crate::proved;

pub struct Run {
    pub halted: bool,
    pub heap: Vec<u32>,
    pub regs: Vec<u32>,
    /// The places of the words acted on.
    pub path: Vec<usize>,
}

impl Run {
    /// The packet has so many code words. The error is an answer that no accepted
    /// listing may get from a good start.
    pub fn of(packet: &[u8], words: usize, rows: &[Row], start: &Start) -> Result<Self, String> {
        let mut code = vec![0; 4 * words];
        let (mut heap, mut regs) = (bytes_of(&start.heap), bytes_of(&start.regs));
        let blocks = bytes_of(rows.as_flattened());
        let answer =
            proved::vans_desk(packet, &mut code, &mut heap, &blocks, &mut regs, start.budget);
        let path = path(&words_of(&code), &mut start.heap.clone(), &start.regs, start.budget);
        match unpack(answer) {
            (number @ (0 | 43), 0, count) if count as usize == path.len() => {
                Ok(Run { halted: number == 0, heap: words_of(&heap), regs: words_of(&regs), path })
            }
            answer => Err(format!("answered {answer:?}, after {} words", path.len())),
        }
    }
}
