//! The packet reader's call on byte buffers, as the C program has it.

use crate::answer;
use crate::bytes::write_words;
use crate::packet::{self, Refusal};

pub const NUMBERS_DO_NOT_FIT: u8 = 35;

/// Writes the packet's numbers, or refuses and leaves the lent buffer as it is.
pub fn read(packet: &[u8], numbers: &mut [u8]) -> u64 {
    match packet::read(packet) {
        Err(Refusal { number, place }) => answer::pack(number, place, 0),
        Ok(read) if numbers.len() < 4 * read.len() => {
            answer::pack(NUMBERS_DO_NOT_FIT, read.len() as u32, 0)
        }
        Ok(read) => {
            write_words(&read, numbers);
            answer::pack(0, 0, read.len() as u32)
        }
    }
}
