//! The checker's call on a byte buffer, as the C program has it.

use crate::answer;
use crate::checker;
use crate::listing::Listing;
use crate::packet::{self, Refusal};

/// 0, or the packet's refusal, or its items'.
pub fn check(packet: &[u8]) -> u64 {
    match packet::read(packet).and_then(|numbers| checker::check(&Listing::of(&numbers))) {
        Ok(()) => answer::pack(0, 0, 0),
        Err(Refusal { number, place }) => answer::pack(number, place, 0),
    }
}
