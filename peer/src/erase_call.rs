//! The eraser's call on byte buffers, as the C program has it.

use crate::answer;
use crate::bytes::write_words;
use crate::checker;
use crate::eraser;
use crate::listing::Listing;
use crate::packet::{self, Refusal};
use crate::run_call::BAD_BUFFER;

pub const WORDS_DO_NOT_FIT: u8 = 35;

/// Writes the packet's code words, or refuses and leaves the lent buffer as it is.
pub fn erase(packet: &[u8], code: &mut [u8]) -> u64 {
    match erased(packet, code.len()) {
        Err(Refusal { number, place }) => answer::pack(number, place, 0),
        Ok(words) => {
            write_words(&words, code);
            answer::pack(0, 0, words.len() as u32)
        }
    }
}

/// The code words, for a buffer of so many bytes.
fn erased(packet: &[u8], length: usize) -> Result<Vec<u32>, Refusal> {
    let numbers = packet::read(packet)?;
    let listing = Listing::of(&numbers);
    checker::check(&listing)?;
    fitting_words(&listing, length)
}

/// The code words of an accepted listing, for a buffer of so many bytes.
pub fn fitting_words(listing: &Listing, length: usize) -> Result<Vec<u32>, Refusal> {
    let words = eraser::erase(listing.items());
    if length / 4 < words.len() {
        Err(Refusal { number: WORDS_DO_NOT_FIT, place: words.len() as u32 })
    } else if !length.is_multiple_of(4) {
        Err(Refusal { number: BAD_BUFFER, place: 0 })
    } else {
        Ok(words)
    }
}
