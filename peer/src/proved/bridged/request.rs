//! A request as it lies in the memory of the library's process: a head, then the
//! buffers between guard bytes. The reply is the same bytes as the call leaves
//! them, with the answer over the first eight.

use crate::lent::{guard, GUARD};
use std::iter;
use std::ops::Range;

/// The most buffers that a call has.
const BUFFERS: usize = 5;
/// In words, as in bridge.c: call, budget, length, and start and length of each buffer.
const HEAD: usize = 3 + 2 * BUFFERS;
/// Where a reply has its answer.
const ANSWER: Range<usize> = 0..8;
/// A buffer's address leaves the same rest by this here and in the process.
const ALIGNMENT: usize = 16;

pub struct Request {
    pub bytes: Vec<u8>,
    /// Where the buffers lie, those first that the call may only read.
    pub buffers: Vec<Range<usize>>,
    only_read: usize,
}

impl Request {
    pub fn new(call: u32, budget: u32, read: &[&[u8]], written: &[&[u8]]) -> Self {
        let (bytes, only_read) = (vec![0; 4 * HEAD], read.len());
        let mut request = Request { bytes, buffers: vec![], only_read };
        for buffer in read.iter().chain(written) {
            request.add(buffer);
        }
        request.add_guards(GUARD);
        request.write_head(call, budget);
        request
    }

    fn add(&mut self, buffer: &[u8]) {
        let least = self.bytes.len() + GUARD;
        let shift = buffer.as_ptr().addr().wrapping_sub(least) % ALIGNMENT;
        self.add_guards(GUARD + shift);
        let start = self.bytes.len();
        self.bytes.extend(buffer);
        self.buffers.push(start..self.bytes.len());
    }

    fn add_guards(&mut self, count: usize) {
        let place = self.bytes.len();
        self.bytes.extend((place..place + count).map(guard));
    }

    fn write_head(&mut self, call: u32, budget: u32) {
        let buffers = self.buffers.iter().flat_map(|place| [place.start, place.len()]);
        let lengths = iter::once(self.bytes.len()).chain(buffers).map(|number| number as u32);
        let head: Vec<u8> =
            [call, budget].into_iter().chain(lengths).flat_map(u32::to_le_bytes).collect();
        self.bytes[..head.len()].copy_from_slice(&head);
    }

    /// Where the buffers lie that the call may write.
    pub fn written(&self) -> &[Range<usize>] {
        &self.buffers[self.only_read..]
    }

    /// Where the reply has another byte that was not the call's to write.
    pub fn spoiled(&self, reply: &[u8]) -> Option<usize> {
        let mut allowed = self.bytes.clone();
        for place in iter::once(&ANSWER).chain(self.written()) {
            allowed[place.clone()].copy_from_slice(&reply[place.clone()]);
        }
        if allowed == reply {
            return None;
        }
        allowed.iter().zip(reply).position(|(allowed, found)| allowed != found)
    }
}

pub fn answer(reply: &[u8]) -> u64 {
    u64::from_le_bytes(reply[ANSWER].try_into().expect("eight bytes"))
}

#[cfg(test)]
mod tests {
    use super::*;

    const READ: [&[u8]; 2] = [&[7; 70], &[8; 5]];
    const WRITTEN: [&[u8]; 2] = [&[], &[9; 13]];

    #[test]
    fn only_the_answer_and_the_written_buffers_may_change() {
        let request = Request::new(0, 0, &READ, &WRITTEN);
        assert_eq!(request.spoiled(&request.bytes), None);
        for place in 0..request.bytes.len() {
            let mut reply = request.bytes.clone();
            reply[place] ^= 1;
            let allowed = ANSWER.contains(&place) || request.buffers[3].contains(&place);
            assert_eq!(request.spoiled(&reply), (!allowed).then_some(place));
        }
    }

    #[test]
    fn buffers_keep_their_alignment_between_guards() {
        let bytes = [5; 40];
        for shift in 0..ALIGNMENT {
            let buffers = [&bytes[..], &bytes[shift..], &bytes[..shift], &[], &bytes[1..]];
            let request = Request::new(0, 0, &buffers[..2], &buffers[2..]);
            let mut behind = 4 * HEAD;
            for (place, buffer) in request.buffers.iter().zip(buffers) {
                assert_eq!(place.start % ALIGNMENT, buffer.as_ptr().addr() % ALIGNMENT);
                assert_eq!(request.bytes[place.clone()], *buffer);
                assert!(place.start - behind >= GUARD);
                behind = place.end;
            }
            assert_eq!(request.bytes.len() - behind, GUARD);
        }
    }
}
