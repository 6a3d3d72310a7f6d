//! The desk call on byte buffers: 01's bench pieces, its order of refusals and the
//! edges of the start check by hand, and cases that were made up.

mod buffers;
mod comparison;
mod order;
mod pieces;
mod start;

use peer::answer::unpack;
use peer::bytes::{bytes_of, words_of};
use peer::packet::grammar::ITEMS;
use peer::run_call::BUDGET;
use peer::{desk_call, proved};

type Call = fn(&[u8], &mut [u8], &mut [u8], &[u8], &mut [u8], u32) -> u64;

/// The calls that must all give the same.
const CALLS: [Call; 2] = [desk_call::desk, proved::vans_desk];

/// What is lent to a call.
#[derive(Clone, Debug, PartialEq)]
struct Desk {
    packet: Vec<u8>,
    code: Vec<u8>,
    heap: Vec<u8>,
    blocks: Vec<u8>,
    regs: Vec<u8>,
    budget: u32,
}

impl Desk {
    /// There is room for every code, and budget for every run.
    fn new(packet: &[u8], heap: &[u32], rows: &[[u32; 2]], regs: [u32; 16]) -> Self {
        Desk {
            packet: packet.to_vec(),
            code: vec![0xa5; 4 * ITEMS as usize],
            heap: bytes_of(heap),
            blocks: bytes_of(rows.as_flattened()),
            regs: bytes_of(&regs),
            budget: BUDGET,
        }
    }

    /// Number, place and count that all the calls answer, and what then is lent.
    fn called(&self) -> ((u8, u32, u32), Desk) {
        let [by_peer, by_proved] = CALLS.map(|call| {
            let mut lent = self.clone();
            let Desk { packet, code, heap, blocks, regs, budget } = &mut lent;
            let answer = call(packet, code, heap, blocks, regs, *budget);
            (unpack(answer), lent)
        });
        assert_eq!(by_peer, by_proved);
        by_peer
    }

    /// The number and place of a refusal, which changes nothing and counts nothing.
    fn refused(&self) -> (u8, u32) {
        let ((number, place, count), lent) = self.called();
        assert!(![0, 43].contains(&number), "ran");
        assert_eq!(count, 0);
        assert_eq!(&lent, self);
        (number, place)
    }

    fn runs(&self) -> bool {
        [0, 43].contains(&self.called().0 .0)
    }

    fn reg(&self, index: usize) -> u32 {
        words_of(&self.regs)[index]
    }
}

/// Registers of which only some are not 0.
fn registers(set: &[(usize, u32)]) -> [u32; 16] {
    let mut regs = [0; 16];
    for &(index, value) in set {
        regs[index] = value;
    }
    regs
}
