//! The packet reader through its call on byte buffers: 01's bench pieces, its
//! limits, the edges of its numbers, and listings that were made up.

mod buffers;
mod comparison;
mod limits;
mod numbers;
mod pieces;
mod round_trips;

use peer::answer::unpack;
use peer::bytes::words_of;
use peer::packet::grammar::MOST_NUMBERS;
use peer::packet::Refusal;
use peer::{proved, read_call};

type Call = fn(&[u8], &mut [u8]) -> u64;

/// The calls that must all give the same.
const CALLS: [Call; 2] = [read_call::read, proved::vans_read];

/// A packet's numbers or its refusal.
type Outcome = Result<Vec<u32>, Refusal>;

/// What all the calls make of a packet.
fn read(packet: &[u8]) -> Outcome {
    let outcomes = CALLS.map(|call| by_call(call, packet));
    for outcome in &outcomes {
        let counts = (outcomes[0].as_ref().map(Vec::len), outcome.as_ref().map(Vec::len));
        assert!(outcome == &outcomes[0], "the calls differ: {counts:?}");
    }
    outcomes[0].clone()
}

/// The buffer has room for every listing; only the numbers may be written.
fn by_call(call: Call, packet: &[u8]) -> Outcome {
    let mut buffer = [0xa5; 4 * MOST_NUMBERS + 4];
    let (number, place, count) = unpack(call(packet, &mut buffer));
    let (numbers, behind) = buffer.split_at(4 * count as usize);
    assert!(behind.iter().all(|&byte| byte == 0xa5), "wrote behind the numbers");
    if number == 0 {
        assert_eq!(place, 0);
        Ok(words_of(numbers))
    } else {
        assert_eq!(count, 0);
        Err(Refusal { number, place })
    }
}

fn refused(number: u8, place: usize) -> Outcome {
    Err(Refusal { number, place: place as u32 })
}
