//! The checker and the eraser through their calls on byte buffers: 01's bench
//! pieces, its readings and bad splices by hand, and programs that were made up.

mod buffers;
mod code;
mod comparison;
mod order;
mod pieces;
mod programs;
mod readings;
mod splices;

use peer::answer::unpack;
use peer::bytes::words_of;
use peer::cases::listing::by_hand::packet;
use peer::packet::grammar::ITEMS;
use peer::packet::Refusal;
use peer::{check_call, erase_call, proved};

type Check = fn(&[u8]) -> u64;
type Erase = fn(&[u8], &mut [u8]) -> u64;

/// The calls that must all give the same.
const CHECKS: [Check; 2] = [check_call::check, proved::vans_check];
const ERASES: [Erase; 2] = [erase_call::erase, proved::vans_erase];

/// A packet's code or its refusal.
type Outcome = Result<Vec<u32>, Refusal>;

/// What all the calls make of a packet.
fn outcome(packet: &[u8]) -> Outcome {
    let outcomes = ERASES.map(|call| erased(call, packet));
    assert_eq!(outcomes[0], outcomes[1]);
    let (number, place) = outcomes[0].as_ref().map_or_else(|it| (it.number, it.place), |_| (0, 0));
    for call in CHECKS {
        assert_eq!(unpack(call(packet)), (number, place, 0));
    }
    outcomes[0].clone()
}

/// The buffer has room for every code; only the words may be written.
fn erased(call: Erase, packet: &[u8]) -> Outcome {
    let mut buffer = [0xa5; 4 * ITEMS as usize];
    let (number, place, count) = unpack(call(packet, &mut buffer));
    let (words, behind) = buffer.split_at(4 * count as usize);
    assert!(behind.iter().all(|&byte| byte == 0xa5), "wrote behind the words");
    if number == 0 {
        assert_eq!(place, 0);
        Ok(words_of(words))
    } else {
        assert_eq!(count, 0);
        Err(Refusal { number, place })
    }
}

fn refused(number: u8, place: usize) -> Outcome {
    Err(Refusal { number, place: place as u32 })
}
