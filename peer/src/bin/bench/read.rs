//! The packet reader: a byte of a packet that is taken.

use crate::{row, timed};
use peer::answer::unpack;
use peer::cases::packet::listings::*;
use peer::cases::packet::pieces::K1;
use peer::packet;
use peer::packet::grammar::{ITEMS, MOST_NUMBERS};
use peer::random::Random;
use peer::{proved, read_call};
use std::hint::black_box;

type Call = fn(&[u8], &mut [u8]) -> u64;

/// About as many bytes are read in each round.
const BYTES_IN_A_ROUND: usize = 1_000_000;

pub fn rows() {
    let [shapes, fields, labels, stack, registers, _] = SMALL;
    let many_items = [shapes, fields, labels, stack, registers, (ITEMS, ITEMS)];
    let listing = |sizes| packet_of(&any_listing(&mut Random::new(1, 0), sizes));
    let works = [
        ("K1", K1.to_vec()),
        ("a listing of 60 items", listing(MIDDLING)),
        ("a listing of 1,024 items", listing(many_items)),
        ("the most numbers", listing(LARGEST)),
        ("the longest packet", packet_of(&longest_listing())),
    ];
    for (name, packet) in works {
        let name = format!("a byte of {name}, {} bytes", packet.len());
        row(&name, || round(&packet, proved::vans_read), || round(&packet, read_call::read));
    }
}

/// Nanoseconds for a byte, over the calls of a round.
fn round(packet: &[u8], call: Call) -> f64 {
    let count = packet::read(packet).expect("the packet is taken").len();
    let calls = BYTES_IN_A_ROUND / packet.len();
    let mut numbers = vec![0; 4 * MOST_NUMBERS];
    timed((calls * packet.len()) as u32, || {
        for _ in 0..calls {
            let answer = call(black_box(packet), black_box(&mut numbers));
            assert_eq!(unpack(answer), (0, 0, count as u32));
        }
    })
}
