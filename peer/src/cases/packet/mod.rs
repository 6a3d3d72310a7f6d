//! Cases for the packet reader: a packet, and a buffer for its numbers.

pub mod damage;
pub mod listings;
pub mod pieces;

use crate::packet::grammar::MOST_NUMBERS;
use crate::packet::{self, PACKET_BYTES};
use crate::random::Random;
use listings::{any_listing, any_sizes, longest_listing, packet_of, Entry};

pub struct Case {
    pub packet: Vec<u8>,
    pub numbers: Vec<u8>,
}

impl Case {
    pub fn new(seed: u64, number: u64) -> Self {
        let mut random = Random::new(seed, number);
        let packet = any_packet(&mut random);
        let length = any_length(&mut random, &packet);
        Case { packet, numbers: random.bytes(length) }
    }
}

pub fn any_packet(random: &mut Random) -> Vec<u8> {
    match random.below(100) {
        0..=90 => from_listing(random),
        91..=94 => junk(random),
        95..=97 => any_piece(random),
        _ => long(random),
    }
}

/// A listing's packet, two of three with damage.
fn from_listing(random: &mut Random) -> Vec<u8> {
    let entries = any_entries(random);
    match random.below(90) {
        0..=29 => packet_of(&entries),
        30..=63 => damage::with_number_changed(random, &entries),
        64..=70 => damage::cut_in_number(random, &entries),
        71..=86 => damage::with_bytes_changed(random, packet_of(&entries)),
        _ => {
            let mut packet = packet_of(&entries);
            packet.truncate(random.below(packet.len() as u32) as usize);
            packet.extend(junk(random));
            packet
        }
    }
}

fn any_entries(random: &mut Random) -> Vec<Entry> {
    if random.once_in(1_000) {
        return longest_listing();
    }
    let sizes = any_sizes(random);
    any_listing(random, sizes)
}

/// Any bytes, or only small ones, which are numbers and often in range.
fn junk(random: &mut Random) -> Vec<u8> {
    let length = random.below(40) as usize;
    let mask = random.pick(&[0xff, 0xff, 0x7f, 0x0f, 0x03]);
    let mut bytes: Vec<u8> = random.bytes(length).iter().map(|byte| byte & mask).collect();
    if random.once_in(2) {
        bytes.insert(0, 1);
    }
    bytes
}

/// A bench piece, half of them with damage.
fn any_piece(random: &mut Random) -> Vec<u8> {
    let packet = match random.below(9) {
        0 => pieces::K1.to_vec(),
        1 => pieces::k2(),
        2 => pieces::k3(),
        3 => pieces::k4(),
        4 => pieces::k5(),
        5 => pieces::k6(),
        6 => pieces::K7.to_vec(),
        7 => pieces::K8.to_vec(),
        _ => pieces::k16(random.word() as u8),
    };
    if random.once_in(2) {
        damage::with_bytes_changed(random, packet)
    } else {
        packet
    }
}

/// A packet about the limit or far past it. No listing is as long, so bytes are
/// left over unless a fault comes before them.
fn long(random: &mut Random) -> Vec<u8> {
    let mut packet = if random.once_in(4) { vec![] } else { from_listing(random) };
    let length = random.pick(&[
        PACKET_BYTES - 1,
        PACKET_BYTES,
        PACKET_BYTES,
        PACKET_BYTES + 1,
        PACKET_BYTES + 1,
        PACKET_BYTES + pieces::K1.len(),
        2 * PACKET_BYTES,
    ]);
    packet.extend(random.bytes(length - packet.len()));
    packet
}

/// The length of a buffer: none, too short by a word or less, exact, ragged, or
/// longer. A refused packet gets room for as many numbers as it could have.
fn any_length(random: &mut Random, packet: &[u8]) -> usize {
    let most = packet.len().min(MOST_NUMBERS);
    let exact = 4 * packet::read(packet).map_or(most, |numbers| numbers.len());
    match random.below(16) {
        0 => 0,
        1 => exact.saturating_sub(4),
        2 => exact.saturating_sub(random.between(1, 3) as usize),
        3 => random.below(exact as u32 + 1) as usize,
        4 => exact + random.between(1, 3) as usize,
        5 => exact + 4 * random.between(1, 20) as usize,
        6 => exact + random.below(100) as usize,
        _ => exact,
    }
}
