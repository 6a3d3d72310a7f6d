//! Packets with faults: a number of a listing changed, cut or left out, or bytes
//! changed anywhere.

use super::listings::{packet_of, Entry};
use crate::packet::grammar::Due;
use crate::packet::number::{encode_all, MOST_BYTES};
use crate::random::Random;
use std::mem::discriminant;

/// The listing's packet with other bytes in place of one number.
pub fn with_number_changed(random: &mut Random, entries: &[Entry]) -> Vec<u8> {
    let place = any_place(random, entries);
    let bytes = other_bytes(random, &entries[place]);
    [packet_of(&entries[..place]), bytes, packet_of(&entries[place + 1..])].concat()
}

/// The listing's packet up to a number, then none to six bytes that do not end one.
pub fn cut_in_number(random: &mut Random, entries: &[Entry]) -> Vec<u8> {
    let place = any_place(random, entries);
    let mut packet = packet_of(&entries[..place]);
    let length = random.between(0, MOST_BYTES as u32 + 1) as usize;
    packet.extend(random.bytes(length).iter().map(|byte| byte | 0x80));
    packet
}

/// Where a number stands; each sort is looked for as often, but operands, of
/// which there are many sorts, oftener.
fn any_place(random: &mut Random, entries: &[Entry]) -> usize {
    const OPERAND: Due = Due::Operand { item: 0, place: 0 };
    let due = random.pick(&[
        Due::Edition,
        Due::ShapeCount,
        Due::FieldCount,
        Due::FieldKind,
        Due::FieldLevel,
        Due::LabelCount,
        Due::PcLevel,
        Due::StackLength,
        Due::StackLabel,
        Due::RegisterCount,
        Due::RegisterIndex,
        Due::RegisterKind,
        Due::RegisterLevel,
        Due::ItemCount,
        Due::ItemNumber,
        OPERAND,
        OPERAND,
        OPERAND,
        OPERAND,
        OPERAND,
        OPERAND,
    ]);
    let is_such = |&place: &usize| discriminant(&entries[place].due) == discriminant(&due);
    let places: Vec<usize> = (0..entries.len()).filter(is_such).collect();
    if places.is_empty() {
        random.below(entries.len() as u32) as usize
    } else {
        random.pick(&places)
    }
}

/// What stands in place of a number.
fn other_bytes(random: &mut Random, entry: &Entry) -> Vec<u8> {
    match random.below(12) {
        0 => encode_all([random.between(entry.least, entry.most)]),
        1 => vec![],
        2 => encode_all([entry.value, entry.value]),
        3 | 4 => longer_form(random, entry.value),
        5 | 6 => edge_form(random),
        _ => encode_all([out_of_range(random, entry)]),
    }
}

/// Next to the range, a little further, or anywhere.
fn out_of_range(random: &mut Random, entry: &Entry) -> u32 {
    let above = entry.most + 1;
    match random.below(6) {
        0 | 1 if entry.least > 0 => entry.least - 1,
        2 if entry.least > 0 => random.below(entry.least),
        3 => above + random.below(above),
        4 => above.max(random.word() >> random.below(32)),
        _ => above,
    }
}

/// The number with groups of zeros behind its own, past five bytes too.
fn longer_form(random: &mut Random, number: u32) -> Vec<u8> {
    let mut bytes = encode_all([number]);
    for _ in 0..random.between(1, MOST_BYTES as u32) {
        *bytes.last_mut().expect("a number has a byte") |= 0x80;
        bytes.push(0);
    }
    bytes
}

/// Five bytes, about 2^28 and 2^32 or with no end.
fn edge_form(random: &mut Random) -> Vec<u8> {
    let mut bytes = vec![random.pick(&[0x80, 0xff]); 4];
    bytes.push(random.pick(&[0x00, 0x01, 0x0f, 0x10, 0x1f, 0x7f, 0x80, 0x8f, 0xff]));
    bytes
}

/// The packet with one to three faults that know nothing of numbers.
pub fn with_bytes_changed(random: &mut Random, mut packet: Vec<u8>) -> Vec<u8> {
    for _ in 0..random.pick(&[1, 1, 1, 2, 3]) {
        change_byte(random, &mut packet);
    }
    packet
}

/// Puts a byte in, takes one out, or changes one; cuts the packet or adds to it.
fn change_byte(random: &mut Random, packet: &mut Vec<u8>) {
    let byte = random.word() as u8;
    let place = random.below(packet.len() as u32 + 1) as usize;
    match random.below(6) {
        0 => packet.insert(place, byte),
        1 => packet.truncate(place),
        2 => packet.extend(random.bytes(usize::from(byte % 4))),
        _ if place == packet.len() => packet.push(byte),
        3 => packet[place] ^= 1 << (byte % 8),
        4 => packet[place] = byte,
        _ => drop(packet.remove(place)),
    }
}
