//! Each range of 01's section "The packet": both ends are taken, and the numbers
//! next to them are refused at their first byte.

use crate::{read, refused};
use peer::cases::packet::listings::{longest_listing, packet_of};
use peer::packet::number::encode_all;
use peer::packet::{LEFT_OVER, OUT_OF_RANGE, PACKET_BYTES, PACKET_TOO_LONG};
use std::ops::RangeInclusive;

/// The number at the index of a listing has exactly this range.
fn assert_range(index: usize, range: RangeInclusive<u32>, listing: impl Fn(u32) -> Vec<u32>) {
    let (least, most) = range.into_inner();
    for value in [least, most] {
        let numbers = listing(value);
        assert_eq!(numbers[index], value);
        assert_eq!(read(&encode_all(numbers.clone())), Ok(numbers));
    }
    for value in least.checked_sub(1).into_iter().chain([most + 1]) {
        assert_refused(index, &listing(value));
    }
}

/// The number at the index is the first that is out of range.
fn assert_refused(index: usize, numbers: &[u32]) {
    let place = encode_all(numbers[..index].iter().copied()).len();
    assert_eq!(read(&encode_all(numbers.iter().copied())), refused(OUT_OF_RANGE, place));
}

/// A listing whose shapes have these numbers, their count first, at index 1.
fn with_shapes(shapes: &[u32]) -> Vec<u32> {
    [&[1], shapes, &[1, 0, 0, 0], &[1, 0]].concat()
}

/// A listing with one shape whose labels have these numbers, their count first, at index 5.
fn with_labels(labels: &[u32]) -> Vec<u32> {
    [&[1, 1, 1, 0, 0], labels, &[1, 0]].concat()
}

/// A listing with one label that lists these registers, their count first, at index 8.
fn with_registers(registers: &[u32]) -> Vec<u32> {
    with_labels(&[&[1, 0, 0], registers].concat())
}

/// A listing with two labels whose items have these numbers, their count first, at index 9.
fn with_items(items: &[u32]) -> Vec<u32> {
    [&[1, 0, 2, 0, 0, 0, 0, 0, 0], items].concat()
}

/// A count, and the numbers as often.
fn counted(count: u32, numbers: &[u32]) -> Vec<u32> {
    [&[count], &numbers.repeat(count as usize)[..]].concat()
}

#[test]
fn shapes() {
    assert_range(1, 0..=64, |count| with_shapes(&counted(count, &[1, 0, 0])));
    assert_range(2, 1..=16, |count| with_shapes(&[&[1], &counted(count, &[0, 0])[..]].concat()));
    assert_range(3, 0..=1, |kind| with_shapes(&[1, 1, kind, 0]));
    assert_range(3, 0..=2, |kind| with_shapes(&[2, 1, kind, 0, 1, 0, 0]));
    assert_range(4, 0..=255, |level| with_shapes(&[1, 1, 0, level]));
}

#[test]
fn labels() {
    assert_range(5, 1..=128, |count| with_labels(&counted(count, &[0, 0, 0])));
    assert_range(6, 0..=255, |level| with_labels(&[1, level, 0, 0]));
    assert_range(7, 0..=16, |depth| {
        with_labels(&[&[1, 0], &counted(depth, &[0])[..], &[0]].concat())
    });
    assert_range(8, 0..=0, |label| with_labels(&[1, 0, 1, label, 0]));
    assert_range(8, 0..=1, |label| with_labels(&[2, 0, 1, label, 0, 0, 0, 0]));
}

#[test]
fn registers() {
    assert_range(8, 0..=15, |count| {
        let registers = (1..=count).flat_map(|index| [index, 0, 0]);
        with_registers(&[count].into_iter().chain(registers).collect::<Vec<u32>>())
    });
    assert_range(9, 1..=15, |index| with_registers(&[1, index, 0, 0]));
    assert_range(10, 0..=1, |kind| with_registers(&[1, 7, kind, 0]));
    assert_range(11, 0..=255, |level| with_registers(&[1, 7, 0, level]));
}

#[test]
fn registers_ascend() {
    for before in 1..15 {
        let listing = |index| with_registers(&[2, before, 0, 0, index, 0, 0]);
        assert_range(12, before + 1..=15, listing);
        for index in 0..=before {
            assert_refused(12, &listing(index));
        }
    }
    for index in 0..=16 {
        assert_refused(12, &with_registers(&[2, 15, 0, 0, index, 0, 0]));
    }
}

#[test]
fn items() {
    assert_range(9, 1..=1_024, |count| with_items(&counted(count, &[0])));
    assert_range(10, 0..=17, |item| {
        let operands = usize::from(item != 0);
        with_items(&[1, item, 0][..2 + operands])
    });
}

#[test]
fn operands() {
    const LABEL: u32 = 1;
    for item in 0..=17 {
        let last: &[u32] = match item {
            0 => &[],
            1 | 15..=17 => &[LABEL],
            2 => &[15, LABEL],
            3..=9 => &[15, 15, 15],
            _ => &[15, 15, 65_535],
        };
        for place in 0..last.len() {
            assert_range(11 + place, 0..=last[place], |value| {
                let mut operands = vec![0; last.len()];
                operands[place] = value;
                with_items(&[&[1, item], &operands[..]].concat())
            });
        }
    }
}

#[test]
fn the_longest_listing_is_taken() {
    let entries = longest_listing();
    let packet = packet_of(&entries);
    assert_eq!((entries.len(), packet.len()), (14_404, 19_526));
    assert_eq!(read(&packet), Ok(entries.iter().map(|entry| entry.value).collect()));
}

#[test]
fn packets_of_65536_bytes_are_looked_at() {
    let mut packet = packet_of(&longest_listing());
    packet.resize(PACKET_BYTES, 0);
    assert_eq!(read(&packet), refused(LEFT_OVER, 19_526));
    packet.push(0);
    assert_eq!(read(&packet), refused(PACKET_TOO_LONG, 0));
    assert_eq!(read(&[0x80; PACKET_BYTES + 1]), refused(PACKET_TOO_LONG, 0));
}
