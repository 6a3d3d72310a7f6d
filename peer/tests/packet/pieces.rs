//! 01's bench pieces about the reader. It takes K2 to K6, which have item faults.

use crate::{read, refused, Outcome};
use peer::cases::packet::pieces::*;
use peer::packet::number::encode_all;
use peer::packet::{BAD_NUMBER, BYTES_END, LEFT_OVER, OUT_OF_RANGE};
use std::ops::Range;

#[rustfmt::skip]
const K1_NUMBERS: [u32; 60] = [
    1, 0, 3, // edition, shapes, labels
    0, 0, 3, 1, 0, 255, 2, 0, 255, 3, 0, 0, // label 0
    255, 1, 2, 2, 2, 0, 255, 3, 0, 0, // label 1
    0, 0, 1, 3, 0, 0, // label 2
    11, // items
    17, 0, // label 0
    15, 2, // cpush 2
    2, 1, 1, // bnz r1, 1
    10, 2, 0, 32_769, // add r2, r0, 1
    16, 2, // cjmp 2
    17, 1, // label 1
    10, 2, 0, 32_770, // add r2, r0, 2
    16, 2, // cjmp 2
    17, 2, // label 2
    10, 3, 0, 32_771, // add r3, r0, 3
    0, // halt
];

/// K1 is taken with other numbers at a place.
fn k1_with(place: Range<usize>, others: &[u32]) -> Outcome {
    let mut numbers = K1_NUMBERS.to_vec();
    numbers.splice(place, others.iter().copied());
    Ok(numbers)
}

#[test]
fn k1_is_taken() {
    assert_eq!(read(&K1), Ok(K1_NUMBERS.to_vec()));
}

#[test]
fn k2_to_k6_are_taken() {
    assert_eq!(read(&k2()), k1_with(48..49, &[3]));
    assert_eq!(read(&k3()), k1_with(43..44, &[1]));
    assert_eq!(read(&k4()), k1_with(31..36, &[10, 17, 0]));
    assert_eq!(read(&k5()), k1_with(15..16, &[0]));
    assert_eq!(read(&k6()), k1_with(43..45, &[0]));
}

#[test]
fn k7_the_empty_packet_ends_too_soon() {
    assert_eq!(read(&K7), refused(BYTES_END, 0));
}

#[test]
fn k8_a_number_must_be_in_shortest_form() {
    assert_eq!(read(&K8), refused(BAD_NUMBER, 0));
}

/// One label and so many halts.
fn halts(items: u32) -> Vec<u32> {
    let mut numbers = vec![1, 0, 1, 0, 0, 0, items];
    numbers.extend((0..items).map(|_| 0));
    numbers
}

#[test]
fn k14_1024_items_are_taken_and_1025_are_not() {
    assert_eq!(read(&encode_all(halts(1_024))), Ok(halts(1_024)));
    assert_eq!(read(&encode_all(halts(1_025))), refused(OUT_OF_RANGE, 6));
}

#[test]
fn k16_a_byte_more_is_left_over() {
    for more in 0..=255 {
        assert_eq!(read(&k16(more)), refused(LEFT_OVER, 70));
    }
}
