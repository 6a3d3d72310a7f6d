//! The edges of a number: where it ends, its form and its size.

use crate::{read, refused};
use peer::packet::number::{decode, encode_all, Fault};
use peer::packet::{BAD_EDITION, BAD_NUMBER, BYTES_END, OUT_OF_RANGE};

#[test]
fn bytes_that_end_in_a_number_are_refused_at_the_end() {
    for number in [&[0x80][..], &[0x81, 0xff], &[0x80, 0x80, 0x80], &[0xff, 0xff, 0xff, 0xff]] {
        assert_eq!(read(number), refused(BYTES_END, number.len()));
        assert_eq!(read(&[&[0x01], number].concat()), refused(BYTES_END, 1 + number.len()));
    }
    assert_eq!(read(&[0x01]), refused(BYTES_END, 1));
}

#[test]
fn numbers_of_a_bad_form_are_refused_at_their_first_byte() {
    let numbers: [&[u8]; 10] = [
        &[0x80, 0x00],
        &[0x81, 0x00],
        &[0x81, 0x80, 0x00],
        &[0x81, 0x80, 0x80, 0x80, 0x00],
        &[0xff, 0xff, 0xff, 0xff, 0x00],
        &[0xff, 0xff, 0xff, 0xff, 0x10],
        &[0x80, 0x80, 0x80, 0x80, 0x7f],
        &[0x80, 0x80, 0x80, 0x80, 0x80],
        &[0xff, 0xff, 0xff, 0xff, 0x8f],
        &[0x81, 0x80, 0x80, 0x80, 0x80, 0x00],
    ];
    for number in numbers {
        assert_eq!(decode(number), Err(Fault::Form));
        assert_eq!(read(number), refused(BAD_NUMBER, 0));
        assert_eq!(read(&[&[0x01], number].concat()), refused(BAD_NUMBER, 1));
        assert_eq!(read(&[&[0x01], number, &[0x01]].concat()), refused(BAD_NUMBER, 1));
    }
}

#[test]
fn an_edition_but_1_is_refused_as_such() {
    for edition in [0, 2, 127, 128, 300, 1 << 28, u32::MAX] {
        assert_eq!(read(&encode_all([edition])), refused(BAD_EDITION, 0));
        assert_eq!(read(&encode_all([edition, 0, 0])), refused(BAD_EDITION, 0));
    }
}

#[test]
fn five_bytes_reach_the_last_word() {
    let last = [0xff, 0xff, 0xff, 0xff, 0x0f];
    assert_eq!(decode(&last), Ok((u32::MAX, &[][..])));
    assert_eq!(decode(&[0x80, 0x80, 0x80, 0x80, 0x01, 0x05]), Ok((1 << 28, &[0x05][..])));
    assert_eq!(read(&[&[0x01], &last[..]].concat()), refused(OUT_OF_RANGE, 1));
}

#[test]
fn the_first_fault_is_given() {
    // An edition, a shape count, bytes left over and an end, each bad.
    assert_eq!(read(&[0x02, 0x80, 0x00]), refused(BAD_EDITION, 0));
    assert_eq!(read(&[0x01, 0x41, 0x80]), refused(OUT_OF_RANGE, 1));
    assert_eq!(read(&[0x01, 0x80, 0x00, 0x00]), refused(BAD_NUMBER, 1));
}
