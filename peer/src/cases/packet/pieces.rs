//! 01's bench pieces that are packets.

use std::ops::Range;

#[rustfmt::skip]
pub const K1: [u8; 70] = [
    0x01, 0x00, 0x03, // edition, shapes, labels
    0x00, 0x00, 0x03, 0x01, 0x00, 0xFF, 0x01, 0x02, 0x00, 0xFF, 0x01, 0x03, 0x00, 0x00, // label 0
    0xFF, 0x01, 0x01, 0x02, 0x02, 0x02, 0x00, 0xFF, 0x01, 0x03, 0x00, 0x00, // label 1
    0x00, 0x00, 0x01, 0x03, 0x00, 0x00, // label 2
    0x0B, // items
    0x11, 0x00, // label 0
    0x0F, 0x02, // cpush 2
    0x02, 0x01, 0x01, // bnz r1, 1
    0x0A, 0x02, 0x00, 0x81, 0x80, 0x02, // add r2, r0, 1
    0x10, 0x02, // cjmp 2
    0x11, 0x01, // label 1
    0x0A, 0x02, 0x00, 0x82, 0x80, 0x02, // add r2, r0, 2
    0x10, 0x02, // cjmp 2
    0x11, 0x02, // label 2
    0x0A, 0x03, 0x00, 0x83, 0x80, 0x02, // add r3, r0, 3
    0x00, // halt
];

pub const K7: [u8; 0] = [];
pub const K8: [u8; 2] = [0x80, 0x00];

/// K1 with other bytes at a place.
fn k1_with(place: Range<usize>, bytes: &[u8]) -> Vec<u8> {
    let mut packet = K1.to_vec();
    packet.splice(place, bytes.iter().copied());
    packet
}

/// K1 whose item 6 writes r3.
pub fn k2() -> Vec<u8> {
    k1_with(54..55, &[0x03])
}

/// K1 whose item 4 is jmp 2.
pub fn k3() -> Vec<u8> {
    k1_with(49..51, &[0x01, 0x02])
}

/// K1 without item 1.
pub fn k4() -> Vec<u8> {
    k1_with(35..40, &[0x0A, 0x11, 0x00])
}

/// K1 whose label 1 has pc level 0.
pub fn k5() -> Vec<u8> {
    k1_with(17..19, &[0x00])
}

/// K1 whose item 4 is halt.
pub fn k6() -> Vec<u8> {
    k1_with(49..51, &[0x00])
}

/// K1 and one byte more.
pub fn k16(more: u8) -> Vec<u8> {
    k1_with(70..70, &[more])
}
