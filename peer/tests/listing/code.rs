//! The code words of accepted listings, by hand.

use crate::{outcome, packet};
use peer::word::*;

/// r1 to r3 integers at 255, r4 a pointer at 0 to a shape that has all sixteen
/// fields: integers at 255.
const ENTRY: &[u32] = &[0, 0, 4, 1, 0, 255, 2, 0, 255, 3, 0, 255, 4, 1, 0];
const SHAPE: [u32; 32] = {
    let mut shape = [0; 32];
    let mut field = 0;
    while field < 16 {
        shape[2 * field + 1] = 255;
        field += 1;
    }
    shape
};

fn in_block(items: &[&[u32]]) -> Vec<u32> {
    let items = [&[&[17, 0][..]], items, &[&[0]]].concat();
    outcome(&packet(&[&SHAPE], &[ENTRY], &items)).expect("accepted")
}

#[test]
fn arithmetic() {
    for number in ADD..=SLT {
        assert_eq!(in_block(&[&[number, 1, 2, 3]]), [number << 28 | 0x0123_0000, 0]);
    }
    for number in ADD_IMMEDIATE..=SLT_IMMEDIATE {
        for (written, low) in
            [(0, 0x8000), (1, 0x8001), (32_767, 0xffff), (32_768, 0), (32_769, 1), (65_535, 0x7fff)]
        {
            let word = number << 28 | 0x0320_0000 | low;
            assert_eq!(in_block(&[&[number, 3, 2, written]]), [word, 0]);
        }
    }
}

#[test]
fn heap() {
    for field in 0..16 {
        assert_eq!(in_block(&[&[LOAD, 2, 4, field]]), [0x3240_0000 | field, 0]);
        assert_eq!(in_block(&[&[STORE, 4, field, 3]]), [0x4430_0000 | field, 0]);
    }
}

/// cpush and label are dropped, cjmp becomes jmp, and two labels may have one address.
#[test]
fn labels() {
    let labels = [&[0, 0, 0][..]; 5];
    let items: [&[u32]; 14] = [
        &[17, 3],
        &[17, 1],
        &[2, 0, 4], // 0
        &[15, 0],
        &[16, 0], // 1
        &[17, 0],
        &[2, 0, 3], // 2
        &[1, 2],    // 3
        &[17, 4],
        &[2, 0, 1], // 4
        &[1, 0],    // 5
        &[17, 2],
        &[2, 0, 2], // 6
        &[0],       // 7
    ];
    let code = [
        0x2000_0004,
        0x1000_0002,
        0x2000_0000,
        0x1000_0006,
        0x2000_0000,
        0x1000_0002,
        0x2000_0006,
        0,
    ];
    assert_eq!(outcome(&packet(&[], &labels, &items)), Ok(code.to_vec()));
}
