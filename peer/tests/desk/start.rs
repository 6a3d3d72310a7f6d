//! The start check by hand: which rows, fields and registers are good.

use crate::{registers, Desk};
use peer::cases::listing::by_hand;

const BARE: &[u32] = &[0, 0, 0];

/// A listing of these shapes that halts at once; its label is this.
fn halts(shapes: &[&[u32]], label: &[u32]) -> Vec<u8> {
    by_hand::packet(shapes, &[label], &[&[17, 0], &[0]])
}

fn assert_refused(desk: &Desk, number: u8, place: u32) {
    assert_eq!(desk.refused(), (number, place), "{:?}", desk.blocks);
}

#[test]
fn rows() {
    // A heap of four words; shape 0 has one field, shape 1 three.
    let packet = halts(&[&[0, 0], &[0, 0, 0, 0, 0, 0]], BARE);
    let desk = |rows: &[[u32; 2]]| Desk::new(&packet, &[7; 4], rows, [0; 16]);
    let good: [&[[u32; 2]]; 7] = [
        &[],
        &[[0, 0]],
        &[[3, 0]],
        &[[1, 1]],
        &[[0, 1], [3, 0]],
        &[[0, 0], [1, 1]],
        &[[0, 0], [1, 0], [2, 0], [3, 0]],
    ];
    for rows in good {
        assert!(desk(rows).runs(), "{rows:?}");
    }
    let past_a_shape = [2, 3, 64, 0x100, 0x101, 0x1_0000, u32::MAX];
    for shape in past_a_shape {
        assert_refused(&desk(&[[0, shape]]), 31, 0);
        assert_refused(&desk(&[[0, 0], [1, shape], [2, 0]]), 31, 1);
    }
    for base in [2, 3, 4, 5, u32::MAX - 3, u32::MAX - 2, u32::MAX - 1, u32::MAX] {
        assert_refused(&desk(&[[base, 1]]), 31, 0);
        assert_refused(&desk(&[[0, 0], [base, 1]]), 31, 1);
    }
    assert_refused(&desk(&[[4, 0]]), 31, 0);
    assert_refused(&desk(&[[1, 0], [1, 0]]), 31, 1);
    assert_refused(&desk(&[[1, 0], [0, 0]]), 31, 1);
    assert_refused(&desk(&[[0, 1], [1, 0]]), 31, 1);
    assert_refused(&desk(&[[0, 1], [2, 0]]), 31, 1);
    assert_refused(&desk(&[[0, 0], [0, 1]]), 31, 1);
    assert_refused(&desk(&[[0, 0], [1, 0], [1, 9], [9, 0]]), 31, 2);
}

#[test]
fn no_shapes_no_rows() {
    let desk = |rows: &[[u32; 2]]| Desk::new(&halts(&[], BARE), &[0; 4], rows, [0; 16]);
    assert!(desk(&[]).runs());
    assert_refused(&desk(&[[0, 0]]), 31, 0);
}

#[test]
fn fields() {
    // Shape 0: a pointer to its own, an integer, a pointer to shape 1. Shape 1: an integer.
    let packet = halts(&[&[1, 0, 0, 0, 2, 255], &[0, 0]], BARE);
    let rows = [[1, 0], [4, 1], [6, 0], [9, 1]];
    let desk = |changed: &[(usize, u32)]| {
        let mut heap = [77; 12];
        for (address, word) in [(1, 1), (3, 4), (6, 1), (8, 9)] {
            heap[address] = word;
        }
        for &(address, word) in changed {
            heap[address] = word;
        }
        Desk::new(&packet, &heap, &rows, [0; 16])
    };
    assert!(desk(&[]).runs());
    assert!(desk(&[(1, 6), (3, 9), (6, 6), (8, 4)]).runs());
    // Integers and words outside blocks.
    assert!(desk(&[(0, 99), (2, 99), (4, 99), (5, 99), (7, 99), (9, 99), (11, 99)]).runs());
    for word in [0, 2, 4, 5, 7, 9, 12, 0x1_0001, 0x8000_0001, u32::MAX] {
        assert_refused(&desk(&[(1, word)]), 32, 1);
        assert_refused(&desk(&[(6, word)]), 32, 6);
    }
    for word in [0, 1, 3, 5, 6, 10, 12, u32::MAX] {
        assert_refused(&desk(&[(3, word)]), 32, 3);
        assert_refused(&desk(&[(8, word), (6, 5)]), 32, 6);
        assert_refused(&desk(&[(8, word), (3, 5)]), 32, 3);
    }
}

/// Two shapes of one integer each, and a block of each.
const SHAPES: [&[u32]; 2] = [&[0, 0], &[0, 0]];
const ROWS: [[u32; 2]; 2] = [[0, 0], [1, 1]];

fn from_registers(packet: &[u8], set: &[(usize, u32)]) -> Desk {
    Desk::new(packet, &[5, 5, 5], &ROWS, registers(set))
}

#[test]
fn start_registers() {
    // r2 points to shape 1, r5 to shape 0, r7 is an integer, r15 points to shape 1.
    let packet = halts(&SHAPES, &[0, 0, 4, 2, 2, 0, 5, 1, 255, 7, 0, 0, 15, 2, 0]);
    let desk =
        |set: &[(usize, u32)]| from_registers(&packet, &[&[(2, 1), (5, 0), (15, 1)], set].concat());
    assert!(desk(&[]).runs());
    assert!(desk(&[(1, 99), (3, 99), (7, 99), (14, 99)]).runs());
    for word in [0, 2, 3, 0x1_0001, 0x8000_0001, u32::MAX] {
        assert_refused(&desk(&[(2, word)]), 33, 2);
        assert_refused(&desk(&[(15, word)]), 33, 15);
        assert_refused(&desk(&[(15, word), (5, 1)]), 33, 5);
        assert_refused(&desk(&[(15, word), (5, 1), (2, 9)]), 33, 2);
    }
    for word in [1, 0x100, 0x8000_0000, u32::MAX] {
        assert_refused(&desk(&[(0, word)]), 33, 0);
        assert_refused(&desk(&[(0, word), (2, 9), (15, 9)]), 33, 0);
    }
}

#[test]
fn the_first_label_is_the_one_that_item_0_places() {
    let labels: [&[u32]; 2] = [&[0, 0, 1, 1, 1, 0], &[0, 0, 1, 2, 2, 0]];
    let packet =
        |first, other| by_hand::packet(&SHAPES, &labels, &[&[17, first], &[0], &[17, other], &[0]]);
    let desk = |first, other, r1, r2| from_registers(&packet(first, other), &[(1, r1), (2, r2)]);
    assert!(desk(0, 1, 0, 9).runs());
    assert_refused(&desk(0, 1, 9, 1), 33, 1);
    assert!(desk(1, 0, 9, 1).runs());
    assert_refused(&desk(1, 0, 0, 9), 33, 2);
}

/// A block table of 512 rows, each pointing to the next, and a heap of 16,384 words.
#[test]
fn the_largest_table_and_heap() {
    let packet = halts(&[&[1, 0]], &[0, 0, 1, 3, 1, 0]);
    let rows: Vec<[u32; 2]> = (0..512).map(|row| [32 * row + 31, 0]).collect();
    let mut heap = vec![0; 16_384];
    for row in 0..512 {
        heap[32 * row + 31] = rows[(row + 1) % 512][0];
    }
    let desk = Desk::new(&packet, &heap, &rows, registers(&[(3, 16_383)]));
    assert!(desk.runs());
    assert_refused(&Desk { heap: desk.heap[..65_532].to_vec(), ..desk.clone() }, 31, 511);
    let mut bad = desk.clone();
    bad.heap[65_532] = 30;
    assert_refused(&bad, 32, 16_383);
}
