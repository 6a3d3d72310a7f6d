//! The order of refusals by hand: a call with every fault, whose faults are then
//! mended one after another.

use crate::{registers, Desk};
use peer::cases::listing::by_hand;

/// Shape 0: a pointer to its own. r1 points to it, r2 is in the open.
const LABEL: &[u32] = &[0, 0, 2, 1, 1, 0, 2, 0, 0];

fn listing(items: &[&[u32]]) -> Vec<u8> {
    by_hand::packet(&[&[1, 0]], &[LABEL], items)
}

/// Loads the first field and halts.
fn good_listing() -> Vec<u8> {
    listing(&[&[17, 0], &[3, 1, 1, 0], &[0]])
}

/// The same, but r2 is followed.
fn bad_listing() -> Vec<u8> {
    listing(&[&[17, 0], &[3, 1, 2, 0], &[0]])
}

/// Packet, items, code buffer, table, heap content, registers and budget are all bad.
fn all_bad() -> Desk {
    let rows = [[0, 0], [1, 1]];
    let desk = Desk::new(&bad_listing(), &[9, 9, 9], &rows, registers(&[(0, 1), (1, 9)]));
    let packet = [bad_listing(), vec![0]].concat();
    Desk { packet, code: vec![0xa5; 7], budget: 1_000_001, ..desk }
}

type Lengths = fn(&mut Desk);

/// The causes of 30.
const LENGTHS: [Lengths; 9] = [
    |desk| desk.heap.resize(4 * 16_385, 9),
    |desk| desk.heap.push(9),
    |desk| desk.blocks.resize(4 * 1_026, 9),
    |desk| desk.blocks.extend([9; 4]),
    |desk| desk.blocks.push(9),
    |desk| desk.blocks.extend([9; 7]),
    |desk| desk.regs.push(9),
    |desk| desk.regs.truncate(60),
    |desk| desk.regs.clear(),
];

#[test]
fn faults_are_mended_one_after_another() {
    for spoil in LENGTHS {
        let mut desk = all_bad();
        spoil(&mut desk);
        assert_eq!(desk.refused(), (5, bad_listing().len() as u32));
        desk.packet = bad_listing();
        assert_eq!(desk.refused(), (14, 1));
        desk.packet = good_listing();
        assert_eq!(desk.refused(), (35, 2));
        desk.code.push(0xa5);
        assert_eq!(desk.refused(), (30, 0));
    }
    let mut desk = all_bad();
    (desk.packet, desk.code) = (good_listing(), vec![0xa5; 9]);
    assert_eq!(desk.refused(), (30, 0));
    desk.code.pop();
    assert_eq!(desk.refused(), (34, 0));
    desk.budget = 1_000_000;
    assert_eq!(desk.refused(), (31, 1));
    desk.blocks[12] = 0;
    assert_eq!(desk.refused(), (32, 0));
    desk.heap[0] = 1;
    assert_eq!(desk.refused(), (32, 1));
    desk.heap[4] = 0;
    assert_eq!(desk.refused(), (33, 0));
    desk.regs[0] = 0;
    assert_eq!(desk.refused(), (33, 1));
    desk.regs[4] = 0;
    let (answer, lent) = desk.called();
    assert_eq!((answer, lent.reg(1)), ((0, 0, 2), 1));
}

#[test]
fn each_length_alone_is_refused() {
    for spoil in LENGTHS {
        let mut desk = Desk::new(&good_listing(), &[0], &[[0, 0]], [0; 16]);
        assert!(desk.runs());
        spoil(&mut desk);
        assert_eq!(desk.refused(), (30, 0));
    }
}
