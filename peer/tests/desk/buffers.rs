//! What the desk call does to the buffers it is lent.

use crate::{registers, Desk};
use peer::bytes::{bytes_of, words_of};
use peer::cases::listing::by_hand;
use peer::cases::packet::pieces::K1;
use peer::cases::run;
use peer::packet::grammar::ITEMS;

#[test]
fn code_is_written_also_when_the_budget_is_0() {
    let desk = Desk { budget: 0, ..Desk::new(&K1, &[1, 2, 3], &[], registers(&[(1, 9)])) };
    let ((number, place, count), lent) = desk.called();
    assert_eq!((number, place, count), (43, 0, 0));
    let behind = desk.code[28..].to_vec();
    assert_eq!(lent, Desk { code: [bytes_of(&run::K1), behind].concat(), ..desk });
}

#[test]
fn a_code_buffer_may_be_longer_than_code() {
    for more in [0, 1, 100, 4 * ITEMS as usize, 20_000] {
        let desk = Desk { code: vec![0xa5; 28 + 4 * more], ..Desk::new(&K1, &[], &[], [0; 16]) };
        let (answer, lent) = desk.called();
        assert_eq!(answer, (0, 0, 5));
        assert_eq!(lent.code[..28], bytes_of(&run::K1));
        assert!(lent.code[28..].iter().all(|&byte| byte == 0xa5));
    }
}

#[test]
fn a_code_buffer_that_is_too_short_or_ragged_is_left_alone() {
    for length in (0..60).filter(|length| length / 4 < 7 || length % 4 != 0) {
        let desk = Desk { code: vec![0xa5; length], ..Desk::new(&K1, &[], &[], [0; 16]) };
        assert_eq!(desk.refused(), if length < 28 { (35, 7) } else { (30, 0) });
    }
}

/// A swap of two fields through a pointer, which words outside the block don't feel.
#[test]
fn a_run_writes_heap_and_registers() {
    let entry: &[u32] = &[0, 0, 3, 1, 1, 0, 2, 0, 0, 3, 0, 0];
    let items: [&[u32]; 6] =
        [&[17, 0], &[3, 2, 1, 0], &[3, 3, 1, 1], &[4, 1, 0, 3], &[4, 1, 1, 2], &[0]];
    let packet = by_hand::packet(&[&[0, 0, 0, 0]], &[entry], &items);
    let after = |budget| {
        let heap = [1, 2, 3, 4];
        let desk = Desk::new(&packet, &heap, &[[1, 0]], registers(&[(1, 1), (4, 44)]));
        let (answer, lent) = Desk { budget, ..desk }.called();
        (answer, words_of(&lent.heap), words_of(&lent.regs)[1..5].to_vec())
    };
    assert_eq!(after(5), ((0, 0, 5), vec![1, 3, 2, 4], vec![1, 2, 3, 44]));
    assert_eq!(after(4), ((43, 0, 4), vec![1, 3, 2, 4], vec![1, 2, 3, 44]));
    assert_eq!(after(3), ((43, 0, 3), vec![1, 3, 3, 4], vec![1, 2, 3, 44]));
    assert_eq!(after(1), ((43, 0, 1), vec![1, 2, 3, 4], vec![1, 2, 0, 44]));
}
