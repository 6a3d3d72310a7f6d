//! 01's bench pieces through the desk call.

use crate::{registers, Desk};
use peer::bytes::bytes_of;
use peer::cases::packet::pieces::*;
use peer::cases::run;

/// K1 from a value of r1, with a buffer that just holds its code.
fn k1_from(r1: u32, budget: u32) -> Desk {
    let desk = Desk::new(&K1, &[], &[], registers(&[(1, r1)]));
    Desk { code: vec![0xa5; 28], budget, ..desk }
}

#[test]
fn k1_halts_after_five_steps_on_both_ways() {
    for (r1, r2) in [(0, 1), (9, 2)] {
        let desk = k1_from(r1, 1_000_000);
        let regs = bytes_of(&registers(&[(1, r1), (2, r2), (3, 3)]));
        let after = Desk { code: bytes_of(&run::K1), regs, ..desk.clone() };
        assert_eq!(desk.called(), ((0, 0, 5), after));
    }
}

#[test]
fn k15_a_budget_of_four_is_used_and_five_halts() {
    for (r1, r2) in [(0, 1), (9, 2)] {
        let (answer, lent) = k1_from(r1, 4).called();
        assert_eq!((answer, lent.reg(2), lent.reg(3)), ((43, 0, 4), r2, 3));
        let (answer, lent) = k1_from(r1, 5).called();
        assert_eq!((answer, lent.reg(2), lent.reg(3)), ((0, 0, 5), r2, 3));
        let (answer, lent) = k1_from(r1, 3).called();
        assert_eq!((answer, lent.reg(2), lent.reg(3)), ((43, 0, 3), r2, 0));
    }
}

#[test]
fn other_pieces_are_refused() {
    let refused = |packet: &[u8]| Desk { packet: packet.to_vec(), ..k1_from(0, 5) }.refused();
    assert_eq!(refused(&k2()), (15, 6));
    assert_eq!(refused(&k3()), (17, 4));
    assert_eq!(refused(&k4()), (17, 1));
    assert_eq!(refused(&k5()), (15, 2));
    assert_eq!(refused(&k6()), (17, 4));
    assert_eq!(refused(&K7), (1, 0));
    assert_eq!(refused(&K8), (2, 0));
    assert_eq!(refused(&k16(0)), (5, 70));
}
