//! 01's "Bad splices we have seen", each beside one that is mended.

use crate::{outcome, packet, refused};
use peer::checker::*;

const HALT: &[u32] = &[0];

/// r1 is secret, r2 is in the open.
const ENTRY: &[u32] = &[0, 0, 2, 1, 0, 255, 2, 0, 0];

#[test]
fn a_plain_jmp_does_not_lower_the_pc() {
    let meet_at = |pc| {
        let items: [&[u32]; 7] = [&[17, 0], &[2, 1, 1], &[1, 2], &[17, 1], &[1, 2], &[17, 2], HALT];
        outcome(&packet(&[], &[ENTRY, &[255, 0, 0], &[pc, 0, 0]], &items))
    };
    for pc in 0..255 {
        assert_eq!(meet_at(pc), refused(LEVEL_RULE, 2));
    }
    assert!(meet_at(255).is_ok());
}

#[test]
fn a_fall_does_not_lower_the_pc() {
    let fall_to = |pc| {
        let items: [&[u32]; 5] = [&[17, 0], &[2, 1, 1], &[17, 2], &[17, 1], HALT];
        outcome(&packet(&[], &[ENTRY, &[255, 0, 0], &[pc, 0, 0]], &items))
    };
    assert_eq!(fall_to(0), refused(LEVEL_RULE, 2));
    assert!(fall_to(255).is_ok());
}

#[test]
fn halt_does_not_pass_with_labels_on_the_stack() {
    // One way halts early, and the other writes r2 behind label 2.
    let labels: [&[u32]; 3] = [ENTRY, &[255, 1, 2, 1, 2, 0, 0], &[0, 0, 1, 2, 0, 0]];
    let early = |end: &'static [u32]| {
        let items: [&[u32]; 9] = [
            &[17, 0],
            &[15, 2],
            &[2, 1, 1],
            end,
            &[17, 1],
            &[16, 2],
            &[17, 2],
            &[10, 2, 0, 32_769],
            HALT,
        ];
        outcome(&packet(&[], &labels, &items))
    };
    assert_eq!(early(HALT), refused(STACK_RULE, 3));
    assert!(early(&[16, 2]).is_ok());
}

#[test]
fn arithmetic_does_not_keep_rd_a_pointer() {
    let entry: &[u32] = &[0, 0, 2, 1, 1, 0, 2, 0, 0];
    let follow = |made_up: &'static [u32]| {
        let items: [&[u32]; 4] = [&[17, 0], made_up, &[3, 2, 1, 0], HALT];
        outcome(&packet(&[&[0, 0]], &[entry], &items))
    };
    assert_eq!(follow(&[10, 1, 0, 32_775]), refused(WRONG_SORT, 2));
    assert_eq!(follow(&[5, 1, 2, 2]), refused(WRONG_SORT, 2));
    assert_eq!(follow(&[3, 1, 1, 0]), refused(WRONG_SORT, 2)); // a load of an integer
    assert!(follow(&[10, 2, 0, 32_775]).is_ok());
}

#[test]
fn cpush_of_a_low_label_is_refused_while_the_pc_is_high() {
    // Pushed behind the branch, label 2 would bring the pc down again.
    let labels: [&[u32]; 3] = [ENTRY, &[255, 0, 0], &[0, 0, 1, 2, 0, 0]];
    let items: [&[u32]; 8] =
        [&[17, 0], &[2, 1, 1], &[15, 2], &[16, 2], &[17, 2], &[10, 2, 0, 32_769], HALT, &[17, 1]];
    assert_eq!(outcome(&packet(&[], &labels, &items)), refused(LEVEL_RULE, 2));
    let labels: [&[u32]; 3] = [ENTRY, &[255, 1, 2, 0], &[0, 0, 1, 2, 0, 0]];
    let items: [&[u32]; 9] = [
        &[17, 0],
        &[15, 2],
        &[2, 1, 1],
        &[16, 2],
        &[17, 1],
        &[1, 1],
        &[17, 2],
        &[10, 2, 0, 32_769],
        HALT,
    ];
    assert!(outcome(&packet(&[], &labels, &items)).is_ok());
}
