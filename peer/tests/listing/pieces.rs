//! 01's bench pieces about listings.

use crate::{outcome, packet, refused};
use peer::cases::packet::pieces::*;
use peer::cases::run;
use peer::checker::{LEVEL_RULE, NO_LABEL, PUSH_TOO_DEEP, STACK_RULE};
use peer::packet::{BAD_NUMBER, BYTES_END, LEFT_OVER, OUT_OF_RANGE};

/// An entry at pc level 0 that lists nothing.
const BARE: &[u32] = &[0, 0, 0];
const HALT: &[u32] = &[0];
const LABEL_0: &[u32] = &[17, 0];
const PUSH_0: &[u32] = &[15, 0];

#[test]
fn k1_is_accepted_and_has_this_code() {
    assert_eq!(outcome(&K1), Ok(run::K1.to_vec()));
}

#[test]
fn k2_to_k6_have_item_faults() {
    assert_eq!(outcome(&k2()), refused(LEVEL_RULE, 6));
    assert_eq!(outcome(&k3()), refused(STACK_RULE, 4));
    assert_eq!(outcome(&k4()), refused(STACK_RULE, 1));
    assert_eq!(outcome(&k5()), refused(LEVEL_RULE, 2));
    assert_eq!(outcome(&k6()), refused(STACK_RULE, 4));
}

#[test]
fn k7_and_k8_have_packet_faults() {
    assert_eq!(outcome(&K7), refused(BYTES_END, 0));
    assert_eq!(outcome(&K8), refused(BAD_NUMBER, 0));
}

#[test]
fn k12_a_load_may_not_lower_the_pointers_level() {
    let load = |pointer_level| {
        let entry = [0, 0, 2, 1, 1, pointer_level, 2, 0, 1];
        packet(&[&[0, 0]], &[&entry], &[LABEL_0, &[3, 2, 1, 0], HALT])
    };
    assert_eq!(outcome(&load(1)), refused(LEVEL_RULE, 1));
    assert_eq!(outcome(&load(0)), Ok(vec![0x3210_0000, 0]));
}

#[test]
fn k13_the_17th_push_is_refused() {
    let pushes = |count| [&[LABEL_0][..], &vec![PUSH_0; count], &[HALT]].concat();
    assert_eq!(outcome(&packet(&[], &[BARE], &pushes(17))), refused(PUSH_TOO_DEEP, 17));
    assert_eq!(outcome(&packet(&[], &[BARE], &pushes(16))), refused(STACK_RULE, 17));
}

/// Label n stands on a stack of the labels below it, down to 1.
#[test]
fn k13_sixteen_pushes_that_are_all_jumped_to_are_accepted() {
    let context = |label: u32| {
        let below: Vec<u32> = (1..label).rev().collect();
        [&[0, below.len() as u32], &below[..], &[0]].concat()
    };
    let contexts: Vec<Vec<u32>> = (0..=16).map(context).collect();
    let pushes = (1..=16).map(|label| vec![15, label]);
    let jumps = (1..=16).rev().flat_map(|label| [vec![16, label], vec![17, label]]);
    let items: Vec<Vec<u32>> =
        [vec![17, 0]].into_iter().chain(pushes).chain(jumps).chain([vec![0]]).collect();
    let contexts: Vec<&[u32]> = contexts.iter().map(Vec::as_slice).collect();
    let items: Vec<&[u32]> = items.iter().map(Vec::as_slice).collect();
    let code: Vec<u32> = (1..=16).map(|address| 0x1000_0000 | address).chain([0]).collect();
    assert_eq!(outcome(&packet(&[], &contexts, &items)), Ok(code));
}

#[test]
fn k14_1024_items_pass_the_reader_and_1025_do_not() {
    let halts = |count| packet(&[], &[BARE], &vec![HALT; count]);
    assert_eq!(outcome(&halts(1_024)), refused(NO_LABEL, 0));
    assert_eq!(outcome(&halts(1_025)), refused(OUT_OF_RANGE, 6));
}

#[test]
fn k14_1024_items_may_be_accepted() {
    let branches = |count: usize| {
        let branch: &[u32] = &[2, 0, 0];
        packet(&[], &[BARE], &[&[LABEL_0][..], &vec![branch; count - 2], &[HALT]].concat())
    };
    let code: Vec<u32> = [0x2000_0000; 1_022].into_iter().chain([0]).collect();
    assert_eq!(outcome(&branches(1_024)), Ok(code));
    assert_eq!(outcome(&branches(1_025)), refused(OUT_OF_RANGE, 6));
}

#[test]
fn k16_a_byte_more_is_left_over() {
    for more in 0..=255 {
        assert_eq!(outcome(&k16(more)), refused(LEFT_OVER, 70));
    }
}
