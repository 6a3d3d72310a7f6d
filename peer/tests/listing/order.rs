//! The order of refusals within an item, by hand: each item below earns at least
//! the refusals named beside it, and gets the first.

use crate::{outcome, packet, refused};
use peer::checker::*;

/// Fields: an integer at 1, an integer at 0.
const SHAPE: &[u32] = &[0, 1, 0, 0];

/// pc level 1. r1 an integer at 1, r2 a pointer at 1, r3 an integer at 0, which
/// may not be written here. r9 is not listed.
const ENTRY: &[u32] = &[1, 0, 3, 1, 0, 1, 2, 1, 1, 3, 0, 0];
/// Labels to which the entry may not jump, for these reasons.
const STACK_LIST_LEVEL: &[u32] = &[0, 1, 0, 1, 9, 0, 0];
const LIST_LEVEL: &[u32] = &[0, 0, 1, 9, 0, 0];
const LEVEL: &[u32] = &[0, 0, 0];
const STACK_LEVEL: &[u32] = &[0, 1, 0, 0];
const STACK_LIST: &[u32] = &[1, 1, 0, 1, 9, 0, 0];

const LABELS: [&[u32]; 6] = [ENTRY, STACK_LIST_LEVEL, LIST_LEVEL, LEVEL, STACK_LEVEL, STACK_LIST];

/// The last of the items gets the refusal.
fn assert_last(items: &[&[u32]], refusal: u8) {
    let found = outcome(&packet(&[SHAPE], &LABELS, items));
    assert_eq!(found, refused(refusal, items.len() - 1), "{items:?}");
}

/// The item gets the refusal behind the entry's label.
fn assert_in_entry(item: &[u32], refusal: u8) {
    assert_last(&[&[17, 0], item], refusal);
}

#[test]
fn arithmetic() {
    for number in 5..=9 {
        let assert = |rd, rs, rt, refusal| assert_in_entry(&[number, rd, rs, rt], refusal);
        assert(0, 9, 1, WRITES_R0); // not listed
        assert(0, 2, 1, WRITES_R0); // sort
        assert(0, 1, 1, WRITES_R0); // level
        assert(3, 9, 2, NOT_LISTED); // sort, level
        assert(3, 2, 9, NOT_LISTED);
        assert(9, 2, 0, NOT_LISTED);
        assert(3, 9, 1, NOT_LISTED); // level
        assert(3, 2, 1, WRONG_SORT); // level
        assert(3, 1, 2, WRONG_SORT);
        assert(3, 1, 1, LEVEL_RULE);
        assert(3, 0, 0, LEVEL_RULE);
    }
}

#[test]
fn arithmetic_with_immediate() {
    for number in 10..=14 {
        let assert = |rd, rs, refusal| assert_in_entry(&[number, rd, rs, 9], refusal);
        assert(0, 9, WRITES_R0); // not listed
        assert(0, 2, WRITES_R0); // sort
        assert(0, 1, WRITES_R0); // level
        assert(9, 2, NOT_LISTED); // sort
        assert(3, 9, NOT_LISTED); // level
        assert(3, 2, WRONG_SORT); // level
        assert(3, 1, LEVEL_RULE);
    }
}

#[test]
fn load() {
    let assert = |rd, rs, field, refusal| assert_in_entry(&[3, rd, rs, field], refusal);
    assert(0, 9, 0, WRITES_R0); // not listed
    assert(0, 1, 0, WRITES_R0); // sort
    assert(0, 2, 2, WRITES_R0); // field
    assert(0, 2, 1, WRITES_R0); // level
    assert(9, 1, 0, NOT_LISTED); // sort
    assert(9, 2, 2, NOT_LISTED); // field
    assert(9, 2, 1, NOT_LISTED); // level
    assert(3, 9, 0, NOT_LISTED); // level
    assert(3, 1, 0, WRONG_SORT); // level
    assert(1, 0, 0, WRONG_SORT);
    assert(3, 2, 2, NO_FIELD); // level
    assert(3, 2, 15, NO_FIELD);
    assert(3, 2, 0, LEVEL_RULE);
    assert(1, 2, 1, LEVEL_RULE);
}

#[test]
fn store() {
    let assert = |rd, field, rs, refusal| assert_in_entry(&[4, rd, field, rs], refusal);
    assert(1, 0, 9, NOT_LISTED); // sort
    assert(0, 0, 9, NOT_LISTED); // sort
    assert(2, 2, 9, NOT_LISTED); // field
    assert(2, 1, 9, NOT_LISTED); // level
    assert(9, 0, 1, NOT_LISTED);
    assert(1, 0, 1, WRONG_SORT);
    assert(0, 0, 1, WRONG_SORT);
    assert(2, 2, 1, NO_FIELD);
    assert(2, 0, 2, NOT_THE_FIELDS); // the wrong sort
    assert(2, 0, 0, NOT_THE_FIELDS);
    assert(2, 1, 1, NOT_THE_FIELDS); // level
    assert(2, 1, 3, LEVEL_RULE);
    assert(2, 1, 0, LEVEL_RULE);
}

#[test]
fn jumps() {
    for (label, refusal) in
        [(1, STACK_RULE), (2, LIST_NOT_MET), (3, LEVEL_RULE), (4, STACK_RULE), (5, STACK_RULE)]
    {
        assert_in_entry(&[1, label], refusal); // jmp
        assert_in_entry(&[17, label], refusal); // a fall
        for register in [0, 1, 3] {
            assert_in_entry(&[2, register, label], refusal);
        }
        assert_in_entry(&[2, 9, label], NOT_LISTED);
        assert_in_entry(&[2, 2, label], WRONG_SORT);
        assert_in_entry(&[16, label], STACK_RULE);
    }
}

#[test]
fn cjmp() {
    assert_last(&[&[17, 0], &[0], &[17, 1], &[16, 1]], STACK_RULE); // list
    assert_last(&[&[17, 0], &[0], &[17, 1], &[16, 0]], LIST_NOT_MET);
}

#[test]
fn cpush() {
    let sixteen = [&[&[17, 0][..]], &[&[15, 0][..]; 16][..]].concat();
    assert_last(&[&sixteen[..], &[&[15, 3]]].concat(), PUSH_TOO_DEEP); // level
    assert_in_entry(&[15, 3], LEVEL_RULE);
}

#[test]
fn labels() {
    assert_in_entry(&[17, 0], PLACED_TWICE);
    // Into a label from a context with another stack, other registers, a higher pc level.
    assert_last(&[&[17, 0], &[0], &[17, 1], &[17, 0]], PLACED_TWICE); // stack, list
    assert_last(&[&[17, 2], &[0], &[17, 0], &[17, 2]], PLACED_TWICE); // list, level
    assert_last(&[&[17, 3], &[0], &[17, 0], &[17, 3]], PLACED_TWICE); // level
    for label in [1, 4, 5] {
        assert_last(&[&[17, label]], FIRST_STACK);
    }
}

#[test]
fn a_label_is_due() {
    let others = [&[0][..], &[1, 1], &[2, 9, 1], &[3, 0, 9, 0], &[4, 9, 9, 9], &[15, 1], &[16, 1]];
    let arithmetic: [&[u32]; 2] = [&[5, 0, 9, 9], &[10, 0, 9, 9]];
    for item in others.into_iter().chain(arithmetic) {
        assert_last(&[item], NO_LABEL);
        assert_last(&[&[17, 0], &[0], item], NO_LABEL); // behind halt
        assert_last(&[&[17, 0], &[1, 0], item], NO_LABEL); // behind jmp
    }
    let behind_cjmp = [&[17, 3][..], &[0], &[17, 0], &[15, 0], &[16, 0], &[5, 0, 9, 9]];
    assert_last(&behind_cjmp, NO_LABEL);
}

#[test]
fn the_end() {
    let at_the_end = |items: &[&[u32]], refusal| {
        let found = outcome(&packet(&[SHAPE], &LABELS, items));
        assert_eq!(found, refused(refusal, items.len()), "{items:?}");
    };
    at_the_end(&[&[17, 0]], OPEN_END); // never placed
    at_the_end(&[&[17, 0], &[10, 1, 0, 0]], OPEN_END); // never placed
    at_the_end(&[&[17, 0], &[0]], NEVER_PLACED);
    let one = packet(&[], &[LEVEL], &[&[17, 0]]);
    assert_eq!(outcome(&one), refused(OPEN_END, 1));
}
