//! What 01 leaves to a careful reader, and edges of its rules that no refusal's
//! order shows.

use crate::{outcome, packet, refused, Outcome};
use peer::checker::*;

const HALT: &[u32] = &[0];

/// One label behind which the items stand, and a halt.
fn in_block(shapes: &[&[u32]], entry: &[u32], items: &[&[u32]]) -> Outcome {
    let items = [&[&[17, 0][..]], items, &[HALT]].concat();
    outcome(&packet(shapes, &[entry], &items))
}

#[test]
fn the_first_label_is_the_one_that_item_0_places() {
    let labels: [&[u32]; 2] = [&[0, 1, 1, 0], &[0, 0, 0]];
    let label_1_first: [&[u32]; 4] = [&[17, 1], HALT, &[17, 0], &[1, 0]];
    assert_eq!(outcome(&packet(&[], &labels, &label_1_first)), Ok(vec![0, 0x1000_0001]));
    let label_0_first: [&[u32]; 4] = [&[17, 0], &[1, 0], &[17, 1], HALT];
    assert_eq!(outcome(&packet(&[], &labels, &label_0_first)), refused(FIRST_STACK, 0));
}

#[test]
fn r0_is_an_integer_at_level_0_that_no_context_lists() {
    let entry: &[u32] = &[0, 0, 1, 1, 1, 0];
    let shape: &[u32] = &[0, 0, 0, 1];
    assert_eq!(in_block(&[shape], entry, &[&[4, 1, 0, 0]]), Ok(vec![0x4100_0000, 0]));
    assert_eq!(in_block(&[shape], entry, &[&[4, 1, 1, 0]]), refused(NOT_THE_FIELDS, 1));
    assert_eq!(in_block(&[shape], entry, &[&[2, 0, 0]]), Ok(vec![0x2000_0000, 0]));
    assert_eq!(in_block(&[shape], entry, &[&[3, 1, 0, 0]]), refused(WRONG_SORT, 1));
    assert_eq!(in_block(&[shape], entry, &[&[4, 0, 0, 0]]), refused(WRONG_SORT, 1));
    assert_eq!(in_block(&[shape], entry, &[&[4, 0, 0, 9]]), refused(NOT_LISTED, 1));
}

#[test]
fn a_stored_register_has_exactly_the_fields_kind_and_level() {
    let shapes: [&[u32]; 2] = [&[0, 3, 1, 3, 2, 3], &[0, 0]];
    // r1 the base, r2 an integer, r3 and r4 pointers to either shape, r5 and r6 at other levels.
    let entry = &[0, 0, 6, 1, 1, 0, 2, 0, 3, 3, 1, 3, 4, 2, 3, 5, 0, 1, 6, 0, 7];
    let store = |field, rs| in_block(&shapes, entry, &[&[4, 1, field, rs]]);
    for (field, fit) in [(0, 2), (1, 3), (2, 4)] {
        for rs in 1..=6 {
            let word = 0x4100_0000 | rs << 20 | field;
            let expected = if rs == fit { Ok(vec![word, 0]) } else { refused(NOT_THE_FIELDS, 1) };
            assert_eq!(store(field, rs), expected);
        }
    }
}

#[test]
fn a_load_changes_the_kind_and_keeps_the_level() {
    // The shape points to itself; its second field is an integer.
    let shape: &[u32] = &[1, 1, 0, 1];
    let entry: &[u32] = &[0, 0, 2, 1, 1, 0, 2, 0, 3];
    let next: &[u32] = &[3, 2, 1, 0];
    assert!(in_block(&[shape], entry, &[next]).is_ok());
    // r2 is now a pointer at level 3, so a field at 1 is below it.
    assert_eq!(in_block(&[shape], entry, &[next, &[3, 2, 2, 0]]), refused(LEVEL_RULE, 2));
    assert_eq!(in_block(&[shape], entry, &[next, &[10, 2, 2, 0]]), refused(WRONG_SORT, 2));
    // Through r1 all goes on; an integer field makes r2 an integer again.
    assert!(in_block(&[shape], entry, &[next, &[3, 2, 1, 1], &[10, 2, 2, 0]]).is_ok());
}

#[test]
fn a_target_that_lists_more_or_otherwise_is_not_met() {
    let entry: &[u32] = &[0, 0, 2, 1, 0, 5, 2, 1, 5];
    let jump_to = |target: &[u32]| {
        let items: [&[u32]; 4] = [&[17, 0], &[1, 1], &[17, 1], HALT];
        outcome(&packet(&[&[0, 0], &[0, 0]], &[entry, target], &items))
    };
    let accepted = Ok(vec![0x1000_0001, 0]);
    assert_eq!(jump_to(&[0, 0, 0]), accepted);
    assert_eq!(jump_to(&[0, 0, 1, 2, 1, 5]), accepted);
    assert_eq!(jump_to(&[0, 0, 2, 1, 0, 5, 2, 1, 5]), accepted);
    for list in [[1, 0, 4], [1, 0, 7], [1, 1, 5], [2, 0, 5], [2, 2, 5], [3, 0, 0]] {
        let target = [&[0, 0, 1], &list[..]].concat();
        assert_eq!(jump_to(&target), refused(LIST_NOT_MET, 1), "{list:?}");
    }
}

#[test]
fn a_cjmp_wants_the_label_on_top_and_its_own_stack_below() {
    // Label 1 is pushed on an empty stack, label 2 on top of it.
    let labels: [&[u32]; 3] = [&[0, 0, 0], &[0, 0, 0], &[0, 1, 1, 0]];
    let items = |jumps: &[&[u32]]| {
        let items = [&[&[17, 0][..], &[15, 1], &[15, 2]], jumps].concat();
        outcome(&packet(&[], &labels, &items))
    };
    let all: [&[u32]; 5] = [&[16, 2], &[17, 2], &[16, 1], &[17, 1], HALT];
    assert_eq!(items(&all), Ok(vec![0x1000_0001, 0x1000_0002, 0]));
    assert_eq!(items(&[&[16, 1]]), refused(STACK_RULE, 3));
    assert_eq!(items(&[&[15, 2], &[16, 2]]), refused(STACK_RULE, 4));
    assert_eq!(items(&[&[16, 2], &[17, 2], &[16, 2]]), refused(STACK_RULE, 5));
}

/// A label whose own stack is full cannot stand on top of it, though sixteen bytes agree.
#[test]
fn a_cjmp_to_a_label_with_a_full_stack_is_refused() {
    let full = [&[0, 16], &[1; 16][..], &[0]].concat();
    let labels: [&[u32]; 2] = [&[0, 0, 0], &full];
    let items: [&[u32]; 4] = [&[17, 0], HALT, &[17, 1], &[16, 1]];
    assert_eq!(outcome(&packet(&[], &labels, &items)), refused(STACK_RULE, 3));
    let items: [&[u32]; 4] = [&[17, 0], HALT, &[17, 1], &[1, 1]];
    assert_eq!(outcome(&packet(&[], &labels, &items)), Ok(vec![0, 0x1000_0001]));
}

#[test]
fn levels_are_sets_and_not_a_chain() {
    let write = |item: &[u32], from, to| {
        let found = in_block(&[], &[0, 0, 2, 1, 0, from, 2, 0, to], &[item]);
        found.err().map_or(0, |refusal| refusal.number)
    };
    for from in 0..=255 {
        for to in [0, 1, 3, 5, 7, 0x80, 0xaa, 0xff] {
            let expected = if from | to == to { 0 } else { LEVEL_RULE };
            for item in [[10, 2, 1, 0], [5, 2, 1, 0], [5, 2, 0, 1], [5, 2, 1, 1]] {
                assert_eq!(write(&item, from, to), expected);
            }
        }
    }
}

#[test]
fn the_walk_goes_on_at_the_branchs_level() {
    // r1 at 4 is branched on; r2 at 4 and r3 at 3 are then written.
    let labels: [&[u32]; 2] = [&[0, 0, 3, 1, 0, 4, 2, 0, 4, 3, 0, 3], &[4, 0, 0]];
    let items = |rd| {
        let items: [&[u32]; 5] = [&[17, 0], &[2, 1, 1], &[10, rd, 0, 0], &[17, 1], HALT];
        outcome(&packet(&[], &labels, &items))
    };
    assert!(items(2).is_ok());
    assert_eq!(items(3), refused(LEVEL_RULE, 2));
}

#[test]
fn pc_level_and_pointers_level_go_into_the_field() {
    // The field is an integer at 1; r1 the pointer, r2 at 3 is loaded, r3 at 1 is stored.
    for pc in 0..4 {
        for pointer in 0..4 {
            let entry = [pc, 0, 3, 1, 1, pointer, 2, 0, 3, 3, 0, 1];
            let allowed = (pc | pointer) <= 1;
            for item in [[3, 2, 1, 0], [4, 1, 0, 3]] {
                let found = in_block(&[&[0, 1]], &entry, &[&item]);
                assert_eq!(found.is_ok(), allowed);
                assert!(allowed || found == refused(LEVEL_RULE, 1));
            }
        }
    }
}

#[test]
fn a_label_drops_what_it_does_not_list() {
    let labels: [&[u32]; 2] = [&[0, 0, 2, 1, 0, 0, 15, 0, 0], &[0, 0, 1, 15, 0, 0]];
    let write = |rd| {
        let items: [&[u32]; 4] = [&[17, 0], &[17, 1], &[10, rd, 0, 0], HALT];
        outcome(&packet(&[], &labels, &items))
    };
    assert!(write(15).is_ok());
    assert_eq!(write(1), refused(NOT_LISTED, 2));
}
