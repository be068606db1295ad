//! The statement's cases that a collection answers: P1, P2 and P6 to P12, and two full blocks.

use super::*;
use crate::examples::{blocks_with_live_words, whole_case};
use crate::plain::NIL;
use crate::random::collections::Collection;

/// The refusal's number and place. All but the two tables must stay as found, and these must be
/// either as found or, by 6, filled with `tables`.
fn assert_refused(before: &Collection, number: u64, place: u64, tables: (&[u64], &[u32])) {
    let mut after = before.clone();
    assert_eq!(after.collect(), Err(Refusal { number, place }));
    let mut expected = before.clone();
    if number == 6 {
        expected.live = tables.0.to_vec();
        expected.offsets = tables.1.to_vec();
    }
    assert_eq!(after, expected);
}

const NO_TABLES: (&[u64], &[u32]) = (&[], &[]);
const WHOLE_TABLES: (&[u64], &[u32]) = (&[903], &[0]);

#[test]
fn p1_whole_case() {
    let mut memory = whole_case();
    let answer = memory.collect();
    let expected = Collected {
        live: 6,
        objects: 3,
        blocks: 1,
    };
    assert_eq!(answer, Ok(expected));
    let after = Collection {
        heap: vec![8, 10, 7, 4, 1, 1, 0, 0, 0, 0, 9, 9, 9, 9, 9, 9],
        top: 10,
        roots: vec![7, 11, 4294967294, 4294967295],
        marks: vec![0],
        order: vec![0],
        live: vec![903],
        offsets: vec![0],
    };
    assert_eq!(memory, after);
}

#[test]
fn p2_empty() {
    let answer = collect(&mut [], 0, &mut [], &mut [], &[], &mut [], &mut []);
    let expected = Collected {
        live: 0,
        objects: 0,
        blocks: 0,
    };
    assert_eq!(answer, Ok(expected));
}

#[test]
fn p6_raw_object_marked_too() {
    let mut memory = whole_case();
    memory.marks = vec![641 + 8];
    let answer = memory.collect();
    let expected = Collected {
        live: 10,
        objects: 4,
        blocks: 1,
    };
    assert_eq!(answer, Ok(expected));
    let after = Collection {
        marks: vec![0],
        live: vec![1023],
        offsets: vec![0],
        ..whole_case()
    };
    assert_eq!(memory, after);
}

#[test]
fn p7_mark_inside_an_object() {
    let mut memory = whole_case();
    memory.marks = vec![641 + 16];
    assert_refused(&memory, 3, 4, NO_TABLES);
}

#[test]
fn p8_root_without_its_mark() {
    let mut memory = whole_case();
    memory.marks = vec![641 - 128];
    assert_refused(&memory, 4, 0, NO_TABLES);
}

#[test]
fn p9_field_without_its_mark() {
    let mut memory = whole_case();
    memory.marks = vec![641 - 128];
    memory.roots[0] = NIL;
    assert_refused(&memory, 5, 2, NO_TABLES);
}

#[test]
fn p10_empty_order() {
    assert_refused(&whole_case().with_order(&[]), 6, 0, WHOLE_TABLES);
}

#[test]
fn p11_repeat() {
    assert_refused(&whole_case().with_order(&[0, 0]), 6, 1, WHOLE_TABLES);
}

#[test]
fn p12_eight_half_full_blocks() {
    let before = blocks_with_live_words(&[32; 8]);
    let live = [u64::from(u32::MAX); 8];
    let offsets = [0, 32, 64, 96, 128, 160, 192, 224];
    let mut after = before.clone();
    for block in 0..8 {
        let object: Vec<u32> = before.heap[64 * block..64 * block + 32].to_vec();
        after.heap[32 * block..32 * block + 32].copy_from_slice(&object);
    }
    after.heap[256..].fill(0);
    after.marks.fill(0);
    after.live = live.to_vec();
    after.offsets = offsets.to_vec();
    let expected = Collected {
        live: 256,
        objects: 8,
        blocks: 4,
    };
    for order in [[0, 1, 2, 3], [0, 1, 3, 2]] {
        let mut memory = before.with_order(&order);
        assert_eq!(memory.collect(), Ok(expected));
        assert_eq!(memory, after.with_order(&order));
    }
    assert_refused(&before.with_order(&[0, 2, 1, 3]), 6, 1, (&live, &offsets));
}

#[test]
fn two_full_blocks() {
    let before = blocks_with_live_words(&[64; 2]);
    let expected = Collected {
        live: 128,
        objects: 2,
        blocks: 2,
    };
    for order in [[0, 1], [1, 0]] {
        let mut memory = before.with_order(&order);
        assert_eq!(memory.collect(), Ok(expected));
        let after = Collection {
            marks: vec![0; 2],
            live: vec![u64::MAX; 2],
            offsets: vec![0, 64],
            ..before.with_order(&order)
        };
        assert_eq!(memory, after);
    }
}

/// The live words of block 2 go to targets 0 and 1, and block 1 has none.
#[test]
fn both_targets_of_a_block_are_waited_for() {
    let before = blocks_with_live_words(&[40, 0, 48, 64]);
    for order in [[0, 1, 2], [1, 0, 2]] {
        assert!(before.with_order(&order).collect().is_ok());
    }
    let live = [(1 << 40) - 1, 0, (1 << 48) - 1, u64::MAX];
    let tables: (&[u64], &[u32]) = (&live, &[0, 40, 40, 88]);
    assert_refused(&before.with_order(&[0, 2, 1]), 6, 1, tables);
    assert_refused(&before.with_order(&[1, 2, 0]), 6, 1, tables);
    assert_refused(&before.with_order(&[2, 0, 1]), 6, 0, tables);
}

#[test]
fn the_first_position_that_breaks_is_reported() {
    let before = blocks_with_live_words(&[64; 4]);
    let live = [u64::MAX; 4];
    let tables: (&[u64], &[u32]) = (&live, &[0, 64, 128, 192]);
    assert_refused(&before.with_order(&[3, 4, 4, 3]), 6, 1, tables);
    assert_refused(&before.with_order(&[3, u32::MAX]), 6, 1, tables);
    assert_refused(&before.with_order(&[3, 1, 3, 4]), 6, 2, tables);
    assert_refused(&before.with_order(&[3, 1, 2]), 6, 3, tables);
    assert_refused(&before.with_order(&[3, 1, 2, 0, 4]), 6, 4, tables);
    assert_refused(&before.with_order(&[0; 128]), 6, 1, tables);
    assert_refused(&before.with_order(&[0; 129]), 1, 0, tables);
}

#[test]
fn tables_of_wrong_length_come_first() {
    for (live, offsets) in [(0, 1), (2, 1), (1, 0), (1, 2), (2, 2), (0, 0)] {
        let mut memory = whole_case();
        memory.heap[0] = 2;
        memory.live = vec![3; live];
        memory.offsets = vec![4; offsets];
        assert_refused(&memory, 1, 0, NO_TABLES);
    }
}

#[test]
fn nothing_marked() {
    let mut memory = whole_case().with_order(&[]);
    memory.marks = vec![0];
    memory.roots = vec![NIL, 8];
    let answer = memory.collect();
    let expected = Collected {
        live: 0,
        objects: 0,
        blocks: 0,
    };
    assert_eq!(answer, Ok(expected));
    assert_eq!(memory.heap, [0, 0, 0, 0, 0, 0, 0, 0, 0, 0, 9, 9, 9, 9, 9, 9]);
    assert_eq!((memory.live, memory.offsets), (vec![0], vec![0]));
    assert_eq!(memory.roots, [NIL, 8]);
}
