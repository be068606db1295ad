//! Collections at the edges: the statement's cases, every way an order breaks, limits and wrong lengths.

use super::super::{bytes, collection, skipped, Case, ROOT_ROOM, TABLE_ROOM};
use crate::examples::{blocks_with_live_words, whole_case};
use crate::plain::{MOST_BLOCKS, MOST_HEAP_WORDS, MOST_ROOTS, NIL};
use crate::random::collections::Collection;

pub fn collections() -> Vec<Case> {
    let groups = [
        of_the_statement(),
        wrong_sizes(),
        orders_of_one_step(),
        orders_of_several_steps(),
        full_heaps(),
    ];
    let mut cases: Vec<Case> = groups.iter().flatten().map(collection).collect();
    cases.extend(wrong_cases());
    cases
}

fn empty() -> Collection {
    Collection {
        heap: vec![],
        top: 0,
        roots: vec![],
        marks: vec![],
        order: vec![],
        live: vec![],
        offsets: vec![],
    }
}

fn with_marks(marks: u64) -> Collection {
    Collection {
        marks: vec![marks],
        ..whole_case()
    }
}

/// P1, P2, P6 to P9, and nothing marked. P10 to P12 are among the orders.
fn of_the_statement() -> Vec<Collection> {
    let without_its_mark = with_marks(641 - 128);
    let mut field_without_its_mark = without_its_mark.clone();
    field_without_its_mark.roots[0] = NIL;
    let mut nothing_marked = with_marks(0).with_order(&[]);
    nothing_marked.roots = vec![NIL, 8];
    vec![
        whole_case(),
        empty(),
        with_marks(641 + 8),
        with_marks(641 + 16),
        without_its_mark,
        field_without_its_mark,
        nothing_marked.with_order(&[0]),
        nothing_marked,
    ]
}

/// Top, roots, marks and both tables one too long or too short, each before a bad header is seen.
fn wrong_sizes() -> Vec<Collection> {
    let mut before = whole_case();
    before.heap[0] = 2;
    let mut wrong = vec![before.clone()];
    for top in [0, 16, 17, u32::MAX] {
        wrong.push(Collection {
            top,
            ..before.clone()
        });
    }
    for roots in [MOST_ROOTS, MOST_ROOTS + 1] {
        let roots = vec![NIL; roots];
        wrong.push(Collection {
            roots,
            ..before.clone()
        });
    }
    for marks in [0, 2] {
        let marks = vec![1; marks];
        wrong.push(Collection {
            marks,
            ..before.clone()
        });
    }
    for (live, offsets) in [(0, 1), (2, 1), (1, 0), (1, 2), (2, 2), (0, 0)] {
        let (live, offsets) = (vec![3; live], vec![4; offsets]);
        wrong.push(Collection {
            live,
            offsets,
            ..before.clone()
        });
    }
    wrong
}

/// P10, P11, an entry of T and beyond, and orders of as many entries as may be and one more.
fn orders_of_one_step() -> Vec<Collection> {
    let before = whole_case();
    let orders: [&[u32]; 7] = [
        &[],
        &[0, 0],
        &[1],
        &[u32::MAX],
        &[0, 1],
        &[0; MOST_BLOCKS],
        &[0; MOST_BLOCKS + 1],
    ];
    orders.iter().map(|order| before.with_order(order)).collect()
}

/// P12, two full blocks, a block whose live words go to two others, and the first of several breaks.
fn orders_of_several_steps() -> Vec<Collection> {
    let half_full = blocks_with_live_words(&[32; 8]);
    let two_full = blocks_with_live_words(&[64; 2]);
    let two_targets = blocks_with_live_words(&[40, 0, 48, 64]);
    let four_full = blocks_with_live_words(&[64; 4]);
    let orders: [(&Collection, &[u32]); 15] = [
        (&half_full, &[0, 1, 2, 3]),
        (&half_full, &[0, 1, 3, 2]),
        (&half_full, &[0, 2, 1, 3]),
        (&two_full, &[0, 1]),
        (&two_full, &[1, 0]),
        (&two_targets, &[0, 1, 2]),
        (&two_targets, &[1, 0, 2]),
        (&two_targets, &[0, 2, 1]),
        (&two_targets, &[1, 2, 0]),
        (&two_targets, &[2, 0, 1]),
        (&four_full, &[3, 4, 4, 3]),
        (&four_full, &[3, u32::MAX]),
        (&four_full, &[3, 1, 3, 4]),
        (&four_full, &[3, 1, 2]),
        (&four_full, &[3, 1, 2, 0, 4]),
    ];
    orders.map(|(before, order)| before.with_order(order)).to_vec()
}

/// The longest heaps, with orders of 128 entries: nothing moves, or each block's words do; and one longer.
fn full_heaps() -> Vec<Collection> {
    let descending: Vec<u32> = (0..MOST_BLOCKS as u32).rev().collect();
    let ascending: Vec<u32> = (0..MOST_BLOCKS as u32).collect();
    let full = blocks_with_live_words(&[64; MOST_BLOCKS]).with_order(&descending);
    let mut live_words = [64; MOST_BLOCKS];
    live_words[0] = 63;
    let moving = blocks_with_live_words(&live_words).with_order(&ascending);
    let too_long = Collection {
        heap: vec![0; MOST_HEAP_WORDS + 1],
        marks: vec![0; MOST_BLOCKS + 1],
        live: vec![0; MOST_BLOCKS + 1],
        offsets: vec![0; MOST_BLOCKS + 1],
        ..empty()
    };
    vec![full, moving, too_long]
}

/// What the program has to skip: shorter or longer than it says, or too long for one of its buffers.
fn wrong_cases() -> Vec<Case> {
    let whole = collection(&whole_case()).bytes;
    let longer = [&whole[..], &[0; 4]].concat();
    let mut cases = vec![
        skipped(whole[..whole.len() - 4].to_vec()),
        skipped(whole[..whole.len() - 1].to_vec()),
        skipped(longer),
        skipped(bytes(&[3, 0, 0, 0, 0, 0, 0])),
        skipped(bytes(&[
            3,
            0,
            u32::MAX,
            u32::MAX,
            u32::MAX,
            u32::MAX,
            u32::MAX,
            u32::MAX,
        ])),
        collection(&empty().with_order(&[0; TABLE_ROOM])),
        collection(&empty().with_order(&[0; TABLE_ROOM + 1])),
    ];
    for (roots, table) in [(ROOT_ROOM, TABLE_ROOM), (ROOT_ROOM + 1, 0), (0, TABLE_ROOM + 1)] {
        cases.push(collection(&Collection {
            roots: vec![NIL; roots],
            marks: vec![0; table],
            ..empty()
        }));
        let (live, offsets) = (vec![0; table], vec![0; table]);
        cases.push(collection(&Collection { live, ..empty() }));
        cases.push(collection(&Collection { offsets, ..empty() }));
    }
    cases
}
