//! Call sequences that the program has to skip: a step of no kind, too few or too many words, or too long for a
//! buffer; and the longest that it takes.

use super::super::super::{bytes, calls, skipped, Case, HEAP_ROOM, ROOT_ROOM, TABLE_ROOM};
use super::collections::collect;
use super::{empty, sequence};
use crate::plain::Call;
use crate::random::calls::{Sequence, Step};

pub fn wrong_cases() -> Vec<Case> {
    let mut cases = wrong_sizes();
    cases.extend(wrong_words());
    cases.extend(rooms());
    cases
}

/// Over a heap and slots of no length.
fn of_step(step: Step) -> Case {
    calls(&Sequence {
        start: empty(0, 0),
        steps: vec![step],
    })
}

fn wrong_sizes() -> Vec<Case> {
    let whole = calls(&sequence(empty(2, 1), &[Call::Ask(0), Call::NewRaw(0, 1)])).bytes;
    let collected = of_step(collect(&[0], &[0])).bytes;
    vec![
        skipped(whole[..whole.len() - 4].to_vec()),
        skipped(whole[..whole.len() - 1].to_vec()),
        skipped([&whole[..], &[0; 1]].concat()),
        skipped([&whole[..], &[0; 4]].concat()),
        skipped(collected[..collected.len() - 4].to_vec()),
        skipped([&collected[..], &[0; 8]].concat()),
    ]
}

fn wrong_words() -> Vec<Case> {
    let far = u32::MAX;
    vec![
        skipped(bytes(&[4, 0, 0, 0, 0, 0])),
        skipped(bytes(&[4, 0, 0, 0, 0, 0, 1, 12, 0, 0, 0])),
        skipped(bytes(&[4, 0, 0, 0, 0, 0, 1, 12, 0, 0, 0, 0])),
        skipped(bytes(&[4, 0, 0, 0, 0, 0, 1, far, 0, 0, 0])),
        skipped(bytes(&[4, 0, 0, 0, 0, 0, 2, 12, 0, 0, 0, 9, 0, 0, 0])),
        skipped(bytes(&[4, 0, 0, 0, 0, 0, 0, 9, 0, 0, 0])),
        skipped(bytes(&[4, 0, 0, 0, 0, 0, far, 0, 0, 0, 0])),
        skipped(bytes(&[4, 0, 0, 0, far, far, far])),
        skipped(bytes(&[4, 0, 0, 0, 0, 0, 1, 11, far, far, far, far])),
    ]
}

fn rooms() -> Vec<Case> {
    vec![
        calls(&sequence(empty(0, 0), &[])),
        calls(&sequence(empty(0, ROOT_ROOM), &[Call::Ask(0)])),
        calls(&sequence(empty(0, ROOT_ROOM + 1), &[Call::Ask(0)])),
        calls(&sequence(empty(HEAP_ROOM + 1, 0), &[])),
        of_step(collect(&[0; TABLE_ROOM], &[0; TABLE_ROOM])),
        of_step(collect(&[0; TABLE_ROOM + 1], &[])),
        of_step(collect(&[], &[0; TABLE_ROOM + 1])),
    ]
}
