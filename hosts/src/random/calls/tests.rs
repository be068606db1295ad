//! That the makers meet every answer, and that a sequence runs as its steps say. That the list answers as the
//! words do is asserted by the makers.

use super::*;
use crate::plain::Said;
use std::collections::BTreeSet;

/// Refusal numbers, and 0 for each accepted call, over many sequences.
fn numbers(make: fn(&mut Random, usize) -> Sequence) -> BTreeSet<u64> {
    let mut random = Random::new(5);
    let mut numbers = BTreeSet::new();
    for _ in 0..400 {
        let Sequence { mut start, steps } = make(&mut random, 100);
        for mut step in steps {
            numbers.insert(start.take(&mut step).map_or_else(|refusal| refusal.number, |_| 0));
        }
    }
    numbers
}

/// The makers themselves hold words and list against each other.
#[test]
fn from_the_empty_store_all_but_2_and_13_are_met() {
    let expected = BTreeSet::from([0, 1, 3, 4, 5, 6, 7, 8, 9, 10, 11, 12]);
    assert_eq!(numbers(from_empty), expected);
}

#[test]
fn from_anything_all_are_met() {
    assert_eq!(numbers(from_anything), (0..=13).collect());
}

#[test]
fn the_same_seed_gives_the_same_sequence() {
    let [one, other] = [3, 3].map(|seed| any_sequence(&mut Random::new(seed), 50));
    assert_eq!(one, other);
    assert_eq!(one.steps.len(), 50);
}

/// The last answer says something of the state that the steps before it left.
#[test]
fn a_step_gets_the_record_last_returned() {
    let mut state = State {
        store: Store { top: 0, calls: 0 },
        heap: vec![9; 4],
        roots: vec![NIL; 2],
    };
    let calls = [
        Call::NewRaw(0, 1),
        Call::NewRecord(1, 1),
        Call::WriteField(1, 0, 0),
    ];
    for call in calls {
        assert_eq!(state.take(&mut Step::Call(call)), Ok(Said::Done));
    }
    assert_eq!(state.store, Store { top: 4, calls: 3 });
    assert_eq!(state.heap, [5, 0, 4, 1]);
    let mut collect = Step::Collect(Brought {
        marks: vec![5],
        order: vec![0],
        live: vec![7],
        offsets: vec![7],
    });
    assert!(state.take(&mut collect).is_ok());
    let Step::Collect(brought) = collect else {
        unreachable!()
    };
    assert_eq!(
        (brought.marks, brought.live, brought.offsets),
        (vec![0], vec![15], vec![0])
    );
    assert_eq!(state.store, Store { top: 4, calls: 4 });
}
