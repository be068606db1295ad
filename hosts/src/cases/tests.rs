//! What a case looks like, and that the edge cases meet every answer.

use super::edges::edges;
use super::{bytes, calls, check, collection, read};
use crate::examples::whole_case;
use crate::plain::{Brought, Call, Store, NIL};
use crate::random::calls::{Sequence, State, Step};
use crate::random::heaps::Input;
use std::collections::BTreeSet;

#[test]
fn a_check_is_its_lengths_and_then_its_words() {
    let case = check(&Input {
        heap: vec![4, 1],
        top: 2,
        roots: vec![u32::MAX],
        marks: vec![1 << 32 | 1],
        headers: Vec::new(),
    });
    assert_eq!(case.bytes, bytes(&[1, 2, 2, 1, 1, 4, 1, u32::MAX, 1, 1]));
    assert_eq!(case.bytes[..8], [1, 0, 0, 0, 2, 0, 0, 0]);
    assert_eq!(case.line, "check refused 3 at 32");
}

#[test]
fn a_collection_is_its_lengths_and_then_its_words() {
    let whole = whole_case();
    let case = collection(&whole);
    let mut words = vec![3, 10, 16, 4, 1, 1, 1, 1];
    words.extend(&whole.heap);
    words.extend(&whole.roots);
    words.extend([641, 0, 0, u32::MAX, u32::MAX, 77]);
    assert_eq!(case.bytes, bytes(&words));
    assert!(case.line.starts_with("collect 6 3 1 "));
}

/// The digest of what a refusal leaves: all as found, but by 6 with filled tables.
#[test]
fn a_refused_collection_has_a_digest_too() {
    let mut unfit = whole_case();
    unfit.heap[0] = 2;
    let mut with_other_tables = unfit.clone();
    with_other_tables.live = vec![0];
    let [one, other] = [&unfit, &with_other_tables].map(|before| collection(before).line);
    assert!(one.starts_with("collect refused 2 at 0 "));
    assert_ne!(one, other);

    let mut misordered = whole_case().with_order(&[]);
    let one = collection(&misordered).line;
    misordered.live = vec![0];
    assert!(one.starts_with("collect refused 6 at 0 "));
    assert_eq!(one, collection(&misordered).line);
}

/// Two words of room and a slot: a birth, a refused collection, an integer put and asked for.
fn four_steps() -> Sequence {
    let brought = Brought {
        marks: vec![1 << 32 | 1],
        order: vec![5],
        live: vec![2],
        offsets: vec![3],
    };
    Sequence {
        start: State {
            store: Store {
                top: 0,
                calls: (7 << 32) + 9,
            },
            heap: vec![13, 14],
            roots: vec![NIL],
        },
        steps: vec![
            Step::Call(Call::NewRaw(0, 1)),
            Step::Collect(brought),
            Step::Call(Call::PutInt(0, -5)),
            Step::Call(Call::Ask(0)),
        ],
    }
}

#[test]
fn a_call_sequence_is_its_state_and_then_its_steps() {
    let case = calls(&four_steps());
    let mut words = vec![4, 0, 9, 7, 2, 1, 4, 13, 14, NIL];
    words.extend([4, 0, 1, 0]);
    words.extend([11, 1, 1, 1, 1, 1, 1, 5, 2, 0, 3]);
    words.extend([0, 0, u32::MAX - 4, 0]);
    words.extend([9, 0, 0, 0]);
    assert_eq!(case.bytes, bytes(&words));
    assert!(case.line.starts_with("calls 2 30064771084 "), "{}", case.line);
    assert!(case.line.ends_with(" integer -5"));
    let answers = [
        "call done",
        "collect call refused  3",
        "call done",
        "call integer",
    ];
    assert_eq!(case.answers, answers);
}

/// Each step's answer and what it left go in, also where later steps leave the same.
#[test]
fn a_sequence_has_a_digest_of_every_step() {
    let whole = four_steps();
    let mut lines = BTreeSet::from([calls(&whole).line]);
    for step in [Call::PutInt(0, -6), Call::PutInt(0, -5), Call::Same(0, 1)] {
        let mut other = whole.clone();
        other.steps.insert(2, Step::Call(step));
        lines.insert(calls(&other).line);
    }
    assert_eq!(lines.len(), 4);
    let nothing = Sequence {
        steps: vec![],
        ..whole
    };
    assert!(calls(&nothing).line.ends_with(" cbf29ce484222325 none"));
}

#[test]
fn a_digest_sees_every_word_and_its_place() {
    let lines: BTreeSet<String> = [
        read(&[], &[]),
        read(&[0], &[]),
        read(&[0, 0], &[]),
        read(&[0, 1], &[]),
        read(&[1, 0], &[]),
        read(&[1], &[1 << 63]),
        read(&[1], &[1 << 62]),
    ]
    .into_iter()
    .map(|case| case.line)
    .collect();
    assert_eq!(lines.len(), 7);
}

/// Every sort of answer.
const SORTS: [&str; 45] = [
    "call done",
    "call integer",
    "call nil",
    "call raw",
    "call record",
    "call refused  1",
    "call refused  7",
    "call refused  8",
    "call refused  9",
    "call refused 10",
    "call refused 11",
    "call refused 12",
    "call refused 13",
    "call same false",
    "call same true",
    "call word",
    "calls from any state",
    "calls from the empty store",
    "check accepted",
    "check refused 1",
    "check refused 2",
    "check refused 3",
    "check refused 4",
    "check refused 5",
    "collect accepted",
    "collect call collected",
    "collect call refused  1",
    "collect call refused  3",
    "collect call refused  4",
    "collect call refused  5",
    "collect call refused  6",
    "collect refused 1",
    "collect refused 2",
    "collect refused 3",
    "collect refused 4",
    "collect refused 5",
    "collect refused 6",
    "lookups found, found",
    "lookups none, found",
    "lookups none, none",
    "lookups refused, found",
    "lookups refused, none",
    "lookups refused, refused",
    "read",
    "skipped",
];

#[test]
fn the_edges_meet_every_answer() {
    let sorts: BTreeSet<String> = edges()
        .into_iter()
        .flat_map(|case| case.answers.into_iter().chain([case.sort]))
        .collect();
    for sort in SORTS {
        assert!(sorts.contains(sort), "no edge case is of the sort: {sort}");
    }
}
