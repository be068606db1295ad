//! Call sequences at the edges: each limit and one beyond it, each refusal with its place and in its order, and
//! the count's end; in the folder, collections among the calls, and cases to skip.

mod collections;
mod wrong;

use super::super::{calls, Case};
use crate::plain::{Call, Store, MOST_HEAP_WORDS, MOST_ROOTS, NIL};
use crate::random::calls::{Sequence, State, Step};
use crate::random::heaps::reference_to;

pub fn call_sequences() -> Vec<Case> {
    let groups = [
        births(),
        integers(),
        slots_in_order(),
        kinds_and_counts(),
        objects_at_the_top(),
        counts(),
        sizes(),
        collections::collections(),
    ];
    let mut cases: Vec<Case> = groups.iter().flatten().map(calls).collect();
    cases.extend(wrong::wrong_cases());
    cases
}

fn state(top: u32, heap: &[u32], roots: &[u32]) -> State {
    State {
        store: Store { top, calls: 0 },
        heap: heap.to_vec(),
        roots: roots.to_vec(),
    }
}

/// Nil slots and words of no meaning.
fn empty(words: usize, slots: usize) -> State {
    state(0, &vec![7; words], &vec![NIL; slots])
}

fn sequence(start: State, made: &[Call]) -> Sequence {
    Sequence {
        start,
        steps: made.iter().copied().map(Step::Call).collect(),
    }
}

/// A sequence for each call, so that its answer stands in the line.
fn each(start: &State, made: &[Call]) -> Vec<Sequence> {
    made.iter()
        .map(|&call| sequence(start.clone(), &[call]))
        .collect()
}

/// Room for one header; the longest objects; the slot before k, k before the room.
fn births() -> Vec<Sequence> {
    let one_header = state(4, &[12, 2, 4, 6, 9], &[NIL]);
    let mut made = each(
        &one_header,
        &[
            Call::NewRecord(0, 0),
            Call::NewRaw(0, 0),
            Call::NewRecord(0, 1),
            Call::NewRaw(0, 1),
            Call::NewRecord(0, 1023),
            Call::NewRaw(0, 1024),
            Call::NewRecord(0, u32::MAX),
            Call::NewRecord(1, 1024),
            Call::NewRaw(1, 1),
        ],
    );
    made.extend(each(&empty(0, 1), &[Call::NewRecord(0, 0), Call::NewRaw(0, 0)]));
    let longest = [
        Call::NewRecord(0, 1023),
        Call::NewRaw(1, 1024),
        Call::NewRaw(1, 1023),
        Call::ReadRaw(1, 1022),
        Call::WriteField(0, 1022, 1),
        Call::NewRaw(0, 0),
    ];
    made.push(sequence(empty(2048, 2), &longest));
    made
}

/// Both ends and one beyond each, put and then asked for.
fn integers() -> Vec<Sequence> {
    let values = [
        0,
        -1,
        1_073_741_823,
        1_073_741_824,
        -1_073_741_824,
        -1_073_741_825,
        i32::MAX,
        i32::MIN,
    ];
    let put = |value| sequence(empty(1, 1), &[Call::PutInt(0, value), Call::Ask(0)]);
    let mut made: Vec<Sequence> = values.into_iter().map(put).collect();
    made.extend(each(
        &empty(1, 1),
        &[Call::PutInt(0, i32::MIN), Call::PutInt(1, i32::MIN)],
    ));
    made
}

/// Refusal 7: the object's slot first, then source, then target; compared slots as given.
fn slots_in_order() -> Vec<Sequence> {
    let start = state(1, &[0, 2], &[NIL, reference_to(1)]);
    each(
        &start,
        &[
            Call::PutInt(2, 0),
            Call::PutNil(u32::MAX),
            Call::Copy(3, 2),
            Call::Copy(2, 0),
            Call::Copy(0, 2),
            Call::ReadField(3, 9, 2),
            Call::ReadField(1, 9, 2),
            Call::ReadField(0, 9, 2),
            Call::WriteField(3, 9, 2),
            Call::WriteField(1, 9, 2),
            Call::WriteField(0, 9, 2),
            Call::ReadRaw(2, 9),
            Call::WriteRaw(2, 9, 9),
            Call::Ask(2),
            Call::Same(3, 2),
            Call::Same(0, 2),
            Call::Same(2, 0),
        ],
    )
}

/// Refusals 13, 8 and 9 in their order, and what is read and written at the last number below the count.
fn kinds_and_counts() -> Vec<Sequence> {
    let heap = [8, 10, NIL, 9, 101, 102, 0, 9];
    let roots = [reference_to(0), reference_to(3), 14, NIL, reference_to(7)];
    let start = state(7, &heap, &roots);
    let mut made = Vec::new();
    for object in 0..5 {
        for number in [1, 2, u32::MAX] {
            made.push(Call::ReadField(object, number, 2));
            made.push(Call::WriteField(object, number, 4));
            made.push(Call::ReadRaw(object, number));
            made.push(Call::WriteRaw(object, number, u32::MAX));
        }
        made.push(Call::Ask(object));
        made.push(Call::Copy(object, 2));
        made.push(Call::Same(object, 4));
    }
    each(&start, &made)
}

/// An object that ends at the top, and one that ends a word past it; headers of no kind; far references.
fn objects_at_the_top() -> Vec<Sequence> {
    let mut made = Vec::new();
    for header in [4, 5, 8, 9, 2, 3, 4092, 4093, 4095, 4096, u32::MAX] {
        for call in [Call::Ask(0), Call::ReadField(0, 0, 0), Call::ReadRaw(0, 0)] {
            made.push(sequence(
                state(3, &[0, header, 6, 8], &[reference_to(1)]),
                &[call],
            ));
        }
    }
    for place in [0, 2, 3, 4, 1 << 30, 2_147_483_646] {
        let start = state(3, &[0, 0, 0, 0], &[reference_to(place)]);
        made.push(sequence(start, &[Call::Ask(0)]));
    }
    made
}

/// Only accepted calls count, up to 2^64 - 1 and then from 0.
fn counts() -> Vec<Sequence> {
    let mut start = empty(1, 1);
    start.store.calls = u64::MAX - 1;
    let steps = [Call::Ask(0), Call::Ask(1), Call::PutNil(0), Call::Ask(0)];
    (0..=steps.len())
        .map(|taken| sequence(start.clone(), &steps[..taken]))
        .collect()
}

/// Heap, top and slots as long as they may be, and one longer.
fn sizes() -> Vec<Sequence> {
    let mut full = empty(MOST_HEAP_WORDS, MOST_ROOTS);
    full.store.top = MOST_HEAP_WORDS as u32 - 1;
    let last = MOST_ROOTS as u32 - 1;
    let made = [Call::NewRaw(last, 0), Call::Ask(last), Call::NewRaw(0, 0)];
    let mut sequences = vec![sequence(full, &made)];
    for (words, top, slots) in [(8, 8, 65), (8, 9, 1), (8, u32::MAX, 1)] {
        let start = state(top, &vec![0; words], &vec![NIL; slots]);
        sequences.extend(each(&start, &[Call::PutInt(99, 1 << 30), Call::Same(0, 0)]));
    }
    sequences.push(sequence(
        empty(MOST_HEAP_WORDS + 1, 1),
        &[Call::PutNil(0), Call::Ask(9)],
    ));
    sequences
}
