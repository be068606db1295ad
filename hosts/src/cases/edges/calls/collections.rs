//! Collections among calls: what is kept still reads right, whatever was refused before.

use super::empty;
use crate::plain::{Brought, Call, MOST_BLOCKS};
use crate::random::calls::{Sequence, Step};

/// A record and, after a raw object that is dropped, the raw object that its field refers to.
const BIRTHS: [Call; 7] = [
    Call::NewRecord(0, 2),
    Call::NewRaw(1, 3),
    Call::NewRaw(1, 1),
    Call::WriteRaw(1, 0, 7),
    Call::WriteField(0, 1, 1),
    Call::PutInt(1, -5),
    Call::WriteField(0, 0, 1),
];

/// Ends with an integer in slot 1, so that only the record's field refers to the raw object.
const READ: [Call; 5] = [
    Call::Ask(0),
    Call::ReadField(0, 1, 1),
    Call::ReadRaw(1, 0),
    Call::ReadField(0, 0, 1),
    Call::Ask(1),
];

/// With garbage in tables that are as long as the marks.
pub fn collect(marks: &[u64], order: &[u32]) -> Step {
    Step::Collect(Brought {
        marks: marks.to_vec(),
        order: order.to_vec(),
        live: vec![u64::MAX; marks.len()],
        offsets: vec![77; marks.len()],
    })
}

/// A sequence for each step, so that every answer stands in a line.
pub fn collections() -> Vec<Sequence> {
    let steps = steps();
    let mut sequences: Vec<Sequence> = (BIRTHS.len()..=steps.len())
        .map(|taken| Sequence {
            start: empty(100, 3),
            steps: steps[..taken].to_vec(),
        })
        .collect();
    let longest = collect(&[0; MOST_BLOCKS + 1], &[0; MOST_BLOCKS + 1]);
    sequences.push(Sequence {
        start: empty(0, 0),
        steps: vec![collect(&[], &[]), longest, collect(&[], &[0])],
    });
    sequences
}

/// Read before and after accepted collections, each after refused ones; then born into what was freed.
fn steps() -> Vec<Step> {
    let mut steps: Vec<Step> = BIRTHS.map(Step::Call).to_vec();
    steps.push(collect(&[1 | 1 << 7, 0], &[]));
    steps.push(collect(&[1, 0], &[0]));
    steps.push(collect(&[1 << 7, 0], &[0]));
    steps.push(collect(&[3, 0], &[0]));
    steps.push(collect(&[1 | 1 << 7], &[0]));
    steps.extend(READ.map(Step::Call));
    steps.push(collect(&[1 | 1 << 7, 0], &[0]));
    steps.extend(READ.map(Step::Call));
    steps.push(Step::Call(Call::NewRecord(2, 70)));
    steps.push(collect(&[1 | 1 << 3 | 1 << 5, 0], &[1, 0]));
    steps.push(collect(&[1 | 1 << 3 | 1 << 5, 0], &[0, 1]));
    steps.extend(READ.map(Step::Call));
    steps.push(Step::Call(Call::WriteField(0, 0, 2)));
    steps.push(Step::Call(Call::PutNil(0)));
    steps.push(collect(&[1 << 5, 0], &[0, 1]));
    steps.push(Step::Call(Call::Ask(2)));
    steps.push(Step::Call(Call::NewRecord(0, 1023)));
    steps.push(Step::Call(Call::NewRecord(0, 28)));
    steps
}
