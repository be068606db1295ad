//! Call sequences as cases: the line has the record after all steps, a digest of what each step said and left,
//! and the last answer.

use super::{bytes, halves, skipped, Case, Digest, CALLS, HEAP_ROOM, ROOT_ROOM, TABLE_ROOM};
use crate::plain::{Answer, Brought, Call, Collected, Refusal, Said, Store, NIL};
use crate::random::calls::{Sequence, State, Step};

const COLLECT: u32 = 11;

pub fn calls(sequence: &Sequence) -> Case {
    let bytes = bytes(&words(sequence));
    if !fits(sequence) {
        return skipped(bytes);
    }
    let mut state = sequence.start.clone();
    let mut digest = Digest::start();
    let mut last = "none".to_string();
    let mut answers = Vec::new();
    for step in &sequence.steps {
        let mut step = step.clone();
        let said = state.take(&mut step);
        add(&mut digest, &said, &state, &step);
        last = in_words(&said);
        answers.push(sort(&said, &step));
    }
    let Store { top, calls } = state.store;
    Case {
        bytes,
        line: format!("calls {top} {calls} {:016x} {last}", digest.value()),
        sort: if is_empty(&sequence.start) {
            "calls from the empty store".to_string()
        } else {
            "calls from any state".to_string()
        },
        answers,
    }
}

/// Where the simple list starts too.
fn is_empty(start: &State) -> bool {
    let nothing = Store { top: 0, calls: 0 };
    start.store == nothing && start.roots.iter().all(|&word| word == NIL)
}

/// The kind, the record, the lengths, heap and roots, and then the steps.
fn words(sequence: &Sequence) -> Vec<u32> {
    let State { store, heap, roots } = &sequence.start;
    let mut words = vec![CALLS, store.top];
    words.extend(halves(&[store.calls]));
    words.extend([heap.len(), roots.len(), sequence.steps.len()].map(|length| length as u32));
    words.extend(heap);
    words.extend(roots);
    for step in &sequence.steps {
        match step {
            Step::Call(call) => words.extend(call_words(*call)),
            Step::Collect(brought) => add_brought(&mut words, brought),
        }
    }
    words
}

/// The call's number and three arguments, 0 where it has fewer.
fn call_words(call: Call) -> [u32; 4] {
    match call {
        Call::PutInt(slot, value) => [0, slot, value as u32, 0],
        Call::PutNil(slot) => [1, slot, 0, 0],
        Call::Copy(source, target) => [2, source, target, 0],
        Call::NewRecord(slot, k) => [3, slot, k, 0],
        Call::NewRaw(slot, k) => [4, slot, k, 0],
        Call::ReadField(object, field, target) => [5, object, field, target],
        Call::WriteField(object, field, source) => [6, object, field, source],
        Call::ReadRaw(object, index) => [7, object, index, 0],
        Call::WriteRaw(object, index, word) => [8, object, index, word],
        Call::Ask(slot) => [9, slot, 0, 0],
        Call::Same(first, second) => [10, first, second, 0],
    }
}

fn add_brought(words: &mut Vec<u32>, brought: &Brought) {
    let Brought {
        marks,
        order,
        live,
        offsets,
    } = brought;
    words.push(COLLECT);
    words.extend([marks.len(), order.len(), live.len(), offsets.len()].map(|length| length as u32));
    words.extend(halves(marks));
    words.extend(order);
    words.extend(halves(live));
    words.extend(offsets);
}

fn fits(sequence: &Sequence) -> bool {
    sequence.start.heap.len() <= HEAP_ROOM
        && sequence.start.roots.len() <= ROOT_ROOM
        && sequence.steps.iter().all(|step| match step {
            Step::Call(_) => true,
            Step::Collect(brought) => {
                let tables = [
                    brought.marks.len(),
                    brought.order.len(),
                    brought.live.len(),
                    brought.offsets.len(),
                ];
                tables.iter().all(|&entries| entries <= TABLE_ROOM)
            }
        })
}

/// What a step said and left: the answer, the record, heap and roots, and a collection's tables.
fn add(digest: &mut Digest, said: &Answer, state: &State, step: &Step) {
    digest.add_pairs(&answer_words(said));
    digest.add_pairs(&[u64::from(state.store.top), state.store.calls]);
    digest.add_words(&state.heap);
    digest.add_words(&state.roots);
    if let Step::Collect(brought) = step {
        digest.add_pairs(&brought.marks);
        digest.add_pairs(&brought.live);
        digest.add_words(&brought.offsets);
    }
}

/// The answer's number and three values, 0 where it has fewer.
fn answer_words(answer: &Answer) -> [u64; 4] {
    match *answer {
        Ok(Said::Done) => [0, 0, 0, 0],
        Ok(Said::Integer(value)) => [1, u64::from(value as u32), 0, 0],
        Ok(Said::Nil) => [2, 0, 0, 0],
        Ok(Said::Record(count)) => [3, u64::from(count), 0, 0],
        Ok(Said::Raw(count)) => [4, u64::from(count), 0, 0],
        Ok(Said::Word(word)) => [5, u64::from(word), 0, 0],
        Ok(Said::Same(same)) => [6, u64::from(same), 0, 0],
        Ok(Said::Collected(Collected {
            live,
            objects,
            blocks,
        })) => [7, live, objects, blocks],
        Err(Refusal { number, place }) => [8, number, place, 0],
    }
}

fn in_words(answer: &Answer) -> String {
    match *answer {
        Ok(Said::Done) => "done".to_string(),
        Ok(Said::Integer(value)) => format!("integer {value}"),
        Ok(Said::Nil) => "nil".to_string(),
        Ok(Said::Record(count)) => format!("record {count}"),
        Ok(Said::Raw(count)) => format!("raw {count}"),
        Ok(Said::Word(word)) => format!("word {word}"),
        Ok(Said::Same(same)) => format!("same {same}"),
        Ok(Said::Collected(Collected {
            live,
            objects,
            blocks,
        })) => format!("collected {live} {objects} {blocks}"),
        Err(Refusal { number, place }) => format!("refused {number} at {place}"),
    }
}

/// The sort of one answer: a refusal by its number, and what was said without its values.
fn sort(answer: &Answer, step: &Step) -> String {
    let kind = match step {
        Step::Call(_) => "call",
        Step::Collect(_) => "collect call",
    };
    match *answer {
        Ok(Said::Same(same)) => format!("{kind} same {same}"),
        Ok(_) => {
            let said = in_words(answer);
            let first = said.split(' ').next().unwrap_or_default();
            format!("{kind} {first}")
        }
        Err(Refusal { number, .. }) => format!("{kind} refused {number:>2}"),
    }
}
