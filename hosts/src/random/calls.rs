//! Makers of call sequences: from the empty store, where the simple list has to answer the same, and from states
//! that hold anything. Each step is made for the state that the steps before it leave.

mod bring;
mod choose;
mod hostile;
#[cfg(test)]
mod tests;

use super::heaps::{integer, wild_word};
use super::Random;
use crate::plain::{answer, collect_call, Answer, Brought, Call, List, Store, NIL};

/// What every call takes, and what it leaves for the next.
#[derive(Clone, Debug, PartialEq, Eq)]
pub struct State {
    pub store: Store,
    pub heap: Vec<u32>,
    pub roots: Vec<u32>,
}

#[derive(Clone, Debug, PartialEq, Eq)]
pub enum Step {
    Call(Call),
    Collect(Brought),
}

#[derive(Clone, Debug, PartialEq, Eq)]
pub struct Sequence {
    pub start: State,
    pub steps: Vec<Step>,
}

impl State {
    /// Answered by the plain reading; the record that comes back is the next call's.
    pub fn take(&mut self, step: &mut Step) -> Answer {
        let State { store, heap, roots } = self;
        let (after, said) = match step {
            Step::Call(call) => answer(*store, heap, roots, *call),
            Step::Collect(brought) => collect_call(*store, heap, roots, brought),
        };
        *store = after;
        said
    }
}

/// Of that many steps, one half from the empty store.
pub fn any_sequence(random: &mut Random, steps: usize) -> Sequence {
    if random.percent(50) {
        from_empty(random, steps)
    } else {
        from_anything(random, steps)
    }
}

/// Words and list are held against each other at every step.
pub fn from_empty(random: &mut Random, steps: usize) -> Sequence {
    let start = empty_state(random);
    let mut list = List::empty(start.heap.len(), start.roots.len());
    let mut state = start.clone();
    let mut made = Vec::new();
    for _ in 0..steps {
        let step = any_step(random, &state);
        let by_list = match &step {
            Step::Call(call) => list.answer(*call),
            Step::Collect(brought) => list.collect(brought),
        };
        let by_words = state.take(&mut step.clone());
        assert_eq!(
            by_words, by_list,
            "words and list differ at {step:?} after {made:?}"
        );
        assert_eq!(state.store, list.record(), "their records differ after {step:?}");
        made.push(step);
    }
    Sequence { start, steps: made }
}

pub fn from_anything(random: &mut Random, steps: usize) -> Sequence {
    let start = hostile::any_state(random);
    let mut state = start.clone();
    let mut made = Vec::new();
    for _ in 0..steps {
        let step = any_step(random, &state);
        let _ = state.take(&mut step.clone());
        made.push(step);
    }
    Sequence { start, steps: made }
}

/// One step in sixteen is a collection.
fn any_step(random: &mut Random, state: &State) -> Step {
    if random.below(16) == 0 {
        Step::Collect(bring::any_brought(random, state))
    } else {
        Step::Call(choose::any_call(random, state))
    }
}

/// Slots all nil, top and count 0, and any words in the heap.
fn empty_state(random: &mut Random) -> State {
    let words = heap_words(random);
    let sort = random.below(4);
    State {
        store: Store { top: 0, calls: 0 },
        heap: (0..words).map(|_| free_word(random, sort)).collect(),
        roots: vec![NIL; slots(random)],
    }
}

fn free_word(random: &mut Random, sort: usize) -> u32 {
    match sort {
        0 => 0,
        1 => random.word(),
        2 => integer(random),
        _ => wild_word(random),
    }
}

/// Mostly so small that the room ends soon; some at both sides of a block's end and of the limit.
fn heap_words(random: &mut Random) -> usize {
    match random.below(100) {
        0..=7 => random.below(4),
        8..=29 => random.between(4, 24),
        30..=41 => random.pick(&[63, 64, 65, 127, 128, 129]),
        42..=69 => random.between(25, 200),
        70..=88 => random.between(201, 700),
        89..=94 => random.pick(&[1023, 1024, 1025, 1088, 2048]),
        95..=97 => random.between(2049, 8191),
        98 => 8192,
        _ => 8193,
    }
}

fn slots(random: &mut Random) -> usize {
    match random.below(100) {
        0..=1 => 0,
        2..=8 => 1,
        9..=79 => random.between(2, 9),
        80..=94 => random.between(10, 63),
        95..=97 => 64,
        _ => 65,
    }
}
