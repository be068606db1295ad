//! States that no sequence of calls need have left: any words, any top, slots that refer to anywhere, any count.

use super::{from_empty, State};
use crate::plain::{Store, NIL};
use crate::random::damage::any_input;
use crate::random::heaps::{reference_to, wild_word};
use crate::random::Random;

pub fn any_state(random: &mut Random) -> State {
    let mut state = match random.below(10) {
        0..=3 => of_an_input(random),
        4..=6 => after_calls(random),
        _ => tiny(random),
    };
    state.store.calls = any_count(random);
    for _ in 0..random.below(4) {
        damage(random, &mut state);
    }
    state
}

/// What the check and the bare collection are tried on; with a few slots where it has none.
fn of_an_input(random: &mut Random) -> State {
    let input = any_input(random);
    let mut roots = input.roots;
    if roots.is_empty() && random.percent(90) {
        roots = (0..random.between(1, 6)).map(|_| wild_word(random)).collect();
    }
    State {
        store: Store {
            top: input.top,
            calls: 0,
        },
        heap: input.heap,
        roots,
    }
}

/// A good state with many objects, for damage to come.
fn after_calls(random: &mut Random) -> State {
    let sequence = from_empty(random, 40);
    let mut state = sequence.start;
    for mut step in sequence.steps {
        let _ = state.take(&mut step);
    }
    state
}

fn tiny(random: &mut Random) -> State {
    let words = random.below(30);
    let top = random.between(0, words);
    State {
        store: Store {
            top: random.pick(&[words, top]) as u32,
            calls: 0,
        },
        heap: (0..words).map(|_| wild_word(random)).collect(),
        roots: (0..random.between(1, 8)).map(|_| wild_word(random)).collect(),
    }
}

fn any_count(random: &mut Random) -> u64 {
    let any = random.bits();
    let soon = random.below(60) as u64;
    random.pick(&[0, any, u64::MAX - soon, u64::MAX, u64::from(u32::MAX) - soon])
}

/// Slots or words of the heap that refer to doubtful places, a header that is another, or another top.
fn damage(random: &mut Random, state: &mut State) {
    let words = state.heap.len();
    match random.below(9) {
        0..=2 => {
            for slot in 0..state.roots.len() {
                if random.percent(40) {
                    state.roots[slot] = doubtful_reference(random, state);
                }
            }
        }
        3..=5 if words > 0 => {
            for _ in 0..random.between(1, 2 + words / 4) {
                state.heap[random.below(words)] = doubtful_reference(random, state);
            }
        }
        6 if words > 0 => {
            let any = random.word();
            state.heap[random.below(words)] =
                random.pick(&[2, 3, 4092, 4093, 4095, 4096, NIL, any, 0, 1, 4, 5]);
        }
        7 => state.store.top = random.between(0, words) as u32,
        8 if random.percent(10) => {
            state.store.top = random.pick(&[words as u32 + 1, 1 << 31, u32::MAX]);
        }
        _ => {}
    }
}

fn doubtful_reference(random: &mut Random, state: &State) -> u32 {
    let words = state.heap.len();
    let top = state.store.top as usize % 8193;
    let inside = random.below(words + 1);
    let below_top = random.below(top + 1);
    let farthest = 2_147_483_646;
    reference_to(random.pick(&[
        inside,
        below_top,
        below_top,
        top.saturating_sub(1),
        top,
        top + 1,
        words,
        farthest,
    ]))
}
