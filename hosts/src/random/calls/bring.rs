//! What a collect call brings: mostly marks at what the slots reach and an order that keeps every dependence,
//! sometimes more, fewer or damaged ones.

use super::State;
use crate::plain::{bit, reference, walk, Brought, Kind, Object};
use crate::random::collections::{change_a_length, garbage_tables, waits};
use crate::random::heaps::{clear_bit, set_bit};
use crate::random::orders::{any_order, ascending, kept};
use crate::random::Random;

/// The program `vectors` reads no longer orders; all over 128 are refused alike.
const MOST_ENTRIES: usize = 140;

pub fn any_brought(random: &mut Random, state: &State) -> Brought {
    let mut marks = any_marks(random, state);
    let State { store, heap, roots } = state;
    let waits = waits(random, heap, store.top, roots, &marks);
    let mut order = match random.below(10) {
        0..=2 => ascending(&waits),
        3..=7 => kept(random, &waits),
        _ => any_order(random, &waits),
    };
    order.truncate(MOST_ENTRIES);
    let (mut live, mut offsets) = garbage_tables(random, heap.len());
    match random.below(50) {
        0 => change_a_length(random, &mut live, &mut offsets),
        1 => marks.push(0),
        2 => drop(marks.pop()),
        _ => {}
    }
    Brought {
        marks,
        order,
        live,
        offsets,
    }
}

/// Where the walk fails no marks are right, so that they are any.
fn any_marks(random: &mut Random, state: &State) -> Vec<u64> {
    let blocks = state.heap.len().div_ceil(64);
    let objects = objects(state);
    if objects.is_empty() {
        let sparse = random.bits() & random.bits() & random.bits();
        let block = random.pick(&[0, 0, 0, 1, sparse]);
        return vec![block; blocks];
    }
    let mut wanted: Vec<u32> = state.roots.iter().copied().filter_map(reference).collect();
    if random.percent(30) {
        let share = random.pick(&[10, 50, 100]);
        let more = objects.iter().filter(|_| random.percent(share));
        wanted.extend(more.map(|object| object.place as u32));
    }
    let mut marks = reached(state, &objects, wanted);
    if random.percent(15) {
        damage(random, &mut marks, state, &objects);
    }
    marks
}

/// None where the sizes are wrong or the walk fails.
fn objects(state: &State) -> Vec<Object> {
    let top = state.store.top as usize;
    if top > state.heap.len() {
        return Vec::new();
    }
    walk(&state.heap, top).unwrap_or_default()
}

/// Marks at these places and at all that their records refer to, where there are objects.
fn reached(state: &State, objects: &[Object], mut wanted: Vec<u32>) -> Vec<u64> {
    let mut marks = vec![0; state.heap.len().div_ceil(64)];
    while let Some(place) = wanted.pop() {
        let Ok(index) = objects.binary_search_by_key(&(place as usize), |object| object.place) else {
            continue;
        };
        let object = objects[index];
        if bit(&marks, u64::from(place)) {
            continue;
        }
        set_bit(&mut marks, object.place);
        if object.kind == Kind::Record {
            let payload = &state.heap[object.place + 1..object.place + 1 + object.payload];
            wanted.extend(payload.iter().copied().filter_map(reference));
        }
    }
    marks
}

/// A mark more, at an object or at none, or one fewer, often of an object that no slot refers to.
fn damage(random: &mut Random, marks: &mut [u64], state: &State, objects: &[Object]) {
    match random.below(5) {
        0 => set_bit(marks, random.pick(objects).place),
        1 => set_bit(marks, random.below(64 * marks.len())),
        sort => {
            let among_slots = sort == 2;
            let roots: Vec<u32> = state.roots.iter().copied().filter_map(reference).collect();
            let places = objects.iter().map(|object| object.place);
            let marked: Vec<usize> = places
                .filter(|&place| bit(marks, place as u64))
                .filter(|&place| among_slots || !roots.contains(&(place as u32)))
                .collect();
            if !marked.is_empty() {
                clear_bit(marks, random.pick(&marked));
            }
        }
    }
}
