//! A whole collection: the order judged step by step and word by word, the new heap built object by object.

#[cfg(test)]
mod tests;

use super::{bit, blocks, check, live_table, offset_table, reference, walk};
use super::{Kind, Object, Refusal, BLOCK_WORDS, MOST_BLOCKS};
use std::collections::BTreeMap;

/// What an accepted collection answers: the live words L, the number of marked objects and the target
/// blocks T.
#[derive(Clone, Copy, Debug, PartialEq, Eq)]
pub struct Collected {
    pub live: u64,
    pub objects: u64,
    pub blocks: u64,
}

/// Refusals 1 to 6 in their order, else the slide. The tables are filled before 6 is judged.
pub fn collect(
    heap: &mut [u32],
    top: u32,
    roots: &mut [u32],
    marks: &mut [u64],
    order: &[u32],
    live: &mut [u64],
    offsets: &mut [u32],
) -> Result<Collected, Refusal> {
    let entries = blocks(heap.len());
    if order.len() > MOST_BLOCKS || live.len() != entries || offsets.len() != entries {
        return Err(Refusal { number: 1, place: 0 });
    }
    let counts = check(heap, top, roots, marks)?;
    live.copy_from_slice(&live_table(heap, top, marks));
    offsets.copy_from_slice(&offset_table(live));
    let live_places = live_places(live);
    if let Some(position) = first_break(order, &live_places) {
        return Err(Refusal {
            number: 6,
            place: position as u64,
        });
    }
    slide(heap, top as usize, roots, marks);
    marks.fill(0);
    Ok(Collected {
        live: counts.live,
        objects: counts.objects,
        blocks: blocks(live_places.len()) as u64,
    })
}

/// Live word number j stands at entry j.
fn live_places(live: &[u64]) -> Vec<usize> {
    (0..live.len() * BLOCK_WORDS)
        .filter(|&place| bit(live, place as u64))
        .collect()
}

/// The first position whose entry is T or more, a repeat, or too early; if there is none and the length
/// is not T, the smaller of length and T.
fn first_break(order: &[u32], live_places: &[usize]) -> Option<usize> {
    let targets = blocks(live_places.len());
    for (position, &entry) in order.iter().enumerate() {
        let earlier = &order[..position];
        let breaks = entry as usize >= targets
            || earlier.contains(&entry)
            || is_too_early(entry as usize, earlier, live_places);
        if breaks {
            return Some(position);
        }
    }
    if order.len() != targets {
        return Some(order.len().min(targets));
    }
    None
}

/// Whether a live word standing in block `step` goes to another target block that is not listed earlier.
fn is_too_early(step: usize, earlier: &[u32], live_places: &[usize]) -> bool {
    live_places.iter().enumerate().any(|(number, place)| {
        let target = number / BLOCK_WORDS;
        place / BLOCK_WORDS == step && target != step && !earlier.contains(&(target as u32))
    })
}

/// The kept objects one after the other with their references fixed, then zeros up to the old top.
fn slide(heap: &mut [u32], top: usize, roots: &mut [u32], marks: &[u64]) {
    let mut kept = walk(heap, top).expect("a heap that passes the check");
    kept.retain(|object| bit(marks, object.place as u64));
    let new_places = new_places(&kept);
    let mut slid = Vec::new();
    for object in &kept {
        slid.push(heap[object.place]);
        for &word in &heap[object.place + 1..object.place + 1 + object.payload] {
            slid.push(match object.kind {
                Kind::Record => fixed(word, &new_places),
                Kind::Raw => word,
            });
        }
    }
    slid.resize(top, 0);
    heap[..top].copy_from_slice(&slid);
    for word in roots {
        *word = fixed(*word, &new_places);
    }
}

/// From the old place of each kept object's header to its new one.
fn new_places(kept: &[Object]) -> BTreeMap<u32, u32> {
    let mut places = BTreeMap::new();
    let mut new_place = 0;
    for object in kept {
        places.insert(object.place as u32, new_place);
        new_place += 1 + object.payload as u32;
    }
    places
}

/// A reference to where its object goes; any other word as it is.
fn fixed(word: u32, new_places: &BTreeMap<u32, u32>) -> u32 {
    match reference(word) {
        Some(place) => 2 * new_places[&place] + 1,
        None => word,
    }
}
