//! Collections as cases: the line has the answer and a digest of all buffers as the plain reading leaves them.

use super::{bytes, halves, skipped, Case, Digest, COLLECTION, HEAP_ROOM, ROOT_ROOM, TABLE_ROOM};
use crate::plain::{Collected, Refusal};
use crate::random::collections::Collection;

pub fn collection(before: &Collection) -> Case {
    let bytes = bytes(&words(before));
    if !fits(before) {
        return skipped(bytes);
    }
    let mut after = before.clone();
    let (answer, sort) = match after.collect() {
        Ok(Collected {
            live,
            objects,
            blocks,
        }) => (
            format!("collect {live} {objects} {blocks}"),
            "collect accepted".to_string(),
        ),
        Err(Refusal { number, place }) => (
            format!("collect refused {number} at {place}"),
            format!("collect refused {number}"),
        ),
    };
    Case::of(bytes, format!("{answer} {:016x}", digest(&after)), sort)
}

/// The kind, top, all lengths, and then the buffers.
fn words(collection: &Collection) -> Vec<u32> {
    let Collection {
        heap,
        top,
        roots,
        marks,
        order,
        live,
        offsets,
    } = collection;
    let mut words = vec![COLLECTION, *top];
    words.extend([heap.len(), roots.len(), marks.len()].map(|length| length as u32));
    words.extend([order.len(), live.len(), offsets.len()].map(|length| length as u32));
    words.extend(heap);
    words.extend(roots);
    words.extend(halves(marks));
    words.extend(order);
    words.extend(halves(live));
    words.extend(offsets);
    words
}

fn fits(collection: &Collection) -> bool {
    let tables = [
        collection.marks.len(),
        collection.order.len(),
        collection.live.len(),
        collection.offsets.len(),
    ];
    collection.heap.len() <= HEAP_ROOM
        && collection.roots.len() <= ROOT_ROOM
        && tables.iter().all(|&entries| entries <= TABLE_ROOM)
}

fn digest(after: &Collection) -> u64 {
    let mut digest = Digest::start();
    digest.add_words(&after.heap);
    digest.add_words(&after.roots);
    digest.add_pairs(&after.marks);
    digest.add_words(&after.order);
    digest.add_pairs(&after.live);
    digest.add_words(&after.offsets);
    digest.value()
}
