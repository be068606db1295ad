//! Heaps by hand: the statement's whole case, and blocks with so many live words each.

use crate::random::collections::Collection;

/// The tables hold garbage, to see whether they are written.
pub fn whole_case() -> Collection {
    Collection {
        heap: vec![8, 10, 15, 13, 101, 102, 103, 4, 1, 1, 9, 9, 9, 9, 9, 9],
        top: 10,
        roots: vec![15, 19, 4294967294, 4294967295],
        marks: vec![641],
        order: vec![0],
        live: vec![u64::MAX],
        offsets: vec![77],
    }
}

/// A block for each entry: first a kept raw object of so many words, then one not kept in what is left.
/// The order is still empty.
pub fn blocks_with_live_words(live_words: &[usize]) -> Collection {
    let mut heap = Vec::new();
    let mut marks = Vec::new();
    for (block, &words) in live_words.iter().enumerate() {
        for object_words in [words, 64 - words] {
            if object_words > 0 {
                heap.push(4 * (object_words as u32 - 1) + 1);
                heap.extend((1..object_words).map(|word| (1000 * block + 2 * word + 1) as u32));
            }
        }
        marks.push(u64::from(words > 0));
    }
    Collection {
        top: heap.len() as u32,
        heap,
        roots: vec![],
        marks,
        order: vec![],
        live: vec![u64::MAX; live_words.len()],
        offsets: vec![77; live_words.len()],
    }
}
