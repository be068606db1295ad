//! Makers of what a collection takes: heaps of every sort, orders made for them, and tables that hold
//! anything before the call.

use super::damage::any_input;
use super::heaps::{any_good, good, Input, Mix};
use super::orders::{any_order, waits_of};
use super::Random;
use crate::plain::{self, Collected, Refusal};

/// What a collection takes, and afterwards what it left behind.
#[derive(Clone, Debug, PartialEq, Eq)]
pub struct Collection {
    pub heap: Vec<u32>,
    pub top: u32,
    pub roots: Vec<u32>,
    pub marks: Vec<u64>,
    pub order: Vec<u32>,
    pub live: Vec<u64>,
    pub offsets: Vec<u32>,
}

impl Collection {
    /// With tables of the right length that hold something else than they should.
    pub fn new(random: &mut Random, input: Input, order: Vec<u32>) -> Collection {
        let (live, offsets) = garbage_tables(random, input.heap.len());
        Collection {
            live,
            offsets,
            heap: input.heap,
            top: input.top,
            roots: input.roots,
            marks: input.marks,
            order,
        }
    }

    pub fn with_order(&self, order: &[u32]) -> Collection {
        Collection {
            order: order.to_vec(),
            ..self.clone()
        }
    }

    /// Collected by the plain reading.
    pub fn collect(&mut self) -> Result<Collected, Refusal> {
        plain::collect(
            &mut self.heap,
            self.top,
            &mut self.roots,
            &mut self.marks,
            &self.order,
            &mut self.live,
            &mut self.offsets,
        )
    }
}

/// Of the right length for a heap.
pub fn garbage_tables(random: &mut Random, heap_words: usize) -> (Vec<u64>, Vec<u32>) {
    let blocks = heap_words.div_ceil(64);
    let sort = random.below(3);
    let live = (0..blocks).map(|_| garbage(random, sort)).collect();
    let offsets = (0..blocks).map(|_| garbage(random, sort) as u32).collect();
    (live, offsets)
}

fn garbage(random: &mut Random, sort: usize) -> u64 {
    match sort {
        0 => 0,
        1 => u64::MAX,
        _ => random.bits(),
    }
}

pub fn any_collection(random: &mut Random) -> Collection {
    let input = match random.below(20) {
        0..=5 => any_input(random),
        6..=9 => any_good(random),
        _ => several_blocks(random),
    };
    let waits = waits(random, &input.heap, input.top, &input.roots, &input.marks);
    let order = any_order(random, &waits);
    let mut collection = Collection::new(random, input, order);
    if random.percent(4) {
        change_a_length(random, &mut collection.live, &mut collection.offsets);
    }
    collection
}

/// Where a refusal comes before the order is judged, the order is made for any number of steps.
pub fn waits(random: &mut Random, heap: &[u32], top: u32, roots: &[u32], marks: &[u64]) -> Vec<Vec<u32>> {
    match plain::check(heap, top, roots, marks) {
        Ok(_) => waits_of(&plain::live_table(heap, top, marks)),
        Err(_) => vec![Vec::new(); random.below(5)],
    }
}

/// Least and most payload words. Objects that all have as many words as a block, as three or as a part of one
/// let live words begin and end with a target block.
const PAYLOADS: [(usize, usize); 10] = [
    (0, 0),
    (0, 3),
    (0, 40),
    (15, 15),
    (31, 31),
    (31, 31),
    (63, 63),
    (0, 191),
    (0, 300),
    (191, 191),
];

/// Accepted heaps of 2 to 20 blocks, and some of 128.
fn several_blocks(random: &mut Random) -> Input {
    let blocks = if random.percent(4) {
        128
    } else {
        random.between(2, 20)
    };
    let whole_blocks = 64 * blocks;
    let heap_words = if random.percent(70) {
        whole_blocks
    } else {
        whole_blocks - random.below(64)
    };
    let top = if random.percent(70) {
        heap_words
    } else {
        random.between(heap_words / 2, heap_words)
    };
    let (least, most) = random.pick(&PAYLOADS);
    let mix = Mix {
        records: random.pick(&[0, 50, 80, 100]),
        record_fields: (least, most),
        raw_words: (least, most),
        large_raws: 0,
        references: random.pick(&[0, 20, 100]),
        live: random.pick(&[1, 10, 25, 50, 75, 90, 100]),
    };
    let roots = random.pick(&[0, 1, 4, 64]);
    good(random, heap_words, top, roots, &mix)
}

/// The live or the offset table is one entry too long or too short, or both are.
pub fn change_a_length(random: &mut Random, live: &mut Vec<u64>, offsets: &mut Vec<u32>) {
    let which = random.below(3);
    let longer = random.percent(50);
    if which != 0 {
        change_by_one(live, longer);
    }
    if which != 1 {
        change_by_one(offsets, longer);
    }
}

fn change_by_one<T: From<u8>>(table: &mut Vec<T>, longer: bool) {
    if longer {
        table.push(T::from(1));
    } else {
        table.pop();
    }
}
