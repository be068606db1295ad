//! Makers of images: good and refused ones of every size, and bytes that are no image.

mod bytes;
#[cfg(test)]
mod tests;

use super::collections::{any_collection, waits, Collection};
use super::damage::strike;
use super::heaps::{good, reference_to, set_bit, Input, Mix};
use super::orders::any_order;
use super::Random;
use crate::plain::image::{bytes_of, Image};
use crate::plain::{bit, walk, Kind};
use bytes::{contents_alone, damage};

/// A collection's tables are no part of an image.
pub fn image_of(collection: Collection) -> Image {
    let Collection {
        heap,
        top,
        roots,
        marks,
        order,
        ..
    } = collection;
    Image {
        top,
        heap,
        roots,
        marks,
        order,
    }
}

/// Any image as bytes, or bytes that only look like one.
pub fn any_image(random: &mut Random) -> Vec<u8> {
    if random.percent(10) {
        return contents_alone(random);
    }
    let image = any_sound_image(random);
    let mut bytes = bytes_of(&image);
    let strikes = random.pick(&[0, 0, 0, 0, 0, 0, 0, 1, 1, 2]);
    for _ in 0..strikes {
        damage(random, &mut bytes);
    }
    bytes
}

/// An image whose bytes are those of an image, be it accepted or refused by 1 to 6.
pub fn any_sound_image(random: &mut Random) -> Image {
    match random.below(20) {
        0..=8 => short(random),
        9..=13 => of_edge_size(random),
        _ => image_of(any_collection(random)),
    }
}

/// Heaps of less than a block, where each place is as likely as any other.
fn short(random: &mut Random) -> Image {
    let heap_words = random.below(28);
    let most_fields = random.pick(&[0, 1, 2, 6]);
    let roots = random.pick(&[0, 0, 1, 2, 3, 5]);
    sized(random, heap_words, roots, most_fields)
}

/// Heaps of around a block, or of around all words that there may be; roots at their limit.
fn of_edge_size(random: &mut Random) -> Image {
    let heap_words = if random.percent(96) {
        random.pick(&[0, 1, 2, 62, 63, 64, 65, 127, 128, 129])
    } else {
        random.pick(&[8191, 8192, 8193])
    };
    let roots = random.pick(&[0, 0, 1, 3, 3, 63, 64, 65]);
    let most_fields = random.pick(&[0, 3, 20, 63, 1023]);
    sized(random, heap_words, roots, most_fields)
}

/// Good but for its order, and just long enough for an order of two or three steps.
pub fn of_few_blocks(random: &mut Random) -> Image {
    let heap_words = random.between(110, 230);
    let payload = random.pick(&[(0, 9), (15, 15), (31, 31), (30, 40)]);
    let mix = Mix {
        records: random.pick(&[0, 50, 100]),
        record_fields: payload,
        raw_words: payload,
        large_raws: 0,
        references: random.pick(&[0, 50, 100]),
        live: random.pick(&[50, 70, 90]),
    };
    let roots = random.below(3);
    let input = good(random, heap_words, heap_words, roots, &mix);
    ordered(random, input)
}

/// What general damage does not often do to a short heap that is good otherwise; a field is the rarest.
const MISPLACED: [fn(&mut Random, &mut Input); 4] =
    [mark_past_the_top, dangling_root, dangling_field, dangling_field];

/// Good to begin with, then damaged more often than not; with an order made for what is left.
fn sized(random: &mut Random, heap_words: usize, roots: usize, most_fields: usize) -> Image {
    let anywhere = random.between(0, heap_words);
    let top = random.pick(&[heap_words, heap_words, anywhere, heap_words.saturating_sub(1)]);
    let mix = Mix {
        records: random.pick(&[0, 50, 80, 100]),
        record_fields: (0, most_fields),
        raw_words: (0, most_fields),
        large_raws: 0,
        references: random.pick(&[0, 30, 100]),
        live: random.pick(&[0, 30, 60, 90, 100]),
    };
    let mut input = good(random, heap_words, top, roots, &mix);
    match random.below(10) {
        0..=3 => {}
        4..=6 => strike(random, &mut input),
        7..=8 => {
            let misplace = random.pick(&MISPLACED);
            misplace(random, &mut input);
        }
        _ => {
            strike(random, &mut input);
            strike(random, &mut input);
        }
    }
    ordered(random, input)
}

/// Among the free words, or in the last block past the heap's end.
fn mark_past_the_top(random: &mut Random, input: &mut Input) {
    let places = 64 * input.marks.len();
    let least = random.pick(&[input.top as usize, input.heap.len()]);
    if least < places {
        let place = random.between(least, places - 1);
        set_bit(&mut input.marks, place);
    }
}

/// A reference to a place without a mark: inside the heap, at its edges, or far out.
fn dangling(random: &mut Random, input: &Input) -> u32 {
    let anywhere = random.below(input.heap.len() + 1);
    let edges = [
        input.top as usize,
        input.heap.len(),
        64 * input.marks.len(),
        2_147_483_646,
    ];
    let edge = random.pick(&edges);
    let unmarked = (anywhere..)
        .find(|&place| !bit(&input.marks, place as u64))
        .unwrap_or(anywhere);
    reference_to(random.pick(&[unmarked, unmarked, unmarked, edge]))
}

fn dangling_root(random: &mut Random, input: &mut Input) {
    if !input.roots.is_empty() {
        let slot = random.below(input.roots.len());
        input.roots[slot] = dangling(random, input);
    }
}

/// In a record that is kept.
fn dangling_field(random: &mut Random, input: &mut Input) {
    let objects = walk(&input.heap, input.top as usize).unwrap_or_default();
    let fields: Vec<usize> = objects
        .iter()
        .filter(|object| object.kind == Kind::Record && bit(&input.marks, object.place as u64))
        .flat_map(|object| object.place + 1..object.place + 1 + object.payload)
        .collect();
    if !fields.is_empty() {
        let field = random.pick(&fields);
        input.heap[field] = dangling(random, input);
    }
}

fn ordered(random: &mut Random, input: Input) -> Image {
    let waits = waits(random, &input.heap, input.top, &input.roots, &input.marks);
    let order = any_order(random, &waits);
    Image {
        top: input.top,
        heap: input.heap,
        roots: input.roots,
        marks: input.marks,
        order,
    }
}
