//! Images at the edges: the statement's cases, one cut at every byte, the limits, and contents of wrong shapes.

use super::super::{bytes, skipped, Case};
use super::image;
use crate::examples::{blocks_with_live_words, whole_case};
use crate::plain::image::{bytes_of, Image};
use crate::plain::{MOST_BLOCKS, MOST_HEAP_WORDS, MOST_ROOTS, NIL};
use crate::random::images::image_of;

const EMPTY_RECORD: u32 = 0;

pub fn image_edges() -> Vec<Case> {
    let images = [
        of_the_statement(),
        small_sizes(),
        numbers_of_roots(),
        last_places(),
        full_heaps(),
    ];
    let mut cases: Vec<Case> = images
        .iter()
        .flatten()
        .map(|sound| image(&bytes_of(sound)))
        .collect();
    cases.extend(cut_and_longer());
    cases.extend(changed_contents());
    cases.extend(huge_contents());
    cases.extend(wrong_cases());
    cases
}

fn whole() -> Image {
    image_of(whole_case())
}

fn with_order(image: &Image, order: &[u32]) -> Image {
    let order = order.to_vec();
    Image {
        order,
        ..image.clone()
    }
}

fn with_marks(marks: &[u64]) -> Image {
    let marks = marks.to_vec();
    Image { marks, ..whole() }
}

/// P1, P2 and P6 to P12, nothing kept, and two full blocks in both orders.
fn of_the_statement() -> Vec<Image> {
    let mut field_without_its_mark = with_marks(&[641 - 128]);
    field_without_its_mark.roots[0] = NIL;
    let mut nothing_kept = with_order(&with_marks(&[0]), &[]);
    nothing_kept.roots = vec![];
    let half_full = image_of(blocks_with_live_words(&[32; 8]));
    let two_full = image_of(blocks_with_live_words(&[64; 2]));
    vec![
        whole(),
        Image::default(),
        with_marks(&[641 + 8]),
        with_marks(&[641 + 16]),
        with_marks(&[641 - 128]),
        field_without_its_mark,
        with_order(&whole(), &[]),
        with_order(&whole(), &[0, 0]),
        with_order(&half_full, &[0, 1, 2, 3]),
        with_order(&half_full, &[0, 1, 3, 2]),
        with_order(&half_full, &[0, 2, 1, 3]),
        with_order(&nothing_kept, &[0]),
        nothing_kept,
        with_order(&two_full, &[0, 1]),
        with_order(&two_full, &[1, 0]),
    ]
}

/// Empty records up to the top, all kept.
fn empty_records(heap_words: usize, top: usize) -> Image {
    let mut marks = vec![0; heap_words.div_ceil(64)];
    for place in 0..top.min(heap_words) {
        marks[place / 64] |= 1 << (place % 64);
    }
    Image {
        top: top as u32,
        heap: vec![EMPTY_RECORD; heap_words],
        roots: vec![],
        marks,
        order: (0..top.div_ceil(64) as u32).collect(),
    }
}

/// Around a block: each top, and a mark past the heap in the last block, at its first and last place.
fn small_sizes() -> Vec<Image> {
    let mut images = Vec::new();
    for heap_words in [0, 1, 63, 64, 65] {
        for top in [0, heap_words / 2, heap_words, heap_words + 1] {
            images.push(empty_records(heap_words, top));
        }
        let mut shorter = empty_records(heap_words, heap_words);
        let mut longer = shorter.clone();
        for past in [heap_words, heap_words.next_multiple_of(64).saturating_sub(1)] {
            let mut marked = shorter.clone();
            if let Some(block) = marked.marks.get_mut(past / 64) {
                *block |= 1 << (past % 64);
                images.push(marked);
            }
        }
        shorter.marks.pop();
        longer.marks.push(0);
        images.extend([shorter, longer]);
    }
    images
}

fn numbers_of_roots() -> Vec<Image> {
    let mut images = Vec::new();
    for roots in [0, 1, MOST_ROOTS - 1, MOST_ROOTS, MOST_ROOTS + 1] {
        for word in [NIL, 1, 3] {
            let roots = vec![word; roots];
            images.push(Image { roots, ..whole() });
        }
    }
    images
}

/// Each refusal at the last place it can have, and orders as long as they may be and one longer.
fn last_places() -> Vec<Image> {
    let block = empty_records(64, 64);
    let mut header = block.clone();
    header.heap[63] = 2;
    let mut past_the_top = block.clone();
    past_the_top.heap[63] = 4;
    let mut root = block.clone();
    root.roots = vec![NIL; MOST_ROOTS];
    root.roots[MOST_ROOTS - 1] = 129;
    let mut field = empty_records(66, 66);
    field.heap[64] = 4;
    field.heap[65] = 131;
    field.marks[1] = 1;
    vec![
        header,
        past_the_top,
        root,
        field,
        with_order(&block, &[0; MOST_BLOCKS]),
        with_order(&block, &[0; MOST_BLOCKS + 1]),
        with_order(&block, &[1]),
        with_order(&block, &[u32::MAX]),
    ]
}

/// The longest heaps: nothing moves, or each block's words do; a mark past the last word, and one word more.
fn full_heaps() -> Vec<Image> {
    let descending: Vec<u32> = (0..MOST_BLOCKS as u32).rev().collect();
    let ascending: Vec<u32> = (0..MOST_BLOCKS as u32).collect();
    let mut live_words = [64; MOST_BLOCKS];
    live_words[0] = 63;
    let moving = image_of(blocks_with_live_words(&live_words));
    let mut one_short = empty_records(MOST_HEAP_WORDS - 1, MOST_HEAP_WORDS - 1);
    one_short.marks[MOST_BLOCKS - 1] |= 1 << 63;
    let one_long = empty_records(MOST_HEAP_WORDS + 1, MOST_HEAP_WORDS);
    vec![
        with_order(&empty_records(MOST_HEAP_WORDS, MOST_HEAP_WORDS), &descending),
        with_order(&moving, &ascending),
        empty_records(MOST_HEAP_WORDS - 1, 70),
        one_short,
        with_order(&one_long, &ascending),
    ]
}

/// The whole case at every length below its own, and with a few bytes more.
fn cut_and_longer() -> Vec<Case> {
    let whole = bytes_of(&whole());
    let mut cases: Vec<Case> = (0..whole.len()).map(|length| image(&whole[..length])).collect();
    for more in 1..=5 {
        for filler in [0, 255] {
            cases.push(image(&[&whole[..], &vec![filler; more]].concat()));
        }
    }
    cases
}

/// The whole case with one word of its contents changed.
fn changed_contents() -> Vec<Case> {
    let whole = bytes_of(&whole());
    let mut cases = Vec::new();
    for number in 0..10 {
        let at = 4 * number..4 * number + 4;
        let old = u32::from(whole[4 * number]);
        for word in [
            old + 1,
            old.wrapping_sub(1),
            old + (1 << 16),
            old + (1 << 31),
            0,
            u32::MAX,
        ] {
            let mut changed = whole.clone();
            changed[at.clone()].copy_from_slice(&word.to_le_bytes());
            cases.push(image(&changed));
        }
    }
    cases
}

/// Contents alone: lengths at the limits, and sums that just fit 32 bits, wrap, or wrap and come right again.
fn huge_contents() -> Vec<Case> {
    const MOST: u32 = u32::MAX;
    const HALF: u32 = 1 << 31;
    let contents: [[u32; 10]; 16] = [
        [1, 0, 10, 8192, 8202, 64, 8266, 256, 8522, 128],
        [1, 0, 10, 8193, 8203, 0, 8203, 258, 8461, 0],
        [1, 8193, 10, 8192, 8202, 0, 8202, 256, 8458, 0],
        [1, 0, 10, 0, 10, 64, 74, 0, 74, 128],
        [1, 0, 10, 0, 10, 65, 75, 0, 75, 0],
        [1, 0, 10, 0, 10, 0, 10, 0, 10, 129],
        [1, 0, 10, 0, 10, 0, 10, 0, 10, MOST],
        [1, 0, 10, 0, 10, 0, 10, 1, 11, 0],
        [1, 0, 10, MOST - 10, MOST, 0, MOST, 0, MOST, 0],
        [1, 0, 10, MOST - 10, MOST, 0, MOST, 0, MOST, 1],
        [1, 0, 10, MOST - 9, 0, 0, 0, 0, 0, 0],
        [1, 0, 10, MOST, 9, 1, 10, 0, 10, 0],
        [1, 0, 10, HALF, HALF + 10, HALF, 10, 0, 10, 0],
        [1, 0, 10, 0, 10, HALF, HALF + 10, HALF, 10, 0],
        [1, 0, 10, 0, 10, 2, 12, MOST - 1, 10, 0],
        [1, 0, 10, 0, 10, 0, 10, MOST - 9, 0, 0],
    ];
    contents.iter().map(|words| image(&bytes(words))).collect()
}

/// What the program has to skip: no length, or another one than the case has.
fn wrong_cases() -> Vec<Case> {
    let whole = image(&bytes_of(&whole())).bytes;
    let longer = [&whole[..], &[0; 4]].concat();
    vec![
        skipped(bytes(&[5])),
        skipped(bytes(&[5, 1])),
        skipped(bytes(&[5, 0, 0])),
        skipped(bytes(&[5, u32::MAX])),
        skipped(bytes(&[5, u32::MAX - 7])),
        skipped(bytes(&[5, 5, 0])),
        skipped(whole[..whole.len() - 4].to_vec()),
        skipped(whole[..whole.len() - 1].to_vec()),
        skipped(longer),
    ]
}
