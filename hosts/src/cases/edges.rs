//! Cases at the edges: each limit and one beyond it, the last places, and cases of a wrong kind or size.

mod calls;
mod collections;

use super::{bytes, check, lookups, read, skipped, Case, ROOT_ROOM, TABLE_ROOM};
use crate::plain::{offset_table, MOST_BLOCKS, MOST_HEAP_WORDS, MOST_ROOTS, NIL};
use crate::random::heaps::{good, reference_to, Input, Mix};
use crate::random::tables::Question;
use crate::random::Random;

const EMPTY_RECORD: u32 = 0;
const RECORD_OF_ONE: u32 = 4;
const RAW_OF_ONE: u32 = 5;

pub fn edges() -> Vec<Case> {
    let groups = [
        sizes(),
        headers(),
        marks(),
        references(),
        full_heaps(),
        tables(),
        entries(),
        collections::collections(),
        calls::call_sequences(),
        wrong_cases(),
    ];
    groups.into_iter().flatten().collect()
}

fn check_of(heap: &[u32], top: u32, roots: &[u32], marks: &[u64]) -> Case {
    check(&Input {
        heap: heap.to_vec(),
        top,
        roots: roots.to_vec(),
        marks: marks.to_vec(),
        headers: Vec::new(),
    })
}

fn lookups_of(live: &[u64], offsets: &[u32], place: u32) -> Case {
    lookups(&Question {
        live: live.to_vec(),
        offsets: offsets.to_vec(),
        place,
    })
}

/// Heap, top, roots and marks as long as they may be, and one longer or shorter.
fn sizes() -> Vec<Case> {
    let block = [EMPTY_RECORD; 64];
    let over_block = [EMPTY_RECORD; 65];
    vec![
        check_of(&[], 0, &[], &[]),
        check_of(&[], 0, &[], &[0]),
        check_of(&[], 1, &[], &[]),
        check_of(&block, 64, &[NIL; MOST_ROOTS], &[u64::MAX]),
        check_of(&block, 64, &[NIL; MOST_ROOTS + 1], &[u64::MAX]),
        check_of(&block, 63, &[], &[u64::MAX >> 1]),
        check_of(&block, 65, &[], &[u64::MAX]),
        check_of(&block, u32::MAX, &[], &[u64::MAX]),
        check_of(&block, 64, &[], &[]),
        check_of(&block, 64, &[], &[u64::MAX, 0]),
        check_of(&over_block, 65, &[], &[u64::MAX]),
        check_of(&over_block, 65, &[], &[u64::MAX, 1]),
    ]
}

/// The longest objects, headers of no kind, and objects that end at the top or one word past it.
fn headers() -> Vec<Case> {
    let mut cases = vec![
        check_of(&[RECORD_OF_ONE, 0], 2, &[], &[1]),
        check_of(&[RECORD_OF_ONE, 0], 1, &[], &[1]),
    ];
    let longest = [(4092, 1024), (4093, 1024), (4092, 1023)];
    for (header, top) in longest {
        let mut heap = [0; 1024];
        heap[0] = header;
        let mut marks = [0; 16];
        marks[0] = 1;
        cases.push(check_of(&heap, top, &[], &marks));
    }
    for header in [2, 3, 4094, 4095, 4096, 1 << 31, u32::MAX] {
        cases.push(check_of(&[EMPTY_RECORD, header], 2, &[], &[1]));
    }
    cases
}

/// Marks inside an object, at the top, past the heap and at the last bit.
fn marks() -> Vec<Case> {
    let short = [EMPTY_RECORD; 63];
    vec![
        check_of(&[RECORD_OF_ONE, 0], 2, &[], &[2]),
        check_of(&short, 10, &[], &[1 << 9]),
        check_of(&short, 10, &[], &[1 << 10]),
        check_of(&short, 63, &[], &[1 << 62]),
        check_of(&short, 63, &[], &[1 << 63]),
    ]
}

/// References to the last mark, past the marks and as far as they go, in roots and in fields.
fn references() -> Vec<Case> {
    let block = [EMPTY_RECORD; 64];
    let mut cases = Vec::new();
    for word in [0, 1, 127, 129, 4_294_967_293, u32::MAX - 1, NIL] {
        cases.push(check_of(&block, 64, &[NIL, word], &[u64::MAX]));
        cases.push(check_of(&[RECORD_OF_ONE, word], 2, &[], &[1]));
        cases.push(check_of(&[RAW_OF_ONE, word], 2, &[], &[1]));
        cases.push(check_of(&[RECORD_OF_ONE, word], 2, &[], &[0]));
    }
    let mut roots = [NIL; MOST_ROOTS];
    roots[MOST_ROOTS - 1] = reference_to(64);
    cases.push(check_of(&block, 64, &roots, &[u64::MAX]));
    cases
}

/// The longest heaps, refused at their last place, and one longer than may be.
fn full_heaps() -> Vec<Case> {
    let heap = [EMPTY_RECORD; MOST_HEAP_WORDS];
    let top = MOST_HEAP_WORDS as u32;
    let last = MOST_HEAP_WORDS - 1;
    let every = [u64::MAX; MOST_BLOCKS];
    let mut no_header = heap;
    no_header[last] = 2;
    let mut two_words_last = heap;
    two_words_last[last - 1] = RECORD_OF_ONE;
    two_words_last[last] = reference_to(last);
    let mut all_but_last = every;
    all_but_last[MOST_BLOCKS - 1] >>= 1;
    let mix = Mix {
        records: 80,
        record_fields: (2, 8),
        raw_words: (1, 64),
        large_raws: 5,
        references: 50,
        live: 50,
    };
    let too_long = [EMPTY_RECORD; MOST_HEAP_WORDS + 1];
    vec![
        check_of(&heap, top, &[], &every),
        check_of(&no_header, top, &[], &every),
        check_of(&two_words_last, top, &[], &every),
        check_of(&two_words_last, top, &[], &all_but_last),
        check_of(&too_long, top, &[], &[0; MOST_BLOCKS + 1]),
        check(&good(
            &mut Random::new(1),
            MOST_HEAP_WORDS,
            MOST_HEAP_WORDS,
            MOST_ROOTS,
            &mix,
        )),
    ]
}

/// Tables as long as they may be and one longer, alike and not, at their first and last places.
fn tables() -> Vec<Case> {
    let mut cases = Vec::new();
    for blocks in [0, 1, MOST_BLOCKS - 1, MOST_BLOCKS, MOST_BLOCKS + 1] {
        let live = vec![u64::MAX; blocks];
        let offsets = offset_table(&live);
        let end = 64 * blocks as u32;
        for place in [0, end.saturating_sub(1), end] {
            cases.push(lookups_of(&live, &offsets, place));
        }
    }
    for (blocks, entries) in [(0, 1), (1, 0), (MOST_BLOCKS, MOST_BLOCKS - 1), (2, 3)] {
        cases.push(lookups_of(&vec![1; blocks], &vec![0; entries], 0));
    }
    cases
}

/// Offset entries at the limit and one beyond it, looked up where the word is live, dead and outside.
fn entries() -> Vec<Case> {
    let mut cases = Vec::new();
    for entry in [8192, 8193, u32::MAX] {
        for place in [0, 1, 63, 64, u32::MAX] {
            cases.push(lookups_of(&[1 << 63 | 1], &[entry], place));
        }
    }
    cases
}

/// What the program has to skip: of no kind, shorter or longer than it says, or too long for its buffers.
fn wrong_cases() -> Vec<Case> {
    let whole = check_of(&[RECORD_OF_ONE, 0], 2, &[NIL], &[1]).bytes;
    let longer = [&whole[..], &[0; 4]].concat();
    vec![
        skipped(Vec::new()),
        skipped(vec![1]),
        skipped(bytes(&[9, 0, 0, 0])),
        skipped(bytes(&[u32::MAX])),
        skipped(whole[..whole.len() - 4].to_vec()),
        skipped(whole[..whole.len() - 1].to_vec()),
        skipped(longer),
        skipped(bytes(&[1, 0, u32::MAX, u32::MAX, u32::MAX])),
        skipped(bytes(&[2, u32::MAX, u32::MAX, 0])),
        skipped(bytes(&[0, u32::MAX, u32::MAX])),
        check_of(&[], 0, &[NIL; ROOT_ROOM + 1], &[]),
        lookups_of(&[0; TABLE_ROOM], &[0; TABLE_ROOM + 1], 0),
        lookups_of(&[0; TABLE_ROOM + 1], &[0; TABLE_ROOM], 0),
        read(&[], &[]),
        read(&[1, u32::MAX], &[1 << 32, u64::MAX]),
    ]
}
