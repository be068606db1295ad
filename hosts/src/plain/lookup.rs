//! The live and offset tables, and the lookups over them, read bit by bit.

use super::{bit, walk, Refusal, BLOCK_WORDS, MOST_BLOCKS};

const WRONG_TABLES: Refusal = Refusal { number: 1, place: 0 };

/// The live bitmap of a heap that passes the check.
pub fn live_table(heap: &[u32], top: u32, marks: &[u64]) -> Vec<u64> {
    let mut live = vec![0; marks.len()];
    let objects = walk(heap, top as usize).expect("a heap that passes the check");
    for object in objects {
        if bit(marks, object.place as u64) {
            for place in object.place..object.place + 1 + object.payload {
                live[place / BLOCK_WORDS] |= 1 << (place % BLOCK_WORDS);
            }
        }
    }
    live
}

/// Entry b is the number of live words below place 64b.
pub fn offset_table(live: &[u64]) -> Vec<u32> {
    let mut offsets = Vec::new();
    let mut live_below = 0;
    for place in 0..live.len() * BLOCK_WORDS {
        if place.is_multiple_of(BLOCK_WORDS) {
            offsets.push(live_below);
        }
        if bit(live, place as u64) {
            live_below += 1;
        }
    }
    offsets
}

/// The new place of a live place, or nothing where it is dead. The tables may hold anything.
pub fn old_to_new(live: &[u64], offsets: &[u32], place: u32) -> Result<Option<u64>, Refusal> {
    if live.len() != offsets.len() || live.len() > MOST_BLOCKS {
        return Err(WRONG_TABLES);
    }
    let place = u64::from(place);
    let outside = place >= (live.len() * BLOCK_WORDS) as u64;
    if outside {
        return Ok(None);
    }
    let block = place / 64;
    let entry = u64::from(offsets[block as usize]);
    if entry > 8192 {
        return Err(WRONG_TABLES);
    }
    if !bit(live, place) {
        return Ok(None);
    }
    let mut new_place = entry;
    for below in 64 * block..place {
        if bit(live, below) {
            new_place += 1;
        }
    }
    Ok(Some(new_place))
}

/// The place whose live bit is set with exactly `number` live bits below it, or nothing.
/// Only the live table decides; of the offset table nothing but its length is judged.
pub fn new_to_old(live: &[u64], offsets: &[u32], number: u32) -> Result<Option<u64>, Refusal> {
    if live.len() != offsets.len() || live.len() > MOST_BLOCKS {
        return Err(WRONG_TABLES);
    }
    let mut live_below = 0;
    for place in 0..(live.len() * BLOCK_WORDS) as u64 {
        if bit(live, place) {
            if live_below == number {
                return Ok(Some(place));
            }
            live_below += 1;
        }
    }
    Ok(None)
}
