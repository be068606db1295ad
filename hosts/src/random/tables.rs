//! Makers of what the lookups take: tables of real heaps, and tables that hold anything.

use super::heaps::any_good;
use super::Random;
use crate::plain;

/// What a lookup takes: `place` is an old place for one lookup and a number for the other.
#[derive(Clone, Debug, PartialEq, Eq)]
pub struct Question {
    pub live: Vec<u64>,
    pub offsets: Vec<u32>,
    pub place: u32,
}

pub fn any_question(random: &mut Random) -> Question {
    let (mut live, mut offsets) = if random.percent(30) {
        real_tables(random)
    } else {
        any_tables(random)
    };
    if random.percent(10) {
        change_a_length(random, &mut live, &mut offsets);
    }
    let place = any_place(random, &live);
    Question { live, offsets, place }
}

/// The tables of a heap that passes the check.
fn real_tables(random: &mut Random) -> (Vec<u64>, Vec<u32>) {
    let input = any_good(random);
    let live = plain::live_table(&input.heap, input.top, &input.marks);
    let offsets = plain::offset_table(&live);
    (live, offsets)
}

/// Tables that need not fit each other, of every length up to one over the limit.
fn any_tables(random: &mut Random) -> (Vec<u64>, Vec<u32>) {
    let blocks = match random.below(10) {
        0..=5 => random.below(6),
        6..=7 => random.below(130),
        _ => random.pick(&[127, 128, 129]),
    };
    let density = random.below(5);
    let live: Vec<u64> = (0..blocks).map(|_| live_word(random, density)).collect();
    let mut offsets = plain::offset_table(&live);
    if random.percent(70) {
        for entry in &mut offsets {
            *entry = any_entry(random, *entry);
        }
    }
    (live, offsets)
}

fn live_word(random: &mut Random, density: usize) -> u64 {
    match density {
        0 => 0,
        1 => u64::MAX,
        2 => random.bits(),
        3 => 1 << random.below(64),
        _ => {
            let any = random.bits();
            random.pick(&[0, 1, 1 << 63, u64::MAX, any])
        }
    }
}

fn any_entry(random: &mut Random, right: u32) -> u32 {
    let any = random.word();
    let in_range = any % 8193;
    random.pick(&[right, right, in_range, in_range, 8191, 8192, 8193, any, u32::MAX])
}

fn change_a_length(random: &mut Random, live: &mut Vec<u64>, offsets: &mut Vec<u32>) {
    match random.below(5) {
        0 => live.push(random.bits()),
        1 => offsets.push(0),
        2 => drop(live.pop()),
        3 => drop(offsets.pop()),
        _ => live.resize(random.below(140), 0),
    }
}

/// Places inside and at the ends of blocks and tables, and numbers around L and the word's end.
fn any_place(random: &mut Random, live: &[u64]) -> u32 {
    let places = 64 * live.len() as u32;
    let live_words: u32 = live.iter().map(|word| word.count_ones()).sum();
    if random.percent(60) {
        let limit = if random.percent(50) { places } else { live_words };
        return random.below(limit as usize + 1) as u32;
    }
    let block_start = 64 * random.below(live.len() + 1) as u32;
    let edges = [
        0,
        block_start,
        block_start.saturating_sub(1),
        places.saturating_sub(1),
        places,
        places + 1,
        live_words.saturating_sub(1),
        live_words,
        live_words + 1,
        1 << 31,
        u32::MAX - 1,
        u32::MAX,
        random.word(),
    ];
    random.pick(&edges)
}
