//! Makers of block orders: those that keep every dependence, and those that break in every way.

use super::Random;

/// For each step, the other steps it has to wait for; there are T entries.
pub type Waits = [Vec<u32>];

type Maker = fn(&mut Random, &Waits) -> Vec<u32>;

/// Orders that may break; what is listed twice is twice as likely. Some of them are accepted by chance.
const DOUBTFUL: [Maker; 14] = [
    permuted,
    descending,
    two_swapped,
    one_moved_forward,
    one_before_its_wait,
    one_before_its_wait,
    with_a_repeat,
    with_a_far_entry,
    one_too_short,
    one_missing,
    one_too_long,
    at_or_over_the_limit,
    any_entries,
    empty,
];

/// Read off a live table word by word: live word number j goes to target block j / 64.
pub fn waits_of(live: &[u64]) -> Vec<Vec<u32>> {
    let mut waits = vec![Vec::new(); live.len()];
    let mut number: u32 = 0;
    for place in 0..64 * live.len() {
        let block = place / 64;
        if live[block] >> (place % 64) & 1 == 0 {
            continue;
        }
        let target = number / 64;
        if target as usize != block && !waits[block].contains(&target) {
            waits[block].push(target);
        }
        number += 1;
    }
    waits.truncate(number.div_ceil(64) as usize);
    waits
}

/// Half of the orders are good ones.
pub fn any_order(random: &mut Random, waits: &Waits) -> Vec<u32> {
    match random.below(100) {
        0..=14 => ascending(waits),
        15..=49 => kept(random, waits),
        _ => random.pick(&DOUBTFUL)(random, waits),
    }
}

pub fn ascending(waits: &Waits) -> Vec<u32> {
    (0..waits.len() as u32).collect()
}

/// A random order that keeps every dependence: each time one of the steps that are ready.
pub fn kept(random: &mut Random, waits: &Waits) -> Vec<u32> {
    let mut order = Vec::new();
    let mut is_done = vec![false; waits.len()];
    while order.len() < waits.len() {
        let ready: Vec<usize> = (0..waits.len())
            .filter(|&step| !is_done[step] && waits[step].iter().all(|&other| is_done[other as usize]))
            .collect();
        let step = random.pick(&ready);
        is_done[step] = true;
        order.push(step as u32);
    }
    order
}

fn permuted(random: &mut Random, waits: &Waits) -> Vec<u32> {
    let mut order = ascending(waits);
    random.shuffle(&mut order);
    order
}

fn descending(_: &mut Random, waits: &Waits) -> Vec<u32> {
    (0..waits.len() as u32).rev().collect()
}

fn two_swapped(random: &mut Random, waits: &Waits) -> Vec<u32> {
    let mut order = kept(random, waits);
    if !order.is_empty() {
        let one = random.below(order.len());
        let neighbour = (one + 1) % order.len();
        let any = random.below(order.len());
        order.swap(one, random.pick(&[neighbour, any]));
    }
    order
}

fn one_moved_forward(random: &mut Random, waits: &Waits) -> Vec<u32> {
    let mut order = kept(random, waits);
    if !order.is_empty() {
        let from = random.below(order.len());
        let to = random.between(0, from);
        order[to..=from].rotate_right(1);
    }
    order
}

/// A step comes just before one it has to wait for, be that the only one or one of two.
fn one_before_its_wait(random: &mut Random, waits: &Waits) -> Vec<u32> {
    let mut order = kept(random, waits);
    let least = random.pick(&[1, 2]);
    let waiting: Vec<usize> = (0..waits.len())
        .filter(|&step| waits[step].len() >= least)
        .collect();
    if !waiting.is_empty() {
        let step = random.pick(&waiting);
        let other = random.pick(&waits[step]);
        let from = order.iter().position(|&entry| entry as usize == step);
        let to = order.iter().position(|&entry| entry == other);
        if let (Some(to), Some(from)) = (to, from) {
            order[to..=from].rotate_right(1);
        }
    }
    order
}

/// In place of another entry, or besides all of them.
fn with_a_repeat(random: &mut Random, waits: &Waits) -> Vec<u32> {
    let mut order = kept(random, waits);
    if !order.is_empty() {
        let entry = random.pick(&order);
        put_somewhere(random, &mut order, entry);
    }
    order
}

/// T, T + 1 or any entry that is higher, also such that agree with a step but for their high bits.
fn with_a_far_entry(random: &mut Random, waits: &Waits) -> Vec<u32> {
    let mut order = kept(random, waits);
    let steps = waits.len() as u32;
    let low = random.below(128) as u32;
    let far = [
        steps,
        steps,
        steps + 1,
        steps + 1,
        steps.max(64),
        steps.max(127),
        128,
        128 + low,
        (1 << 16) + low,
        (1 << 31) + low,
        u32::MAX,
    ];
    let entry = random.pick(&far);
    put_somewhere(random, &mut order, entry);
    order
}

/// Written over an entry or put between two.
fn put_somewhere(random: &mut Random, order: &mut Vec<u32>, entry: u32) {
    let position = random.between(0, order.len());
    if position < order.len() && random.percent(50) {
        order[position] = entry;
    } else {
        order.insert(position, entry);
    }
}

/// Nothing is wrong but the length.
fn one_too_short(random: &mut Random, waits: &Waits) -> Vec<u32> {
    let mut order = kept(random, waits);
    order.pop();
    order
}

fn one_missing(random: &mut Random, waits: &Waits) -> Vec<u32> {
    let mut order = kept(random, waits);
    if !order.is_empty() {
        order.remove(random.below(order.len()));
    }
    order
}

fn one_too_long(random: &mut Random, waits: &Waits) -> Vec<u32> {
    let mut order = kept(random, waits);
    order.push(random.below(waits.len() + 2) as u32);
    order
}

/// Of 128 entries each is judged; one more is too many, whatever they are.
fn at_or_over_the_limit(random: &mut Random, waits: &Waits) -> Vec<u32> {
    let mut order = kept(random, waits);
    let entries = random.pick(&[127, 128, 128, 129, 129, 130, 200, 1000]);
    for entry in order.len()..entries {
        order.push(entry as u32);
    }
    order
}

fn any_entries(random: &mut Random, waits: &Waits) -> Vec<u32> {
    (0..random.below(waits.len() + 2))
        .map(|_| random.below(waits.len() + 2) as u32)
        .collect()
}

fn empty(_: &mut Random, _: &Waits) -> Vec<u32> {
    Vec::new()
}
