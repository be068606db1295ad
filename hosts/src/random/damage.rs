//! Damage of every sort to what a check takes. Some of it is harmless, which has to be seen too.

use super::heaps::{any_good, clear_bit, integer, reference_to, set_bit, wild, Input};
use super::Random;

type Damage = fn(&mut Random, &mut Input);

/// Each sort is as likely as any other; more than one may strike, so that the order is seen.
const SORTS: [Damage; 15] = [
    illegal_header,
    header_at_the_limit,
    header_off_by_one_word,
    move_top,
    top_above_heap,
    stray_mark,
    mark_at_an_edge,
    drop_mark,
    random_marks,
    dangling_root,
    dangling_field,
    nil_or_integer_somewhere,
    heap_too_long,
    too_many_roots,
    marks_of_wrong_length,
];

/// Good, damaged and wild inputs in turn, as chance has it.
pub fn any_input(random: &mut Random) -> Input {
    let mut input = if random.percent(25) {
        wild(random)
    } else {
        any_good(random)
    };
    let strikes = match random.below(20) {
        0..=6 => 0,
        7..=15 => 1,
        16..=18 => 2,
        _ => 3,
    };
    for _ in 0..strikes {
        strike(random, &mut input);
    }
    input
}

/// Damage of one sort.
pub fn strike(random: &mut Random, input: &mut Input) {
    random.pick(&SORTS)(random, input);
}

/// A header's place; only an empty heap has none.
fn some_header(random: &mut Random, input: &Input) -> Option<usize> {
    if input.headers.is_empty() {
        None
    } else {
        Some(random.pick(&input.headers))
    }
}

fn illegal_header(random: &mut Random, input: &mut Input) {
    let any_of_kind_2_or_3 = 4 * (random.word() / 4) + 2 + random.word() % 2;
    let illegal = [
        2,
        3,
        6,
        4090,
        4094,
        4095,
        4096,
        4097,
        8192,
        1 << 31,
        u32::MAX,
        any_of_kind_2_or_3,
    ];
    if let Some(place) = some_header(random, input) {
        input.heap[place] = random.pick(&illegal);
    }
}

/// Legal, but in a small heap it reaches past the top.
fn header_at_the_limit(random: &mut Random, input: &mut Input) {
    if let Some(place) = some_header(random, input) {
        input.heap[place] = random.pick(&[4092, 4093]);
    }
}

/// The last object is struck more often: it then ends one word past the top, or one below it.
fn header_off_by_one_word(random: &mut Random, input: &mut Input) {
    let last = input.headers.last().copied();
    let place = if random.percent(50) {
        last
    } else {
        some_header(random, input)
    };
    if let Some(place) = place {
        let word = input.heap[place];
        let longer = word < 4 || random.percent(50);
        input.heap[place] = if longer { word.wrapping_add(4) } else { word - 4 };
    }
}

fn move_top(random: &mut Random, input: &mut Input) {
    let anywhere = random.between(0, input.heap.len()) as u32;
    let next = input.top.saturating_add(1).min(input.heap.len() as u32);
    input.top = random.pick(&[input.top.saturating_sub(1), next, anywhere]);
}

fn top_above_heap(random: &mut Random, input: &mut Input) {
    let length = input.heap.len() as u32;
    input.top = random.pick(&[length + 1, length + 64, 1 << 31, u32::MAX]);
}

/// Anywhere in the table: at a header, inside an object, past the top or past the heap.
fn stray_mark(random: &mut Random, input: &mut Input) {
    if !input.marks.is_empty() {
        let place = random.below(64 * input.marks.len());
        set_bit(&mut input.marks, place);
    }
}

/// At the first free word, the first place past the heap, the table's last bit, or word 1.
fn mark_at_an_edge(random: &mut Random, input: &mut Input) {
    let places = 64 * input.marks.len();
    let edges = [input.top as usize, input.heap.len(), places.saturating_sub(1), 1];
    let place = random.pick(&edges);
    if place < places {
        set_bit(&mut input.marks, place);
    }
}

fn drop_mark(random: &mut Random, input: &mut Input) {
    if let Some(place) = some_header(random, input) {
        if place < 64 * input.marks.len() {
            clear_bit(&mut input.marks, place);
        }
    }
}

/// New marks at headers, whatever refers to what. Without roots, the fields come to be judged.
fn random_marks(random: &mut Random, input: &mut Input) {
    if random.percent(60) {
        input.roots.fill(u32::MAX);
    }
    input.marks.fill(0);
    let share = random.pick(&[10, 50, 90, 100]);
    for &place in &input.headers {
        if place < 64 * input.marks.len() && random.percent(share) {
            set_bit(&mut input.marks, place);
        }
    }
}

/// A reference that often has no mark: into an object, to an edge, or far out of range.
fn doubtful_reference(random: &mut Random, input: &Input) -> u32 {
    let places = 64 * input.marks.len();
    let inside = random.below(input.heap.len() + 1);
    let top = (input.top as usize).min(8193);
    let farthest = 2_147_483_646;
    let anywhere = random.word() as usize % (farthest + 1);
    reference_to(random.pick(&[
        inside,
        inside,
        top,
        input.heap.len(),
        places.saturating_sub(1),
        places,
        places + 1,
        farthest - 1,
        farthest,
        anywhere,
    ]))
}

fn dangling_root(random: &mut Random, input: &mut Input) {
    let word = doubtful_reference(random, input);
    if input.roots.is_empty() {
        input.roots.push(word);
    } else {
        let slot = random.below(input.roots.len());
        input.roots[slot] = word;
    }
}

/// Into some objects' payloads, marked or not, record or raw: only one kind of the four is judged.
fn dangling_field(random: &mut Random, input: &mut Input) {
    for _ in 0..random.between(1, 4) {
        let word = doubtful_reference(random, input);
        if let Some(place) = some_payload_word(random, input) {
            input.heap[place] = word;
        }
    }
}

fn some_payload_word(random: &mut Random, input: &Input) -> Option<usize> {
    let header = some_header(random, input)?;
    let payload = input.heap[header] as usize / 4;
    let end = (header + 1 + payload).min(input.heap.len());
    if header + 1 < end {
        Some(random.between(header + 1, end - 1))
    } else {
        None
    }
}

/// Harmless in a root or a payload.
fn nil_or_integer_somewhere(random: &mut Random, input: &mut Input) {
    let word = if random.percent(70) {
        u32::MAX
    } else {
        integer(random)
    };
    if let Some(place) = some_payload_word(random, input) {
        input.heap[place] = word;
    }
    if !input.roots.is_empty() {
        let slot = random.below(input.roots.len());
        input.roots[slot] = word;
    }
}

/// One word over the limit, with marks that fit, so that nothing else is wrong.
fn heap_too_long(random: &mut Random, input: &mut Input) {
    let words = random.pick(&[8193, 8193, 8192]);
    input.heap.resize(words, 0);
    input.marks.resize(words.div_ceil(64), 0);
}

fn too_many_roots(random: &mut Random, input: &mut Input) {
    let roots = random.pick(&[65, 65, 64]);
    input.roots.resize(roots, u32::MAX);
}

fn marks_of_wrong_length(random: &mut Random, input: &mut Input) {
    if random.percent(50) {
        input.marks.push(0);
    } else {
        input.marks.pop();
    }
}
