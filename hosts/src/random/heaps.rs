//! Makers of heaps, roots and marks: good ones of a chosen size and mix, and tiny wild ones.

use super::Random;

/// What a check takes, and where the maker put the headers.
#[derive(Clone, Debug, PartialEq, Eq)]
pub struct Input {
    pub heap: Vec<u32>,
    pub top: u32,
    pub roots: Vec<u32>,
    pub marks: Vec<u64>,
    pub headers: Vec<usize>,
}

/// What a good heap is made of; shares are of a hundred, ranges include both ends.
#[derive(Clone, Copy, Debug)]
pub struct Mix {
    /// Of the objects, how many are records.
    pub records: usize,
    pub record_fields: (usize, usize),
    pub raw_words: (usize, usize),
    /// Of the raw objects, how many go beyond that range, up to 1,023 words.
    pub large_raws: usize,
    /// Of the fields, how many are references.
    pub references: usize,
    /// Of the words below the top, how many are live at least.
    pub live: usize,
}

#[derive(Clone, Copy)]
struct Shape {
    place: usize,
    payload: usize,
    is_record: bool,
    is_marked: bool,
}

pub fn reference_to(place: usize) -> u32 {
    2 * place as u32 + 1
}

pub fn integer(random: &mut Random) -> u32 {
    random.word() / 2 * 2
}

pub fn set_bit(bitmap: &mut [u64], place: usize) {
    bitmap[place / 64] |= 1 << (place % 64);
}

pub fn clear_bit(bitmap: &mut [u64], place: usize) {
    bitmap[place / 64] &= !(1 << (place % 64));
}

/// A heap that the check accepts: marked records and roots refer to marked objects alone.
pub fn good(random: &mut Random, heap_words: usize, top: usize, roots: usize, mix: &Mix) -> Input {
    let mut shapes = lay_out(random, top, mix);
    choose_marked(random, &mut shapes, top * mix.live / 100);
    let every: Vec<usize> = shapes.iter().map(|shape| shape.place).collect();
    let marked: Vec<usize> = shapes
        .iter()
        .filter(|shape| shape.is_marked)
        .map(|shape| shape.place)
        .collect();
    let mut heap: Vec<u32> = Vec::with_capacity(heap_words);
    for shape in &shapes {
        let targets = if shape.is_marked { &marked } else { &every };
        push_object(random, &mut heap, shape, targets, mix.references);
    }
    while heap.len() < heap_words {
        heap.push(random.word());
    }
    let mut marks = vec![0; heap_words.div_ceil(64)];
    for &place in &marked {
        set_bit(&mut marks, place);
    }
    let roots = (0..roots).map(|_| root(random, &marked)).collect();
    Input {
        heap,
        top: top as u32,
        roots,
        marks,
        headers: every,
    }
}

/// Objects end to end from place 0 to exactly the top; the last one takes what is left at most.
fn lay_out(random: &mut Random, top: usize, mix: &Mix) -> Vec<Shape> {
    let mut shapes = Vec::new();
    let mut place = 0;
    while place < top {
        let is_record = random.percent(mix.records);
        let wanted = if is_record {
            random.between(mix.record_fields.0, mix.record_fields.1)
        } else if random.percent(mix.large_raws) {
            random.between(mix.raw_words.1, 1023)
        } else {
            random.between(mix.raw_words.0, mix.raw_words.1)
        };
        let payload = wanted.min(top - place - 1);
        shapes.push(Shape {
            place,
            payload,
            is_record,
            is_marked: false,
        });
        place += 1 + payload;
    }
    shapes
}

/// Marks objects in random order until that many words are live.
fn choose_marked(random: &mut Random, shapes: &mut [Shape], words: usize) {
    let mut order: Vec<usize> = (0..shapes.len()).collect();
    random.shuffle(&mut order);
    let mut live = 0;
    for index in order {
        if live >= words {
            break;
        }
        shapes[index].is_marked = true;
        live += 1 + shapes[index].payload;
    }
}

fn push_object(
    random: &mut Random,
    heap: &mut Vec<u32>,
    shape: &Shape,
    targets: &[usize],
    references: usize,
) {
    let kind = if shape.is_record { 0 } else { 1 };
    heap.push(4 * shape.payload as u32 + kind);
    for _ in 0..shape.payload {
        let word = if !shape.is_record {
            random.word()
        } else if random.percent(references) {
            reference_to(random.pick(targets))
        } else {
            integer(random)
        };
        heap.push(word);
    }
}

fn root(random: &mut Random, marked: &[usize]) -> u32 {
    match random.below(4) {
        0 => integer(random),
        1 => u32::MAX,
        _ if marked.is_empty() => integer(random),
        _ => reference_to(random.pick(marked)),
    }
}

/// Mostly small heaps of all mixes, some full ones; all of them accepted.
pub fn any_good(random: &mut Random) -> Input {
    let heap_words = match random.below(100) {
        0..=89 => random.below(201),
        90..=95 => 64 * random.below(5),
        96..=97 => random.between(1000, 8191),
        _ => 8192,
    };
    let top = if random.percent(50) {
        heap_words
    } else {
        random.between(0, heap_words)
    };
    let roots = random.pick(&[0, 1, 2, 5, 63, 64]);
    let most_fields = random.pick(&[0, 1, 3, 8, 70, 1023]);
    let most_raw = random.pick(&[0, 1, 4, 64, 200, 1023]);
    let mix = Mix {
        records: random.pick(&[0, 20, 50, 80, 100]),
        record_fields: (if random.percent(10) { most_fields } else { 0 }, most_fields),
        raw_words: (if random.percent(10) { most_raw } else { 0 }, most_raw),
        large_raws: random.pick(&[0, 0, 10]),
        references: random.pick(&[0, 10, 50, 100]),
        live: random.pick(&[0, 5, 25, 50, 90, 100]),
    };
    good(random, heap_words, top, roots, &mix)
}

/// A tiny heap of any words that are likely to mean something, with any roots and marks.
pub fn wild(random: &mut Random) -> Input {
    let heap_words = random.below(14);
    let heap: Vec<u32> = (0..heap_words).map(|_| wild_word(random)).collect();
    let headers = steps(&heap);
    // The last step is where some object ends, so that the walk often comes out right.
    let ends: Vec<usize> = headers.iter().copied().chain([heap_words]).collect();
    let top = if random.percent(70) {
        random.pick(&ends)
    } else {
        random.between(0, heap_words)
    };
    let roots = (0..random.below(3)).map(|_| wild_word(random)).collect();
    let mut marks = vec![0; heap_words.div_ceil(64)];
    let mark_anywhere = random.percent(20);
    for place in 0..heap_words {
        let may_mark = mark_anywhere || (place < top && headers.contains(&place));
        if may_mark && random.percent(50) {
            set_bit(&mut marks, place);
        }
    }
    Input {
        heap,
        top: top as u32,
        roots,
        marks,
        headers,
    }
}

/// The places a walk would come by that takes every word for a header.
fn steps(heap: &[u32]) -> Vec<usize> {
    let mut places = Vec::new();
    let mut place = 0;
    while place < heap.len() {
        places.push(place);
        place += 1 + heap[place] as usize / 4;
    }
    places
}

/// Headers of short objects and references to low places are often the same words.
pub fn wild_word(random: &mut Random) -> u32 {
    match random.below(10) {
        0..=2 => 0,
        3..=6 => random.pick(&[1, 4, 5, 8, 9, 12, 13]),
        7 => random.below(32) as u32,
        8 => u32::MAX,
        _ => random.word(),
    }
}
