//! The statement read place by place, as simply as possible and apart from the library.
//! Nothing here is meant to be fast: it is what the library's answers are held against.

mod calls;
mod collect;
pub mod image;
mod list;
mod lookup;
mod store;
#[cfg(test)]
mod tests;

pub use calls::{Answer, Brought, Call, Said, Store};
pub use collect::{collect, Collected};
pub use list::List;
pub use lookup::{live_table, new_to_old, offset_table, old_to_new};
pub use store::{answer, collect_call};

pub const MOST_HEAP_WORDS: usize = 8192;
pub const MOST_ROOTS: usize = 64;
pub const MOST_BLOCKS: usize = 128;
pub const BLOCK_WORDS: usize = 64;
pub const NIL: u32 = 4_294_967_295;

/// A refusal's number and the place (or slot) it reports.
#[derive(Clone, Copy, Debug, PartialEq, Eq)]
pub struct Refusal {
    pub number: u64,
    pub place: u64,
}

/// What an accepted check answers: the live words L and the number of marked objects.
#[derive(Clone, Copy, Debug, PartialEq, Eq)]
pub struct Counts {
    pub live: u64,
    pub objects: u64,
}

#[derive(Clone, Copy, Debug, PartialEq, Eq)]
pub enum Kind {
    Record,
    Raw,
}

/// An object: the place of its header, its kind and how many payload words follow the header.
#[derive(Clone, Copy, Debug, PartialEq, Eq)]
pub struct Object {
    pub place: usize,
    pub kind: Kind,
    pub payload: usize,
}

/// The place a word refers to, or nothing where it is a small integer or nil.
pub fn reference(word: u32) -> Option<u32> {
    if word.is_multiple_of(2) || word == NIL {
        None
    } else {
        Some((word - 1) / 2)
    }
}

/// Kind and payload words of a legal header, or nothing where it is illegal.
pub fn header(word: u32) -> Option<(Kind, usize)> {
    if word >= 4096 {
        return None;
    }
    let payload = (word / 4) as usize;
    match word % 4 {
        0 => Some((Kind::Record, payload)),
        1 => Some((Kind::Raw, payload)),
        _ => None,
    }
}

/// Whether a bitmap's bit for a place is set; a place past the bitmap has no bit, so no.
pub fn bit(bitmap: &[u64], place: u64) -> bool {
    let block = place / 64;
    if block >= bitmap.len() as u64 {
        return false;
    }
    (bitmap[block as usize] >> (place % 64)) & 1 == 1
}

/// How many entries the tables of a heap have.
pub fn blocks(heap_words: usize) -> usize {
    heap_words.div_ceil(BLOCK_WORDS)
}

/// The objects from place 0 to the top, or the first bad header's place.
pub fn walk(heap: &[u32], top: usize) -> Result<Vec<Object>, usize> {
    let mut objects = Vec::new();
    let mut place = 0;
    while place < top {
        let Some((kind, payload)) = header(heap[place]) else {
            return Err(place);
        };
        if place + 1 + payload > top {
            return Err(place);
        }
        objects.push(Object { place, kind, payload });
        place = place + 1 + payload;
    }
    Ok(objects)
}

/// Refusals 1 to 5 in their order, else the counts.
pub fn check(heap: &[u32], top: u32, roots: &[u32], marks: &[u64]) -> Result<Counts, Refusal> {
    if sizes_are_wrong(heap, top, roots, marks) {
        return Err(Refusal { number: 1, place: 0 });
    }
    let objects = walk(heap, top as usize).map_err(|place| Refusal {
        number: 2,
        place: place as u64,
    })?;
    if let Some(place) = first_stray_mark(&objects, marks) {
        return Err(Refusal { number: 3, place });
    }
    if let Some(slot) = roots.iter().position(|&word| is_dangling(word, marks)) {
        return Err(Refusal {
            number: 4,
            place: slot as u64,
        });
    }
    if let Some(place) = first_dangling_field(heap, &objects, marks) {
        return Err(Refusal { number: 5, place });
    }
    Ok(count_marked(&objects, marks))
}

fn sizes_are_wrong(heap: &[u32], top: u32, roots: &[u32], marks: &[u64]) -> bool {
    heap.len() > MOST_HEAP_WORDS
        || top as usize > heap.len()
        || roots.len() > MOST_ROOTS
        || marks.len() != blocks(heap.len())
}

/// The lowest place with a mark and no header, also among the bits past the heap's length.
fn first_stray_mark(objects: &[Object], marks: &[u64]) -> Option<u64> {
    let places = marks.len() * BLOCK_WORDS;
    let mut is_header = vec![false; places];
    for object in objects {
        is_header[object.place] = true;
    }
    (0..places)
        .find(|&place| bit(marks, place as u64) && !is_header[place])
        .map(|place| place as u64)
}

/// Whether a word is a reference to a place without a mark.
fn is_dangling(word: u32, marks: &[u64]) -> bool {
    match reference(word) {
        Some(place) => !bit(marks, u64::from(place)),
        None => false,
    }
}

fn first_dangling_field(heap: &[u32], objects: &[Object], marks: &[u64]) -> Option<u64> {
    for object in objects {
        if object.kind == Kind::Raw || !bit(marks, object.place as u64) {
            continue;
        }
        let mut payload = object.place + 1..object.place + 1 + object.payload;
        if let Some(place) = payload.find(|&place| is_dangling(heap[place], marks)) {
            return Some(place as u64);
        }
    }
    None
}

fn count_marked(objects: &[Object], marks: &[u64]) -> Counts {
    let mut counts = Counts { live: 0, objects: 0 };
    for object in objects {
        if bit(marks, object.place as u64) {
            counts.live += 1 + object.payload as u64;
            counts.objects += 1;
        }
    }
    counts
}
