//! Cases for the program `vectors`: the bytes that it reads, and the line that it has to write for them.

mod calls;
mod collections;
mod digest;
pub mod edges;
pub mod images;
#[cfg(test)]
mod tests;

use crate::plain::{self, Refusal};
use crate::random::calls::any_sequence;
use crate::random::collections::any_collection;
use crate::random::damage::any_input;
use crate::random::heaps::Input;
use crate::random::tables::{any_question, Question};
use crate::random::Random;
pub use calls::calls;
pub use collections::collection;
use digest::Digest;

/// What the program's buffers hold; it skips a case that needs more.
const HEAP_ROOM: usize = 8256;
const ROOT_ROOM: usize = 72;
const TABLE_ROOM: usize = 144;

const READ: u32 = 0;
const CHECK: u32 = 1;
const LOOKUPS: u32 = 2;
const COLLECTION: u32 = 3;
const CALLS: u32 = 4;

/// The longest case that the program reads; after a longer one it ends.
const LONGEST_CASE: usize = 65536;

/// A case without the length in front, its line, and the sort of answer, by which cases are counted. Of a call
/// sequence each answer is counted too.
#[derive(Clone, Debug)]
pub struct Case {
    pub bytes: Vec<u8>,
    pub line: String,
    pub sort: String,
    pub answers: Vec<String>,
}

impl Case {
    fn of(bytes: Vec<u8>, line: String, sort: impl Into<String>) -> Case {
        Case {
            bytes,
            line,
            sort: sort.into(),
            answers: Vec::new(),
        }
    }
}

/// Any case. Of a kind, the longer a case, the fewer are kept, so that many cases make no large file; the
/// longest heaps are left to the edge cases.
pub fn any_case(random: &mut Random) -> Case {
    const KEPT_BYTES: usize = 96;
    const MOST_BYTES: usize = 3584;
    let make: fn(&mut Random) -> Case = match random.below(100) {
        0..=21 => |random| check(&any_input(random)),
        22..=53 => |random| lookups(&any_question(random)),
        54..=56 => any_read,
        57..=88 => any_collection_case,
        _ => short_calls_case,
    };
    loop {
        let case = make(random);
        let bytes = case.bytes.len();
        if bytes <= MOST_BYTES && random.below(bytes) < KEPT_BYTES {
            return case;
        }
    }
}

/// A collection of any length.
pub fn any_collection_case(random: &mut Random) -> Case {
    collection(&any_collection(random))
}

fn short_calls_case(random: &mut Random) -> Case {
    let steps = random.between(5, 25);
    calls(&any_sequence(random, steps))
}

/// A hundred calls, from the empty store or from any state.
pub fn any_calls_case(random: &mut Random) -> Case {
    loop {
        let case = calls(&any_sequence(random, 100));
        if case.bytes.len() <= LONGEST_CASE {
            return case;
        }
    }
}

/// Words of both sizes that are only read: the line is their digest.
pub fn read(words: &[u32], pairs: &[u64]) -> Case {
    let mut case = vec![READ, words.len() as u32, pairs.len() as u32];
    case.extend(words);
    case.extend(halves(pairs));
    if words.len() > HEAP_ROOM || pairs.len() > TABLE_ROOM {
        return skipped(bytes(&case));
    }
    let mut digest = Digest::start();
    digest.add_words(words);
    digest.add_pairs(pairs);
    Case::of(bytes(&case), format!("read {:016x}", digest.value()), "read")
}

fn any_read(random: &mut Random) -> Case {
    let words: Vec<u32> = (0..random.below(40)).map(|_| random.word()).collect();
    let pairs: Vec<u64> = (0..random.below(20)).map(|_| random.bits()).collect();
    read(&words, &pairs)
}

pub fn check(input: &Input) -> Case {
    let Input {
        heap, roots, marks, ..
    } = input;
    let mut case = vec![CHECK, input.top];
    case.extend([heap.len() as u32, roots.len() as u32, marks.len() as u32]);
    case.extend(heap);
    case.extend(roots);
    case.extend(halves(marks));
    if heap.len() > HEAP_ROOM || roots.len() > ROOT_ROOM || marks.len() > TABLE_ROOM {
        return skipped(bytes(&case));
    }
    let (line, sort) = match plain::check(heap, input.top, roots, marks) {
        Ok(counts) => (
            format!("check {} {}", counts.live, counts.objects),
            "check accepted".to_string(),
        ),
        Err(Refusal { number, place }) => (
            format!("check refused {number} at {place}"),
            format!("check refused {number}"),
        ),
    };
    Case::of(bytes(&case), line, sort)
}

/// Both lookups, of the same place in the same tables.
pub fn lookups(question: &Question) -> Case {
    let Question { live, offsets, place } = question;
    let mut case = vec![LOOKUPS, live.len() as u32, offsets.len() as u32, *place];
    case.extend(halves(live));
    case.extend(offsets);
    if live.len() > TABLE_ROOM || offsets.len() > TABLE_ROOM {
        return skipped(bytes(&case));
    }
    let (new_place, new_sort) = found(plain::old_to_new(live, offsets, *place));
    let (old_place, old_sort) = found(plain::new_to_old(live, offsets, *place));
    Case::of(
        bytes(&case),
        format!("lookups {new_place} {old_place}"),
        format!("lookups {new_sort}, {old_sort}"),
    )
}

/// A lookup's answer as the line has it, and its sort.
fn found(answer: Result<Option<u64>, Refusal>) -> (String, &'static str) {
    match answer {
        Ok(Some(place)) => (place.to_string(), "found"),
        Ok(None) => ("none".to_string(), "none"),
        Err(_) => ("refused".to_string(), "refused"),
    }
}

/// A case of a wrong kind or size.
pub fn skipped(bytes: Vec<u8>) -> Case {
    Case::of(bytes, "skipped".to_string(), "skipped")
}

/// Words as the program reads them.
pub fn bytes(words: &[u32]) -> Vec<u8> {
    words.iter().flat_map(|word| word.to_le_bytes()).collect()
}

/// Words of 64 bits as two each, the low half first.
fn halves(pairs: &[u64]) -> impl Iterator<Item = u32> + '_ {
    pairs.iter().flat_map(|&pair| [pair as u32, (pair >> 32) as u32])
}
