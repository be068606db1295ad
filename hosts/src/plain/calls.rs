//! The store's calls, what they answer and the small record: all that the two machines, on words and on the
//! simple list, have in common.

use super::{Collected, Refusal};

/// The small record: the words in use, and how many calls were answered without refusal.
#[derive(Clone, Copy, Debug, PartialEq, Eq)]
pub struct Store {
    pub top: u32,
    pub calls: u64,
}

/// Every call but collect, with its slots, then numbers, as named on the right.
#[derive(Clone, Copy, Debug, PartialEq, Eq)]
pub enum Call {
    PutInt(u32, i32),          // slot, value
    PutNil(u32),               // slot
    Copy(u32, u32),            // source, target
    NewRecord(u32, u32),       // slot, k
    NewRaw(u32, u32),          // slot, k
    ReadField(u32, u32, u32),  // object, field, target
    WriteField(u32, u32, u32), // object, field, source
    ReadRaw(u32, u32),         // object, index
    WriteRaw(u32, u32, u32),   // object, index, word
    Ask(u32),                  // slot
    Same(u32, u32),            // first, second
}

/// What a collect call brings. The tables may hold anything.
#[derive(Clone, Debug, PartialEq, Eq)]
pub struct Brought {
    pub marks: Vec<u64>,
    pub order: Vec<u32>,
    pub live: Vec<u64>,
    pub offsets: Vec<u32>,
}

/// What an accepted call says; the caller never sees a place.
#[derive(Clone, Copy, Debug, PartialEq, Eq)]
pub enum Said {
    Done,
    Integer(i32),
    Nil,
    Record(u32),
    Raw(u32),
    Word(u32),
    Same(bool),
    Collected(Collected),
}

pub type Answer = Result<Said, Refusal>;

/// A refusal that reports a slot, a field or 0.
pub fn refused<T>(number: u64, place: u32) -> Result<T, Refusal> {
    Err(Refusal {
        number,
        place: u64::from(place),
    })
}
