//! The static library's functions as `include/hasurimba.h` declares them, behind safe wrappers.

mod collector;
mod functions;
mod store;

pub use collector::{check, collect, new_to_old, old_to_new};
pub use store::Memory;

use hosts::plain::{Collected, Counts, Refusal, Said};

/// What `out` holds before every call: four words that no call answers, so that every write to it is seen.
const UNTOUCHED: [u64; 4] = [
    0xA5A5_0000_5A5A_0001,
    0xA5A5_0000_5A5A_0002,
    0xA5A5_0000_5A5A_0003,
    0xA5A5_0000_5A5A_0004,
];

/// All that a call says: the number it returns, and `out` after it.
#[derive(Clone, Copy, Debug, PartialEq, Eq)]
pub struct Answer {
    pub code: u64,
    pub out: [u64; 4],
}

impl Answer {
    /// What the library has to say where the plain reading says this. Words of `out` without a value stay.
    pub fn due<T: Values>(result: &Result<T, Refusal>) -> Answer {
        let mut out = UNTOUCHED;
        let code = match result {
            Ok(said) => {
                let values = said.values();
                out[..values.len()].copy_from_slice(&values);
                0
            }
            Err(refusal) => refusal.number + 256 * refusal.place,
        };
        Answer { code, out }
    }
}

/// The values that an accepted call puts into `out`, from its first word on.
pub trait Values {
    fn values(&self) -> Vec<u64>;
}

impl Values for Counts {
    fn values(&self) -> Vec<u64> {
        vec![self.live, self.objects]
    }
}

impl Values for Collected {
    fn values(&self) -> Vec<u64> {
        vec![self.live, self.objects, self.blocks]
    }
}

impl Values for Option<u64> {
    fn values(&self) -> Vec<u64> {
        match *self {
            Some(place) => vec![1, place],
            None => vec![0],
        }
    }
}

impl Values for Said {
    fn values(&self) -> Vec<u64> {
        match *self {
            Said::Done => vec![],
            Said::Integer(value) => vec![0, i64::from(value) as u64],
            Said::Nil => vec![1],
            Said::Record(count) => vec![2, u64::from(count)],
            Said::Raw(count) => vec![3, u64::from(count)],
            Said::Word(word) => vec![u64::from(word)],
            Said::Same(same) => vec![u64::from(same)],
            Said::Collected(collected) => collected.values(),
        }
    }
}

/// A call that has `out`, handed to it as a pointer to its four words.
fn with_out(call: impl FnOnce(*mut u64) -> u64) -> Answer {
    let mut out = UNTOUCHED;
    let code = call(out.as_mut_ptr());
    Answer { code, out }
}

/// A call that has no `out`.
fn without_out(code: u64) -> Answer {
    Answer { code, out: UNTOUCHED }
}
