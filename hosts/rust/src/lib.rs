//! A proved object store of 32-bit words and the compactor that slides its live objects together.
//!
//! A [`Heap`] holds records, whose fields are values, and raw objects, whose words are never interpreted. A value
//! is a small integer, nil or a reference, and no call ever takes one sort for another. Values go through
//! [`Slot`]s; a reference never leaves the heap as a number. Every call returns, and a call that is refused changes
//! nothing and says why by a [`Refusal`].
//!
//! ```
//! use hasurimba::{Heap, Slot, Value};
//!
//! const BED: Slot = Slot(0);
//! const MOISTURE: Slot = Slot(1);
//!
//! let mut heap = Heap::new(256, 2)?;
//! heap.put_integer(MOISTURE, -7)?;
//! heap.new_record(BED, 3)?;
//! heap.write_field(BED, 0, MOISTURE)?;
//!
//! heap.collect_garbage()?;
//!
//! heap.read_field(BED, 0, MOISTURE)?;
//! assert_eq!(heap.ask(MOISTURE)?, Value::Integer(-7));
//! assert_eq!(heap.ask(BED)?, Value::Record(3));
//! # Ok::<(), hasurimba::Refusal>(())
//! ```

#![deny(unsafe_code)]
#![warn(missing_docs)]

mod calls;
mod collection;
mod heap;
#[allow(unsafe_code)]
mod library;
mod marking;
mod refusal;

pub use collection::{Collected, Counts};
pub use heap::Heap;
pub use refusal::Refusal;

/// The least small integer.
pub const LEAST: i32 = -1_073_741_824;

/// The greatest small integer.
pub const GREATEST: i32 = 1_073_741_823;

/// A root slot, by its number: what a call takes its values from and puts them into.
#[derive(Clone, Copy, Debug, PartialEq, Eq, Hash)]
pub struct Slot(pub u32);

/// A word's number in the heap. The lookups and refusals speak of places; values never show one.
#[derive(Clone, Copy, Debug, PartialEq, Eq, PartialOrd, Ord, Hash)]
pub struct Place(pub u32);

/// What a slot holds.
#[derive(Clone, Copy, Debug, PartialEq, Eq)]
pub enum Value {
    /// A small integer, from [`LEAST`] to [`GREATEST`].
    Integer(i32),
    /// No object.
    Nil,
    /// A reference to a record with that many fields.
    Record(u32),
    /// A reference to a raw object of that many words.
    Raw(u32),
}

/// The example of the README, run as a test.
#[cfg(doctest)]
#[doc = include_str!("../README.md")]
struct Readme;
