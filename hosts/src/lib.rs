//! An independent reading of what the library promises, makers of inputs, and cases written from both.

pub mod cases;
mod examples;
pub mod listing;
pub mod plain;
pub mod random;
