//! The static library `hasurimba`, linked and behind safe wrappers, and a compactor to measure beside it.

pub mod compactor;
pub mod library;
