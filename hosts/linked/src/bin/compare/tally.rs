//! How often each answer was met.

use hosts::plain::Refusal;
use std::fmt;

/// The answers of one function, each with how often it was met: its ways to accept by name, its refusals by
/// number in the order in which it tries them.
pub struct Tally {
    function: &'static str,
    accepted: Vec<(&'static str, u64)>,
    refused: Vec<(u64, u64)>,
}

impl Tally {
    pub fn new(function: &'static str, accepted: &[&'static str], refused: &[u64]) -> Tally {
        Tally {
            function,
            accepted: accepted.iter().map(|&name| (name, 0)).collect(),
            refused: refused.iter().map(|&number| (number, 0)).collect(),
        }
    }

    /// An answer that the header does not name for the function would be a mistake of the reading.
    pub fn add<T>(&mut self, result: &Result<T, Refusal>, name: fn(&T) -> &'static str) {
        let count = match result {
            Ok(value) => count_of(&mut self.accepted, name(value)),
            Err(refusal) => count_of(&mut self.refused, refusal.number),
        };
        *count.unwrap_or_else(|| panic!("{} has no such answer", self.function)) += 1;
    }
}

fn count_of<K: PartialEq>(counts: &mut [(K, u64)], wanted: K) -> Option<&mut u64> {
    let entry = counts.iter_mut().find(|(key, _)| *key == wanted)?;
    Some(&mut entry.1)
}

impl fmt::Display for Tally {
    fn fmt(&self, line: &mut fmt::Formatter) -> fmt::Result {
        write!(line, "{} ", self.function)?;
        for (name, count) in &self.accepted {
            write!(line, "{name} {count}, ")?;
        }
        let refused = self
            .refused
            .iter()
            .map(|(number, count)| format!("{number}: {count}"));
        write!(line, "refused by {}", refused.collect::<Vec<_>>().join(", "))
    }
}
