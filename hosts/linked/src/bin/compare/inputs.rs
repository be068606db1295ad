//! The check, the lookups and the collection, each on one input.

use crate::settle::settle;
use crate::tally::Tally;
use hosts::plain::{self, Refusal};
use hosts::random::collections::Collection;
use hosts::random::heaps::Input;
use hosts::random::tables::Question;
use linked::library::{self, Answer};

pub struct Inputs {
    check: Tally,
    old_to_new: Tally,
    new_to_old: Tally,
    collection: Tally,
}

impl Inputs {
    pub fn new() -> Inputs {
        Inputs {
            check: Tally::new("check", &["accepted"], &[1, 2, 3, 4, 5]),
            old_to_new: Tally::new("old to new", &["found", "dead"], &[1]),
            new_to_old: Tally::new("new to old", &["found", "none"], &[1]),
            collection: Tally::new("collection", &["accepted"], &[1, 2, 3, 4, 5, 6]),
        }
    }

    pub fn tallies(&self) -> impl Iterator<Item = &Tally> {
        [&self.check, &self.old_to_new, &self.new_to_old, &self.collection].into_iter()
    }

    pub fn compare_check(&mut self, number: u64, input: &Input) {
        let before = input.clone();
        let answer = library::check(&input.heap, input.top, &input.roots, &input.marks);
        let expected = plain::check(&before.heap, before.top, &before.roots, &before.marks);
        settle(
            || format!("check, input {number}: {before:?}"),
            (&expected, &before),
            (&answer, input),
        );
        self.check.add(&expected, |_| "accepted");
    }

    pub fn compare_lookups(&mut self, number: u64, question: &Question) {
        let to_new: Lookup = (plain::old_to_new, library::old_to_new);
        let expected = compare_lookup(to_new, "old to new", number, question);
        self.old_to_new.add(&expected, |found| match found {
            Some(_) => "found",
            None => "dead",
        });
        let to_old: Lookup = (plain::new_to_old, library::new_to_old);
        let expected = compare_lookup(to_old, "new to old", number, question);
        self.new_to_old.add(&expected, |found| match found {
            Some(_) => "found",
            None => "none",
        });
    }

    /// Each runs on its own copy, and every buffer is compared afterwards.
    pub fn compare_collection(&mut self, number: u64, before: &Collection) {
        let mut left = before.clone();
        let answer = library::collect(
            &mut left.heap,
            left.top,
            &mut left.roots,
            &mut left.marks,
            &left.order,
            &mut left.live,
            &mut left.offsets,
        );
        let mut due = before.clone();
        let expected = due.collect();
        settle(
            || format!("collection, input {number}: {before:?}"),
            (&expected, &due),
            (&answer, &left),
        );
        self.collection.add(&expected, |_| "accepted");
    }
}

type Found = Result<Option<u64>, Refusal>;

/// A lookup by the reading and by the library.
type Lookup = (
    fn(&[u64], &[u32], u32) -> Found,
    fn(&[u64], &[u32], u32) -> Answer,
);

fn compare_lookup((read, call): Lookup, name: &str, number: u64, question: &Question) -> Found {
    let before = question.clone();
    let answer = call(&question.live, &question.offsets, question.place);
    let expected = read(&before.live, &before.offsets, before.place);
    settle(
        || format!("{name}, input {number}: {before:?}"),
        (&expected, &before),
        (&answer, question),
    );
    expected
}
