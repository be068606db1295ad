//! Collecting on the simple list: the unmarked objects are dropped, and nothing is fixed or moved. What the
//! caller brings is about places, so that each object's place is counted up for the judging.

use super::{List, Payload, Thing, Value};
use crate::plain::calls::{refused, Answer, Brought, Said};
use crate::plain::{Collected, Refusal};
use std::collections::BTreeSet;

const BLOCK: usize = 64;
const MOST_STEPS: usize = 128;

/// What a collection would keep, once the marks are accepted.
struct Kept {
    births: BTreeSet<u64>,
    /// Where the words to keep stand, in order.
    places: Vec<usize>,
}

impl List {
    pub fn collect(&mut self, brought: &Brought) -> Answer {
        self.judge_lengths(brought)?;
        let marked = marked_places(&brought.marks);
        let kept = self.judge_marks(&marked)?;
        let targets = kept.places.len().div_ceil(BLOCK);
        judge_order(&brought.order, &kept.places, targets)?;
        self.words_dropped += self.words_in_use() - kept.places.len();
        self.things.retain(|thing| kept.births.contains(&thing.birth));
        self.calls = self.calls.wrapping_add(1);
        Ok(Said::Collected(Collected {
            live: kept.places.len() as u64,
            objects: kept.births.len() as u64,
            blocks: targets as u64,
        }))
    }

    /// Refusal 1; of the tables only the lengths matter here.
    fn judge_lengths(&self, brought: &Brought) -> Result<(), Refusal> {
        let entries = self.room.div_ceil(BLOCK);
        let tables = [brought.marks.len(), brought.live.len(), brought.offsets.len()];
        if self.is_too_large() || tables != [entries; 3] || brought.order.len() > MOST_STEPS {
            return refused(1, 0);
        }
        Ok(())
    }

    /// Each object after its place, the words of all objects before it.
    fn placed(&self) -> Vec<(usize, &Thing)> {
        let mut place = 0;
        let mut placed = Vec::new();
        for thing in &self.things {
            placed.push((place, thing));
            place += thing.words();
        }
        placed
    }

    /// Refusals 3, 4 and 5. There is no 2: every object of the list is one.
    fn judge_marks(&self, marked: &BTreeSet<usize>) -> Result<Kept, Refusal> {
        let placed = self.placed();
        let all: BTreeSet<usize> = placed.iter().map(|(place, _)| *place).collect();
        if let Some(stray) = marked.difference(&all).next() {
            return refused(3, *stray as u32);
        }
        let is_kept = |(place, _): &&(usize, &Thing)| marked.contains(place);
        let births = placed.iter().filter(is_kept).map(|(_, thing)| thing.birth);
        let births: BTreeSet<u64> = births.collect();
        if let Some(slot) = self.slots.iter().position(|value| is_lost(value, &births)) {
            return refused(4, slot as u32);
        }
        let mut places = Vec::new();
        for (place, thing) in placed.iter().filter(is_kept) {
            if let Payload::Record(fields) = &thing.payload {
                if let Some(field) = fields.iter().position(|value| is_lost(value, &births)) {
                    return refused(5, (place + 1 + field) as u32);
                }
            }
            places.extend(*place..place + thing.words());
        }
        Ok(Kept { births, places })
    }
}

fn is_lost(value: &Value, births: &BTreeSet<u64>) -> bool {
    matches!(value, Value::Object(birth) if !births.contains(birth))
}

fn marked_places(marks: &[u64]) -> BTreeSet<usize> {
    let places = 0..BLOCK * marks.len();
    places
        .filter(|place| marks[place / BLOCK] & (1 << (place % BLOCK)) != 0)
        .collect()
}

/// Refusal 6: word number n of those kept goes to block n / 64, and the block that it stands in waits for that.
fn judge_order(order: &[u32], places: &[usize], targets: usize) -> Result<(), Refusal> {
    let mut waits = vec![BTreeSet::new(); targets];
    for (number, place) in places.iter().enumerate() {
        let (from, to) = (place / BLOCK, number / BLOCK);
        if from < targets && from != to {
            waits[from].insert(to);
        }
    }
    let mut done = BTreeSet::new();
    for (position, &step) in order.iter().enumerate() {
        let step = step as usize;
        if step >= targets || !waits[step].is_subset(&done) || !done.insert(step) {
            return refused(6, position as u32);
        }
    }
    if order.len() != targets {
        return refused(6, order.len().min(targets) as u32);
    }
    Ok(())
}
