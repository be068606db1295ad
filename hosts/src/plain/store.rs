//! The store calls over words, as the statement's table has them: refusals in their order, then what changes.

#[cfg(test)]
mod tests;

use super::calls::{refused, Answer, Brought, Call, Said, Store};
use super::{collect, header, reference, Kind, Object, Refusal, MOST_HEAP_WORDS, MOST_ROOTS, NIL};

const MOST_PAYLOAD_WORDS: u32 = 1023;
const LEAST_INTEGER: i32 = -1_073_741_824;
const GREATEST_INTEGER: i32 = 1_073_741_823;

/// Any call but collect. A refusal leaves all as found, the record too.
pub fn answer(store: Store, heap: &mut [u32], roots: &mut [u32], call: Call) -> (Store, Answer) {
    let mut words = Words {
        heap,
        roots,
        top: store.top,
    };
    let answer = words.answer(call);
    let top = words.top;
    (record_after(store, top, &answer), answer)
}

/// The collect call: the bare collection at the record's top, which then becomes the live words.
pub fn collect_call(
    store: Store,
    heap: &mut [u32],
    roots: &mut [u32],
    brought: &mut Brought,
) -> (Store, Answer) {
    let Brought {
        marks,
        order,
        live,
        offsets,
    } = brought;
    let collected = collect(heap, store.top, roots, marks, order, live, offsets);
    let top = collected.map_or(store.top, |collected| collected.live as u32);
    let answer = collected.map(Said::Collected);
    (record_after(store, top, &answer), answer)
}

/// Only accepted calls count; the count wraps.
fn record_after(store: Store, top: u32, answer: &Answer) -> Store {
    match answer {
        Ok(_) => Store {
            top,
            calls: store.calls.wrapping_add(1),
        },
        Err(_) => store,
    }
}

/// What a slot holds, where that is not refused by 13.
enum Held {
    Integer(i32),
    Nil,
    Object(Object),
}

struct Words<'a> {
    heap: &'a mut [u32],
    roots: &'a mut [u32],
    top: u32,
}

impl Words<'_> {
    fn answer(&mut self, call: Call) -> Answer {
        self.judge_sizes()?;
        match call {
            Call::PutInt(slot, value) => self.put_int(slot, value),
            Call::PutNil(slot) => self.put(slot, NIL),
            Call::Copy(source, target) => self.put_from(source, target),
            Call::NewRecord(slot, k) => self.new_object(slot, k, 0, NIL),
            Call::NewRaw(slot, k) => self.new_object(slot, k, 1, 0),
            Call::ReadField(object, field, target) => self.read_field(object, field, target),
            Call::WriteField(object, field, source) => self.write_field(object, field, source),
            Call::ReadRaw(object, index) => self.read_raw(object, index),
            Call::WriteRaw(object, index, word) => self.write_raw(object, index, word),
            Call::Ask(slot) => self.ask(slot),
            Call::Same(first, second) => self.same(first, second),
        }
    }

    /// Refusal 1, of what every call takes.
    fn judge_sizes(&self) -> Result<(), Refusal> {
        let wrong = self.heap.len() > MOST_HEAP_WORDS
            || self.top as usize > self.heap.len()
            || self.roots.len() > MOST_ROOTS;
        if wrong {
            return refused(1, 0);
        }
        Ok(())
    }

    /// Refusal 7.
    fn slot(&self, slot: u32) -> Result<usize, Refusal> {
        if slot as usize >= self.roots.len() {
            return refused(7, slot);
        }
        Ok(slot as usize)
    }

    /// Refusal 13: a reference at or above the top, to an illegal header or to an object past the top.
    fn held(&self, slot: u32) -> Result<Held, Refusal> {
        let word = self.roots[self.slot(slot)?];
        let Some(place) = reference(word) else {
            return Ok(if word == NIL {
                Held::Nil
            } else {
                Held::Integer(integer_of(word))
            });
        };
        if place >= self.top {
            return refused(13, slot);
        }
        let place = place as usize;
        match header(self.heap[place]) {
            Some((kind, payload)) if place + 1 + payload <= self.top as usize => {
                Ok(Held::Object(Object { place, kind, payload }))
            }
            _ => refused(13, slot),
        }
    }

    /// Where a field or raw word stands: refusals 13, 8 and 9.
    fn payload_word(&self, slot: u32, wanted: Kind, number: u32) -> Result<usize, Refusal> {
        match self.held(slot)? {
            Held::Object(object) if object.kind == wanted => {
                if number as usize >= object.payload {
                    return refused(9, number);
                }
                Ok(object.place + 1 + number as usize)
            }
            _ => refused(8, slot),
        }
    }

    fn put(&mut self, slot: u32, word: u32) -> Answer {
        let slot = self.slot(slot)?;
        self.roots[slot] = word;
        Ok(Said::Done)
    }

    fn put_int(&mut self, slot: u32, value: i32) -> Answer {
        self.slot(slot)?;
        if !(LEAST_INTEGER..=GREATEST_INTEGER).contains(&value) {
            return refused(10, 0);
        }
        self.put(slot, word_of(value))
    }

    fn put_from(&mut self, source: u32, target: u32) -> Answer {
        let source = self.slot(source)?;
        self.put(target, self.roots[source])
    }

    fn new_object(&mut self, slot: u32, k: u32, kind: u32, word: u32) -> Answer {
        self.slot(slot)?;
        if k > MOST_PAYLOAD_WORDS {
            return refused(12, 0);
        }
        let start = self.top as usize;
        let end = start + 1 + k as usize;
        if end > self.heap.len() {
            return refused(11, 0);
        }
        self.heap[start] = 4 * k + kind;
        self.heap[start + 1..end].fill(word);
        self.top = end as u32;
        self.put(slot, 2 * start as u32 + 1)
    }

    fn read_field(&mut self, object: u32, field: u32, target: u32) -> Answer {
        self.slot(object)?;
        self.slot(target)?;
        let place = self.payload_word(object, Kind::Record, field)?;
        self.put(target, self.heap[place])
    }

    fn write_field(&mut self, object: u32, field: u32, source: u32) -> Answer {
        self.slot(object)?;
        let source = self.slot(source)?;
        let place = self.payload_word(object, Kind::Record, field)?;
        self.heap[place] = self.roots[source];
        Ok(Said::Done)
    }

    fn read_raw(&self, object: u32, index: u32) -> Answer {
        let place = self.payload_word(object, Kind::Raw, index)?;
        Ok(Said::Word(self.heap[place]))
    }

    fn write_raw(&mut self, object: u32, index: u32, word: u32) -> Answer {
        let place = self.payload_word(object, Kind::Raw, index)?;
        self.heap[place] = word;
        Ok(Said::Done)
    }

    fn ask(&self, slot: u32) -> Answer {
        Ok(match self.held(slot)? {
            Held::Integer(value) => Said::Integer(value),
            Held::Nil => Said::Nil,
            Held::Object(object) => match object.kind {
                Kind::Record => Said::Record(object.payload as u32),
                Kind::Raw => Said::Raw(object.payload as u32),
            },
        })
    }

    fn same(&self, first: u32, second: u32) -> Answer {
        let first = self.slot(first)?;
        let second = self.slot(second)?;
        Ok(Said::Same(self.roots[first] == self.roots[second]))
    }
}

/// An even word's value: its half, less 2^31 from 2^31 on.
fn integer_of(word: u32) -> i32 {
    let half = i64::from(word / 2);
    let value = if word < 1 << 31 { half } else { half - (1 << 31) };
    value as i32
}

/// The even word that reads as a value in range.
fn word_of(value: i32) -> u32 {
    let value = i64::from(value);
    let half = if value < 0 { value + (1 << 31) } else { value };
    (2 * half) as u32
}
