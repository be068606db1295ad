//! The simple list: objects in order of birth, each a thing of its own, and no words, places or headers until
//! a collection asks for them. It knows nothing of the machine on words.

mod collect;
#[cfg(test)]
mod tests;

use super::calls::{refused, Answer, Call, Said, Store};
use super::{Refusal, MOST_HEAP_WORDS, MOST_ROOTS};

/// An object is told from every other by its number of birth, which never changes.
#[derive(Clone, Copy, Debug, PartialEq, Eq)]
enum Value {
    Integer(i32),
    Nil,
    Object(u64),
}

#[derive(Clone, Debug, PartialEq, Eq)]
enum Payload {
    Record(Vec<Value>),
    Raw(Vec<u32>),
}

#[derive(Clone, Debug, PartialEq, Eq)]
struct Thing {
    birth: u64,
    payload: Payload,
}

impl Thing {
    /// With its header.
    fn words(&self) -> usize {
        match &self.payload {
            Payload::Record(fields) => 1 + fields.len(),
            Payload::Raw(words) => 1 + words.len(),
        }
    }
}

/// The whole machine; `room` is the heap's length.
#[derive(Clone, Debug, PartialEq, Eq)]
pub struct List {
    room: usize,
    slots: Vec<Value>,
    things: Vec<Thing>,
    births: u64,
    words_born: usize,
    words_dropped: usize,
    calls: u64,
}

impl List {
    /// No objects, and nil in every slot.
    pub fn empty(room: usize, slots: usize) -> List {
        List {
            room,
            slots: vec![Value::Nil; slots],
            things: Vec::new(),
            births: 0,
            words_born: 0,
            words_dropped: 0,
            calls: 0,
        }
    }

    pub fn record(&self) -> Store {
        Store {
            top: self.words_in_use() as u32,
            calls: self.calls,
        }
    }

    fn words_in_use(&self) -> usize {
        self.words_born - self.words_dropped
    }

    /// Any call but collect.
    pub fn answer(&mut self, call: Call) -> Answer {
        if self.is_too_large() {
            return refused(1, 0);
        }
        let said = match call {
            Call::PutInt(slot, value) => self.put_int(slot, value),
            Call::PutNil(slot) => self.put(slot, Value::Nil),
            Call::Copy(source, target) => self.value(source).and_then(|value| self.put(target, value)),
            Call::NewRecord(slot, k) => self.give_birth(slot, k, |k| Payload::Record(vec![Value::Nil; k])),
            Call::NewRaw(slot, k) => self.give_birth(slot, k, |k| Payload::Raw(vec![0; k])),
            Call::ReadField(object, field, target) => self.read_field(object, field, target),
            Call::WriteField(object, field, source) => self.write_field(object, field, source),
            Call::ReadRaw(object, index) => self.raw(object, index).map(|word| Said::Word(*word)),
            Call::WriteRaw(object, index, word) => self.write_raw(object, index, word),
            Call::Ask(slot) => self.ask(slot),
            Call::Same(first, second) => self.same(first, second),
        }?;
        self.calls = self.calls.wrapping_add(1);
        Ok(said)
    }

    fn is_too_large(&self) -> bool {
        self.room > MOST_HEAP_WORDS || self.slots.len() > MOST_ROOTS
    }

    fn value(&self, slot: u32) -> Result<Value, Refusal> {
        match self.slots.get(slot as usize) {
            Some(value) => Ok(*value),
            None => refused(7, slot),
        }
    }

    fn put(&mut self, slot: u32, value: Value) -> Answer {
        self.value(slot)?;
        self.slots[slot as usize] = value;
        Ok(Said::Done)
    }

    fn put_int(&mut self, slot: u32, value: i32) -> Answer {
        self.value(slot)?;
        let limit = 1 << 30;
        if value < -limit || value >= limit {
            return refused(10, 0);
        }
        self.put(slot, Value::Integer(value))
    }

    fn give_birth(&mut self, slot: u32, k: u32, payload: fn(usize) -> Payload) -> Answer {
        self.value(slot)?;
        if k >= 1024 {
            return refused(12, 0);
        }
        let k = k as usize;
        if self.words_in_use() + 1 + k > self.room {
            return refused(11, 0);
        }
        let birth = self.births;
        self.births += 1;
        self.words_born += 1 + k;
        self.things.push(Thing {
            birth,
            payload: payload(k),
        });
        self.put(slot, Value::Object(birth))
    }

    /// The object in a slot. Only what is in the list is ever referred to, so that 13 is never said.
    fn payload(&mut self, slot: u32) -> Result<&mut Payload, Refusal> {
        let Value::Object(birth) = self.value(slot)? else {
            return refused(8, slot);
        };
        let mut things = self.things.iter_mut();
        let thing = things.find(|thing| thing.birth == birth);
        Ok(&mut thing.expect("an object of the list").payload)
    }

    fn field(&mut self, slot: u32, field: u32) -> Result<&mut Value, Refusal> {
        match self.payload(slot)? {
            Payload::Record(fields) => fields.get_mut(field as usize).map_or(refused(9, field), Ok),
            Payload::Raw(_) => refused(8, slot),
        }
    }

    fn raw(&mut self, slot: u32, index: u32) -> Result<&mut u32, Refusal> {
        match self.payload(slot)? {
            Payload::Raw(words) => words.get_mut(index as usize).map_or(refused(9, index), Ok),
            Payload::Record(_) => refused(8, slot),
        }
    }

    fn read_field(&mut self, object: u32, field: u32, target: u32) -> Answer {
        self.value(object)?;
        self.value(target)?;
        let value = *self.field(object, field)?;
        self.put(target, value)
    }

    fn write_field(&mut self, object: u32, field: u32, source: u32) -> Answer {
        self.value(object)?;
        let value = self.value(source)?;
        *self.field(object, field)? = value;
        Ok(Said::Done)
    }

    fn write_raw(&mut self, object: u32, index: u32, word: u32) -> Answer {
        *self.raw(object, index)? = word;
        Ok(Said::Done)
    }

    fn ask(&mut self, slot: u32) -> Answer {
        match self.value(slot)? {
            Value::Integer(value) => Ok(Said::Integer(value)),
            Value::Nil => Ok(Said::Nil),
            Value::Object(_) => Ok(match self.payload(slot)? {
                Payload::Record(fields) => Said::Record(fields.len() as u32),
                Payload::Raw(words) => Said::Raw(words.len() as u32),
            }),
        }
    }

    fn same(&self, first: u32, second: u32) -> Answer {
        let first = self.value(first)?;
        let second = self.value(second)?;
        Ok(Said::Same(first == second))
    }
}
