//! Long sequences of calls, held against plain objects that are never moved.

use hasurimba::{Heap, Refusal, Slot, Value, GREATEST, LEAST};

const SLOTS: u32 = 6;

#[derive(Clone, Copy, Debug, PartialEq)]
enum Plain {
    Integer(i32),
    Nil,
    Object(usize),
}

enum Object {
    Record(Vec<Plain>),
    Raw(Vec<u32>),
}

/// Objects in order of birth, each known by its number for ever.
struct Garden {
    heap: Heap,
    objects: Vec<Object>,
    slots: Vec<Plain>,
    state: u64,
    without_room: u32,
}

impl Garden {
    fn new(words: usize, seed: u64) -> Garden {
        Garden {
            heap: Heap::new(words, SLOTS as usize).unwrap(),
            objects: Vec::new(),
            slots: vec![Plain::Nil; SLOTS as usize],
            state: seed,
            without_room: 0,
        }
    }

    fn draw(&mut self, below: u32) -> u32 {
        self.state = self
            .state
            .wrapping_mul(6_364_136_223_846_793_005)
            .wrapping_add(1_442_695_040_888_963_407);
        (self.state >> 33) as u32 % below
    }

    fn slot(&mut self) -> Slot {
        Slot(self.draw(SLOTS))
    }

    fn shown(&self, plain: Plain) -> Value {
        match plain {
            Plain::Integer(value) => Value::Integer(value),
            Plain::Nil => Value::Nil,
            Plain::Object(number) => match &self.objects[number] {
                Object::Record(fields) => Value::Record(fields.len() as u32),
                Object::Raw(words) => Value::Raw(words.len() as u32),
            },
        }
    }

    fn put(&mut self) {
        let slot = self.slot();
        let value = match self.draw(4) {
            0 => LEAST,
            1 => GREATEST,
            2 => -(self.draw(1_000) as i32),
            _ => self.draw(1_000) as i32,
        };
        self.heap.put_integer(slot, value).unwrap();
        self.slots[slot.0 as usize] = Plain::Integer(value);
    }

    fn copy(&mut self) {
        let (source, target) = (self.slot(), self.slot());
        self.heap.copy(source, target).unwrap();
        self.slots[target.0 as usize] = self.slots[source.0 as usize];
    }

    /// Where there is no room, everything goes on after a collection, or after letting go of all.
    fn make(&mut self) {
        let (slot, k, record) = (self.slot(), self.draw(12), self.draw(2) == 0);
        let made = |heap: &mut Heap| {
            if record {
                heap.new_record(slot, k)
            } else {
                heap.new_raw(slot, k)
            }
        };
        if let Err(refusal) = made(&mut self.heap) {
            assert_eq!(refusal.number, Refusal::NO_ROOM);
            self.without_room += 1;
            self.heap.collect_garbage().unwrap();
            if made(&mut self.heap).is_err() {
                return self.let_go();
            }
        }
        self.slots[slot.0 as usize] = Plain::Object(self.objects.len());
        self.objects.push(match record {
            true => Object::Record(vec![Plain::Nil; k as usize]),
            false => Object::Raw(vec![0; k as usize]),
        });
    }

    fn collect(&mut self) {
        let collected = self.heap.collect_garbage().unwrap();
        assert_eq!(self.heap.top(), collected.top);
    }

    fn let_go(&mut self) {
        for slot in self.heap.every_slot() {
            self.heap.put_nil(slot).unwrap();
        }
        self.slots.fill(Plain::Nil);
        assert_eq!(self.heap.collect_garbage().unwrap().top, 0);
    }

    /// Uses whatever object a slot holds, as what it is.
    fn use_object(&mut self) {
        let (slot, index, write) = (self.slot(), self.draw(13), self.draw(2) == 0);
        let (other, word) = (self.slot(), self.draw(u32::MAX) << 1 | self.draw(2));
        let Plain::Object(number) = self.slots[slot.0 as usize] else {
            assert_eq!(self.heap.read_raw(slot, 0).unwrap_err().number, Refusal::KIND);
            return;
        };
        let at = At { slot, index, write };
        match &mut self.objects[number] {
            Object::Record(fields) => use_field(
                &mut self.heap,
                at,
                fields,
                other,
                &mut self.slots[other.0 as usize],
            ),
            Object::Raw(words) => use_word(&mut self.heap, at, words, word),
        }
    }

    fn agree(&mut self) {
        for slot in self.heap.every_slot() {
            let plain = self.slots[slot.0 as usize];
            assert_eq!(self.heap.ask(slot), Ok(self.shown(plain)));
            let same = plain == self.slots[0];
            assert_eq!(self.heap.same(slot, Slot(0)), Ok(same));
        }
    }

    fn step(&mut self) {
        match self.draw(16) {
            0..=2 => self.put(),
            3..=4 => self.copy(),
            5..=7 => self.make(),
            8 => self.collect(),
            _ => self.use_object(),
        }
        self.agree();
    }
}

/// A field or raw word, and whether it is written or read.
struct At {
    slot: Slot,
    index: u32,
    write: bool,
}

impl At {
    fn refusal<T>(&self) -> Result<T, Refusal> {
        Err(Refusal {
            number: Refusal::FIELD,
            place: self.index,
        })
    }
}

fn use_field(heap: &mut Heap, at: At, fields: &mut [Plain], other: Slot, plain: &mut Plain) {
    match fields.get_mut(at.index as usize) {
        None if at.write => assert_eq!(heap.write_field(at.slot, at.index, other), at.refusal()),
        None => assert_eq!(heap.read_field(at.slot, at.index, other), at.refusal()),
        Some(field) if at.write => {
            heap.write_field(at.slot, at.index, other).unwrap();
            *field = *plain;
        }
        Some(field) => {
            heap.read_field(at.slot, at.index, other).unwrap();
            *plain = *field;
        }
    }
}

fn use_word(heap: &mut Heap, at: At, words: &mut [u32], word: u32) {
    match words.get_mut(at.index as usize) {
        None if at.write => assert_eq!(heap.write_raw(at.slot, at.index, word), at.refusal()),
        None => assert_eq!(heap.read_raw(at.slot, at.index), at.refusal()),
        Some(held) if at.write => {
            heap.write_raw(at.slot, at.index, word).unwrap();
            *held = word;
        }
        Some(held) => assert_eq!(heap.read_raw(at.slot, at.index), Ok(*held)),
    }
}

#[test]
fn no_sequence_tells_them_apart() {
    let mut without_room = 0;
    for seed in 0..40 {
        let mut garden = Garden::new([40, 200, 1_000][seed as usize % 3], seed);
        for _ in 0..1_000 {
            garden.step();
        }
        without_room += garden.without_room;
    }
    assert!(without_room > 100, "there was no room only {without_room} times");
}
