//! The store calls. Each is counted by [`Heap::calls`] where it is answered, and changes nothing where it is refused.

use crate::{library, Heap, Refusal, Slot, Value};

impl Heap {
    /// Puts an integer into a slot. Refused by [`Refusal::SLOT`], [`Refusal::INTEGER`].
    ///
    /// ```
    /// use hasurimba::{Heap, Refusal, Slot, Value, GREATEST, LEAST};
    ///
    /// let mut heap = Heap::new(0, 1)?;
    /// heap.put_integer(Slot(0), LEAST)?;
    /// assert_eq!(heap.ask(Slot(0))?, Value::Integer(LEAST));
    /// assert_eq!(heap.put_integer(Slot(0), GREATEST + 1).unwrap_err().number, Refusal::INTEGER);
    /// # Ok::<(), Refusal>(())
    /// ```
    pub fn put_integer(&mut self, slot: Slot, value: i32) -> Result<(), Refusal> {
        Refusal::judge(library::put_integer(self.lend(), slot.0, value))
    }

    /// Puts nil into a slot. Refused by [`Refusal::SLOT`].
    pub fn put_nil(&mut self, slot: Slot) -> Result<(), Refusal> {
        Refusal::judge(library::put_nil(self.lend(), slot.0))
    }

    /// Copies what slot `source` holds to slot `target`. Refused by [`Refusal::SLOT`].
    pub fn copy(&mut self, source: Slot, target: Slot) -> Result<(), Refusal> {
        Refusal::judge(library::copy(self.lend(), source.0, target.0))
    }

    /// Makes a record of that many fields, all nil, and puts a reference to it into a slot. Refused by
    /// [`Refusal::SLOT`], [`Refusal::SIZE`], [`Refusal::NO_ROOM`].
    ///
    /// ```
    /// use hasurimba::{Heap, Refusal, Slot};
    ///
    /// // What is not referred to any more makes room.
    /// let mut heap = Heap::new(100, 1)?;
    /// heap.new_record(Slot(0), 60)?;
    /// heap.put_nil(Slot(0))?;
    /// match heap.new_record(Slot(0), 60) {
    ///     Err(refusal) if refusal.number == Refusal::NO_ROOM => {
    ///         heap.collect_garbage()?;
    ///         heap.new_record(Slot(0), 60)?;
    ///     }
    ///     other => panic!("there was no room, and yet: {other:?}"),
    /// }
    /// assert_eq!(heap.top(), 61);
    /// # Ok::<(), Refusal>(())
    /// ```
    pub fn new_record(&mut self, slot: Slot, fields: u32) -> Result<(), Refusal> {
        Refusal::judge(library::new_record(self.lend(), slot.0, fields))
    }

    /// Makes a raw object of that many words, all zero; else as [`new_record`](Heap::new_record).
    pub fn new_raw(&mut self, slot: Slot, words: u32) -> Result<(), Refusal> {
        Refusal::judge(library::new_raw(self.lend(), slot.0, words))
    }

    /// Reads a field of the record in slot `object` into slot `target`. Refused by [`Refusal::SLOT`],
    /// [`Refusal::STRAY`], [`Refusal::KIND`], [`Refusal::FIELD`].
    pub fn read_field(&mut self, object: Slot, field: u32, target: Slot) -> Result<(), Refusal> {
        Refusal::judge(library::read_field(self.lend(), object.0, field, target.0))
    }

    /// Writes what slot `source` holds to a field of the record in slot `object`. Refused as
    /// [`read_field`](Heap::read_field).
    pub fn write_field(&mut self, object: Slot, field: u32, source: Slot) -> Result<(), Refusal> {
        Refusal::judge(library::write_field(self.lend(), object.0, field, source.0))
    }

    /// Reads a word of the raw object in slot `object`. Refused as [`read_field`](Heap::read_field).
    ///
    /// ```
    /// use hasurimba::{Heap, Slot};
    ///
    /// // The bits of a gain are an odd word here, and stay what they are.
    /// let mut heap = Heap::new(64, 1)?;
    /// heap.new_raw(Slot(0), 1)?;
    /// heap.write_raw(Slot(0), 0, 0.1_f32.to_bits())?;
    /// heap.collect_garbage()?;
    /// assert_eq!(f32::from_bits(heap.read_raw(Slot(0), 0)?), 0.1);
    /// # Ok::<(), hasurimba::Refusal>(())
    /// ```
    pub fn read_raw(&mut self, object: Slot, index: u32) -> Result<u32, Refusal> {
        let mut out = [0; 4];
        Refusal::judge(library::read_raw(self.lend(), object.0, index, &mut out))?;
        Ok(out[0] as u32)
    }

    /// Writes a word of the raw object in slot `object`. Refused as [`read_field`](Heap::read_field).
    pub fn write_raw(&mut self, object: Slot, index: u32, word: u32) -> Result<(), Refusal> {
        Refusal::judge(library::write_raw(self.lend(), object.0, index, word))
    }

    /// Asks what a slot holds. Refused by [`Refusal::SLOT`], [`Refusal::STRAY`].
    pub fn ask(&mut self, slot: Slot) -> Result<Value, Refusal> {
        let mut out = [0; 4];
        Refusal::judge(library::ask(self.lend(), slot.0, &mut out))?;
        Ok(match out[0] {
            0 => Value::Integer(out[1] as i32),
            1 => Value::Nil,
            2 => Value::Record(out[1] as u32),
            3 => Value::Raw(out[1] as u32),
            other => unreachable!("the library answers 0 to 3, not {other}"),
        })
    }

    /// Asks whether two slots hold the same: equal integers, both nil, or references to one object. Refused by
    /// [`Refusal::SLOT`].
    pub fn same(&mut self, first: Slot, second: Slot) -> Result<bool, Refusal> {
        let mut out = [0; 4];
        Refusal::judge(library::same(self.lend(), first.0, second.0, &mut out))?;
        Ok(out[0] == 1)
    }
}
