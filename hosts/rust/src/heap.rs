//! The heap with all its buffers.

use crate::library::Lent;
use crate::{Refusal, Slot};

/// The value word of nil.
pub(crate) const NIL: u32 = 4_294_967_295;

/// The longest heap and the most slots that the library takes.
const MOST_WORDS: usize = 8_192;
const MOST_SLOTS: usize = 64;

/// An object store: a heap, root slots, and the tables of its collections, all owned here.
#[derive(Clone, Debug, PartialEq, Eq)]
pub struct Heap {
    /// Word 0 is the top, word 1 the calls answered; the rest is not used.
    pub(crate) record: [u64; 8],
    pub(crate) words: Vec<u32>,
    pub(crate) roots: Vec<u32>,
    pub(crate) marks: Vec<u64>,
    pub(crate) live: Vec<u64>,
    pub(crate) offsets: Vec<u32>,
}

impl Heap {
    /// An empty heap of that many words, up to 8,192, with that many slots, up to 64, all nil.
    ///
    /// ```
    /// use hasurimba::{Heap, Refusal};
    ///
    /// assert_eq!(Heap::new(8_192, 64)?.top(), 0);
    /// assert_eq!(Heap::new(8_193, 64).unwrap_err().number, Refusal::SHAPE);
    /// # Ok::<(), Refusal>(())
    /// ```
    pub fn new(words: usize, slots: usize) -> Result<Heap, Refusal> {
        // One too many is refused as well as any more, and needs no more memory.
        let (words, slots) = (words.min(MOST_WORDS + 1), slots.min(MOST_SLOTS + 1));
        Heap::restore(vec![0; words], vec![NIL; slots], 0, 0)
    }

    /// A heap from what [`words`](Heap::words), [`slots`](Heap::slots), [`top`](Heap::top) and
    /// [`calls`](Heap::calls) gave. Judges the lengths and the top alone: each call judges the words that it
    /// reads, and [`check`](Heap::check) judges all.
    ///
    /// ```
    /// use hasurimba::{Heap, Slot, Value};
    ///
    /// let mut heap = Heap::new(16, 1)?;
    /// heap.new_raw(Slot(0), 2)?;
    /// heap.write_raw(Slot(0), 1, 0xDEAD_BEEF)?;
    /// let mut again =
    ///     Heap::restore(heap.words().to_vec(), heap.slots().to_vec(), heap.top(), heap.calls())?;
    /// assert_eq!(again, heap);
    /// assert_eq!(again.read_raw(Slot(0), 1)?, 0xDEAD_BEEF);
    /// # Ok::<(), hasurimba::Refusal>(())
    /// ```
    pub fn restore(words: Vec<u32>, slots: Vec<u32>, top: u32, calls: u64) -> Result<Heap, Refusal> {
        let blocks = words.len().div_ceil(64);
        let heap = Heap {
            record: [u64::from(top), calls, 0, 0, 0, 0, 0, 0],
            words,
            roots: slots,
            marks: vec![0; blocks],
            live: vec![0; blocks],
            offsets: vec![0; blocks],
        };
        heap.judge_shape()?;
        Ok(heap)
    }

    fn judge_shape(&self) -> Result<(), Refusal> {
        match self.check() {
            Err(refusal) if refusal.number == Refusal::SHAPE => Err(refusal),
            _ => Ok(()),
        }
    }

    pub(crate) fn lend(&mut self) -> Lent<'_> {
        Lent {
            record: &mut self.record,
            heap: &mut self.words,
            roots: &mut self.roots,
        }
    }

    /// The number of words in use: objects lie end to end from place 0 up to it.
    pub fn top(&self) -> u32 {
        self.record[0] as u32
    }

    /// The number of calls answered without refusal; it wraps.
    pub fn calls(&self) -> u64 {
        self.record[1]
    }

    /// All words of the heap, as `include/hasurimba.h` describes them.
    pub fn words(&self) -> &[u32] {
        &self.words
    }

    /// The value words of the slots.
    pub fn slots(&self) -> &[u32] {
        &self.roots
    }

    /// The slots by their numbers, for going over all of them.
    ///
    /// ```
    /// use hasurimba::{Heap, Value};
    ///
    /// let mut heap = Heap::new(64, 3)?;
    /// for slot in heap.every_slot() {
    ///     assert_eq!(heap.ask(slot)?, Value::Nil);
    /// }
    /// # Ok::<(), hasurimba::Refusal>(())
    /// ```
    pub fn every_slot(&self) -> impl Iterator<Item = Slot> {
        (0..self.roots.len() as u32).map(Slot)
    }
}
