//! The check, the collection, and the lookups in its tables.

use crate::library::{self, Lent, Tables};
use crate::{Heap, Place, Refusal};

/// What a check has counted.
#[derive(Clone, Copy, Debug, PartialEq, Eq)]
pub struct Counts {
    /// The words, headers included, of the marked objects.
    pub live: u32,
    /// The marked objects.
    pub objects: u32,
}

/// What a collection has done.
#[derive(Clone, Copy, Debug, PartialEq, Eq)]
pub struct Collected {
    /// The top after it, which is the number of live words.
    pub top: u32,
    /// The objects kept.
    pub objects: u32,
    /// The blocks of 64 words that the live words now take up.
    pub blocks: u32,
}

impl Heap {
    /// Keeps what the slots reach, drops everything else, and slides the objects together.
    ///
    /// ```
    /// use hasurimba::{Collected, Heap, Slot};
    ///
    /// let mut heap = Heap::new(1_000, 1)?;
    /// heap.new_raw(Slot(0), 500)?; // nothing refers to it once slot 0 holds the next one
    /// heap.new_record(Slot(0), 69)?;
    /// assert_eq!(heap.collect_garbage()?, Collected { top: 70, objects: 1, blocks: 2 });
    /// # Ok::<(), hasurimba::Refusal>(())
    /// ```
    pub fn collect_garbage(&mut self) -> Result<Collected, Refusal> {
        self.mark_reachable();
        let live = self.check()?.live;
        let ascending: Vec<u32> = (0..live.div_ceil(64)).collect();
        self.collect(&ascending)
    }

    /// The marks, a bit for each place: set at the headers of the objects that the next collection keeps. A
    /// collection clears them.
    pub fn marks(&self) -> &[u64] {
        &self.marks
    }

    /// The marks, to be set by hand.
    pub fn marks_mut(&mut self) -> &mut [u64] {
        &mut self.marks
    }

    /// Checks heap, slots and marks as a collection would, and changes nothing. Refused by [`Refusal::HEADER`],
    /// [`Refusal::MARK`], [`Refusal::ROOT`], [`Refusal::REFERENCE`].
    pub fn check(&self) -> Result<Counts, Refusal> {
        let mut out = [0; 4];
        let code = library::check(&self.words, self.top(), &self.roots, &self.marks, &mut out);
        Refusal::judge(code)?;
        Ok(Counts {
            live: out[0] as u32,
            objects: out[1] as u32,
        })
    }

    /// Keeps the marked objects, in the block order given: it lists each step below `blocks` once, and a step
    /// comes after every other one that a live word of its block goes to. Ascending order always does. Refused as
    /// [`check`](Heap::check), then by [`Refusal::ORDER`].
    ///
    /// ```
    /// use hasurimba::{Heap, Refusal, Slot};
    ///
    /// // Two full blocks that stay where they are can go in either order.
    /// let mut heap = Heap::new(128, 2)?;
    /// heap.new_raw(Slot(0), 63)?;
    /// heap.new_raw(Slot(1), 63)?;
    /// heap.mark_reachable();
    /// assert_eq!(heap.collect(&[1, 1]), Err(Refusal { number: Refusal::ORDER, place: 1 }));
    /// assert_eq!(heap.collect(&[1, 0])?.top, 128);
    /// # Ok::<(), Refusal>(())
    /// ```
    pub fn collect(&mut self, order: &[u32]) -> Result<Collected, Refusal> {
        let mut out = [0; 4];
        let store = Lent {
            record: &mut self.record,
            heap: &mut self.words,
            roots: &mut self.roots,
        };
        let tables = Tables {
            marks: &mut self.marks,
            order,
            live: &mut self.live,
            offsets: &mut self.offsets,
        };
        Refusal::judge(library::store_collect(store, tables, &mut out))?;
        Ok(Collected {
            top: out[0] as u32,
            objects: out[1] as u32,
            blocks: out[2] as u32,
        })
    }

    /// The last collection's live bitmap: a bit for each place before it, set for the words kept.
    pub fn live(&self) -> &[u64] {
        &self.live
    }

    /// The last collection's offset table: for each block of 64 words, the number of words kept below it.
    pub fn offsets(&self) -> &[u32] {
        &self.offsets
    }

    /// Where the last collection put the word that was at a place, or `None` where it was not kept.
    ///
    /// ```
    /// use hasurimba::{Heap, Place, Slot};
    ///
    /// let mut heap = Heap::new(64, 1)?;
    /// heap.new_raw(Slot(0), 9)?;
    /// heap.new_raw(Slot(0), 2)?;
    /// heap.collect_garbage()?;
    /// assert_eq!(heap.old_to_new(Place(9))?, None);
    /// assert_eq!(heap.old_to_new(Place(10))?, Some(Place(0)));
    /// assert_eq!(heap.new_to_old(Place(0))?, Some(Place(10)));
    /// # Ok::<(), hasurimba::Refusal>(())
    /// ```
    pub fn old_to_new(&self, place: Place) -> Result<Option<Place>, Refusal> {
        let mut out = [0; 4];
        Refusal::judge(library::old_to_new(&self.live, &self.offsets, place.0, &mut out))?;
        Ok(place_or_none(out))
    }

    /// From where the last collection took the word that it put at a place, or `None` where it put none.
    pub fn new_to_old(&self, place: Place) -> Result<Option<Place>, Refusal> {
        let mut out = [0; 4];
        Refusal::judge(library::new_to_old(&self.live, &self.offsets, place.0, &mut out))?;
        Ok(place_or_none(out))
    }
}

fn place_or_none(out: [u64; 4]) -> Option<Place> {
    (out[0] == 1).then_some(Place(out[1] as u32))
}
