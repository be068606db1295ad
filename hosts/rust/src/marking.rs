//! Finding what the slots reach. The library judges the marks, so that a mistake here could only be refused.

use crate::heap::NIL;
use crate::Heap;

/// The kind in a record's header.
const RECORD: u32 = 0;

impl Heap {
    /// Marks exactly the objects that can be reached from the slots, for [`check`](Heap::check) and
    /// [`collect`](Heap::collect).
    ///
    /// A word that does not refer below the top is left to the library, which refuses it.
    pub fn mark_reachable(&mut self) {
        self.marks.fill(0);
        let mut pending = Vec::new();
        for slot in 0..self.roots.len() {
            self.reach(self.roots[slot], &mut pending);
        }
        while let Some(place) = pending.pop() {
            for at in self.fields(place) {
                self.reach(self.words[at], &mut pending);
            }
        }
    }

    fn reach(&mut self, word: u32, pending: &mut Vec<usize>) {
        let Some(place) = reference(word).filter(|&place| place < self.top() as usize) else {
            return;
        };
        let bit = 1 << (place % 64);
        if self.marks[place / 64] & bit == 0 {
            self.marks[place / 64] |= bit;
            pending.push(place);
        }
    }

    /// The places of a record's fields; none for a raw object, or where there is no object that ends below the top.
    fn fields(&self, header_at: usize) -> std::ops::Range<usize> {
        let (payload, kind) = (self.words[header_at] / 4, self.words[header_at] % 4);
        let end = header_at + 1 + payload as usize;
        if kind == RECORD && end <= self.top() as usize {
            header_at + 1..end
        } else {
            0..0
        }
    }
}

/// The place that a value word refers to.
fn reference(word: u32) -> Option<usize> {
    (word % 2 == 1 && word != NIL).then_some((word / 2) as usize)
}

#[cfg(test)]
mod tests {
    use super::*;

    #[test]
    fn only_odd_words_but_nil_refer() {
        let read: Vec<_> = [0, 1, 2, 7, NIL - 2, NIL - 1, NIL].map(reference).into();
        assert_eq!(
            read,
            [None, Some(0), None, Some(3), Some(2_147_483_646), None, None]
        );
    }

    #[test]
    fn what_a_raw_word_looks_like_does_not_matter() {
        // A raw object whose word looks like a reference to the record before it.
        let mut heap = Heap::restore(vec![0, 5, 1], vec![3], 3, 0).unwrap();
        heap.mark_reachable();
        assert_eq!(heap.marks(), [0b010]);
    }

    #[test]
    fn damaged_words_are_passed_over() {
        for word in [2, 3, 4_096, NIL - 1, NIL] {
            let mut heap = Heap::restore(vec![word; 70], vec![1, 139, 141, NIL - 2], 70, 0).unwrap();
            heap.mark_reachable();
            assert!(heap.check().is_err());
        }
    }
}
