//! Why a call was refused.

use std::error::Error;
use std::fmt;

/// A refused call: the number says why, the place says where. The call has changed nothing but, for
/// [`Refusal::ORDER`], the live and offset tables.
///
/// ```
/// use hasurimba::{Heap, Refusal, Slot};
///
/// let mut heap = Heap::new(4, 1)?;
/// let refusal = heap.new_record(Slot(0), 4).unwrap_err();
/// assert_eq!(refusal, Refusal { number: Refusal::NO_ROOM, place: 0 });
/// assert_eq!(refusal.to_string(), "refused 11 at 0: top + 1 + k above the heap length");
/// # Ok::<(), Refusal>(())
/// ```
#[derive(Clone, Copy, Debug, PartialEq, Eq)]
pub struct Refusal {
    /// Which refusal it is.
    pub number: u8,
    /// The place, slot, field or position in the order that the refusal is about; 0 where it is about none.
    pub place: u32,
}

impl Refusal {
    /// Too long a heap, too many slots or order entries, a table of wrong length, or a top above the heap.
    pub const SHAPE: u8 = 1;
    /// A word that should be a header and is none, or an object that ends past the top.
    pub const HEADER: u8 = 2;
    /// A mark where no object begins.
    pub const MARK: u8 = 3;
    /// A slot refers to what is not marked.
    pub const ROOT: u8 = 4;
    /// A field of a marked record refers to what is not marked.
    pub const REFERENCE: u8 = 5;
    /// The block order does not keep its rule; the place is a position in it.
    pub const ORDER: u8 = 6;
    /// No such slot; the place is its number.
    pub const SLOT: u8 = 7;
    /// The slot holds something else than the kind wanted; the place is the slot.
    pub const KIND: u8 = 8;
    /// No such field or raw word; the place is its number.
    pub const FIELD: u8 = 9;
    /// The integer is too small or too great.
    pub const INTEGER: u8 = 10;
    /// No room for a new object: collect, and make it again.
    pub const NO_ROOM: u8 = 11;
    /// An object cannot have that many words.
    pub const SIZE: u8 = 12;
    /// The slot refers to no object; the place is the slot. No call brings a heap into this state.
    pub const STRAY: u8 = 13;

    /// Reads what a library function returned: 0 where it accepted, else number + 256 * place.
    pub(crate) fn judge(code: u64) -> Result<(), Refusal> {
        match code {
            0 => Ok(()),
            _ => Err(Refusal {
                number: (code % 256) as u8,
                place: (code / 256) as u32,
            }),
        }
    }

    fn sentence(&self) -> &'static str {
        match self.number {
            Self::SHAPE => {
                "of what the call takes: heap over 8,192 words, top above heap length, over 64 roots, \
                 a table of wrong length, order over 128 entries"
            }
            Self::HEADER => "illegal header, or object past the top",
            Self::MARK => "a mark bit that is not at an object's header below the top",
            Self::ROOT => "a root that is a reference to a place without a mark",
            Self::REFERENCE => {
                "a payload word of a marked record that is a reference to a place without a mark"
            }
            Self::ORDER => "order breaks",
            Self::SLOT => "no such slot",
            Self::KIND => "the object slot does not hold the kind wanted",
            Self::FIELD => "field or raw number not below the count",
            Self::INTEGER => "integer outside the range",
            Self::NO_ROOM => "top + 1 + k above the heap length",
            Self::SIZE => "k above 1,023",
            Self::STRAY => {
                "the object slot holds a reference at or above the top, to an illegal header, \
                 or to an object past the top"
            }
            _ => "a number that no call gives",
        }
    }
}

impl fmt::Display for Refusal {
    fn fmt(&self, f: &mut fmt::Formatter<'_>) -> fmt::Result {
        write!(
            f,
            "refused {} at {}: {}",
            self.number,
            self.place,
            self.sentence()
        )
    }
}

impl Error for Refusal {}

#[cfg(test)]
mod tests {
    use super::*;

    #[test]
    fn a_code_is_number_and_place() {
        assert_eq!(Refusal::judge(0), Ok(()));
        assert_eq!(
            Refusal::judge(7 + 256 * 64),
            Err(Refusal { number: 7, place: 64 })
        );
        let far = 9 + 256 * u64::from(u32::MAX);
        assert_eq!(
            Refusal::judge(far),
            Err(Refusal {
                number: 9,
                place: u32::MAX
            })
        );
    }

    #[test]
    fn every_number_has_a_sentence_of_its_own() {
        let said: Vec<String> = (1..=14)
            .map(|number| Refusal { number, place: 3 }.to_string())
            .collect();
        for (i, one) in said.iter().enumerate() {
            assert!(one.starts_with(&format!("refused {} at 3: ", i + 1)));
            let sentence = |text: &str| text.split_once(": ").unwrap().1.to_owned();
            assert_eq!(
                said.iter()
                    .filter(|other| sentence(other) == sentence(one))
                    .count(),
                1
            );
        }
    }

    #[test]
    fn a_refusal_goes_where_errors_go() {
        let error: Box<dyn Error> = Box::new(Refusal { number: 6, place: 2 });
        assert_eq!(error.to_string(), "refused 6 at 2: order breaks");
    }
}
