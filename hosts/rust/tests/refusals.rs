//! Every refusal that a heap can meet, where it is met, and that it leaves the heap as found.

use hasurimba::{Collected, Counts, Heap, Place, Refusal, Slot, Value, GREATEST, LEAST};

/// The call is refused by that number at that place, and nothing has changed.
fn refused<T: std::fmt::Debug + PartialEq>(
    heap: &Heap,
    call: impl Fn(&mut Heap) -> Result<T, Refusal>,
    number: u8,
    place: u32,
) {
    let mut after = heap.clone();
    assert_eq!(call(&mut after), Err(Refusal { number, place }));
    assert_eq!(&after, heap);
}

/// Slot 0 holds a record of two fields, slot 1 a raw object of three words, slot 2 the integer 5.
fn three_slots() -> Heap {
    let mut heap = Heap::new(10, 3).unwrap();
    heap.new_record(Slot(0), 2).unwrap();
    heap.new_raw(Slot(1), 3).unwrap();
    heap.put_integer(Slot(2), 5).unwrap();
    heap
}

#[test]
fn shapes() {
    let shape = Err(Refusal { number: 1, place: 0 });
    assert!(Heap::new(8_192, 64).is_ok());
    assert_eq!(Heap::new(8_193, 0), shape);
    assert_eq!(Heap::new(usize::MAX, 0), shape);
    assert_eq!(Heap::new(0, 65), shape);
    assert_eq!(Heap::restore(vec![0; 9], vec![], 10, 0), shape);
    assert!(Heap::restore(vec![0; 9], vec![], 9, 0).is_ok());
    refused(&three_slots(), |heap| heap.collect(&[0; 129]), 1, 0);
}

#[test]
fn slots_that_there_are_not() {
    let heap = three_slots();
    let (here, gone, far) = (Slot(0), Slot(3), Slot(u32::MAX));
    refused(&heap, |heap| heap.put_integer(gone, i32::MAX), 7, 3);
    refused(&heap, |heap| heap.put_nil(far), 7, u32::MAX);
    refused(&heap, |heap| heap.copy(far, gone), 7, u32::MAX);
    refused(&heap, |heap| heap.copy(here, gone), 7, 3);
    refused(&heap, |heap| heap.new_record(gone, 1_024), 7, 3);
    refused(&heap, |heap| heap.new_raw(gone, 1_024), 7, 3);
    refused(&heap, |heap| heap.read_field(here, 9, gone), 7, 3);
    refused(&heap, |heap| heap.write_field(gone, 9, far), 7, 3);
    refused(&heap, |heap| heap.read_raw(gone, 9), 7, 3);
    refused(&heap, |heap| heap.write_raw(gone, 9, 9), 7, 3);
    refused(&heap, |heap| heap.ask(gone), 7, 3);
    refused(&heap, |heap| heap.same(here, gone), 7, 3);
}

#[test]
fn kinds_and_fields() {
    let heap = three_slots();
    let (record, raw, integer) = (Slot(0), Slot(1), Slot(2));
    refused(&heap, |heap| heap.read_field(raw, 0, integer), 8, 1);
    refused(&heap, |heap| heap.write_field(integer, 0, raw), 8, 2);
    refused(&heap, |heap| heap.read_raw(record, 0), 8, 0);
    refused(&heap, |heap| heap.write_raw(integer, 0, 0), 8, 2);
    refused(&heap, |heap| heap.read_field(record, 2, integer), 9, 2);
    refused(&heap, |heap| heap.write_field(record, 7, integer), 9, 7);
    refused(&heap, |heap| heap.read_raw(raw, 3), 9, 3);
    refused(&heap, |heap| heap.write_raw(raw, u32::MAX, 0), 9, u32::MAX);
}

#[test]
fn integers_sizes_and_room() {
    let heap = three_slots();
    refused(&heap, |heap| heap.put_integer(Slot(0), GREATEST + 1), 10, 0);
    refused(&heap, |heap| heap.put_integer(Slot(0), LEAST - 1), 10, 0);
    refused(&heap, |heap| heap.new_record(Slot(0), 1_024), 12, 0);
    refused(&heap, |heap| heap.new_raw(Slot(0), u32::MAX), 12, 0);
    refused(&heap, |heap| heap.new_raw(Slot(0), 3), 11, 0);
    refused(&heap, |heap| heap.new_record(Slot(0), 1_023), 11, 0);
    assert_eq!(heap.clone().new_raw(Slot(0), 2), Ok(()));
}

#[test]
fn stray_references() {
    // A raw object of one word, then an illegal header; the slots refer to it, to that, past the top, past all.
    let heap = Heap::restore(vec![5, 7, 2, 0], vec![1, 5, 7, 4_294_967_293], 3, 0).unwrap();
    assert_eq!(heap.clone().ask(Slot(0)), Ok(Value::Raw(1)));
    for slot in 1..4 {
        refused(&heap, |heap| heap.ask(Slot(slot)), 13, slot);
        refused(&heap, |heap| heap.read_raw(Slot(slot), 0), 13, slot);
        refused(&heap, |heap| heap.write_field(Slot(slot), 0, Slot(0)), 13, slot);
    }
}

/// The statement's whole case: two records that refer to each other, a raw object, and a raw object to drop.
fn whole_case(mark_word: u64) -> Heap {
    let words = vec![8, 10, 15, 13, 101, 102, 103, 4, 1, 1, 9, 9, 9, 9, 9, 9];
    let mut heap = Heap::restore(words, vec![15, 19, 4_294_967_294, 4_294_967_295], 10, 7).unwrap();
    heap.marks_mut()[0] = mark_word;
    heap
}

#[test]
fn collections() {
    let mut heap = whole_case(641);
    assert_eq!(heap.check(), Ok(Counts { live: 6, objects: 3 }));
    assert_eq!(
        heap.collect(&[0]),
        Ok(Collected {
            top: 6,
            objects: 3,
            blocks: 1
        })
    );
    assert_eq!(heap.words(), [8, 10, 7, 4, 1, 1, 0, 0, 0, 0, 9, 9, 9, 9, 9, 9]);
    assert_eq!(heap.slots(), [7, 11, 4_294_967_294, 4_294_967_295]);
    assert_eq!((heap.top(), heap.calls()), (6, 8));
    assert_eq!(
        (heap.marks(), heap.live(), heap.offsets()),
        (&[0][..], &[903][..], &[0][..])
    );
    assert_eq!(heap.old_to_new(Place(7)), Ok(Some(Place(3))));
    assert_eq!(heap.old_to_new(Place(64)), Ok(None));
    assert_eq!(heap.new_to_old(Place(3)), Ok(Some(Place(7))));
    assert_eq!(heap.new_to_old(Place(6)), Ok(None));
    assert_eq!(heap.ask(Slot(2)), Ok(Value::Integer(-1)));
}

#[test]
fn collections_refused() {
    refused(&whole_case(641 + 16), |heap| heap.collect(&[0]), 3, 4);
    refused(&whole_case(513), |heap| heap.collect(&[0]), 4, 0);
    let mut heap = whole_case(513);
    heap.put_nil(Slot(0)).unwrap();
    refused(&heap, |heap| heap.check(), 5, 2);
    refused(&heap, |heap| heap.collect(&[0]), 5, 2);
    let illegal = Heap::restore(vec![0, 4_096], vec![], 2, 0).unwrap();
    refused(&illegal, |heap| heap.collect(&[]), 2, 1);
    refused(&illegal, |heap| heap.collect_garbage(), 2, 1);
}

#[test]
fn an_order_refused_fills_in_the_tables() {
    let mut heap = whole_case(641);
    assert_eq!(heap.collect(&[]), Err(Refusal { number: 6, place: 0 }));
    assert_eq!(heap.collect(&[0, 0]), Err(Refusal { number: 6, place: 1 }));
    assert_eq!(heap.live(), [903]);
    assert_eq!(heap.words(), whole_case(641).words());
    assert_eq!((heap.top(), heap.calls(), heap.marks()), (10, 7, &[641][..]));
}
