//! Every call on words: what it changes, and its refusals with their places and order.

use super::*;
use crate::plain::Collected;

/// At place 0 a record of an integer and a reference to place 3, there a raw of two words, and room for two more.
/// Slots: the record, the raw, -1, nil, a reference to the top.
fn small() -> (Store, Vec<u32>, Vec<u32>) {
    let store = Store { top: 6, calls: 7 };
    let heap = vec![8, 10, 7, 9, 101, 102, 9, 9];
    (store, heap, vec![1, 7, 4294967294, NIL, 13])
}

/// The answer, with the record, heap and roots after it.
fn after(call: Call) -> (Answer, Store, Vec<u32>, Vec<u32>) {
    let (store, mut heap, mut roots) = small();
    let (store, said) = answer(store, &mut heap, &mut roots, call);
    (said, store, heap, roots)
}

/// Said, and nothing changed but the count.
fn says(call: Call, said: Said) {
    let (_, heap, roots) = small();
    let store = Store { top: 6, calls: 8 };
    assert_eq!(after(call), (Ok(said), store, heap, roots));
}

/// Refused, and nothing changed.
fn refuses(call: Call, number: u64, place: u32) {
    let (store, heap, roots) = small();
    assert_eq!(after(call), (refused(number, place), store, heap, roots));
}

/// Done, with one slot changed.
fn puts(call: Call, slot: usize, word: u32) {
    let (_, heap, mut roots) = small();
    roots[slot] = word;
    let store = Store { top: 6, calls: 8 };
    assert_eq!(after(call), (Ok(Said::Done), store, heap, roots));
}

/// Done, with one word of the heap changed.
fn writes(call: Call, place: usize, word: u32) {
    let (_, mut heap, roots) = small();
    heap[place] = word;
    let store = Store { top: 6, calls: 8 };
    assert_eq!(after(call), (Ok(Said::Done), store, heap, roots));
}

#[test]
fn an_ask_says_what_a_slot_holds() {
    says(Call::Ask(0), Said::Record(2));
    says(Call::Ask(1), Said::Raw(2));
    says(Call::Ask(2), Said::Integer(-1));
    says(Call::Ask(3), Said::Nil);
    refuses(Call::Ask(4), 13, 4);
    refuses(Call::Ask(5), 7, 5);
}

#[test]
fn integers_to_both_ends() {
    puts(Call::PutInt(3, 5), 3, 10);
    puts(Call::PutInt(0, -1), 0, 4294967294);
    puts(Call::PutInt(3, 1_073_741_823), 3, 2147483646);
    puts(Call::PutInt(3, -1_073_741_824), 3, 2147483648);
    refuses(Call::PutInt(3, 1_073_741_824), 10, 0);
    refuses(Call::PutInt(3, -1_073_741_825), 10, 0);
    refuses(Call::PutInt(5, i32::MIN), 7, 5);
    for word in [0, 2, 2147483646, 2147483648, 4294967294] {
        assert_eq!(word_of(integer_of(word)), word);
    }
}

#[test]
fn words_are_copied_and_compared_unjudged() {
    puts(Call::PutNil(4), 4, NIL);
    puts(Call::Copy(4, 0), 0, 13);
    puts(Call::Copy(4, 4), 4, 13);
    refuses(Call::Copy(9, 8), 7, 9);
    refuses(Call::Copy(0, 8), 7, 8);
    says(Call::Same(4, 4), Said::Same(true));
    says(Call::Same(0, 1), Said::Same(false));
    refuses(Call::Same(6, 5), 7, 6);
    refuses(Call::Same(0, 5), 7, 5);
}

#[test]
fn a_birth_is_at_the_old_top() {
    let (said, store, heap, roots) = after(Call::NewRecord(3, 1));
    assert_eq!((said, store), (Ok(Said::Done), Store { top: 8, calls: 8 }));
    assert_eq!(heap, [8, 10, 7, 9, 101, 102, 4, NIL]);
    assert_eq!(roots, [1, 7, 4294967294, 13, 13]);
    let (said, store, heap, _) = after(Call::NewRaw(3, 1));
    assert_eq!((said, store), (Ok(Said::Done), Store { top: 8, calls: 8 }));
    assert_eq!(heap[6..], [5, 0]);
    let (_, store, heap, _) = after(Call::NewRaw(3, 0));
    assert_eq!((store.top, &heap[6..]), (7, &[1, 9][..]));
}

#[test]
fn births_are_refused_in_order() {
    for k in [1024, u32::MAX] {
        refuses(Call::NewRecord(5, k), 7, 5);
        refuses(Call::NewRecord(0, k), 12, 0);
        refuses(Call::NewRaw(0, k), 12, 0);
    }
    refuses(Call::NewRecord(0, 1023), 11, 0);
    refuses(Call::NewRaw(0, 2), 11, 0);
}

#[test]
fn fields_are_read_and_written() {
    puts(Call::ReadField(0, 0, 2), 2, 10);
    puts(Call::ReadField(0, 1, 0), 0, 7);
    writes(Call::WriteField(0, 0, 4), 1, 13);
    writes(Call::WriteField(0, 1, 0), 2, 1);
    refuses(Call::ReadField(0, 2, 3), 9, 2);
    refuses(Call::WriteField(0, u32::MAX, 3), 9, u32::MAX);
    for object in [1, 2, 3] {
        refuses(Call::ReadField(object, 0, 0), 8, object);
        refuses(Call::WriteField(object, 9, 0), 8, object);
    }
    refuses(Call::ReadField(4, 9, 0), 13, 4);
    refuses(Call::WriteField(4, 9, 0), 13, 4);
    refuses(Call::ReadField(6, 9, 5), 7, 6);
    refuses(Call::WriteField(6, 9, 5), 7, 6);
    refuses(Call::ReadField(4, 9, 5), 7, 5);
    refuses(Call::WriteField(4, 9, 5), 7, 5);
}

#[test]
fn raw_words_are_read_and_written() {
    says(Call::ReadRaw(1, 1), Said::Word(102));
    writes(Call::WriteRaw(1, 0, u32::MAX), 4, u32::MAX);
    refuses(Call::ReadRaw(1, 2), 9, 2);
    refuses(Call::WriteRaw(1, 2, 0), 9, 2);
    for object in [0, 2, 3] {
        refuses(Call::ReadRaw(object, 0), 8, object);
        refuses(Call::WriteRaw(object, 9, 0), 8, object);
    }
    refuses(Call::ReadRaw(4, 0), 13, 4);
    refuses(Call::WriteRaw(5, 0, 0), 7, 5);
}

/// An object may end at the top and no later; below the top the words may be anything.
#[test]
fn what_is_no_object_is_refused_by_13() {
    let judged = |header: u32, top: u32, root: u32| {
        let mut heap = [0, header, 0, 0];
        answer(Store { top, calls: 0 }, &mut heap, &mut [root], Call::Ask(0)).1
    };
    assert_eq!(judged(8, 4, 3), Ok(Said::Record(2)));
    assert_eq!(judged(9, 4, 3), Ok(Said::Raw(2)));
    assert_eq!(judged(8, 3, 3), refused(13, 0));
    assert_eq!(judged(12, 4, 3), refused(13, 0));
    assert_eq!(judged(0, 1, 3), refused(13, 0));
    for header in [2, 3, 4096, u32::MAX] {
        assert_eq!(judged(header, 4, 3), refused(13, 0));
    }
    assert_eq!(judged(0, 4, 4294967293), refused(13, 0));
}

#[test]
fn wrong_sizes_come_first() {
    let ask = |words: usize, top: u32, slots: usize| {
        let store = Store { top, calls: 1 };
        answer(store, &mut vec![0; words], &mut vec![NIL; slots], Call::Ask(64)).1
    };
    assert_eq!(ask(8192, 8192, 64), refused(7, 64));
    assert_eq!(ask(8193, 0, 64), refused(1, 0));
    assert_eq!(ask(8, 9, 64), refused(1, 0));
    assert_eq!(ask(8, 8, 65), refused(1, 0));
}

#[test]
fn the_count_wraps() {
    let store = Store {
        top: 0,
        calls: u64::MAX,
    };
    assert_eq!(answer(store, &mut [], &mut [NIL], Call::Ask(1)).0, store);
    let (store, _) = answer(store, &mut [], &mut [NIL], Call::Ask(0));
    assert_eq!(store.calls, 0);
}

#[test]
fn a_collection_lowers_the_top() {
    let (store, mut heap, mut roots) = small();
    roots[0] = 2;
    roots[4] = 7;
    let mut brought = Brought {
        marks: vec![8],
        order: vec![1],
        live: vec![0],
        offsets: vec![0],
    };
    let (refused_store, said) = collect_call(store, &mut heap, &mut roots, &mut brought);
    assert_eq!((refused_store, said), (store, refused(6, 0)));
    brought.order = vec![0];
    let (store, said) = collect_call(store, &mut heap, &mut roots, &mut brought);
    let collected = Collected {
        live: 3,
        objects: 1,
        blocks: 1,
    };
    assert_eq!(said, Ok(Said::Collected(collected)));
    assert_eq!(store, Store { top: 3, calls: 8 });
    assert_eq!(heap, [9, 101, 102, 0, 0, 0, 9, 9]);
    assert_eq!(roots, [2, 1, 4294967294, NIL, 1]);
}
