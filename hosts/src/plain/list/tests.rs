//! The simple list by itself. That it answers as the words do is tested where sequences are made.

use super::*;
use crate::plain::calls::Brought;
use crate::plain::Collected;

/// Room for 12 words and three slots: a record of two in slot 0, its field 1 and slot 1 the raw of one that was
/// born second; slot 2 holds a last record of none.
fn family() -> List {
    let mut list = List::empty(12, 3);
    let calls = [
        Call::NewRecord(0, 2),
        Call::NewRaw(1, 1),
        Call::NewRecord(2, 0),
        Call::WriteField(0, 1, 1),
        Call::WriteRaw(1, 0, 77),
    ];
    for call in calls {
        assert_eq!(list.answer(call), Ok(Said::Done));
    }
    list
}

fn brought(marks: u64, order: &[u32]) -> Brought {
    Brought {
        marks: vec![marks],
        order: order.to_vec(),
        live: vec![0],
        offsets: vec![0],
    }
}

#[test]
fn values_are_said_of_the_objects_themselves() {
    let mut list = family();
    assert_eq!(list.record(), Store { top: 6, calls: 5 });
    assert_eq!(list.answer(Call::Ask(0)), Ok(Said::Record(2)));
    assert_eq!(list.answer(Call::Ask(1)), Ok(Said::Raw(1)));
    assert_eq!(list.answer(Call::ReadField(0, 1, 2)), Ok(Said::Done));
    assert_eq!(list.answer(Call::Same(1, 2)), Ok(Said::Same(true)));
    assert_eq!(list.answer(Call::ReadRaw(2, 0)), Ok(Said::Word(77)));
    assert_eq!(list.answer(Call::ReadField(0, 0, 2)), Ok(Said::Done));
    assert_eq!(list.answer(Call::Ask(2)), Ok(Said::Nil));
    assert_eq!(list.record(), Store { top: 6, calls: 12 });
}

#[test]
fn refusals_change_nothing() {
    let list = family();
    let refusals = [
        (Call::ReadField(3, 9, 4), refused(7, 3)),
        (Call::WriteField(0, 9, 4), refused(7, 4)),
        (Call::ReadField(1, 9, 0), refused(8, 1)),
        (Call::WriteField(0, 2, 0), refused(9, 2)),
        (Call::ReadRaw(1, 1), refused(9, 1)),
        (Call::WriteRaw(0, 0, 1), refused(8, 0)),
        (Call::PutInt(0, 1 << 30), refused(10, 0)),
        (Call::PutInt(0, i32::MIN), refused(10, 0)),
        (Call::NewRaw(0, 1024), refused(12, 0)),
        (Call::NewRecord(0, 6), refused(11, 0)),
    ];
    for (call, answer) in refusals {
        let mut after = list.clone();
        assert_eq!(after.answer(call), answer);
        assert_eq!(after, list);
    }
    assert_eq!(family().answer(Call::NewRecord(0, 5)), Ok(Said::Done));
}

#[test]
fn a_collection_drops_the_unmarked() {
    let mut list = family();
    assert_eq!(list.collect(&brought(1 << 1, &[])), refused(3, 1));
    assert_eq!(list.collect(&brought(1 << 3, &[])), refused(4, 0));
    assert_eq!(list.answer(Call::PutNil(1)), Ok(Said::Done));
    assert_eq!(list.answer(Call::PutInt(2, 3)), Ok(Said::Done));
    assert_eq!(list.collect(&brought(1, &[0])), refused(5, 2));
    assert_eq!(list.answer(Call::ReadField(0, 1, 1)), Ok(Said::Done));
    assert_eq!(list.answer(Call::PutNil(0)), Ok(Said::Done));
    assert_eq!(list.collect(&brought(1 << 3, &[])), refused(6, 0));
    let collected = Collected {
        live: 2,
        objects: 1,
        blocks: 1,
    };
    let before = list.record();
    assert_eq!(
        list.collect(&brought(1 << 3, &[0])),
        Ok(Said::Collected(collected))
    );
    assert_eq!(
        list.record(),
        Store {
            top: 2,
            calls: before.calls + 1
        }
    );
    assert_eq!(list.answer(Call::ReadRaw(1, 0)), Ok(Said::Word(77)));
}

#[test]
fn lengths_come_first() {
    let mut list = family();
    let mut wrong = brought(1 << 1, &[]);
    wrong.offsets.push(0);
    assert_eq!(list.collect(&wrong), refused(1, 0));
    assert_eq!(list.collect(&brought(1 << 1, &[0; 129])), refused(1, 0));
    for (room, slots) in [(8193, 1), (8, 65)] {
        let mut list = List::empty(room, slots);
        assert_eq!(list.answer(Call::Ask(0)), refused(1, 0));
        assert_eq!(list.record(), Store { top: 0, calls: 0 });
    }
}
