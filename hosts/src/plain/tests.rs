//! The statement's cases that the check and the lookups answer: P1, P2 and P5 to P9.

use super::*;

const HEAP: [u32; 16] = [8, 10, 15, 13, 101, 102, 103, 4, 1, 1, 9, 9, 9, 9, 9, 9];
const ROOTS: [u32; 4] = [15, 19, 4294967294, 4294967295];
const MARKS: u64 = 641;

fn whole_case(roots: &[u32], marks: u64) -> Result<Counts, Refusal> {
    check(&HEAP, 10, roots, &[marks])
}

fn refused<T>(number: u64, place: u64) -> Result<T, Refusal> {
    Err(Refusal { number, place })
}

#[test]
fn p1_whole_case() {
    assert_eq!(whole_case(&ROOTS, MARKS), Ok(Counts { live: 6, objects: 3 }));
    let live = live_table(&HEAP, 10, &[MARKS]);
    assert_eq!(live, [903]);
    assert_eq!(offset_table(&live), [0]);
}

#[test]
fn p1_lookups_follow_the_slide() {
    let new_places = [
        Some(0),
        Some(1),
        Some(2),
        None,
        None,
        None,
        None,
        Some(3),
        Some(4),
        Some(5),
        None,
    ];
    for (place, &new_place) in (0..).zip(&new_places) {
        assert_eq!(old_to_new(&[903], &[0], place), Ok(new_place));
        if let Some(number) = new_place {
            assert_eq!(
                new_to_old(&[903], &[0], number as u32),
                Ok(Some(u64::from(place)))
            );
        }
    }
    assert_eq!(new_to_old(&[903], &[0], 6), Ok(None));
}

#[test]
fn p2_empty() {
    assert_eq!(check(&[], 0, &[], &[]), Ok(Counts { live: 0, objects: 0 }));
    assert_eq!(live_table(&[], 0, &[]), []);
    assert_eq!(offset_table(&[]), []);
    assert_eq!(old_to_new(&[], &[], 0), Ok(None));
    assert_eq!(new_to_old(&[], &[], 0), Ok(None));
}

#[test]
fn p5_headers_at_the_limits() {
    assert_eq!(header(4093), Some((Kind::Raw, 1023)));
    assert_eq!(header(4092), Some((Kind::Record, 1023)));
    assert_eq!(header(4096), None);
    assert_eq!(header(2), None);
    let mut heap = vec![0; 1024];
    for (word, answer) in [
        (
            4093,
            Ok(Counts {
                live: 1024,
                objects: 1,
            }),
        ),
        (
            4092,
            Ok(Counts {
                live: 1024,
                objects: 1,
            }),
        ),
        (4096, refused(2, 0)),
        (2, refused(2, 0)),
    ] {
        heap[0] = word;
        let mut marks = [0; 16];
        marks[0] = 1;
        assert_eq!(check(&heap, 1024, &[], &marks), answer);
    }
}

#[test]
fn p6_raw_object_marked_too() {
    assert_eq!(whole_case(&ROOTS, MARKS + 8), Ok(Counts { live: 10, objects: 4 }));
}

#[test]
fn p7_mark_inside_an_object() {
    assert_eq!(whole_case(&ROOTS, MARKS + 16), refused(3, 4));
}

#[test]
fn p8_root_without_its_mark() {
    assert_eq!(whole_case(&ROOTS, MARKS - 128), refused(4, 0));
}

#[test]
fn p9_field_without_its_mark() {
    let roots = [NIL, ROOTS[1], ROOTS[2], ROOTS[3]];
    assert_eq!(whole_case(&roots, MARKS - 128), refused(5, 2));
}

#[test]
fn wrong_sizes_come_first() {
    assert_eq!(check(&vec![2; 8193], 1, &[], &[0; 129]), refused(1, 0));
    assert_eq!(check(&HEAP, 17, &[], &[0]), refused(1, 0));
    assert_eq!(check(&HEAP, 10, &[0; 65], &[0]), refused(1, 0));
    assert_eq!(check(&HEAP, 10, &[], &[]), refused(1, 0));
    assert_eq!(check(&HEAP, 10, &[], &[0, 0]), refused(1, 0));
    assert_eq!(
        check(&vec![0; 8192], 8192, &[0; 64], &[0; 128]),
        Ok(Counts { live: 0, objects: 0 })
    );
}

#[test]
fn marks_and_references_past_the_heap() {
    assert_eq!(whole_case(&ROOTS, MARKS + (1 << 10)), refused(3, 10));
    assert_eq!(whole_case(&ROOTS, MARKS + (1 << 63)), refused(3, 63));
    assert_eq!(whole_case(&[NIL, 129], MARKS), refused(4, 1));
    assert_eq!(whole_case(&[4294967293], MARKS), refused(4, 0));
}

#[test]
fn lookups_judge_in_order() {
    assert_eq!(old_to_new(&[1], &[], 0), refused(1, 0));
    assert_eq!(old_to_new(&[1; 129], &[0; 129], 0), refused(1, 0));
    assert_eq!(old_to_new(&[1], &[8193], 64), Ok(None));
    assert_eq!(old_to_new(&[1], &[8193], 1), refused(1, 0));
    assert_eq!(old_to_new(&[1], &[8192], 1), Ok(None));
    assert_eq!(old_to_new(&[u64::MAX], &[8192], 63), Ok(Some(8255)));
    assert_eq!(new_to_old(&[1; 129], &[0; 129], 0), refused(1, 0));
    assert_eq!(new_to_old(&[0, 6], &[9000, 9000], 1), Ok(Some(66)));
    assert_eq!(new_to_old(&[u64::MAX; 128], &[0; 128], u32::MAX), Ok(None));
}
