//! What an image's case looks like, that the edge cases meet every answer, and that stored cases stay small.

use super::super::bytes;
use super::*;
use std::collections::BTreeSet;

#[test]
fn an_image_is_its_length_and_then_its_bytes() {
    let empty = bytes(&[1, 0, 10, 0, 10, 0, 10, 0, 10, 0]);
    let case = image(&empty);
    assert_eq!(case.bytes, bytes(&[5, 40, 1, 0, 10, 0, 10, 0, 10, 0, 10, 0]));
    assert_eq!(case.line, "ok top 0 objects 0 blocks 0\nheap\nroots");
    assert_eq!(case.sort, "image accepted");
}

#[test]
fn a_last_part_of_a_word_is_filled_up() {
    let case = image(&[7, 8, 9, 10, 11]);
    assert_eq!(case.bytes, bytes(&[5, 5, 0x0A09_0807, 11]));
    assert_eq!(case.line, "refused 14 at 0");
    assert_eq!(case.sort, "image refused 14");
    assert_eq!(image(&[]).bytes, bytes(&[5, 0]));
}

#[test]
fn the_edges_meet_every_answer() {
    let sorts: BTreeSet<String> = image_edges().into_iter().map(|case| case.sort).collect();
    let expected = [
        "image accepted",
        "image refused 1",
        "image refused 14",
        "image refused 2",
        "image refused 3",
        "image refused 4",
        "image refused 5",
        "image refused 6",
        "skipped",
    ];
    assert_eq!(
        sorts.iter().collect::<Vec<_>>(),
        expected.iter().collect::<Vec<_>>()
    );
}

/// The program takes no case of over 65,536 bytes.
#[test]
fn no_case_is_too_long_and_all_are_small_together() {
    let mut random = Random::new(1);
    let mut cases = image_edges();
    cases.extend((0..2150).map(|_| any_short_image_case(&mut random)));
    assert!(cases.iter().all(|case| case.bytes.len() <= 65_536));
    let input: usize = cases.iter().map(|case| 4 + case.bytes.len()).sum();
    let output: usize = cases.iter().map(|case| case.line.len() + 1).sum();
    assert!(
        input < 1_000_000 && output < 500_000,
        "{input} and {output} bytes"
    );
}
