//! The statement's cases as images, the order in which 14 and 1 are judged, and that any bytes are answered.

use super::*;
use crate::examples::{blocks_with_live_words, whole_case};
use crate::plain::NIL;
use crate::random::images::{any_image, image_of};
use crate::random::Random;

const WHOLE: [u32; 33] = [
    1, 10, 10, 16, 26, 4, 30, 2, 32, 1, 8, 10, 15, 13, 101, 102, 103, 4, 1, 1, 9, 9, 9, 9, 9, 9, 15, 19,
    4294967294, 4294967295, 641, 0, 0,
];
const WHOLE_TEXT: &str = "ok top 6 objects 3 blocks 1\nheap 8 10 7 4 1 1\nroots 7 11 4294967294 4294967295\n";

fn bytes(words: &[u32]) -> Vec<u8> {
    words.iter().flat_map(|word| word.to_le_bytes()).collect()
}

fn whole() -> Image {
    image_of(whole_case())
}

fn with_marks(marks: u64) -> Image {
    let marks = vec![marks];
    Image { marks, ..whole() }
}

fn text_of(image: &Image) -> String {
    answer(&bytes_of(image))
}

fn refused(number: u64, place: u64) -> String {
    format!("refused {number} at {place}\n")
}

/// The whole case with some words of the contents changed, and no bodies.
fn contents_only(changes: &[(usize, u32)]) -> String {
    let mut words = WHOLE[..10].to_vec();
    for &(number, word) in changes {
        words[number] = word;
    }
    answer(&bytes(&words))
}

#[test]
fn p1_whole_case() {
    assert_eq!(bytes_of(&whole()), bytes(&WHOLE));
    assert_eq!(answer(&bytes(&WHOLE)), WHOLE_TEXT);
    let (after, _) = collected(&whole()).expect("the whole case is good");
    assert_eq!(after.heap, [8, 10, 7, 4, 1, 1, 0, 0, 0, 0, 9, 9, 9, 9, 9, 9]);
    assert_eq!(after.marks, [0]);
}

#[test]
fn p2_empty() {
    let empty = bytes_of(&Image::default());
    assert_eq!(empty, bytes(&[1, 0, 10, 0, 10, 0, 10, 0, 10, 0]));
    assert_eq!(answer(&empty), "ok top 0 objects 0 blocks 0\nheap\nroots\n");
}

#[test]
fn p6_to_p9_marks() {
    let text = text_of(&with_marks(641 + 8));
    assert!(text.starts_with("ok top 10 objects 4 blocks 1\nheap 8 10 15 13 101 102 103 4 1 1\n"));
    assert_eq!(text_of(&with_marks(641 + 16)), refused(3, 4));
    let mut without_mark_7 = with_marks(641 - 128);
    assert_eq!(text_of(&without_mark_7), refused(4, 0));
    without_mark_7.roots[0] = NIL;
    assert_eq!(text_of(&without_mark_7), refused(5, 2));
}

#[test]
fn p10_to_p12_orders() {
    let half_full = image_of(blocks_with_live_words(&[32; 8]));
    let two_full = image_of(blocks_with_live_words(&[64; 2]));
    let orders: [(&Image, &[u32], &str); 7] = [
        (&whole(), &[], "refused 6 at 0\n"),
        (&whole(), &[0, 0], "refused 6 at 1\n"),
        (&half_full, &[0, 1, 2, 3], "ok top 256 objects 8 blocks 4\n"),
        (&half_full, &[0, 1, 3, 2], "ok top 256 objects 8 blocks 4\n"),
        (&half_full, &[0, 2, 1, 3], "refused 6 at 1\n"),
        (&two_full, &[0, 1], "ok top 128 objects 2 blocks 2\n"),
        (&two_full, &[1, 0], "ok top 128 objects 2 blocks 2\n"),
    ];
    for (image, order, first_line) in orders {
        let order = order.to_vec();
        let text = text_of(&Image {
            order,
            ..image.clone()
        });
        assert!(text.starts_with(first_line), "{text}");
    }
}

#[test]
fn nothing_kept_and_no_roots_leave_bare_names() {
    let image = Image {
        marks: vec![0],
        roots: vec![],
        order: vec![],
        ..whole()
    };
    assert_eq!(text_of(&image), "ok top 0 objects 0 blocks 0\nheap\nroots\n");
}

#[test]
fn no_part_and_nothing_more_of_an_image_is_one() {
    let whole = bytes(&WHOLE);
    for length in 0..whole.len() {
        assert_eq!(answer(&whole[..length]), refused(14, 0), "{length} bytes");
    }
    for more in 1..=5 {
        assert_eq!(answer(&[&whole[..], &vec![0; more]].concat()), refused(14, 0));
    }
}

#[test]
fn contents_of_another_shape_come_first() {
    for changes in [
        (0, 0),
        (0, 2),
        (2, 9),
        (4, 25),
        (4, 27),
        (6, 29),
        (8, 33),
        (3, 15),
        (5, 5),
    ] {
        assert_eq!(contents_only(&[changes, (1, u32::MAX)]), refused(14, 0));
    }
    assert_eq!(contents_only(&[(7, 3), (8, 33), (1, 17)]), refused(14, 0));
}

/// Each of these also lacks its bodies, which is judged later.
#[test]
fn sizes_are_judged_from_the_contents_alone() {
    assert_eq!(contents_only(&[]), refused(14, 0));
    assert_eq!(contents_only(&[(1, 16)]), refused(14, 0));
    assert_eq!(contents_only(&[(1, 17)]), refused(1, 0));
    assert_eq!(contents_only(&[(5, 64), (6, 90), (8, 92)]), refused(14, 0));
    assert_eq!(contents_only(&[(5, 65), (6, 91), (8, 93)]), refused(1, 0));
    assert_eq!(contents_only(&[(7, 0), (8, 30)]), refused(1, 0));
    assert_eq!(contents_only(&[(7, 4), (8, 34)]), refused(1, 0));
    assert_eq!(contents_only(&[(9, 128)]), refused(14, 0));
    assert_eq!(contents_only(&[(9, 129)]), refused(1, 0));
    assert_eq!(contents_only(&[(9, u32::MAX)]), refused(1, 0));
    let longest = [(3, 8192), (4, 8202), (6, 8206), (7, 256), (8, 8462)];
    assert_eq!(contents_only(&longest), refused(14, 0));
    let too_long = [(3, 8193), (4, 8203), (6, 8207), (7, 258), (8, 8465)];
    assert_eq!(contents_only(&too_long), refused(1, 0));
}

/// A sum of 2^32 - 1 is one of the right shape; one more would wrap to 0.
#[test]
fn sums_do_not_wrap() {
    let most = u32::MAX;
    let fits = [(3, most - 10), (4, most), (5, 0), (6, most), (7, 0), (8, most)];
    assert_eq!(contents_only(&fits), refused(1, 0));
    let wraps = [(3, most - 9), (4, 0), (5, 0), (6, 0), (7, 0), (8, 0)];
    assert_eq!(contents_only(&wraps), refused(14, 0));
    let wraps_back = [(5, most), (6, 25), (7, 2), (8, 27)];
    assert_eq!(contents_only(&wraps_back), refused(14, 0));
}

#[test]
fn an_image_is_read_as_it_was_written() {
    let mut random = Random::new(5);
    for _ in 0..500 {
        let image = image_of(crate::random::collections::any_collection(&mut random));
        assert_eq!(image_in(&bytes_of(&image)), Some(image));
    }
}

/// Also that a text is one line of a refusal or three lines.
#[test]
fn no_bytes_stop_the_reading() {
    let mut random = Random::new(6);
    for round in 0..30_000 {
        let bytes: Vec<u8> = match round % 3 {
            0 => (0..random.below(200)).map(|_| random.bits() as u8).collect(),
            1 => (0..4 * random.below(30))
                .map(|_| (random.bits() % 3) as u8)
                .collect(),
            _ => any_image(&mut random),
        };
        let text = answer(&bytes);
        let lines = if text.starts_with("refused ") { 1 } else { 3 };
        assert_eq!(text.lines().count(), lines);
        assert!(text.ends_with('\n'));
    }
}
