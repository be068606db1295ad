//! The whole case as a listing, that listing and image give each other back, and what is said of bad ones.

use super::*;
use crate::examples;
use crate::plain::image::{answer, bytes_of, image_in};
use crate::random::images::{self, any_image, any_sound_image};
use crate::random::Random;

const WHOLE: &str = "\
keep a record 5 @c
drop b raw 101 102 103
keep c record @a
keep d raw
free 9*6
roots @c @d -1 nil
order 0
";

const WHOLE_PICTURE: &str = "
# Before (a capital is a kept object's header, - is not kept, . is free):
#      0 Aaa----CcD......
# After (0 is cleared):
#      0 AaaCcD0000......
# Objects, from the old place to the new one:
#      a 0 -> 0 (record of 2)
#      b 3, not kept (raw of 3)
#      c 7 -> 3 (record of 1)
#      d 9 -> 5 (raw of 0)
# Blocks, and where their live words go:
#      0 6 live, to 0; step 0 waits for none
# Accepted: top 6, objects 3, blocks 1
";

fn whole() -> Image {
    images::image_of(examples::whole_case())
}

/// The bad listing's line and what is said of it.
fn complaint(text: &str) -> String {
    image_of(text).expect_err("a bad listing").to_string()
}

#[test]
fn p1_whole_case() {
    assert_eq!(image_of(WHOLE), Ok(whole()));
    assert_eq!(listing_of(&whole()), WHOLE);
    assert_eq!(shown(&whole()), format!("{WHOLE}{WHOLE_PICTURE}"));
}

#[test]
fn p2_empty() {
    assert_eq!(image_of(""), Ok(Image::default()));
    assert_eq!(listing_of(&Image::default()), "");
}

/// Any image that is one, good or refused, and any bytes that still are one after damage.
#[test]
fn what_is_shown_makes_the_same_image() {
    let mut random = Random::new(7);
    for round in 0..1500 {
        let bytes = match round % 2 {
            0 => bytes_of(&any_sound_image(&mut random)),
            _ => any_image(&mut random),
        };
        let Some(image) = image_in(&bytes) else {
            assert!(what_is_wrong(&bytes).is_some());
            let text = answer(&bytes);
            assert!(["refused 14 at 0\n", "refused 1 at 0\n"].contains(&text.as_str()));
            continue;
        };
        let text = shown(&image);
        let again = image_of(&text).unwrap_or_else(|fault| panic!("{fault}\n{text}"));
        assert_eq!(bytes_of(&again), bytes, "{text}");
        assert_eq!(what_is_wrong(&bytes), None);
    }
}

#[test]
fn names_may_be_used_before_they_are_given_or_left_out() {
    let image = image_of("keep record @last-1 @2 nil # a comment\n  -1\n\n# another\ndrop last-1 raw 0xFf\n");
    let expected = Image {
        top: 7,
        heap: vec![16, 11, 5, u32::MAX, u32::MAX - 1, 5, 255],
        marks: vec![1],
        ..Image::default()
    };
    assert_eq!(image, Ok(expected));
}

#[test]
fn integers_and_references_at_their_ends() {
    let image = image_of("drop record -1073741824 1073741823 @2147483646 @0").expect("a good listing");
    assert_eq!(image.heap, [16, 1 << 31, (1 << 31) - 2, u32::MAX - 2, 1]);
}

/// Top above the heap, words that make no object, strange marks, a table of another length.
#[test]
fn refused_images_have_listings_too() {
    let text = "keep a record nil\nwords 2 7\nfree 1\nmark 1 64\nmark-table 2\ntop 9\n";
    let image = image_of(text).expect("a good listing");
    assert_eq!((image.top, &image.heap[..]), (9, &[4, u32::MAX, 2, 7, 1][..]));
    assert_eq!(image.marks, [0b11, 1]);
    assert_eq!(image_of(&listing_of(&image)), Ok(image));
}

#[test]
fn bad_listings_are_told_by_their_line() {
    let complaints = [
        ("  5", "line 1: an indented line goes on"),
        ("\nkep a record", "line 2: `kep` begins no line"),
        ("keep a", "line 1: write `keep NAME record VALUES`"),
        ("drop", "line 1: write `drop NAME record VALUES`"),
        ("keep 7 record", "line 1: `7` is neither record nor raw"),
        (
            "keep a raw\n\ndrop a raw",
            "line 3: `a` is also the name of the object in line 1",
        ),
        ("keep a record\n  1\n  @b", "line 3: no object is called `b`"),
        ("roots @2147483647", "line 1: @2147483647: the farthest place"),
        ("roots 1073741824", "line 1: `1073741824` is no integer"),
        ("roots one", "line 1: `one` is neither an integer nor nil"),
        ("keep a raw -1", "line 1: `-1` is no number"),
        ("keep a raw 4294967296", "line 1: `4294967296` is no number"),
        ("keep a raw 0*1024", "line 1: 1024 payload words"),
        ("free 0*4000000000", "line 1: `0*4000000000`: write VALUE*TIMES"),
        ("free 1\nkeep a raw", "line 2: nothing in the heap comes after"),
        ("top 1\ntop 2", "line 2: a second line with `top`"),
        ("mark-table", "line 1: write `mark-table NUMBER`"),
        ("free 0\nmark 64", "line 2: place 64 has no mark"),
        ("order -1", "line 1: `-1` is no number"),
    ];
    for (text, expected) in complaints {
        let complaint = complaint(text);
        assert!(complaint.starts_with(expected), "{complaint}");
    }
}

#[test]
fn a_refused_image_is_shown_with_its_reason() {
    let mut image = whole();
    image.marks = vec![641 - 128];
    let text = shown(&image);
    assert!(text.ends_with("# Refused 4 at 0: the root in that slot refers to a place without a mark\n"));
    image.heap[3] = 2;
    let text = shown(&image);
    assert!(text.contains("words 2 101 102 103 4 1 1\n"));
    assert!(text.contains("#      0 Aaa???????......\n"));
    assert!(text.ends_with("# Refused 2 at 3: no legal header, or an object that ends past the top\n"));
}

#[test]
fn why_bytes_are_no_image() {
    let whole = bytes_of(&whole());
    let with = |number: usize, byte: u8| {
        let mut bytes = whole.clone();
        bytes[4 * number] = byte;
        what_is_wrong(&bytes)
    };
    let said = |what: &str| Some(what.to_string());
    assert_eq!(
        what_is_wrong(&whole[..39]),
        said("39 bytes are too few for ten words of contents")
    );
    assert_eq!(
        what_is_wrong(&whole[..41]),
        said("by its contents it has 132 bytes, but there are 41")
    );
    assert_eq!(with(0, 2), said("the first word is 2, not 1"));
    assert_eq!(with(2, 9), said("the heap should start at word 10, not at 9"));
    assert_eq!(with(5, 5), said("the marks should start at word 31, not at 30"));
    assert_eq!(with(7, 3), said("the order should start at word 33, not at 32"));
    assert_eq!(
        with(9, 2),
        said("by its contents it has 136 bytes, but there are 132")
    );
}

/// What stands in the folder `examples` belongs together.
#[test]
fn the_example_files_fit_each_other() {
    let examples: [(&str, &[u8], &str); 2] = [
        (
            include_str!("../../../examples/whole-case.txt"),
            include_bytes!("../../../examples/whole-case.image"),
            include_str!("../../../examples/whole-case.out"),
        ),
        (
            include_str!("../../../examples/watering.txt"),
            include_bytes!("../../../examples/watering.image"),
            include_str!("../../../examples/watering.out"),
        ),
    ];
    for (listing, image, text) in examples {
        assert_eq!(image_of(listing).map(|made| bytes_of(&made)), Ok(image.to_vec()));
        assert_eq!(answer(image), text);
    }
}
