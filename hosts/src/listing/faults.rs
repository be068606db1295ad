//! In words: why bytes are no image, and what a refusal's number means.

use crate::plain::image::{image_in, CONTENTS_WORDS};
use crate::plain::Refusal;

/// Why bytes are no image, or nothing where they are one.
pub fn what_is_wrong(bytes: &[u8]) -> Option<String> {
    if image_in(bytes).is_some() {
        return None;
    }
    if bytes.len() < 4 * CONTENTS_WORDS {
        return Some(format!(
            "{} bytes are too few for ten words of contents",
            bytes.len()
        ));
    }
    let words: Vec<u64> = bytes
        .chunks_exact(4)
        .take(CONTENTS_WORDS)
        .map(|word| u64::from(u32::from_le_bytes([word[0], word[1], word[2], word[3]])))
        .collect();
    if words[0] != 1 {
        return Some(format!("the first word is {}, not 1", words[0]));
    }
    let mut start = CONTENTS_WORDS as u64;
    for (body, number) in [("heap", 2), ("roots", 4), ("marks", 6), ("order", 8)] {
        if words[number] != start {
            return Some(format!(
                "the {body} should start at word {start}, not at {}",
                words[number]
            ));
        }
        start += words[number + 1];
    }
    if words[7] % 2 == 1 {
        return Some(format!("marks of {} words, which is odd", words[7]));
    }
    let bytes = bytes.len();
    Some(format!(
        "by its contents it has {} bytes, but there are {bytes}",
        4 * start
    ))
}

/// What a refusal of an image means.
pub fn meaning(refusal: &Refusal) -> &'static str {
    match refusal.number {
        1 => "heap, top, roots, marks or order are of a wrong size",
        2 => "no legal header, or an object that ends past the top",
        3 => "a mark that is not at an object's header below the top",
        4 => "the root in that slot refers to a place without a mark",
        5 => "that field of a kept record refers to a place without a mark",
        6 => "the order breaks at that position; each step comes once, after those that it waits for",
        _ => "no image",
    }
}
