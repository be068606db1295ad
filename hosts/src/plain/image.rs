//! The program's image: its bytes, how they are judged, and the text that the program prints for them.

#[cfg(test)]
mod tests;

use super::{blocks, collect, Collected, Refusal, MOST_BLOCKS, MOST_HEAP_WORDS, MOST_ROOTS};

pub const CONTENTS_WORDS: usize = 10;

const NO_IMAGE: Refusal = Refusal { number: 14, place: 0 };
const WRONG_SIZES: Refusal = Refusal { number: 1, place: 0 };

/// What an image holds; nothing of it need be good.
#[derive(Clone, Debug, Default, PartialEq, Eq)]
pub struct Image {
    pub top: u32,
    pub heap: Vec<u32>,
    pub roots: Vec<u32>,
    pub marks: Vec<u64>,
    pub order: Vec<u32>,
}

/// Start and length of a body in words. They are wide, so that no sum wraps.
#[derive(Clone, Copy, Debug)]
struct Body {
    start: u64,
    length: u64,
}

/// Contents of the right shape. Of marks, the length is in words of 32 bits.
#[derive(Clone, Copy, Debug)]
struct Contents {
    top: u32,
    heap: Body,
    roots: Body,
    marks: Body,
    order: Body,
}

/// The contents, then the bodies in their order without gaps.
pub fn bytes_of(image: &Image) -> Vec<u8> {
    let marks: Vec<u32> = image
        .marks
        .iter()
        .flat_map(|&mark| [mark as u32, (mark >> 32) as u32])
        .collect();
    let bodies = [&image.heap, &image.roots, &marks, &image.order];
    let mut words = vec![1, image.top];
    let mut start = CONTENTS_WORDS as u32;
    for body in bodies {
        words.extend([start, body.len() as u32]);
        start += body.len() as u32;
    }
    words.extend(bodies.into_iter().flatten());
    words.iter().flat_map(|word| word.to_le_bytes()).collect()
}

/// All that the program prints, each line ended by a newline.
pub fn answer(bytes: &[u8]) -> String {
    match judged(bytes).and_then(|image| collected(&image)) {
        Ok((after, answer)) => {
            let Collected {
                live,
                objects,
                blocks,
            } = answer;
            let heap = line("heap", &after.heap[..live as usize]);
            let roots = line("roots", &after.roots);
            format!("ok top {live} objects {objects} blocks {blocks}\n{heap}{roots}")
        }
        Err(Refusal { number, place }) => format!("refused {number} at {place}\n"),
    }
}

fn line(name: &str, words: &[u32]) -> String {
    let mut line = name.to_string();
    for word in words {
        line.push(' ');
        line.push_str(&word.to_string());
    }
    line.push('\n');
    line
}

/// What a collection leaves of an image, and its answer; or refusals 1 to 6.
pub fn collected(image: &Image) -> Result<(Image, Collected), Refusal> {
    let mut after = image.clone();
    let entries = blocks(image.heap.len());
    let answer = collect(
        &mut after.heap,
        image.top,
        &mut after.roots,
        &mut after.marks,
        &image.order,
        &mut vec![0; entries],
        &mut vec![0; entries],
    )?;
    Ok((after, answer))
}

/// The image that bytes hold, or a refusal that comes before the heap is looked at.
fn judged(bytes: &[u8]) -> Result<Image, Refusal> {
    let contents = contents(bytes).ok_or(NO_IMAGE)?;
    if are_too_large(&contents) {
        return Err(WRONG_SIZES);
    }
    bodies(bytes, &contents).ok_or(NO_IMAGE)
}

/// The image that bytes hold, be its sizes within the limits or not.
pub fn image_in(bytes: &[u8]) -> Option<Image> {
    bodies(bytes, &contents(bytes)?)
}

/// Nothing where there are no ten words or they are of another shape.
fn contents(bytes: &[u8]) -> Option<Contents> {
    let words = bytes.get(..4 * CONTENTS_WORDS)?;
    let word = |i: usize| words_of(&words[4 * i..4 * i + 4])[0];
    let body = |i: usize| Body {
        start: u64::from(word(i)),
        length: u64::from(word(i + 1)),
    };
    let [heap, roots, marks, order] = [body(2), body(4), body(6), body(8)];
    let is_shaped = word(0) == 1
        && heap.start == CONTENTS_WORDS as u64
        && roots.start == heap.start + heap.length
        && marks.start == roots.start + roots.length
        && order.start == marks.start + marks.length
        && marks.length.is_multiple_of(2);
    is_shaped.then_some(Contents {
        top: word(1),
        heap,
        roots,
        marks,
        order,
    })
}

/// Refusal 1, from the contents alone.
fn are_too_large(contents: &Contents) -> bool {
    let heap_words = contents.heap.length;
    heap_words > MOST_HEAP_WORDS as u64
        || u64::from(contents.top) > heap_words
        || contents.roots.length > MOST_ROOTS as u64
        || contents.marks.length / 2 != heap_words.div_ceil(64)
        || contents.order.length > MOST_BLOCKS as u64
}

/// Nothing where the bodies are short or something follows them, if only a part of a word.
fn bodies(bytes: &[u8], contents: &Contents) -> Option<Image> {
    let words = contents.order.start + contents.order.length;
    if bytes.len() as u64 != 4 * words {
        return None;
    }
    let words_in = |body: Body| {
        let start = 4 * body.start as usize;
        words_of(&bytes[start..start + 4 * body.length as usize])
    };
    let halves = words_in(contents.marks);
    Some(Image {
        top: contents.top,
        heap: words_in(contents.heap),
        roots: words_in(contents.roots),
        marks: halves
            .chunks(2)
            .map(|pair| u64::from(pair[0]) | u64::from(pair[1]) << 32)
            .collect(),
        order: words_in(contents.order),
    })
}

/// Whole words, little-endian.
fn words_of(bytes: &[u8]) -> Vec<u32> {
    bytes
        .chunks_exact(4)
        .map(|word| u32::from_le_bytes([word[0], word[1], word[2], word[3]]))
        .collect()
}
