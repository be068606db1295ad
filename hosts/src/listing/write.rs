//! From an image to a listing that gives the same image again.

use super::{name_of, objects_of, top_in_heap};
use crate::plain::image::Image;
use crate::plain::{bit, blocks, reference, Kind, Object, NIL};
use std::collections::BTreeMap;

/// From an object's place to its name.
type Names = BTreeMap<u32, String>;

/// Where the objects end before the top, the words from there to the top are listed as they are.
pub fn listing_of(image: &Image) -> String {
    let (objects, end) = objects_of(image);
    let top = top_in_heap(image);
    let names: Names = (0..)
        .zip(&objects)
        .map(|(number, object)| (object.place as u32, name_of(number)))
        .collect();
    let mut text = String::new();
    for object in &objects {
        text += &object_line(image, object, &names);
    }
    text += &line_unless_empty("words", numbers(&image.heap[end..top]));
    text += &line_unless_empty("free", numbers(&image.heap[top..]));
    text += &line_unless_empty("mark", stray_marks(image, &objects));
    if image.marks.len() != blocks(image.heap.len()) {
        text += &format!("mark-table {}\n", image.marks.len());
    }
    if image.top as usize != top {
        text += &format!("top {}\n", image.top);
    }
    let roots = image.roots.iter().map(|&word| value(word, &names)).collect();
    text += &line_unless_empty("roots", roots);
    text += &line_unless_empty("order", numbers(&image.order));
    text
}

fn object_line(image: &Image, object: &Object, names: &Names) -> String {
    let verb = if bit(&image.marks, object.place as u64) {
        "keep"
    } else {
        "drop"
    };
    let name = &names[&(object.place as u32)];
    let payload = &image.heap[object.place + 1..object.place + 1 + object.payload];
    match object.kind {
        Kind::Record => {
            let values = payload.iter().map(|&word| value(word, names)).collect();
            line(&format!("{verb} {name} record"), values)
        }
        Kind::Raw => line(&format!("{verb} {name} raw"), numbers(payload)),
    }
}

/// Marked places that are no listed object's header.
fn stray_marks(image: &Image, objects: &[Object]) -> Vec<String> {
    let mut marks = image.marks.clone();
    for object in objects {
        if let Some(block) = marks.get_mut(object.place / 64) {
            *block &= !(1 << (object.place % 64));
        }
    }
    (0..64 * marks.len() as u64)
        .filter(|&place| bit(&marks, place))
        .map(|place| place.to_string())
        .collect()
}

fn numbers(words: &[u32]) -> Vec<String> {
    words.iter().map(u32::to_string).collect()
}

/// What a word means in a record or a root.
fn value(word: u32, names: &Names) -> String {
    match reference(word) {
        Some(place) => match names.get(&place) {
            Some(name) => format!("@{name}"),
            None => format!("@{place}"),
        },
        None if word == NIL => "nil".to_string(),
        None => (word as i32 / 2).to_string(),
    }
}

fn line_unless_empty(verb: &str, tokens: Vec<String>) -> String {
    if tokens.is_empty() {
        String::new()
    } else {
        line(verb, tokens)
    }
}

/// Broken into indented lines where it gets long.
fn line(verb: &str, tokens: Vec<String>) -> String {
    const WIDTH: usize = 100;
    let mut text = String::new();
    let mut line = verb.to_string();
    for token in shortened(tokens) {
        if line.len() + 1 + token.len() > WIDTH {
            text += &line;
            text.push('\n');
            line = "   ".to_string();
        }
        line.push(' ');
        line += &token;
    }
    text + &line + "\n"
}

/// Three or more of the same in a row become one with their number.
fn shortened(tokens: Vec<String>) -> Vec<String> {
    tokens
        .chunk_by(|one, other| one == other)
        .flat_map(|same| match same {
            [one, _, _, ..] => vec![format!("{one}*{}", same.len())],
            few => few.to_vec(),
        })
        .collect()
}
