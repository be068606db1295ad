//! What happens to an image, as comment lines: the blocks before and after, each object's way, and the order.

use super::faults::meaning;
use super::{letter_of, name_of, objects_of, top_in_heap};
use crate::plain::image::{collected, Image};
use crate::plain::{bit, blocks, check, live_table, offset_table, old_to_new};
use crate::plain::{Collected, Kind, Object, Refusal, BLOCK_WORDS};

/// An object with its number in the heap; letters and names go by the number.
type Numbered = (usize, Object);

pub fn picture(image: &Image) -> String {
    let (objects, _) = objects_of(image);
    let objects: Vec<Numbered> = objects.into_iter().enumerate().collect();
    let mut lines =
        vec!["Before (a capital is a kept object's header, - is not kept, . is free):".to_string()];
    lines.extend(rows(&before(image, &objects)));
    match collected(image) {
        Ok((_, answer)) => {
            lines.push("After (0 is cleared):".to_string());
            lines.extend(rows(&after(image, &objects)));
            lines.extend(ways(image, &objects));
            lines.extend(steps(image));
            lines.push(accepted(&answer));
        }
        Err(refusal) => {
            lines.extend(steps(image));
            let Refusal { number, place } = refusal;
            lines.push(format!("Refused {number} at {place}: {}", meaning(&refusal)));
        }
    }
    lines.iter().map(|line| format!("# {line}\n")).collect()
}

fn accepted(answer: &Collected) -> String {
    let Collected {
        live,
        objects,
        blocks,
    } = answer;
    format!("Accepted: top {live}, objects {objects}, blocks {blocks}")
}

fn is_kept(image: &Image, object: &Object) -> bool {
    bit(&image.marks, object.place as u64)
}

/// Capital for the header, then small letters.
fn letters(number: usize, object: &Object) -> impl Iterator<Item = char> {
    let letter = letter_of(number);
    let payload = std::iter::repeat_n(letter, object.payload);
    std::iter::once(letter.to_ascii_uppercase()).chain(payload)
}

/// A letter for each word; what is below the top but in no object is a question mark.
fn before(image: &Image, objects: &[Numbered]) -> String {
    let mut drawn = String::new();
    for (number, object) in objects {
        if is_kept(image, object) {
            drawn.extend(letters(*number, object));
        } else {
            drawn.extend(std::iter::repeat_n('-', 1 + object.payload));
        }
    }
    let unknown = top_in_heap(image) - drawn.len();
    drawn.extend(std::iter::repeat_n('?', unknown));
    drawn.extend(std::iter::repeat_n('.', image.heap.len() - drawn.len()));
    drawn
}

fn after(image: &Image, objects: &[Numbered]) -> String {
    let mut drawn = String::new();
    for (number, object) in objects.iter().filter(|(_, object)| is_kept(image, object)) {
        drawn.extend(letters(*number, object));
    }
    let cleared = top_in_heap(image) - drawn.len();
    drawn.extend(std::iter::repeat_n('0', cleared));
    drawn.extend(std::iter::repeat_n('.', image.heap.len() - drawn.len()));
    drawn
}

/// A block to a line, with its first place in front.
fn rows(drawn: &str) -> Vec<String> {
    let letters: Vec<char> = drawn.chars().collect();
    (0..)
        .zip(letters.chunks(BLOCK_WORDS))
        .map(|(block, row)| format!("{:>6} {}", BLOCK_WORDS * block, row.iter().collect::<String>()))
        .collect()
}

/// Where each object goes.
fn ways(image: &Image, objects: &[Numbered]) -> Vec<String> {
    let live = live_table(&image.heap, image.top, &image.marks);
    let offsets = offset_table(&live);
    let mut lines = vec!["Objects, from the old place to the new one:".to_string()];
    for (number, object) in objects {
        let way = match old_to_new(&live, &offsets, object.place as u32) {
            Ok(Some(new_place)) => format!("{} -> {new_place}", object.place),
            _ => format!("{}, not kept", object.place),
        };
        let kind = match object.kind {
            Kind::Record => "record",
            Kind::Raw => "raw",
        };
        let words = object.payload;
        lines.push(format!("{:>6} {way} ({kind} of {words})", name_of(*number)));
    }
    lines
}

/// The blocks that each block's live words go to, and so which steps have to come before its own.
fn steps(image: &Image) -> Vec<String> {
    if check(&image.heap, image.top, &image.roots, &image.marks).is_err() {
        return Vec::new();
    }
    let live = live_table(&image.heap, image.top, &image.marks);
    let offsets = offset_table(&live);
    let live_words: u32 = live.iter().map(|word| word.count_ones()).sum();
    let steps = blocks(live_words as usize);
    let mut lines = vec!["Blocks, and where their live words go:".to_string()];
    for (block, (word, offset)) in live.iter().zip(&offsets).enumerate() {
        let targets = targets(*offset, word.count_ones());
        let mut line = format!("{block:>6} {} live", word.count_ones());
        if !targets.is_empty() {
            line += &format!(", to {}", listed(&targets));
        }
        let waits: Vec<u32> = targets
            .into_iter()
            .filter(|&target| target as usize != block)
            .collect();
        if block < steps {
            line += &format!("; step {block} waits for {}", listed(&waits));
        }
        lines.push(line);
    }
    lines
}

/// None, one or two blocks.
fn targets(offset: u32, live_words: u32) -> Vec<u32> {
    match live_words {
        0 => Vec::new(),
        _ => (offset / 64..=(offset + live_words - 1) / 64).collect(),
    }
}

fn listed(blocks: &[u32]) -> String {
    if blocks.is_empty() {
        return "none".to_string();
    }
    let blocks: Vec<String> = blocks.iter().map(u32::to_string).collect();
    blocks.join(" and ")
}
