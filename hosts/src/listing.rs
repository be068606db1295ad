//! Images as text for a person: a listing that says what each word means, and a picture of the blocks.

mod draft;
mod faults;
mod lines;
mod picture;
mod read;
#[cfg(test)]
mod tests;
mod write;

use crate::plain::image::Image;
use crate::plain::{walk, Object};
pub use faults::what_is_wrong;
pub use read::image_of;
pub use write::listing_of;

/// What `show` prints: the listing, then as a comment what happens to it.
pub fn shown(image: &Image) -> String {
    format!("{}\n{}", listing_of(image), picture::picture(image))
}

/// The objects up to the top or to the first bad header, and the place where they end.
fn objects_of(image: &Image) -> (Vec<Object>, usize) {
    let top = top_in_heap(image);
    let end = walk(&image.heap, top).err().unwrap_or(top);
    (walk(&image.heap, end).unwrap_or_default(), end)
}

/// The top, or where it is above the heap, the heap's end.
fn top_in_heap(image: &Image) -> usize {
    (image.top as usize).min(image.heap.len())
}

/// Objects are called a to z in heap order, then a1 to z1 and so on; the picture shows the letter.
fn name_of(number: usize) -> String {
    match number / 26 {
        0 => letter_of(number).to_string(),
        round => format!("{}{round}", letter_of(number)),
    }
}

fn letter_of(number: usize) -> char {
    char::from(b'a' + (number % 26) as u8)
}
