//! Images as cases: the line of one, or its three lines, are all that the program has to print for the image.

mod edges;
#[cfg(test)]
mod tests;

use super::{bytes, Case};
use crate::plain::image::{answer, bytes_of};
use crate::random::images::{any_image, of_few_blocks};
use crate::random::Random;
pub use edges::image_edges;

const IMAGE: u32 = 5;

/// The image's length in bytes, since its last word may be a part of one; zeros fill that word up.
pub fn image(image: &[u8]) -> Case {
    let mut bytes = bytes(&[IMAGE, image.len() as u32]);
    bytes.extend(image);
    bytes.resize(bytes.len().next_multiple_of(4), 0);
    let text = answer(image);
    let line = text.trim_end_matches('\n').to_string();
    Case::of(bytes, line, sort_of(&text))
}

fn sort_of(text: &str) -> String {
    match text.split_once(" at ") {
        Some((refused, _)) => format!("image {refused}"),
        None => "image accepted".to_string(),
    }
}

/// An image of any length.
pub fn any_image_case(random: &mut Random) -> Case {
    image(&any_image(random))
}

/// The longer an image and its text, the fewer are kept; but of those with several steps some are.
pub fn any_short_image_case(random: &mut Random) -> Case {
    const KEPT_BYTES: usize = 256;
    const MOST_BYTES: usize = 3584;
    if random.percent(5) {
        return image(&bytes_of(&of_few_blocks(random)));
    }
    loop {
        let case = any_image_case(random);
        let bytes = case.bytes.len() + case.line.len();
        if bytes <= MOST_BYTES && random.below(bytes) < KEPT_BYTES {
            return case;
        }
    }
}
