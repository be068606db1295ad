//! From a listing to its image.

use super::draft::{draft, Draft, Part};
use super::lines::{fault, number, statements, Fault, Token};
use crate::plain::image::Image;
use crate::plain::{blocks, Kind, NIL};

const FARTHEST: u32 = 2_147_483_646;
const LEAST: i64 = -1_073_741_824;
const GREATEST: i64 = 1_073_741_823;

/// The image, which need not be a good one, or what is wrong with the listing.
pub fn image_of(text: &str) -> Result<Image, Fault> {
    let statements = statements(text)?;
    let draft = draft(&statements)?;
    let free_from = draft.free_from.unwrap_or(draft.heap_words);
    Ok(Image {
        top: draft.top.unwrap_or(free_from as u32),
        heap: heap(&draft)?,
        roots: words(&draft.roots, |token| value(token, &draft))?,
        marks: marks(&draft)?,
        order: words(&draft.order, number)?,
    })
}

fn heap(draft: &Draft) -> Result<Vec<u32>, Fault> {
    let mut heap = Vec::with_capacity(draft.heap_words);
    for part in &draft.parts {
        match part {
            Part::Plain(plain) => heap.extend(words(plain, number)?),
            Part::Object { kind, payload } => {
                let (of_kind, payload) = match kind {
                    Kind::Record => (0, words(payload, |token| value(token, draft))?),
                    Kind::Raw => (1, words(payload, number)?),
                };
                heap.push(4 * payload.len() as u32 + of_kind);
                heap.extend(payload);
            }
        }
    }
    Ok(heap)
}

/// Each token's word, as often as the token says.
fn words(tokens: &[Token], word: impl Fn(&Token) -> Result<u32, Fault>) -> Result<Vec<u32>, Fault> {
    let mut words = Vec::new();
    for token in tokens {
        words.resize(words.len() + token.times, word(token)?);
    }
    Ok(words)
}

/// An integer, nil, or a reference to a named object or to a place.
fn value(token: &Token, draft: &Draft) -> Result<u32, Fault> {
    let Token { line, text, .. } = *token;
    if text == "nil" {
        return Ok(NIL);
    }
    if let Some(target) = text.strip_prefix('@') {
        return reference(line, target, draft);
    }
    match text.parse::<i64>() {
        Ok(integer @ LEAST..=GREATEST) if !text.starts_with('+') => Ok((2 * integer) as u32),
        Ok(_) => fault(line, format!("`{text}` is no integer from {LEAST} to {GREATEST}")),
        Err(_) => fault(
            line,
            format!("`{text}` is neither an integer nor nil nor a reference like @a or @7"),
        ),
    }
}

fn reference(line: usize, target: &str, draft: &Draft) -> Result<u32, Fault> {
    if let Some(named) = draft.names.get(target) {
        return Ok(2 * named.place as u32 + 1);
    }
    let times = 1;
    let text = target;
    match number(&Token { line, text, times }) {
        Ok(place @ ..=FARTHEST) => Ok(2 * place + 1),
        Ok(_) => fault(line, format!("@{target}: the farthest place is {FARTHEST}")),
        Err(_) => fault(line, format!("no object is called `{target}`")),
    }
}

fn marks(draft: &Draft) -> Result<Vec<u64>, Fault> {
    let mut marks = vec![0; draft.mark_table.unwrap_or(blocks(draft.heap_words))];
    for &(line, place) in &draft.marks {
        let Some(block) = marks.get_mut(place / 64) else {
            return fault(
                line,
                format!("place {place} has no mark: the mark table ends before it"),
            );
        };
        *block |= 1 << (place % 64);
    }
    Ok(marks)
}
