//! A plain compactor in safe Rust to measure beside the library. It checks nothing: a heap, roots or marks
//! that the check refuses make it stop or leave nonsense.

/// Two sweeps over the headers. The first gives each marked object its new place, the second fixes and moves
/// each of them. Answers the live words.
pub fn compact(heap: &mut [u32], top: usize, roots: &mut [u32], marks: &mut [u64]) -> usize {
    let (forwarding, live) = forwarding(&heap[..top], marks);
    for word in roots {
        *word = fixed(*word, &forwarding);
    }
    let mut place = 0;
    while place < top {
        let header = heap[place];
        let end = place + words(header);
        if is_marked(marks, place) {
            let new_place = forwarding[place] as usize;
            if header.is_multiple_of(4) {
                heap[new_place] = header;
                for field in 1..end - place {
                    heap[new_place + field] = fixed(heap[place + field], &forwarding);
                }
            } else {
                heap.copy_within(place..end, new_place);
            }
        }
        place = end;
    }
    heap[live..top].fill(0);
    marks.fill(0);
    live
}

/// The new place of each marked object at the old place of its header, and the live words.
fn forwarding(heap: &[u32], marks: &[u64]) -> (Vec<u32>, usize) {
    let mut forwarding = vec![0; heap.len()];
    let mut live = 0;
    let mut place = 0;
    while place < heap.len() {
        let words = words(heap[place]);
        if is_marked(marks, place) {
            forwarding[place] = live as u32;
            live += words;
        }
        place += words;
    }
    (forwarding, live)
}

/// An object's words, its header among them.
fn words(header: u32) -> usize {
    1 + (header / 4) as usize
}

fn is_marked(marks: &[u64], place: usize) -> bool {
    marks[place / 64] >> (place % 64) & 1 == 1
}

/// A reference to its object's new place; integers and nil as they are.
fn fixed(word: u32, forwarding: &[u32]) -> u32 {
    if word % 2 == 1 && word != u32::MAX {
        2 * forwarding[(word / 2) as usize] + 1
    } else {
        word
    }
}
