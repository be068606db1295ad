//! The check, the collection and the two lookups.

use super::functions::*;
use super::{with_out, Answer};

pub fn check(heap: &[u32], top: u32, roots: &[u32], marks: &[u64]) -> Answer {
    // Safety: every pointer comes with its own slice's length, and `out` has four words.
    with_out(|out| unsafe {
        hasurimba_check(
            heap.as_ptr(),
            heap.len(),
            top,
            roots.as_ptr(),
            roots.len(),
            marks.as_ptr(),
            marks.len(),
            out,
        )
    })
}

pub fn collect(
    heap: &mut [u32],
    top: u32,
    roots: &mut [u32],
    marks: &mut [u64],
    order: &[u32],
    live: &mut [u64],
    offsets: &mut [u32],
) -> Answer {
    // Safety: every pointer comes with its own slice's length, no two slices overlap, and `out` has four
    // words.
    with_out(|out| unsafe {
        hasurimba_collect(
            heap.as_mut_ptr(),
            heap.len(),
            top,
            roots.as_mut_ptr(),
            roots.len(),
            marks.as_mut_ptr(),
            marks.len(),
            order.as_ptr(),
            order.len(),
            live.as_mut_ptr(),
            live.len(),
            offsets.as_mut_ptr(),
            offsets.len(),
            out,
        )
    })
}

pub fn old_to_new(live: &[u64], offsets: &[u32], place: u32) -> Answer {
    look_up(hasurimba_old_to_new, live, offsets, place)
}

pub fn new_to_old(live: &[u64], offsets: &[u32], number: u32) -> Answer {
    look_up(hasurimba_new_to_old, live, offsets, number)
}

/// The two lookups differ in nothing but the function that is called.
type Lookup = unsafe extern "C" fn(*const u64, usize, *const u32, usize, u32, *mut u64) -> u64;

fn look_up(call: Lookup, live: &[u64], offsets: &[u32], place: u32) -> Answer {
    // Safety: both pointers come with their own slice's length, and `out` has four words.
    with_out(|out| unsafe {
        call(
            live.as_ptr(),
            live.len(),
            offsets.as_ptr(),
            offsets.len(),
            place,
            out,
        )
    })
}
