//! The static library's functions as `include/hasurimba.h` declares them. Nothing else in this crate is unsafe.
//!
//! Each returns 0 where it accepts, else the refusal's number + 256 * the place.

/// The store that a call is about. Three exclusive borrows, so nothing in it overlaps.
pub struct Lent<'a> {
    pub record: &'a mut [u64; 8],
    pub heap: &'a mut [u32],
    pub roots: &'a mut [u32],
}

/// Declares store calls, which begin with the same five arguments, and their safe forms.
macro_rules! store_calls {
    ($($function:ident as $name:ident($($argument:ident: $kind:ty),*);)*) => {
        extern "C" {
            $(fn $function(
                record: &mut [u64; 8],
                heap: *mut u32,
                heap_len: usize,
                roots: *mut u32,
                roots_len: usize,
                $($argument: $kind),*
            ) -> u64;)*
        }

        $(pub fn $name(store: Lent, $($argument: $kind),*) -> u64 {
            let Lent { record, heap, roots } = store;
            // Safety: each pointer comes with its own slice's length, and exclusive borrows do not overlap.
            unsafe { $function(record, heap.as_mut_ptr(), heap.len(), roots.as_mut_ptr(), roots.len(), $($argument),*) }
        })*
    };
}

store_calls! {
    hasurimba_put_integer as put_integer(slot: u32, value: i32);
    hasurimba_put_nil as put_nil(slot: u32);
    hasurimba_copy as copy(source: u32, target: u32);
    hasurimba_new_record as new_record(slot: u32, k: u32);
    hasurimba_new_raw as new_raw(slot: u32, k: u32);
    hasurimba_read_field as read_field(object: u32, field: u32, target: u32);
    hasurimba_write_field as write_field(object: u32, field: u32, source: u32);
    hasurimba_read_raw as read_raw(object: u32, index: u32, out: &mut [u64; 4]);
    hasurimba_write_raw as write_raw(object: u32, index: u32, word: u32);
    hasurimba_ask as ask(slot: u32, out: &mut [u64; 4]);
    hasurimba_same as same(first: u32, second: u32, out: &mut [u64; 4]);
}

extern "C" {
    fn hasurimba_store_collect(
        record: &mut [u64; 8],
        heap: *mut u32,
        heap_len: usize,
        roots: *mut u32,
        roots_len: usize,
        marks: *mut u64,
        marks_len: usize,
        order: *const u32,
        order_len: usize,
        live: *mut u64,
        live_len: usize,
        offsets: *mut u32,
        offsets_len: usize,
        out: &mut [u64; 4],
    ) -> u64;

    fn hasurimba_check(
        heap: *const u32,
        heap_len: usize,
        top: u32,
        roots: *const u32,
        roots_len: usize,
        marks: *const u64,
        marks_len: usize,
        out: &mut [u64; 4],
    ) -> u64;

    fn hasurimba_old_to_new(
        live: *const u64,
        live_len: usize,
        offsets: *const u32,
        offsets_len: usize,
        place: u32,
        out: &mut [u64; 4],
    ) -> u64;

    fn hasurimba_new_to_old(
        live: *const u64,
        live_len: usize,
        offsets: *const u32,
        offsets_len: usize,
        place: u32,
        out: &mut [u64; 4],
    ) -> u64;
}

/// The buffers of a collection, besides the store. The order is only read; it is the caller's.
pub struct Tables<'a> {
    pub marks: &'a mut [u64],
    pub order: &'a [u32],
    pub live: &'a mut [u64],
    pub offsets: &'a mut [u32],
}

pub fn store_collect(store: Lent, tables: Tables, out: &mut [u64; 4]) -> u64 {
    let Lent { record, heap, roots } = store;
    let Tables {
        marks,
        order,
        live,
        offsets,
    } = tables;
    // Safety: each pointer comes with its own slice's length. All borrows but the order's are exclusive, and
    // so do not overlap with it or one another.
    unsafe {
        hasurimba_store_collect(
            record,
            heap.as_mut_ptr(),
            heap.len(),
            roots.as_mut_ptr(),
            roots.len(),
            marks.as_mut_ptr(),
            marks.len(),
            order.as_ptr(),
            order.len(),
            live.as_mut_ptr(),
            live.len(),
            offsets.as_mut_ptr(),
            offsets.len(),
            out,
        )
    }
}

/// Only read: the heap below its top, the slots, and the marks, each a buffer of its own.
pub fn check(heap: &[u32], top: u32, roots: &[u32], marks: &[u64], out: &mut [u64; 4]) -> u64 {
    // Safety: each pointer comes with its own slice's length, and `out` is borrowed exclusively.
    unsafe {
        hasurimba_check(
            heap.as_ptr(),
            heap.len(),
            top,
            roots.as_ptr(),
            roots.len(),
            marks.as_ptr(),
            marks.len(),
            out,
        )
    }
}

pub fn old_to_new(live: &[u64], offsets: &[u32], place: u32, out: &mut [u64; 4]) -> u64 {
    // Safety: both pointers come with their own slice's length, and `out` is borrowed exclusively.
    unsafe {
        hasurimba_old_to_new(
            live.as_ptr(),
            live.len(),
            offsets.as_ptr(),
            offsets.len(),
            place,
            out,
        )
    }
}

pub fn new_to_old(live: &[u64], offsets: &[u32], place: u32, out: &mut [u64; 4]) -> u64 {
    // Safety: both pointers come with their own slice's length, and `out` is borrowed exclusively.
    unsafe {
        hasurimba_new_to_old(
            live.as_ptr(),
            live.len(),
            offsets.as_ptr(),
            offsets.len(),
            place,
            out,
        )
    }
}
