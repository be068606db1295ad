//! The declarations of `include/hasurimba.h`, function by function.

extern "C" {
    pub fn hasurimba_check(
        heap: *const u32,
        heap_len: usize,
        top: u32,
        roots: *const u32,
        roots_len: usize,
        marks: *const u64,
        marks_len: usize,
        out: *mut u64,
    ) -> u64;

    pub fn hasurimba_collect(
        heap: *mut u32,
        heap_len: usize,
        top: u32,
        roots: *mut u32,
        roots_len: usize,
        marks: *mut u64,
        marks_len: usize,
        order: *const u32,
        order_len: usize,
        live: *mut u64,
        live_len: usize,
        offsets: *mut u32,
        offsets_len: usize,
        out: *mut u64,
    ) -> u64;

    pub fn hasurimba_old_to_new(
        live: *const u64,
        live_len: usize,
        offsets: *const u32,
        offsets_len: usize,
        place: u32,
        out: *mut u64,
    ) -> u64;

    pub fn hasurimba_new_to_old(
        live: *const u64,
        live_len: usize,
        offsets: *const u32,
        offsets_len: usize,
        place: u32,
        out: *mut u64,
    ) -> u64;

    pub fn hasurimba_put_integer(
        record: *mut u64,
        heap: *mut u32,
        heap_len: usize,
        roots: *mut u32,
        roots_len: usize,
        slot: u32,
        value: i32,
    ) -> u64;

    pub fn hasurimba_put_nil(
        record: *mut u64,
        heap: *mut u32,
        heap_len: usize,
        roots: *mut u32,
        roots_len: usize,
        slot: u32,
    ) -> u64;

    pub fn hasurimba_copy(
        record: *mut u64,
        heap: *mut u32,
        heap_len: usize,
        roots: *mut u32,
        roots_len: usize,
        source: u32,
        target: u32,
    ) -> u64;

    pub fn hasurimba_new_record(
        record: *mut u64,
        heap: *mut u32,
        heap_len: usize,
        roots: *mut u32,
        roots_len: usize,
        slot: u32,
        k: u32,
    ) -> u64;

    pub fn hasurimba_new_raw(
        record: *mut u64,
        heap: *mut u32,
        heap_len: usize,
        roots: *mut u32,
        roots_len: usize,
        slot: u32,
        k: u32,
    ) -> u64;

    pub fn hasurimba_read_field(
        record: *mut u64,
        heap: *mut u32,
        heap_len: usize,
        roots: *mut u32,
        roots_len: usize,
        object: u32,
        field: u32,
        target: u32,
    ) -> u64;

    pub fn hasurimba_write_field(
        record: *mut u64,
        heap: *mut u32,
        heap_len: usize,
        roots: *mut u32,
        roots_len: usize,
        object: u32,
        field: u32,
        source: u32,
    ) -> u64;

    pub fn hasurimba_read_raw(
        record: *mut u64,
        heap: *mut u32,
        heap_len: usize,
        roots: *mut u32,
        roots_len: usize,
        object: u32,
        index: u32,
        out: *mut u64,
    ) -> u64;

    pub fn hasurimba_write_raw(
        record: *mut u64,
        heap: *mut u32,
        heap_len: usize,
        roots: *mut u32,
        roots_len: usize,
        object: u32,
        index: u32,
        word: u32,
    ) -> u64;

    pub fn hasurimba_ask(
        record: *mut u64,
        heap: *mut u32,
        heap_len: usize,
        roots: *mut u32,
        roots_len: usize,
        slot: u32,
        out: *mut u64,
    ) -> u64;

    pub fn hasurimba_same(
        record: *mut u64,
        heap: *mut u32,
        heap_len: usize,
        roots: *mut u32,
        roots_len: usize,
        first: u32,
        second: u32,
        out: *mut u64,
    ) -> u64;

    pub fn hasurimba_store_collect(
        record: *mut u64,
        heap: *mut u32,
        heap_len: usize,
        roots: *mut u32,
        roots_len: usize,
        marks: *mut u64,
        marks_len: usize,
        order: *const u32,
        order_len: usize,
        live: *mut u64,
        live_len: usize,
        offsets: *mut u32,
        offsets_len: usize,
        out: *mut u64,
    ) -> u64;
}
