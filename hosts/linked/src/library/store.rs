//! The store calls.

use super::functions::*;
use super::{with_out, without_out, Answer};
use hosts::plain::Brought;

/// What the caller keeps between the calls and hands to each of them.
#[derive(Clone, Debug, PartialEq, Eq)]
pub struct Memory {
    pub record: [u64; 8],
    pub heap: Vec<u32>,
    pub roots: Vec<u32>,
}

/// One store function on record, heap and roots; what follows its name are the arguments after these.
macro_rules! call {
    ($function:ident, $memory:ident $(, $argument:expr)*) => {{
        let Memory { record, heap, roots } = $memory;
        // Safety: the record has eight words, heap and roots come with their own lengths, the arguments are numbers,
        // such tables or an `out` of four words, and none of these overlap.
        unsafe {
            $function(
                record.as_mut_ptr(),
                heap.as_mut_ptr(),
                heap.len(),
                roots.as_mut_ptr(),
                roots.len()
                $(, $argument)*
            )
        }
    }};
}

impl Memory {
    pub fn put_integer(&mut self, slot: u32, value: i32) -> Answer {
        without_out(call!(hasurimba_put_integer, self, slot, value))
    }

    pub fn put_nil(&mut self, slot: u32) -> Answer {
        without_out(call!(hasurimba_put_nil, self, slot))
    }

    pub fn copy(&mut self, source: u32, target: u32) -> Answer {
        without_out(call!(hasurimba_copy, self, source, target))
    }

    pub fn new_record(&mut self, slot: u32, k: u32) -> Answer {
        without_out(call!(hasurimba_new_record, self, slot, k))
    }

    pub fn new_raw(&mut self, slot: u32, k: u32) -> Answer {
        without_out(call!(hasurimba_new_raw, self, slot, k))
    }

    pub fn read_field(&mut self, object: u32, field: u32, target: u32) -> Answer {
        without_out(call!(hasurimba_read_field, self, object, field, target))
    }

    pub fn write_field(&mut self, object: u32, field: u32, source: u32) -> Answer {
        without_out(call!(hasurimba_write_field, self, object, field, source))
    }

    pub fn read_raw(&mut self, object: u32, index: u32) -> Answer {
        with_out(|out| call!(hasurimba_read_raw, self, object, index, out))
    }

    pub fn write_raw(&mut self, object: u32, index: u32, word: u32) -> Answer {
        without_out(call!(hasurimba_write_raw, self, object, index, word))
    }

    pub fn ask(&mut self, slot: u32) -> Answer {
        with_out(|out| call!(hasurimba_ask, self, slot, out))
    }

    pub fn same(&mut self, first: u32, second: u32) -> Answer {
        with_out(|out| call!(hasurimba_same, self, first, second, out))
    }

    pub fn collect(&mut self, brought: &mut Brought) -> Answer {
        let Brought {
            marks,
            order,
            live,
            offsets,
        } = brought;
        with_out(|out| {
            call!(
                hasurimba_store_collect,
                self,
                marks.as_mut_ptr(),
                marks.len(),
                order.as_ptr(),
                order.len(),
                live.as_mut_ptr(),
                live.len(),
                offsets.as_mut_ptr(),
                offsets.len(),
                out
            )
        })
    }
}
