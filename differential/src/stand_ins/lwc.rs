//! Stands in for doradb's block limit. The source text gives it no value, and document 01
//! makes it an argument. The original only compares a usize with it, so a type that compares
//! as the number set for this thread takes its place.

use std::cell::Cell;
use std::cmp::Ordering;

thread_local! {
    static BLOCK_LIMIT: Cell<usize> = const { Cell::new(65_535) };
}

pub(crate) struct BlockLimit;

pub(crate) const MAX_LWC_ROWS: BlockLimit = BlockLimit;

/// Sets what `MAX_LWC_ROWS` compares as from here on, in this thread.
pub(crate) fn set_block_limit(rows: usize) {
    BLOCK_LIMIT.set(rows);
}

impl PartialEq<BlockLimit> for usize {
    fn eq(&self, _: &BlockLimit) -> bool {
        *self == BLOCK_LIMIT.get()
    }
}

impl PartialOrd<BlockLimit> for usize {
    fn partial_cmp(&self, _: &BlockLimit) -> Option<Ordering> {
        self.partial_cmp(&BLOCK_LIMIT.get())
    }
}
