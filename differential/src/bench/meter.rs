//! The two ways to measure a call: its time, and its instructions under valgrind.

use super::clock::{Pair, turns};
use std::hint::black_box;

#[derive(Clone, Copy)]
pub(super) enum Meter {
    Time,
    /// Each side runs once in `counted_region`; valgrind has the count, so the answer is nothing.
    Instructions,
}

/// What one call takes on both sides, and in how many units it is told.
pub(super) type Measured = (Pair, usize);

impl Meter {
    #[inline]
    pub(super) fn pair<T, U>(
        self,
        mut ours: impl FnMut() -> T,
        mut theirs: impl FnMut() -> U,
    ) -> Pair {
        match self {
            Self::Time => turns(ours, theirs),
            Self::Instructions => {
                counted(&mut || _ = black_box(ours()));
                counted(&mut || _ = black_box(theirs()));
                Pair { ours: 0.0, theirs: 0.0 }
            }
        }
    }
}

/// Runs a call once to warm it up, and then in the region.
fn counted(call: &mut dyn FnMut()) {
    call();
    counted_region(call);
}

/// Valgrind counts from the start of this function to its end, and finds it by its name.
#[unsafe(no_mangle)]
#[inline(never)]
fn counted_region(call: &mut dyn FnMut()) {
    call();
    black_box(());
}
