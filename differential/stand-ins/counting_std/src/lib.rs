//! The standard library with one difference: its `BinaryHeap` counts what is pushed. The
//! original pushes each offer once and nothing else, so the count is its number of offers.

pub use ::std::*;

pub mod collections {
    pub use ::std::collections::*;

    ::std::thread_local! {
        static PUSHES: ::std::cell::Cell<u64> = const { ::std::cell::Cell::new(0) };
    }

    /// How often this thread has pushed to any heap so far.
    pub fn pushes() -> u64 {
        PUSHES.get()
    }

    pub struct BinaryHeap<T>(::std::collections::BinaryHeap<T>);

    impl<T: Ord> BinaryHeap<T> {
        #[inline]
        #[allow(clippy::new_without_default)]
        pub fn new() -> Self {
            Self(::std::collections::BinaryHeap::new())
        }

        #[inline]
        pub fn push(&mut self, item: T) {
            PUSHES.set(PUSHES.get() + 1);
            self.0.push(item);
        }

        #[inline]
        pub fn pop(&mut self) -> Option<T> {
            self.0.pop()
        }
    }
}
