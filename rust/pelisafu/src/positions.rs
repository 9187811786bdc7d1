//! The iterator over a row set.

use crate::RowSet;
use crate::window::Window;
use std::iter::FusedIterator;

/// The positions of a [`RowSet`] in rising order, from [`RowSet::iter`] or [`RowSet::iter_from`].
///
/// Positions are fetched some at a time: 64 at first, then twice as many each time, up to 4,096. Each fetch checks the
/// body once, so a set of 65,535 positions is gone through with 22 checks. [`nth`](Iterator::nth) and `skip` fetch
/// nothing of what they pass over. Turns of `next` and `next_back` on one iterator over a large set make it fetch
/// anew each time; from one end at a time it does not.
///
/// ```
/// use pelisafu::RowSet;
///
/// let set = RowSet::new(3, 10, &[3, 0, 4, 0, 9, 0])?;
/// let mut positions = set.iter();
/// assert_eq!(positions.len(), 3);
/// assert_eq!(positions.next_back(), Some(9));
/// assert_eq!(positions.next(), Some(3));
/// assert_eq!(set.iter().rev().nth(1), Some(4));
/// # Ok::<(), pelisafu::Refusal>(())
/// ```
#[derive(Clone, Debug)]
#[must_use = "an iterator does nothing until it is asked"]
pub struct Positions<'a> {
    set: RowSet<'a>,
    window: Window<u32>,
}

impl<'a> Positions<'a> {
    pub(crate) fn new(set: RowSet<'a>, ordinal: u16) -> Self {
        Self { set, window: Window::new(ordinal.into(), set.len()) }
    }
}

/// Fills the whole of `out`; the window never asks for more than remains.
fn fill(set: RowSet<'_>, from: u16, out: &mut [u32]) {
    let written = set.walk(from, out);
    assert_eq!(written, out.len(), "a walk gives as many positions as fit or remain");
}

impl Iterator for Positions<'_> {
    type Item = u32;

    fn next(&mut self) -> Option<u32> {
        let set = self.set;
        self.window.next(|from, out| fill(set, from, out))
    }

    fn nth(&mut self, n: usize) -> Option<u32> {
        self.window.skip_front(n);
        self.next()
    }

    fn size_hint(&self) -> (usize, Option<usize>) {
        (self.window.len(), Some(self.window.len()))
    }

    fn count(self) -> usize {
        self.window.len()
    }

    fn last(mut self) -> Option<u32> {
        self.next_back()
    }

    fn min(mut self) -> Option<u32> {
        self.next()
    }

    fn max(mut self) -> Option<u32> {
        self.next_back()
    }

    fn is_sorted(self) -> bool {
        true
    }
}

impl DoubleEndedIterator for Positions<'_> {
    fn next_back(&mut self) -> Option<u32> {
        let set = self.set;
        self.window.next_back(|from, out| fill(set, from, out))
    }

    fn nth_back(&mut self, n: usize) -> Option<u32> {
        self.window.skip_back(n);
        self.next_back()
    }
}

impl ExactSizeIterator for Positions<'_> {}

impl FusedIterator for Positions<'_> {}
