//! A range of ordinals that is walked from both ends, through a window that is filled by few large calls.

use std::fmt;

/// Rows of the first window. Each further one has twice as many, so that a short look at a set stays cheap and a long one
/// does not have the body checked too often.
const FIRST: usize = 64;
const LARGEST: usize = 4096;

/// The ordinals `front..back` that are still to come, and the values from ordinal `from` on that are held already.
#[derive(Clone)]
pub(crate) struct Window<T> {
    front: usize,
    back: usize,
    from: usize,
    held: Vec<T>,
    room: usize,
}

impl<T: Copy + Default> Window<T> {
    pub(crate) fn new(front: usize, back: usize) -> Self {
        Self { front: front.min(back), back, from: 0, held: Vec::new(), room: FIRST }
    }

    pub(crate) fn len(&self) -> usize {
        self.back - self.front
    }

    pub(crate) fn skip_front(&mut self, n: usize) {
        self.front += n.min(self.len());
    }

    pub(crate) fn skip_back(&mut self, n: usize) {
        self.back -= n.min(self.len());
    }

    /// The first value that is still to come. `fill` gives the values from an ordinal on, as many as the slice has.
    pub(crate) fn next(&mut self, fill: impl FnOnce(u16, &mut [T])) -> Option<T> {
        if self.len() == 0 {
            return None;
        }
        let ordinal = self.front;
        if !self.holds(ordinal) {
            self.refill(ordinal, self.room.min(self.len()), fill);
        }
        self.front += 1;
        Some(self.held[ordinal - self.from])
    }

    /// The last value that is still to come.
    pub(crate) fn next_back(&mut self, fill: impl FnOnce(u16, &mut [T])) -> Option<T> {
        if self.len() == 0 {
            return None;
        }
        let ordinal = self.back - 1;
        if !self.holds(ordinal) {
            let count = self.room.min(self.len());
            self.refill(self.back - count, count, fill);
        }
        self.back = ordinal;
        Some(self.held[ordinal - self.from])
    }

    fn holds(&self, ordinal: usize) -> bool {
        (self.from..self.from + self.held.len()).contains(&ordinal)
    }

    fn refill(&mut self, from: usize, count: usize, fill: impl FnOnce(u16, &mut [T])) {
        self.from = from;
        self.held.resize(count, T::default());
        fill(u16::try_from(from).expect("a set has at most 65,535 rows"), &mut self.held);
        self.room = (2 * self.room).min(LARGEST);
    }
}

/// The ordinals to come, without the values that are held.
impl<T> fmt::Debug for Window<T> {
    fn fmt(&self, f: &mut fmt::Formatter<'_>) -> fmt::Result {
        write!(f, "{}..{}", self.front, self.back)
    }
}

#[cfg(test)]
mod tests {
    use super::*;

    /// Values that tell their ordinal.
    fn tens(from: u16, out: &mut [u32]) {
        for (ordinal, value) in (u32::from(from)..).zip(out) {
            *value = 10 * ordinal;
        }
    }

    #[test]
    fn every_value_comes_once_from_either_end() {
        for (front, back) in [(0, 0), (5, 5), (0, 1), (3, 70), (0, 64), (0, 65), (100, 65_535)] {
            let mut left = Window::new(front, back);
            let mut right = left.clone();
            for ordinal in front..back {
                assert_eq!(left.len(), back - ordinal);
                assert_eq!(left.next(tens), Some(10 * ordinal as u32));
                let mirrored = back - 1 - (ordinal - front);
                assert_eq!(right.next_back(tens), Some(10 * mirrored as u32));
            }
            assert_eq!((left.next(tens), right.next_back(tens)), (None, None));
            assert_eq!((left.next_back(tens), right.next(tens)), (None, None));
        }
    }

    #[test]
    fn the_ends_meet() {
        let mut window = Window::new(0, 301);
        for step in 0..150 {
            assert_eq!(window.next(tens), Some(10 * step));
            assert_eq!(window.next_back(tens), Some(10 * (300 - step)));
        }
        assert_eq!((window.next(tens), window.next(tens)), (Some(1500), None));
    }

    #[test]
    fn a_start_past_the_end_is_empty() {
        let mut window = Window::new(9, 4);
        assert_eq!((window.len(), window.next(tens)), (0, None));
    }

    #[test]
    fn long_walks_take_few_calls() {
        let (mut window, mut calls) = (Window::new(0, 65_535), 0);
        while window
            .next(|from, out: &mut [u32]| {
                calls += 1;
                tens(from, out)
            })
            .is_some()
        {}
        assert_eq!(calls, 22);
    }
}
