//! From an input that shows a difference to the smallest one found that still does.

mod check;

use crate::index::original::caught;
pub(crate) use check::check;
use std::fmt::Debug;
use std::iter::successors;
use std::ops::Range;
use std::time::{Duration, Instant};

/// How many smaller inputs are tried, and for how long.
const TRIES: usize = 20_000;
const TIME: Duration = Duration::from_secs(15);

/// An input of a comparison.
pub(crate) trait Input: Clone {
    /// Smaller inputs, those first that are much smaller. None of them leads back here.
    fn smaller(&self) -> impl Iterator<Item = Self>;

    /// The input in a form that can be pasted into a test.
    fn shown(&self) -> String;
}

/// Compares one input. A difference is told with the smallest input found that has one; a failed assert is one too.
pub(crate) fn shrinking<I: Input>(
    input: &I,
    mut compare: impl FnMut(&I) -> Result<(), String>,
) -> Result<(), String> {
    caught(|| compare(input)).map_err(|what| told(input.clone(), what, compare))
}

/// A difference that was found, told with the smallest input found that has one.
pub(crate) fn told<I: Input>(
    input: I,
    what: String,
    mut compare: impl FnMut(&I) -> Result<(), String>,
) -> String {
    let (small, what) = smallest(input, what, |input| caught(|| compare(input)).err());
    format!("{what}; the smallest input found: {}", small.shown())
}

/// The smallest input found, with what differs on it: each step takes the first smaller input that still differs.
fn smallest<I: Input>(
    mut small: I,
    mut what: String,
    mut difference: impl FnMut(&I) -> Option<String>,
) -> (I, String) {
    let (mut tries, begin) = (0, Instant::now());
    loop {
        let tried = small.smaller().take_while(|_| {
            tries += 1;
            tries <= TRIES && begin.elapsed() < TIME
        });
        let mut differing = tried.filter_map(|input| difference(&input).map(|what| (input, what)));
        let better = differing.next();
        drop(differing);
        match better {
            Some(better) => (small, what) = better,
            None => return (small, what),
        }
    }
}

/// Places to cut so many items: all of them, then halves, quarters and so on down to single ones.
pub(crate) fn cuts(count: usize) -> impl Iterator<Item = Range<usize>> {
    let sizes = successors(Some(count), |size| Some(size / 2)).take_while(|size| *size > 0);
    sizes.flat_map(move |size| (0..count).step_by(size).map(move |at| at..(at + size).min(count)))
}

/// The list with fewer items.
pub(crate) fn fewer<T: Clone>(list: &[T]) -> impl Iterator<Item = Vec<T>> {
    cuts(list.len()).map(|cut| [&list[..cut.start], &list[cut.end..]].concat())
}

/// Lower numbers, 0 first and then nearer and nearer ones.
pub(crate) fn lower(number: u64) -> impl Iterator<Item = u64> {
    let steps = successors(Some(number), |step| Some(step / 2)).take_while(|step| *step > 0);
    steps.map(move |step| number - step)
}

/// The same rising numbers with one gap narrower, and by how much: the number there and all behind it are lower by that.
pub(crate) fn closer(numbers: &[u64], from: u64) -> impl Iterator<Item = (Vec<u64>, u64)> {
    (0..numbers.len()).flat_map(move |place| {
        let least = if place == 0 { from } else { numbers[place - 1].saturating_add(1) };
        let wide = numbers[place].saturating_sub(least);
        let rising = numbers[place..].iter().all(|number| *number >= numbers[place]);
        lower(wide).filter(move |_| rising).map(move |left| {
            let by = wide - left;
            let behind = numbers[place..].iter().map(|number| number - by);
            (numbers[..place].iter().copied().chain(behind).collect(), by)
        })
    })
}

/// More items than these are not told.
pub(crate) const MOST: usize = 70_000;

/// A list as a Rust expression.
pub(crate) fn listed<T: Debug>(items: &[T]) -> String {
    match items.get(..MOST) {
        Some(shown) if items.len() > MOST => format!("the first of {}: vec!{shown:?}", items.len()),
        _ => format!("vec!{items:?}"),
    }
}
