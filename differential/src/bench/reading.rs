//! Pelisafu's reading calls beside the original's, on the same bodies. Each of Pelisafu's calls
//! checks the body. Where one answer is asked for, the original is given the same work: it
//! validates, and then answers. Where many are, it takes the body as validated before.

use super::clock::Pair;
use super::meter::{Measured, Meter};
use super::subject::{QUESTIONS, Subject};
use std::hint::black_box;

/// Single questions asked in turn: each of them checks the whole body, so they are few.
const SINGLE: usize = 64;

pub(super) fn validate_items(subject: &Subject, meter: Meter) -> Option<Measured> {
    matches!(subject.tag, 2 | 3 | 6 | 7 | 8).then(|| validate(subject, meter))
}

pub(super) fn validate_runs(subject: &Subject, meter: Meter) -> Option<Measured> {
    matches!(subject.tag, 4 | 5 | 9).then(|| validate(subject, meter))
}

pub(super) fn validate_dense(subject: &Subject, meter: Meter) -> Option<Measured> {
    matches!(subject.tag, 1).then(|| validate(subject, meter))
}

/// A dense body has no bytes: there the call is the unit.
fn validate(subject: &Subject, meter: Meter) -> Measured {
    let ours = || subject.ours().validate();
    let theirs = || subject.validated().count();
    (meter.pair(ours, theirs), subject.body.len().max(1))
}

pub(super) fn ranks_of_rows(subject: &Subject, meter: Meter) -> Option<Measured> {
    Some(ranks(subject, meter, &subject.questions.present))
}

/// The same questions in rising order, so that a branch can guess its way from one to the next.
pub(super) fn ranks_in_order(subject: &Subject, meter: Meter) -> Option<Measured> {
    let mut positions = subject.questions.present.clone();
    positions.sort_unstable();
    Some(ranks(subject, meter, &positions))
}

pub(super) fn ranks_of_absent(subject: &Subject, meter: Meter) -> Option<Measured> {
    some_ranks(subject, meter, &subject.questions.absent)
}

pub(super) fn ranks_beside_rows(subject: &Subject, meter: Meter) -> Option<Measured> {
    some_ranks(subject, meter, &subject.questions.beside)
}

pub(super) fn ranks_past_the_span(subject: &Subject, meter: Meter) -> Option<Measured> {
    some_ranks(subject, meter, &subject.questions.past)
}

fn some_ranks(subject: &Subject, meter: Meter, positions: &[u32]) -> Option<Measured> {
    (!positions.is_empty()).then(|| ranks(subject, meter, positions))
}

fn ranks(subject: &Subject, meter: Meter, positions: &[u32]) -> Measured {
    let (mut ours, mut theirs) = (vec![0; QUESTIONS], vec![0; QUESTIONS]);
    let times = meter.pair(
        || black_box(subject.ours().ranks(black_box(positions), &mut ours)),
        || {
            let set = subject.admitted();
            for (place, position) in theirs.iter_mut().zip(black_box(positions)) {
                *place = set.rank(*position).map_or(u32::MAX, u32::from);
            }
            black_box(&theirs).len()
        },
    );
    assert!(ours == theirs, "both sides have the same ranks");
    (times, QUESTIONS)
}

pub(super) fn one_rank(subject: &Subject, meter: Meter) -> Option<Measured> {
    let positions = &subject.questions.present[..SINGLE];
    let times = meter.pair(
        || in_turn(positions, |position| subject.ours().rank(position)),
        || in_turn(positions, |position| subject.validated().rank(position)),
    );
    Some((times, SINGLE))
}

pub(super) fn one_select(subject: &Subject, meter: Meter) -> Option<Measured> {
    let ordinals = &subject.questions.ordinals[..SINGLE];
    let times = meter.pair(
        || in_turn(ordinals, |ordinal| subject.ours().select(ordinal)),
        || in_turn(ordinals, |ordinal| subject.validated().select(ordinal)),
    );
    Some((times, SINGLE))
}

fn in_turn<Q: Copy, A>(questions: &[Q], ask: impl Fn(Q) -> A) {
    for question in questions {
        black_box(ask(black_box(*question)));
    }
}

/// The caller of the original that validates once and then asks singly, which Pelisafu's single
/// call stands against without a call of its own.
pub(super) fn rank_validated_before(subject: &Subject, meter: Meter) -> Option<Measured> {
    let (positions, set) = (&subject.questions.present, subject.validated());
    let times = meter.pair(
        || in_turn(&positions[..SINGLE], |position| subject.ours().rank(position)),
        || in_turn(positions, |position| set.rank(position)),
    );
    Some((of_one(times), 1))
}

pub(super) fn select_validated_before(subject: &Subject, meter: Meter) -> Option<Measured> {
    let (ordinals, set) = (&subject.questions.ordinals, subject.validated());
    let times = meter.pair(
        || in_turn(&ordinals[..SINGLE], |ordinal| subject.ours().select(ordinal)),
        || in_turn(ordinals, |ordinal| set.select(ordinal)),
    );
    Some((of_one(times), 1))
}

/// Pelisafu was asked the first few questions, the original all of them.
fn of_one(Pair { ours, theirs }: Pair) -> Pair {
    Pair { ours: ours / SINGLE as f64, theirs: theirs / QUESTIONS as f64 }
}

pub(super) fn walk(subject: &Subject, meter: Meter) -> Option<Measured> {
    let (mut ours, mut theirs) = (vec![0; subject.rows()], vec![0; subject.rows()]);
    let times = meter.pair(
        || black_box(subject.ours().walk(&mut ours)),
        || {
            for (place, position) in theirs.iter_mut().zip(subject.admitted().positions()) {
                *place = position;
            }
            black_box(&theirs).len()
        },
    );
    assert!(ours == theirs, "both sides walk the same rows");
    Some((times, subject.rows()))
}
