//! Bodies of every form over spans on the bounds of each form, and damaged ones.

use super::Reading;
use super::short::SPANS;
use crate::plain::bodies::{Part, payload, segmented, whole};
use crate::plain::costs::{Cost, Stats, whole_forms};
use crate::plain::{BITMAP, DENSE, LIST16, MISSING, RUNS16, RUNS32, SEGMENTED};
use crate::random::{Random, SHAPES, case};

/// Bodies above this are left to `long`.
const LONGEST: u64 = 1 << 20;

/// Bodies above this are damaged in fewer ways.
const LONG: usize = 4_096;

const OTHER_SPANS: [u32; 9] = [63, 64, 65, 255, 256, 257, 4_096, 65_534, 1_000_000];

/// Spans on the bounds of every form.
pub(crate) fn spans() -> impl Iterator<Item = u32> {
    SPANS.into_iter().chain(OTHER_SPANS)
}

pub(super) fn for_each(
    each: &mut impl FnMut(&Reading) -> Result<(), String>,
) -> Result<(), String> {
    for span in spans().filter(|span| *span > 0) {
        for positions in row_sets(u64::from(span)) {
            in_every_form(&positions, span).iter().try_for_each(&mut *each)?;
        }
    }
    Ok(())
}

/// Bodies of one random row set in every form that can hold it.
pub(super) fn drawn(random: &mut Random) -> Vec<Reading> {
    let shape = SHAPES[random.below(SHAPES.len() as u64) as usize];
    let count = 1 + random.below(120) as usize;
    let drawn = case(random, shape, count);
    let positions: Vec<u64> = drawn.rows.iter().map(|row| row - drawn.start).collect();
    in_every_form(&positions, (drawn.end - drawn.start) as u32)
}

/// The bodies of every form that can hold the rows, segmented ones with parts of three sizes.
pub(crate) fn in_every_form(positions: &[u64], span: u32) -> Vec<Reading> {
    let mut all = whole_bodies(positions, span);
    all.extend([1, 7, 300].into_iter().filter_map(|rows| segmented_body(positions, span, rows)));
    all
}

/// Row sets that lean on the ends of a span.
fn row_sets(span: u64) -> Vec<Vec<u64>> {
    let (last, middle) = (span - 1, span / 2);
    let near = middle..(middle + 400).min(span);
    let many = span.min(65_535);
    let mut sets = vec![
        vec![0],
        vec![last],
        vec![0, last],
        vec![0, middle, last],
        near.clone().collect(),
        near.clone().step_by(2).collect(),
        near.filter(|position| position % 37 > 0).collect(),
        (0..many).collect(),
        (0..many).filter(|position| *position != middle).collect(),
        (span - many..span).step_by(3).collect(),
    ];
    for set in &mut sets {
        set.dedup();
    }
    sets.retain(|set: &Vec<u64>| !set.is_empty());
    sets
}

fn whole_bodies(positions: &[u64], span: u32) -> Vec<Reading> {
    let stats = Stats::of(positions);
    let mut forms = whole_forms(&stats, 0, u64::from(span));
    // A planner takes wide runs only where narrow ones do not reach; a reader takes both.
    forms.push(Cost::new(RUNS32, 0, 0));
    forms.retain(|form| form.bytes <= LONGEST);
    let body = |form: &Cost| Reading {
        tag: form.tag,
        span,
        body: whole(form, positions, u64::from(span)),
    };
    forms.iter().map(body).collect()
}

/// A segmented body with so many rows to a part, the parts' forms taking turns. None where a
/// part or the directory would be too long for its fields.
pub(crate) fn segmented_body(positions: &[u64], span: u32, rows: usize) -> Option<Reading> {
    let parts = positions.chunks(rows).enumerate();
    let parts: Vec<Part> = parts.map(|(turn, rows)| part(turn, rows)).collect::<Option<_>>()?;
    (parts.len() <= 65_535).then(|| Reading { tag: SEGMENTED, span, body: segmented(&parts) })
}

/// A part of any form that can hold the rows, chosen by turns.
pub(super) fn part(turn: usize, rows: &[u64]) -> Option<Part> {
    let stats = Stats::of(rows);
    if stats.length() > 65_535 {
        return None;
    }
    let mut tags = vec![LIST16, RUNS16, MISSING, BITMAP];
    if stats.holes() == 0 {
        tags.push(DENSE);
    }
    let tag = tags[turn % tags.len()];
    let local: Vec<u64> = rows.iter().map(|row| row - stats.first).collect();
    Some(Part {
        start: stats.first,
        span: stats.length(),
        count: stats.count,
        tag,
        payload: payload(tag, &local, stats.length()),
    })
}

/// The same reading with a byte changed, a bit flipped, two fields swapped, bytes cut off or
/// added, another tag or span. Short bodies are damaged everywhere, long ones here and there.
pub(super) fn damaged(
    random: &mut Random,
    reading: &Reading,
    each: &mut impl FnMut(&Reading) -> Result<(), String>,
) -> Result<(), String> {
    let mut damage = |change: &dyn Fn(&mut Reading)| {
        let mut damaged = reading.clone();
        change(&mut damaged);
        each(&damaged)
    };
    let other_tags = if reading.body.len() <= LONG { 0..=10 } else { 3..=5 };
    for at in places(random, reading.body.len()) {
        for change in [1, 255, 128, 2] {
            damage(&|r| r.body[at] = r.body[at].wrapping_add(change))?;
        }
        damage(&|r| r.body.truncate(at))?;
    }
    for _ in 0..4 {
        let mut near = |bound: usize| random.below(bound.clamp(1, 64) as u64) as usize;
        let length = reading.body.len();
        let (one, other, bit) = (near(length / 2), near(length / 2), near(8));
        if length >= 2 {
            damage(&|r| (0..2).for_each(|byte| r.body.swap(2 * one + byte, 2 * other + byte)))?;
            damage(&|r| r.body[one] ^= 1 << bit)?;
        }
    }
    for added in [1, 2, 4, 16] {
        damage(&|r| r.body.extend(vec![0; added]))?;
    }
    for tag in other_tags {
        damage(&|r| r.tag = tag)?;
    }
    for change in [1, u32::MAX, 64, 65_536] {
        damage(&|r| r.span = r.span.wrapping_add(change))?;
    }
    Ok(())
}

/// Where a body of that length is damaged. Headers and directories stand in front, so half of
/// the places in a long body are there.
fn places(random: &mut Random, length: usize) -> Vec<usize> {
    if length <= 80 {
        return (0..length).collect();
    }
    let mut below = |bound: usize| random.below(bound as u64) as usize;
    let pairs = if length <= LONG { 12 } else { 2 };
    (0..pairs).flat_map(|_| [below(64), below(length)]).collect()
}
