//! Requests with something wrong in coverage, rows or seeds, often in two places, so that the order of refusals counts.

use super::drawn::{lending, request};
use super::{EXACT, Request, Tally, compare_request};
use crate::case::Case;
use crate::random::{Random, SHAPES, SOURCES, case};

/// One request of each shape and source, damaged once or twice.
pub(super) fn compare(random: &mut Random, tally: &mut Tally) -> Result<(), String> {
    for shape in SHAPES {
        for source in SOURCES {
            let count = 1 + random.below(40) as usize;
            let drawn = case(random, shape, count);
            let Request { mut case, mut seeds } = request(random, source, drawn);
            for _ in 0..=random.below(2) {
                match random.below(6) {
                    0 => damage_coverage(random, &mut case),
                    1 | 2 => damage_rows(random, &mut case),
                    _ => damage_seeds(random, case.rows.len(), &mut seeds),
                }
            }
            let damaged = Request::with_table(case, seeds);
            compare_request(&damaged, &[EXACT, lending(random)], tally)?;
        }
    }
    Ok(())
}

fn damage_coverage(random: &mut Random, case: &mut Case) {
    let Case { start, end, .. } = case;
    match random.below(6) {
        0 => *end = *start,
        1 => *end = start.saturating_sub(1),
        2 => *end = start.saturating_add(4_294_967_296),
        3 => *start = end.saturating_sub(4_294_967_296),
        4 => *end = end.saturating_sub(1),
        _ => *start = start.saturating_add(1),
    }
}

fn damage_rows(random: &mut Random, case: &mut Case) {
    let count = case.rows.len();
    if count == 0 {
        return;
    }
    let place = random.below(count as u64) as usize;
    match random.below(7) {
        0 => case.rows.swap(place, count - 1),
        1 => case.rows[place] = case.rows[place.saturating_sub(1)],
        2 => case.rows[0] = case.start.wrapping_sub(1),
        3 => case.rows[count - 1] = case.end,
        4 => case.rows[place] = random.below(u64::MAX),
        5 => case.rows.clear(),
        _ => case.rows.truncate(place),
    }
}

fn damage_seeds(random: &mut Random, rows: usize, seeds: &mut Vec<u16>) {
    let some_end = |random: &mut Random| random.below(rows as u64 + 2) as u16;
    if seeds.is_empty() {
        *seeds = vec![some_end(random), rows as u16];
        return;
    }
    let place = random.below(seeds.len() as u64) as usize;
    let last = seeds.len() - 1;
    match random.below(10) {
        0 => seeds[0] = 0,
        1 => seeds[place] = seeds[place.saturating_sub(1)],
        2 => seeds.swap(place, last),
        3 => seeds[last] = seeds[last].wrapping_add(1),
        4 => seeds[last] = seeds[last].wrapping_sub(1),
        5 => seeds.truncate(place),
        6 => seeds.push(u16::MAX),
        7 => seeds[place] = some_end(random),
        // Without one of its ends, two ranges are one, which may be too wide.
        8 if place < last => drop(seeds.remove(place)),
        _ => *seeds = vec![rows as u16],
    }
}
