//! Sets of many shapes: planned with and without seeds, stored, read back, and every call compared with the list of positions.

mod random;

use pelisafu::{Gatherer, NO_RANK, Planner, RowSet, plan_ordinals};
use random::Random;

/// Runs and gaps up to the given lengths, from a start on.
fn some_rows(random: &mut Random, start: u64, count: usize, run: u64, gap: u64) -> Vec<u64> {
    let (mut rows, mut next) = (Vec::new(), start);
    while rows.len() < count {
        next += random.below(gap);
        let end = next + 1 + random.below(run);
        rows.extend(next..end);
        next = end + 1;
    }
    rows.truncate(count);
    rows
}

const RUNS_AND_GAPS: [(u64, u64); 6] = [(1, 2), (1, 40), (2, 3), (300, 3), (50, 500), (1, 30_000)];

fn compare(set: RowSet<'_>, positions: &[u32]) {
    let count = positions.len();
    assert_eq!(set.len(), count);
    assert_eq!(set.iter().collect::<Vec<u32>>(), positions);
    assert!(set.iter().rev().eq(positions.iter().rev().copied()));
    assert_eq!((set.first(), set.last()), (positions[0], positions[count - 1]));
    for k in [0, 1, 63, 64, count / 2, count - 1, count] {
        let left = positions.get(k..).unwrap_or_default();
        let ordinal = k as u16;
        assert_eq!(set.select(ordinal), left.first().copied());
        assert!(set.iter_from(ordinal).eq(left.iter().copied()));
        assert_eq!(set.iter_from(ordinal).len(), left.len());
        assert_eq!(set.iter().nth(k), left.first().copied());
        let Some(position) = left.first() else { continue };
        assert_eq!(set.rank(*position), Some(ordinal));
        assert!(set.contains(*position));
    }
    compare_ranks(set, positions);
}

fn compare_ranks(set: RowSet<'_>, positions: &[u32]) {
    let near = |p: &u32| [p.wrapping_sub(1), *p, p.wrapping_add(1)];
    let asked: Vec<u32> = positions.iter().flat_map(near).chain([u32::MAX]).collect();
    let right: Vec<u32> = asked
        .iter()
        .map(|position| positions.binary_search(position).map_or(NO_RANK, |k| k as u32))
        .collect();
    let mut out = vec![5; asked.len() + 1];
    assert_eq!(set.ranks(&asked, &mut out), Ok(asked.len()));
    assert_eq!((&out[..asked.len()], out[asked.len()]), (&right[..], 5));
}

#[test]
fn sets_come_back() {
    let mut random = Random(0x9E37_79B9_7F4A_7C15);
    let mut tags = [0; 10];
    let mut planner = Planner::new(0..1);
    for round in 0..240 {
        let (run, gap) = RUNS_AND_GAPS[round % RUNS_AND_GAPS.len()];
        let count = 1 + random.below(if round < 12 { 9_000 } else { 150 }) as usize;
        let start = if round % 5 == 0 { u64::MAX - (1 << 31) } else { random.below(1 << 40) };
        let rows = some_rows(&mut random, start, count, run, gap);
        let end = rows[count - 1] + 1 + random.below(100);
        let positions: Vec<u32> = rows.iter().map(|row| (row - start) as u32).collect();

        let plain = planner.coverage(start..end).no_seeds().plan(&rows).unwrap();
        let gatherer = gathered(&mut random, &rows);
        let seeded = planner.gathered(&gatherer).plan(&rows).unwrap();
        for plan in [plain, seeded] {
            let read = RowSet::new(plan.tag(), plan.span(), plan.body()).unwrap();
            compare(read, &positions);
            assert_eq!(plan.as_row_set().len(), count);
            assert_eq!(format!("{read:?}"), format!("{:?}", plan.as_row_set()));
            tags[usize::from(plan.tag())] += 1;
        }
    }
    assert!(tags[9] > 0 && tags.iter().filter(|n| **n > 0).count() > 4, "{tags:?}");
}

/// Pages of any length, and single rows between them.
fn gathered(random: &mut Random, mut rows: &[u64]) -> Gatherer {
    let mut gatherer = Gatherer::new();
    while !rows.is_empty() {
        let (page, rest) = rows.split_at(1 + random.below(rows.len() as u64) as usize);
        if random.below(2) == 0 {
            gatherer.add_page(page).unwrap();
        } else {
            page.iter().for_each(|row| gatherer.add_row(*row).unwrap());
        }
        rows = rest;
    }
    gatherer
}

#[test]
fn ordinals_are_planned_as_rows_are() {
    let mut random = Random(77);
    for (run, gap) in RUNS_AND_GAPS.iter().copied().take(5) {
        let rows = some_rows(&mut random, 0, 60, run, gap);
        let ordinals: Vec<u16> = rows.iter().map(|row| *row as u16).collect();
        let plan = plan_ordinals(65_535, &ordinals, 65_535).unwrap();
        assert_eq!(plan, Planner::new(0..65_535).plan(&rows).unwrap());
    }
}

/// The largest sets: all of 65,535 positions, every second one of twice as many, and a run in each window.
#[test]
fn the_largest_sets() {
    let all: Vec<u64> = (0..65_535).collect();
    let seconds: Vec<u64> = (0..65_535).map(|i| 2 * i).collect();
    let spread: Vec<u64> = (0..65_535).map(|i| i / 50 * 70_000 + i % 50).collect();
    for rows in [all, seconds, spread] {
        let plan = Planner::new(0..rows[65_534] + 1).plan(&rows).unwrap();
        let read: Vec<u64> = plan.as_row_set().iter().map(u64::from).collect();
        assert!(read == rows);
        assert!(plan.as_row_set().iter().rev().map(u64::from).eq(rows.iter().rev().copied()));
    }
}

/// A view and its iterator may go to other threads.
#[test]
fn views_are_send_and_sync() {
    fn shared<T: Send + Sync>() {}
    shared::<RowSet<'_>>();
    shared::<pelisafu::Positions<'_>>();
    shared::<Planner>();
    shared::<Gatherer>();
}
