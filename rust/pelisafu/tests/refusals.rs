//! Each refusal that this crate's callers can meet, and which one is answered where several apply.

use pelisafu::{Gatherer, Planner, Refusal, RowSet, plan_ordinals};
use std::ops::Range;

fn refused(coverage: Range<u64>, rows: &[u64]) -> Refusal {
    Planner::new(coverage).plan(rows).unwrap_err()
}

#[test]
fn coverage() {
    for (start, end) in [(5, 4), (7, 7), (0, 1 << 32), (0, u64::MAX), (u64::MAX, 0)] {
        assert_eq!(refused(start..end, &[]), Refusal::Coverage);
    }
    assert_eq!(plan_ordinals(0, &[], 0), Err(Refusal::Coverage));
    let top = Planner::new(0..u64::from(u32::MAX)).plan(&[u64::from(u32::MAX) - 1]).unwrap();
    assert_eq!(top.as_row_set().first(), u32::MAX - 1);
}

#[test]
fn row_count() {
    assert_eq!(refused(0..10, &[]), Refusal::RowCount);
    let many: Vec<u64> = (0..65_536).collect();
    assert_eq!(refused(0..1 << 20, &many), Refusal::RowCount);
    assert_eq!(Planner::new(0..1 << 20).plan(&many[1..]).unwrap().as_row_set().len(), 65_535);
    assert_eq!(plan_ordinals(10, &[], 100), Err(Refusal::RowCount));
}

#[test]
fn order() {
    for rows in [[3, 3], [4, 3], [0, 10], [9, u64::MAX]] {
        assert_eq!(refused(0..10, &rows), Refusal::Order);
    }
    assert_eq!(refused(5..10, &[4]), Refusal::Order);
    assert_eq!(plan_ordinals(10, &[10], 100), Err(Refusal::Order));
}

#[test]
fn seed_ends() {
    let mut planner = Planner::new(0..100_000);
    for ends in [&[0, 3][..], &[1, 1, 3], &[2, 1, 3], &[1, 2], &[1, 4], &[3]] {
        assert_eq!(planner.seeds(ends).plan(&[0, 1, 65_535]), Err(Refusal::SeedEnds), "{ends:?}");
    }
    assert_eq!(planner.seeds(&vec![1; 70_000]).plan(&[0, 1]), Err(Refusal::SeedEnds));
    assert!(planner.seeds(&[2, 3]).plan(&[0, 1, 65_535]).is_ok());
    assert!(planner.no_seeds().plan(&[0, 1, 65_535]).is_ok());
}

#[test]
fn limit_and_order_of_tests() {
    let mut planner = Planner::new(0..10);
    planner.limit(0).seeds(&[7]);
    assert_eq!(planner.plan(&[4, 3]), Err(Refusal::Order));
    assert_eq!(planner.plan(&[3, 4]), Err(Refusal::SeedEnds));
    assert_eq!(planner.no_seeds().plan(&[3, 4]), Err(Refusal::Limit));
    assert_eq!(planner.limit(4).plan(&[3, 4]).unwrap().tag(), 3);
    assert_eq!(plan_ordinals(10, &[3, 4], 3), Err(Refusal::Limit));
}

/// 20,000 single rows, far enough from each other that no form has them in 65,535 bytes.
#[test]
fn no_body_is_longer_than_65_535() {
    let rows: Vec<u64> = (0..20_000).map(|i| 70_000 * i).collect();
    assert_eq!(refused(0..1_400_000_000, &rows), Refusal::Limit);
}

#[test]
fn output() {
    let set = RowSet::new(1, 5, &[]).unwrap();
    let mut out = [7; 2];
    assert_eq!(set.ranks(&[0, 1, 2], &mut out), Err(Refusal::Output));
    assert_eq!(out, [7; 2]);
    assert_eq!(set.ranks(&[], &mut []), Ok(0));
}

#[test]
fn gathering() {
    let mut gatherer = Gatherer::new();
    assert_eq!((gatherer.rows(), gatherer.last_row(), gatherer.ends()), (0, None, &[][..]));
    gatherer.add_page(&[]).unwrap();
    gatherer.add_row(0).unwrap();
    assert_eq!(gatherer.last_row(), Some(0));
    assert_eq!(gatherer.add_row(0), Err(Refusal::Order));
    assert_eq!(gatherer.add_page(&[5, 5]), Err(Refusal::Order));
    let page: Vec<u64> = (1..65_536).collect();
    assert_eq!(gatherer.add_page(&page), Err(Refusal::RowCount));
    assert_eq!((gatherer.rows(), gatherer.ends()), (1, &[1][..]));
    gatherer.add_page(&page[..65_534]).unwrap();
    assert_eq!((gatherer.rows(), gatherer.ends()), (65_535, &[1, 65_535][..]));
    assert_eq!(gatherer.add_row(u64::MAX), Err(Refusal::RowCount));
    gatherer.clear();
    assert_eq!((gatherer.rows(), gatherer.last_row(), gatherer.ends()), (0, None, &[][..]));
}

/// Rows so far apart that each is a seed of its own: the table grows to its largest size.
#[test]
fn a_gatherer_makes_room() {
    let rows: Vec<u64> = (0..65_535).map(|i| 4_096 * i).collect();
    let mut singly = Gatherer::new();
    rows.iter().try_for_each(|row| singly.add_row(*row)).unwrap();
    let mut at_once = Gatherer::new();
    at_once.add_page(&rows).unwrap();
    let ends: Vec<u16> = (1..=65_535).collect();
    assert_eq!((singly.ends(), at_once.ends()), (&ends[..], &ends[..]));
}
