//! Document 01's examples: planned, and read back.

use pelisafu::{Gatherer, Planner, Refusal, RowSet, Segment};
use std::ops::Range;

/// Coverage, rows, and the tag and body that they are planned to.
type Example = (Range<u64>, Vec<u64>, u8, Vec<u8>);

fn examples() -> Vec<Example> {
    let two_runs = (10..20).chain(100..110).collect();
    let all_but_4 = (0..10).filter(|row| *row != 4).collect();
    let evens = (0..64).step_by(2).collect();
    let runs = vec![20, 0, 2, 0, 10, 0, 10, 0, 0, 0, 100, 0, 10, 0, 10, 0];
    let bits = [vec![32, 0, 0, 0, 0, 0], vec![0x55; 8]].concat();
    vec![
        (100..105, (100..105).collect(), 1, vec![]),
        (0..10, vec![3, 4, 5], 3, vec![3, 0, 4, 0, 5, 0]),
        (0..10, vec![3, 4, 5, 6], 8, vec![3, 0, 0, 0, 4, 0, 4, 0]),
        (0..10, all_but_4, 7, vec![9, 0, 0, 0, 4, 0]),
        (0..65_537, vec![65_535], 3, vec![0xFF, 0xFF]),
        (0..65_537, vec![65_536], 2, vec![0, 0, 1, 0]),
        (0..200, two_runs, 4, runs),
        (0..64, evens, 6, bits),
    ]
}

#[test]
fn rows_are_planned_to_these_bodies() {
    for (coverage, rows, tag, body) in examples() {
        let plan = Planner::new(coverage).plan(&rows).unwrap();
        assert_eq!((plan.tag(), plan.body()), (tag, &body[..]), "{rows:?}");
    }
}

#[test]
fn these_bodies_are_read_as_the_rows() {
    for (coverage, rows, tag, body) in examples() {
        let span = (coverage.end - coverage.start) as u32;
        let set = RowSet::new(tag, span, &body).unwrap();
        let read: Vec<u64> = set.iter().map(|p| coverage.start + u64::from(p)).collect();
        assert_eq!(read, rows);
        assert_eq!((set.tag(), set.span(), set.body()), (tag, span, &body[..]));
        assert_eq!((set.len(), set.is_empty()), (rows.len(), false));
        assert!(set.segments().is_empty());
    }
}

#[test]
fn a_limit_is_kept_to_the_byte() {
    for (coverage, rows, _, body) in examples() {
        let mut planner = Planner::new(coverage);
        assert_eq!(planner.limit(body.len()).plan(&rows).unwrap().body(), body);
        if let Some(less) = body.len().checked_sub(1) {
            assert_eq!(planner.limit(less).plan(&rows), Err(Refusal::Limit));
        }
    }
}

#[test]
fn twelve_rows_make_a_segment_and_ten_do_not() {
    let rows: Vec<u64> = (0..12).map(|i| 100_000 + 100 * i).collect();
    let mut planner = Planner::new(0..200_000);
    let ten = planner.plan(&rows[..10]).unwrap();
    assert_eq!((ten.tag(), ten.body().len()), (2, 40));
    let twelve = planner.plan(&rows).unwrap();
    assert_eq!((twelve.tag(), twelve.body().len()), (9, 44));
    let directory = [12, 0, 1, 0, 0xA0, 0x86, 1, 0, 0x4D, 4, 12, 0, 0, 0, 20, 0, 24, 0, 3, 0];
    assert_eq!(twelve.body()[..20], directory);
    let set = RowSet::new(9, 200_000, twelve.body()).unwrap();
    let entry = Segment {
        start: 100_000,
        span: 1_101,
        count: 12,
        ordinal: 0,
        offset: 20,
        length: 24,
        tag: 3,
    };
    assert_eq!(set.segments(), [entry]);
    assert_eq!(set.iter().map(u64::from).collect::<Vec<u64>>(), rows);
}

#[test]
fn segments_and_offers() {
    let told = |end, rows: &[u64]| {
        let plan = Planner::new(0..end).plan(rows).unwrap();
        (plan.segments(), plan.offers())
    };
    assert_eq!(told(10_000, &[0, 4_096, 8_192]), (1, 3));
    let without_5: Vec<u64> = (0..10).filter(|row| *row != 5).chain(4_096..4_106).collect();
    assert_eq!(told(8_192, &without_5), (1, 1));
    assert_eq!(told(65_536, &[0, 65_534]), (1, 1));
    assert_eq!(told(65_536, &[0, 65_535]), (2, 0));
}

#[test]
fn a_page_is_one_seed_or_two() {
    for (page, ends) in [([0, 65_534], &[2][..]), ([0, 65_535], &[1, 2][..])] {
        let mut gatherer = Gatherer::new();
        gatherer.add_page(&page).unwrap();
        assert_eq!(gatherer.ends(), ends);
    }
}

#[test]
fn bodies_that_are_accepted_and_refused() {
    let runs = |second: u8| [4, 0, 2, 0, 0, 0, 2, 0, 0, 0, second, 0, 2, 0, 2, 0];
    assert_eq!(RowSet::new(4, 10, &runs(2)).unwrap_err(), Refusal::Body);
    let apart = runs(3);
    assert_eq!(RowSet::new(4, 10, &apart).unwrap().iter().collect::<Vec<_>>(), [0, 1, 3, 4]);
    let top = [1, 0, 1, 0, 0xFF, 0xFF, 1, 0, 0, 0];
    assert_eq!(RowSet::new(4, 65_536, &top).unwrap().first(), 65_535);
    assert_eq!(RowSet::new(1, 65_536, &[]).unwrap_err(), Refusal::Body);
    assert_eq!(RowSet::new(1, 65_535, &[]).unwrap().last(), 65_534);
    for tag in [0, 10, 255] {
        assert_eq!(RowSet::new(tag, 5, &[]).unwrap_err(), Refusal::Body);
    }
}
