//! Bytes from anywhere: each is refused, or is a set on which all calls agree.

mod random;

use pelisafu::{Planner, Refusal, RowSet};
use random::Random;

/// Whether the body is accepted; the calls are compared with each other where it is.
fn agrees(tag: u8, span: u32, body: &[u8]) -> bool {
    let set = match RowSet::new(tag, span, body) {
        Ok(set) => set,
        Err(refusal) => {
            assert_eq!(refusal, Refusal::Body);
            return false;
        }
    };
    let positions: Vec<u32> = set.iter().collect();
    assert_eq!(positions.len(), set.len());
    assert!(positions.is_sorted_by(|a, b| a < b) && positions.last() < Some(&span));
    let mut ranks = vec![0; positions.len()];
    assert_eq!(set.ranks(&positions, &mut ranks), Ok(ranks.len()));
    assert!(ranks.iter().copied().eq(0..set.len() as u32));
    for (k, position) in positions.iter().enumerate().take(20) {
        assert_eq!(set.rank(*position), Some(k as u16));
        assert_eq!(set.select(k as u16), Some(*position));
    }
    let segments = set.segments();
    let told: usize = segments.iter().map(|segment| usize::from(segment.count)).sum();
    assert_eq!(told, if tag == 9 { set.len() } else { 0 });
    for i in 0..=segments.len() {
        assert_eq!(set.segment(i), segments.get(i).copied());
    }
    assert_eq!(set.segment(usize::MAX), None);
    true
}

#[test]
fn random_bytes() {
    let mut random = Random(1);
    let mut accepted = 0;
    for round in 0..40_000 {
        let body: Vec<u8> = (0..random.below(20)).map(|_| random.below(4) as u8).collect();
        let span = [random.below(12) as u32, 65_535, 65_536, u32::MAX][random.below(4) as usize];
        accepted += usize::from(agrees((round % 11) as u8, span, &body));
    }
    assert!(accepted > 100, "{accepted}");
}

#[test]
fn damaged_bodies() {
    let mut random = Random(2);
    let rows: [Vec<u64>; 6] = [
        (0..300).step_by(7).collect(),
        (0..64).step_by(2).collect(),
        (10..20).chain(100..110).collect(),
        (0..900).filter(|row| row % 90 != 4).collect(),
        (0..12).map(|i| 100_000 + 100 * i).collect(),
        (0..9).flat_map(|i| 70_000 * i..70_000 * i + 40).collect(),
    ];
    for rows in rows {
        let plan = Planner::new(0..rows[rows.len() - 1] + 1).plan(&rows).unwrap();
        assert!(agrees(plan.tag(), plan.span(), plan.body()));
        for _ in 0..2_000 {
            let mut body = plan.body().to_vec();
            let at = random.below(body.len() as u64) as usize;
            match random.below(4) {
                0 => body.truncate(at),
                1 => body.insert(at, random.below(256) as u8),
                2 => body[at] = random.below(256) as u8,
                _ => body[at] ^= 1 << random.below(8),
            }
            agrees(plan.tag(), plan.span(), &body);
        }
    }
}
