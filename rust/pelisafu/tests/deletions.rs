//! Deletions of a block: planned, kept as a section, read back; and their refusals.

use pelisafu::{Deletions, Refusal, Section, plan_deletions};

/// 3, 4 and 5 as a list of two-byte numbers.
const LIST: [u8; 6] = [3, 0, 4, 0, 5, 0];

fn coded(count: u16, tag: u8, body: &[u8]) -> Section<'_> {
    Section::Coded { count, tag, body }
}

fn refused(row_count: u16, block_limit: usize, section: Section<'_>) -> Refusal {
    Deletions::new(row_count, block_limit, section).unwrap_err()
}

fn compare(row_count: u16, ordinals: &[u16]) {
    let planned = plan_deletions(row_count, 65_535, ordinals).unwrap();
    assert_eq!(planned.plan().is_none(), ordinals.is_empty());
    let read = Deletions::new(row_count, 65_535, planned.section()).unwrap();
    for deletions in [read, planned.as_deletions()] {
        assert_eq!((deletions.row_count(), deletions.block_limit()), (row_count, 65_535));
        assert_eq!(deletions.section(), planned.section());
        assert_eq!((deletions.len(), deletions.iter().len()), (ordinals.len(), ordinals.len()));
        assert_eq!(deletions.is_empty(), ordinals.is_empty());
        assert_eq!(deletions.iter().collect::<Vec<u16>>(), ordinals);
        assert!(deletions.iter().rev().eq(ordinals.iter().rev().copied()));
        assert_eq!(deletions.iter().nth(2), ordinals.get(2).copied());
        for ordinal in (0..row_count).step_by(1 + usize::from(row_count) / 200) {
            let right = ordinals.binary_search(&ordinal).is_ok();
            assert_eq!(deletions.contains(ordinal), right, "{ordinal}");
        }
        assert!(!deletions.contains(row_count));
        let mut out = [7; 3];
        let written = deletions.walk(1, &mut out);
        let right = ordinals.get(1..).unwrap_or_default();
        assert_eq!(out[..written], right[..right.len().min(3)]);
        assert!(out[written..].iter().all(|left| *left == 7));
    }
}

#[test]
fn deletions_come_back() {
    for row_count in [1, 5, 64, 65, 4_096, 4_097, 20_000, 65_535] {
        compare(row_count, &[]);
        compare(row_count, &[row_count - 1]);
        for step in [1, 2, 3, 100] {
            compare(row_count, &(0..row_count).step_by(step).collect::<Vec<u16>>());
        }
        let but_one: Vec<u16> = (0..row_count).filter(|k| *k != row_count / 2).collect();
        compare(row_count, &but_one);
    }
}

#[test]
fn block() {
    for section in [Section::Empty, coded(3, 3, &LIST)] {
        assert_eq!(refused(0, 100, section), Refusal::Block);
        assert_eq!(refused(10, 9, section), Refusal::Block);
        assert!(Deletions::new(10, 10, section).is_ok());
    }
    for tag in 0..=10 {
        assert_eq!(refused(10, 100, coded(0, tag, &LIST)), Refusal::Block);
        assert_eq!(refused(10, 100, coded(0, tag, &[])), Refusal::Block);
    }
    assert_eq!(refused(10, 100, coded(11, 3, &LIST)), Refusal::Block);
    assert_eq!(refused(10, 100, coded(3, 3, &[0; 15])), Refusal::Block);
    assert_eq!(plan_deletions(0, 100, &[]), Err(Refusal::Block));
    assert_eq!(plan_deletions(10, 9, &[5, 4]), Err(Refusal::Block));
}

#[test]
fn body_then_count() {
    assert_eq!(refused(10, 100, coded(2, 3, &[4, 0, 4, 0])), Refusal::Body);
    assert_eq!(refused(5, 100, coded(3, 3, &LIST)), Refusal::Body);
    assert_eq!(refused(10, 100, coded(2, 3, &[0; 14])), Refusal::Body);
    assert_eq!(refused(10, 100, coded(2, 3, &LIST)), Refusal::Count);
    assert_eq!(refused(10, 100, coded(4, 3, &LIST)), Refusal::Count);
}

#[test]
fn order() {
    for ordinals in [[3, 3], [4, 3], [0, 10]] {
        assert_eq!(plan_deletions(10, 100, &ordinals), Err(Refusal::Order));
    }
    assert_eq!(plan_deletions(10, 100, &vec![0; 65_536]), Err(Refusal::RowCount));
}
