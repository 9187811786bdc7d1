//! The shrinker itself: inputs that are said to differ for a known reason must come down to the smallest that has it.

use super::{Input, shrinking, smallest};
use crate::case::{Case, Piece, Verdict};
use crate::deletions::{Deletions, Section};
use crate::listing::Stream;
use crate::plain::listing::list;
use crate::plain::reading::read;
use crate::reading::{Reading, in_every_form};

pub(crate) fn check() -> Verdict {
    let rows: Vec<u64> = (0..400).map(|n| 50_000 + 4 * n + n * n % 7).collect();
    check_cases(&rows)?;
    check_readings(&rows)?;
    check_deletions()?;
    check_stream()?;
    Ok("shrinking: inputs of every kind come down to the smallest that was to be found".to_string())
}

/// What differs is told, with the smallest input.
fn comes_to<I: Input>(
    input: I,
    differs: impl Fn(&I) -> bool,
    right: impl ToString,
) -> Result<(), String> {
    let compared = shrinking(&input, |input| {
        assert!(!differs(input), "planted");
        Ok(())
    });
    let right = format!("planted; the smallest input found: {}", right.to_string());
    match compared {
        Err(told) if told == right => Ok(()),
        other => Err(format!("{other:?}, not {right:?}")),
    }
}

fn check_cases(rows: &[u64]) -> Result<(), String> {
    let case = Case::new(40_000, 90_000, rows.iter().copied()).in_pages_of(7);
    let pages = |case: &Case| case.gathering.len() >= 2;
    let small = Case { gathering: vec![Piece::Page(1); 2], ..Case::new(0, 2, [0, 1]) };
    comes_to(case.clone(), pages, small.shown())?;
    let far = |case: &Case| case.rows.last() >= Some(&50_010);
    comes_to(case.clone(), far, Case::new(50_010, 50_011, [50_010]).shown())?;
    let wide = |case: &Case| case.rows.windows(2).any(|pair| pair[1] - pair[0] == 5);
    comes_to(case, wide, Case::new(0, 6, [0, 5]).shown())
}

/// The bodies of one row set in all forms, each said to differ where it is accepted with three rows that are not one run;
/// and one that is refused.
fn check_readings(rows: &[u64]) -> Result<(), String> {
    let apart = |reading: &Reading| {
        let rows = read(reading.tag, u64::from(reading.span), &reading.body).unwrap_or_default();
        rows.len() >= 3 && rows[rows.len() - 1] - rows[0] >= rows.len() as u64
    };
    for reading in in_every_form(rows, 60_000) {
        let tag = reading.tag;
        let differs = |reading: &Reading| apart(reading).then(String::new);
        let (small, _) = smallest(reading, String::new(), differs);
        if small.tag != tag || small.span != 4 || !apart(&small) {
            return Err(format!("tag {tag} comes to {}", small.shown()));
        }
    }
    let refused = Reading { tag: 3, span: 90, body: (0..80).chain([7, 7, 200]).collect() };
    let sevens = |reading: &Reading| reading.body.iter().filter(|byte| **byte == 7).count() >= 2;
    comes_to(refused, sevens, Reading { tag: 3, span: 0, body: vec![7, 7] }.shown())
}

fn check_deletions() -> Result<(), String> {
    let ordinals = (0..300).map(|n| 9 * n).collect();
    let set = Deletions { row_count: 5_000, block_limit: usize::MAX, ordinals };
    let late = |set: &Deletions| set.ordinals.last() > Some(&20) && set.row_count > 30;
    let small = Deletions { row_count: 31, block_limit: 0, ordinals: vec![21] };
    comes_to(set, late, small.shown())?;
    let body = (0..90u16).flat_map(|n| (5 * n).to_le_bytes()).collect();
    let reading = Reading { tag: 3, span: 1_000, body };
    let section = Section { block_limit: 2_000, coded: 9, stated: 90, reading };
    let counted = |section: &Section| {
        let (rows, _, stated, tag, body) = section.given();
        read(tag, u64::from(rows), body).is_some_and(|rows| rows.len() == usize::from(stated))
    };
    let reading = Reading { tag: 3, span: 1, body: vec![0, 0] };
    comes_to(section, counted, Section { block_limit: 0, coded: 0, stated: 1, reading }.shown())
}

/// A listing that is wrong where a list has two rows, far down in a long stream.
fn check_stream() -> Result<(), String> {
    let one = |span| Reading { tag: 3, span, body: vec![3, 0] };
    let mut stream = Stream::of((4..3_000).map(one).collect());
    stream.records[2_000].body.extend([9, 0]);
    stream.tail = vec![0, 0, 1];
    let two = |line: &str| line.split(' ').nth(3) == Some("2");
    let wrong = |stream: &Stream| list(&stream.bytes()).lines().any(two);
    let reading = Reading { tag: 3, span: 2, body: vec![0, 0, 1, 0] };
    comes_to(stream, wrong, Stream::of(vec![reading]).shown())
}
