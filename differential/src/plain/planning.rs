//! Document 01's planning: refusals 1 to 4 and 6, the choice, and the body. Refusals 5 and 7
//! are about memory that is not lent here.

use super::SEGMENTED;
use super::bodies::{part, segmented, whole};
use super::costs::{Cost, Stats, cheapest_local, depth, whole_forms};
use super::merging::{Segment, gather, merge, seed_segments};
use crate::case::{Case, Plan};

/// Planning with seeds gathered as the case says, or with windows.
pub(crate) fn plan(case: &Case) -> Result<Plan, u8> {
    refuse(case)?;
    let ends = gather(case);
    refuse_ends(&case.rows, &ends)?;
    plan_from(case, &ends)
}

/// Tests 1 to 4 where a table of seed ends is given: the ends, of windows if the table is empty.
#[cfg(pelisafu)]
pub(crate) fn seed_ends(case: &Case, table: &[u16]) -> Result<Vec<usize>, u8> {
    refuse(case)?;
    if table.is_empty() {
        let windows = Case::new(case.start, case.end, case.rows.iter().copied());
        return Ok(gather(&windows));
    }
    let ends: Vec<usize> = table.iter().map(|end| usize::from(*end)).collect();
    refuse_ends(&case.rows, &ends)?;
    Ok(ends)
}

/// Planning once tests 1 to 4 are passed.
pub(crate) fn plan_from(case: &Case, ends: &[usize]) -> Result<Plan, u8> {
    let span = case.end - case.start;
    let stats = Stats::of(&case.rows);
    let forms = whole_forms(&stats, case.start, span);
    let form = forms.iter().min().expect("a list is always there");
    let (segments, offers) = merge(seed_segments(&case.rows, ends));
    let split = segmented_cost(&segments);
    let taken = split < (form.bytes, 1, form.depth, form.words, form.order);
    let bytes = if taken { split.0 } else { form.bytes };
    if bytes > case.limit as u64 || bytes > 65_535 {
        return Err(6);
    }
    let body = if taken { segmented_body(case, &segments) } else { whole_body(case, form) };
    assert_eq!(body.len() as u64, bytes, "a body is as long as its cost says");
    Ok(Plan {
        tag: if taken { SEGMENTED } else { form.tag },
        body,
        segment_ends: segments.iter().map(|segment| segment.end).collect(),
        offers,
    })
}

fn refuse(case: &Case) -> Result<(), u8> {
    let span = case.end.checked_sub(case.start).ok_or(1)?;
    if span == 0 || span > 4_294_967_295 {
        return Err(1);
    }
    if case.rows.is_empty() || case.rows.len() > 65_535 {
        return Err(2);
    }
    let rising = case.rows.windows(2).all(|pair| pair[0] < pair[1]);
    let inside = |row: &u64| (case.start..case.end).contains(row);
    if !rising || !case.rows.iter().all(inside) {
        return Err(3);
    }
    Ok(())
}

/// Test 4.
fn refuse_ends(rows: &[u64], ends: &[usize]) -> Result<(), u8> {
    let rising = ends[0] >= 1 && ends.windows(2).all(|pair| pair[0] < pair[1]);
    if !rising || ends[ends.len() - 1] != rows.len() {
        return Err(4);
    }
    let starts = std::iter::once(&0).chain(ends);
    let narrow = |(start, end): (&usize, &usize)| rows[*end - 1] - rows[*start] <= 65_534;
    if starts.zip(ends).all(narrow) { Ok(()) } else { Err(4) }
}

/// (bytes, segments, depth, words, order), as document 01 compares them.
pub(crate) fn segmented_cost(segments: &[Segment]) -> (u64, u64, u64, u64, u64) {
    let local = segments.iter().map(|segment| cheapest_local(&segment.stats));
    let local: Vec<Cost> = local.collect();
    let largest = |figure: fn(&Cost) -> u64| local.iter().map(figure).max().unwrap_or(0);
    let count = segments.len() as u64;
    let payloads: u64 = local.iter().map(|cost| cost.bytes).sum();
    (
        4 + 16 * count + payloads,
        count,
        depth(count) + largest(|cost| cost.depth),
        largest(|cost| cost.words),
        5,
    )
}

fn segmented_body(case: &Case, segments: &[Segment]) -> Vec<u8> {
    let mut from = 0;
    let parts: Vec<_> = segments
        .iter()
        .map(|segment| {
            let rows = &case.rows[from..segment.end];
            from = segment.end;
            part(segment, rows, case.start)
        })
        .collect();
    segmented(&parts)
}

fn whole_body(case: &Case, form: &Cost) -> Vec<u8> {
    let positions: Vec<u64> = case.rows.iter().map(|row| row - case.start).collect();
    whole(form, &positions, case.end - case.start)
}
