//! Plans: start u64, end u64, limit u32, items u16, seeds u16, refusal u8 (0 for none), tag u8,
//! length u16, segments u16, offers u32; then the items, the seed ends as u16, and the body.

use super::{List, item_bytes, items};
use crate::case::{Case, Plan, bad_cases};
use crate::index::original::{self, Seeds};
use crate::plain;
use crate::random::{Random, SHAPES, SOURCES, case, gathered};

const TOP: u64 = u64::MAX;

/// Spans on the bounds that document 01 names.
const SPANS: [u64; 17] = [
    1,
    2,
    10,
    63,
    64,
    65,
    255,
    256,
    257,
    4_095,
    4_096,
    4_097,
    65_534,
    65_535,
    65_536,
    65_537,
    4_294_967_295,
];

/// Islands of rows, which are cheapest in segments.
const ISLANDS: usize = 80;

/// Rounds over every shape from every source.
const ROUNDS: usize = 20;

pub(super) fn record(list: &mut List) -> Result<(), String> {
    let mut random = Random::new(11);
    for case in bad_cases().into_iter().chain(bound_cases()) {
        record_plan(list, &case)?;
    }
    for round in 0..ROUNDS {
        let most = if round % 10 == 0 { 200 } else { 20 };
        for shape in SHAPES {
            for source in SOURCES {
                let count = 1 + random.below(most) as usize;
                let case = case(&mut random, shape, count);
                let case = gathered(&mut random, source, case);
                let length = record_plan(list, &case)?;
                if random.one_in(8) && length > 0 {
                    record_plan(list, &case.clone().limited(length - 1))?;
                    record_plan(list, &case.limited(length))?;
                }
            }
        }
    }
    for turn in 0..ISLANDS {
        let case = islands(&mut random);
        let case = gathered(&mut random, SOURCES[turn % SOURCES.len()], case);
        record_plan(list, &case)?;
    }
    Ok(())
}

/// Rows at even distances, in up to four places far apart.
fn islands(random: &mut Random) -> Case {
    let start = random.below(1 << 40);
    let mut rows = Vec::new();
    let mut row = start + random.below(200_000);
    for _ in 0..1 + random.below(4) {
        let step = 1 + random.below(4) * random.below(40);
        for _ in 0..8 + random.below(40) {
            rows.push(row);
            row += step;
        }
        row += 1 + random.below(300_000);
    }
    Case::new(start, row, rows)
}

/// Writes a case with the original's answer, and gives the length of its body. The plain rule
/// tells apart what the original refuses alike, and answers the same otherwise.
fn record_plan(list: &mut List, case: &Case) -> Result<usize, String> {
    let case = case.clone().limited(case.limit.min(u32::MAX as usize));
    let (number, plan) = match (original::plan(&case), plain::planning::plan(&case)) {
        (Ok(theirs), Ok(plain)) if theirs == plain => (0, theirs),
        (Err(no), Err(number)) if no.is(number) => (number, refused()),
        (theirs, plain) => return Err(format!("{theirs:?} and {plain:?} of {case:?}")),
    };
    let ends = if case.gathering.is_empty() { Vec::new() } else { Seeds::gathered(&case).ends() };
    let rows = items(case.start, case.rows.iter().copied());
    let mut out = Vec::new();
    out.extend(case.start.to_le_bytes());
    out.extend(case.end.to_le_bytes());
    out.extend((case.limit as u32).to_le_bytes());
    out.extend((rows.len() as u16).to_le_bytes());
    out.extend((ends.len() as u16).to_le_bytes());
    out.extend([number, plan.tag]);
    out.extend((plan.body.len() as u16).to_le_bytes());
    out.extend((plan.segment_ends.len() as u16).to_le_bytes());
    out.extend((plan.offers as u32).to_le_bytes());
    out.extend(item_bytes(&rows));
    out.extend(ends.iter().flat_map(|end| (*end as u16).to_le_bytes()));
    out.extend(&plan.body);
    list.plan(&out);
    Ok(plan.body.len())
}

fn refused() -> Plan {
    Plan { tag: 0, body: Vec::new(), segment_ends: Vec::new(), offers: 0 }
}

/// Each span at the bottom, before a window's end and at the top of u64.
fn bound_cases() -> Vec<Case> {
    let mut cases = Vec::new();
    for span in SPANS {
        for start in [0, 4_095, TOP - span] {
            cases.extend(row_sets(span).into_iter().map(|positions| {
                Case::new(start, start + span, positions.into_iter().map(|p| start + p))
            }));
        }
        let near = Case::new(0, span, 0..span.min(40));
        cases.push(near.clone().in_pages_of(7));
        cases.push(near.in_pages_of(1));
    }
    // Few long ones: as many rows as there may be, in pages, and a bitmap of nearly all that fits.
    cases.push(Case::new(7, 70_000, 7..65_542).in_pages_of(4_096));
    cases.push(Case::new(0, 65_535, (0..65_535).step_by(2)));
    cases.push(Case::new(0, 65_537, (0..65_537).filter(|row| row % 3_000 > 0)));
    cases
}

/// Positions that lean on the ends of a span.
fn row_sets(span: u64) -> Vec<Vec<u64>> {
    let (last, middle) = (span - 1, span / 2);
    let mut sets = vec![
        vec![0],
        vec![last],
        vec![0, last],
        vec![0, middle, last],
        (0..span.min(65_535)).collect(),
        (middle..span.min(middle + 70)).step_by(2).collect(),
        (0..span.min(65_535)).filter(|position| *position != middle).collect(),
        (middle / 2..span.min(middle / 2 + 90)).filter(|position| position % 37 > 3).collect(),
    ];
    for set in &mut sets {
        set.dedup();
    }
    sets.retain(|set: &Vec<u64>| !set.is_empty());
    sets.dedup();
    sets
}
