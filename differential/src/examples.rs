//! Document 01's examples through the original, each compared with what the document says.

use crate::case::{Case, Plan, Verdict};
use crate::index::original::{self, Accepted, Seeds};
use crate::plain;

/// What document 01 says of one plan; what it does not say is not compared.
#[derive(Clone)]
struct Planning {
    case: Case,
    tag: Option<u8>,
    body: Body,
    segments: Option<usize>,
    offers: Option<u64>,
}

#[derive(Clone, Copy)]
enum Body {
    Unsaid,
    Exactly(&'static str),
    /// So many bytes, and those in front.
    Starting(usize, &'static str),
}

fn planning(case: Case, tag: u8, body: Body) -> Planning {
    Planning { case, tag: Some(tag), body, segments: None, offers: None }
}

fn merging(case: Case, segments: usize, offers: u64) -> Planning {
    Planning { case, tag: None, body: Body::Unsaid, segments: Some(segments), offers: Some(offers) }
}

/// So many rows from 100,000 on, each 100 after the one before.
fn hundreds(count: u64) -> Case {
    Case::new(0, 200_000, (0..count).map(|i| 100_000 + 100 * i))
}

/// Two windows whose join saves nothing.
fn zero_saving() -> Case {
    Case::new(0, 8_192, (0..10).filter(|row| *row != 5).chain(4_096..4_106))
}

fn body_examples() -> Vec<Planning> {
    use Body::{Exactly, Starting};
    let twelve = "0C 00 01 00 A0 86 01 00 4D 04 0C 00 00 00 14 00 18 00 03 00";
    let two_runs = "14 00 02 00 0A 00 0A 00 00 00 64 00 0A 00 0A 00";
    let evens = "20 00 00 00 00 00 55 55 55 55 55 55 55 55";
    let all_but_four = (0..10).filter(|row| *row != 4);
    vec![
        planning(Case::new(100, 105, 100..105), 1, Exactly("")),
        planning(Case::new(0, 10, 3..6), 3, Exactly("03 00 04 00 05 00")),
        planning(Case::new(0, 10, 3..7), 8, Exactly("03 00 00 00 04 00 04 00")),
        planning(Case::new(0, 10, all_but_four), 7, Exactly("09 00 00 00 04 00")),
        planning(Case::new(0, 65_537, [65_535]), 3, Exactly("FF FF")),
        planning(Case::new(0, 65_537, [65_536]), 2, Exactly("00 00 01 00")),
        planning(Case::new(0, 200, (10..20).chain(100..110)), 4, Exactly(two_runs)),
        planning(Case::new(0, 64, (0..64).step_by(2)), 6, Exactly(evens)),
        planning(hundreds(10), 2, Starting(40, "")),
        planning(hundreds(12), 9, Starting(44, twelve)),
    ]
}

fn merging_examples() -> Vec<Planning> {
    let windows = Case::new(0, 10_000, [0, 4_096, 8_192]);
    vec![
        Planning { tag: Some(3), ..merging(windows, 1, 3) },
        merging(zero_saving(), 1, 1),
        merging(Case::new(0, 65_536, [0, 65_534]), 1, 1),
        merging(Case::new(0, 65_536, [0, 65_535]), 2, 0),
    ]
}

/// Tag, span, body, and the number of rows where the body is accepted. The last three are the
/// records of the listing.
const READING_EXAMPLES: [(u8, u32, &str, Option<u16>); 9] = [
    (4, 10, "04 00 02 00 00 00 02 00 00 00 02 00 02 00 02 00", None),
    (4, 10, "04 00 02 00 00 00 02 00 00 00 03 00 02 00 02 00", Some(4)),
    (4, 65_536, "01 00 01 00 FF FF 01 00 00 00", Some(1)),
    (1, 65_536, "", None),
    (0, 10, "", None),
    (10, 10, "", None),
    (1, 5, "", Some(5)),
    (3, 10, "03 00", Some(1)),
    (0, 5, "", None),
];

/// Rows given as one page in [0, 65536), and the seed ends that come of it.
const GATHERING_EXAMPLES: [([u64; 2], &[usize]); 2] = [([0, 65_534], &[2]), ([0, 65_535], &[1, 2])];

pub(crate) fn compare() -> Verdict {
    let plans = [body_examples(), merging_examples()].concat();
    for example in &plans {
        compare_planning(example)?;
    }
    for (tag, span, hex, rows) in READING_EXAMPLES {
        let found = Accepted::new(tag, span, &bytes(hex)).map(Accepted::count);
        if found != rows {
            return Err(format!("tag {tag}, span {span}, body {hex}: {found:?}, not {rows:?}"));
        }
    }
    for (rows, ends) in GATHERING_EXAMPLES {
        let page = Case::new(0, 65_536, rows).in_pages_of(2);
        let found = Seeds::gathered(&page).ends();
        if found != ends {
            return Err(format!("the page {rows:?}: seed ends {found:?}, not {ends:?}"));
        }
    }
    two_remarks()?;
    Ok(format!(
        "examples: {} plans, {} bodies and {} pages of document 01 as the original answers them",
        plans.len(),
        READING_EXAMPLES.len(),
        GATHERING_EXAMPLES.len()
    ))
}

fn compare_planning(example: &Planning) -> Result<(), String> {
    let case = &example.case;
    let plan = original::plan(case).map_err(|no| format!("{no:?} of {case:?}"))?;
    let body = match example.body {
        Body::Unsaid => true,
        Body::Exactly(hex) => plan.body == bytes(hex),
        Body::Starting(length, hex) => {
            plan.body.len() == length && plan.body.starts_with(&bytes(hex))
        }
    };
    let said = example.tag.is_none_or(|tag| tag == plan.tag)
        && example.segments.is_none_or(|n| n == plan.segment_ends.len())
        && example.offers.is_none_or(|n| n == plan.offers);
    if !(body && said) {
        return Err(format!("{plan:?} of {case:?}"));
    }
    compare_round(case, &plan)
}

/// What was planned must be accepted and stand for the rows it was planned from.
fn compare_round(case: &Case, plan: &Plan) -> Result<(), String> {
    let span = (case.end - case.start) as u32;
    let accepted = Accepted::new(plan.tag, span, &plan.body);
    let rows = accepted.map(|set| set.positions().map(|p| case.start + u64::from(p)).collect());
    match rows {
        Some(rows) if case.rows == Vec::<u64>::clone(&rows) => Ok(()),
        other => Err(format!("{plan:?} stands for {other:?}, not for {case:?}")),
    }
}

/// Two things that document 01 says beside its examples: ten rows cost 40 bytes either way,
/// and one join saves nothing.
fn two_remarks() -> Result<(), String> {
    let segments_of = |case: &Case| {
        let ends = plain::merging::gather(case);
        plain::merging::seed_segments(&case.rows, &ends)
    };
    let (merged, _) = plain::merging::merge(segments_of(&hundreds(10)));
    let split = plain::planning::segmented_cost(&merged).0;
    if split != 40 {
        return Err(format!("ten rows cost {split} bytes in segments, not 40"));
    }
    let segments = segments_of(&zero_saving());
    match plain::merging::admitted(&segments[0], &segments[1]) {
        Some(0) => Ok(()),
        other => Err(format!("the join of {:?} saves {other:?}, not 0", zero_saving())),
    }
}

fn bytes(hex: &str) -> Vec<u8> {
    let byte = |digits| u8::from_str_radix(digits, 16).expect("two hexadecimal digits");
    hex.split_whitespace().map(byte).collect()
}
