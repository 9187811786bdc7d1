//! A part of all comparisons with every slice of every call ending, and again starting, at a page that may not be
//! touched. One byte read or written outside ends the run.

use super::memory::{Place, set_place};
use super::{deletions, gathering, planning, reading};
use crate::case::Verdict;
use crate::random::Random;
use crate::reading::for_each;

/// Each so many-th body is read. The short bodies are so many that these are a part of each kind.
const EVERY: usize = 41;

pub(crate) fn compare() -> Verdict {
    let mut said = String::new();
    for place in [Place::Ending, Place::Starting] {
        set_place(place);
        let told = compare_part();
        set_place(Place::AsGiven);
        let told = told.map_err(|what| format!("slices {place:?} at a page: {what}"))?;
        let line = format!("\nguarded: slices {place:?} at a page that may not be touched: {told}");
        said += &line;
    }
    Ok(said.trim_start().to_string())
}

fn compare_part() -> Result<String, String> {
    let mut random = Random::new(13);
    let mut plans = planning::Tally::default();
    planning::compare_part(&mut random, &mut plans)?;
    let mut bodies = reading::Tally::default();
    let mut turn = 0;
    for_each(&mut |body| {
        turn += 1;
        if turn % EVERY == 0 { reading::compare_body(body, &mut bodies) } else { Ok(()) }
    })?;
    let gathered = gathering::compare_rounds(&mut random, 10, 5_000)?;
    let mut sections = deletions::Tally::default();
    deletions::compare(&mut random, 5, &mut sections)?;
    let (plans, bodies, sections) = (plans.summary(), bodies.summary(), sections.summary());
    Ok(format!("{plans}; {bodies}; {gathered}; {sections}"))
}
