//! Pelisafu's own code, from its static library, against the original: every answer of reading, gathering, planning
//! and deletion sets.

pub(crate) mod calls;
mod deletions;
mod gathering;
mod guarded;
mod memory;
mod planning;
pub(crate) mod plans;
mod reading;
pub(crate) mod sections;
mod short;
mod soak;

use crate::case::Verdict;
use crate::random::Random;
pub(crate) use guarded::compare as compare_guarded;
pub(crate) use soak::soak;

pub(crate) fn compare() -> Verdict {
    let short = short::compare()?;
    let reading = reading::compare()?;
    let gathering = gathering::compare()?;
    let mut sections = deletions::Tally::default();
    deletions::compare(&mut Random::new(17), 60, &mut sections)?;
    Ok(format!("pelisafu: {short}; {reading}; {gathering}; {}", sections.summary()))
}

pub(crate) fn compare_planning() -> Verdict {
    planning::compare()
}
