//! Planning by Pelisafu against the original, and against document 01 for what the original does not have: the number
//! of each refusal, what is written and what stays, the workspace. Everything planned is read back.

mod damage;
pub(super) mod drawn;
mod edges;
mod exhaustive;
mod known;
mod smaller;
mod tally;
mod ties;

use super::calls::Body;
use super::memory::canaries;
use super::plans::{Means, Planned, plan_ordinals, plan_rows};
use crate::case::{Case, Piece, Plan};
use crate::deletions::Deletions;
use crate::index::original::{Seeds, caught};
use crate::random::Random;
use crate::shrink::told;
use known::Known;
use smaller::Lent;
pub(super) use tally::Tally;

/// Rows with a table of seed ends. The original gets its seeds by the case's gathering.
#[derive(Clone)]
pub(super) struct Request {
    pub(super) case: Case,
    pub(super) seeds: Vec<u16>,
}

/// Memory and limit, told from what is needed: 24 words for each seed, and the body's length. Without a limit here the
/// caller's is the largest number.
#[derive(Clone, Copy, Debug)]
pub(super) struct Lending {
    work: i64,
    out: i64,
    limit: Option<i64>,
}

const EXACT: Lending = Lending { work: 0, out: 0, limit: None };

/// Lendings on the bounds of refusals 5, 6 and 7, and where two of these meet.
const BOUNDS: [Lending; 8] = [
    Lending { work: 0, out: 0, limit: Some(0) },
    Lending { work: 5, out: 9, limit: Some(1) },
    Lending { work: -1, out: 0, limit: None },
    Lending { work: 0, out: 3, limit: Some(-1) },
    Lending { work: 1, out: -1, limit: None },
    Lending { work: 0, out: -1, limit: Some(-1) },
    Lending { work: -1, out: -1, limit: Some(-1) },
    Lending { work: i64::MIN, out: i64::MIN, limit: Some(i64::MIN) },
];

/// So many rounds of random requests, good and damaged.
const ROUNDS: usize = 1_500;

/// The least number of plans that each kind of body must come to.
const LEAST: usize = 2_000;

pub(super) fn compare() -> Result<String, String> {
    let mut tally = Tally::default();
    exhaustive::compare(12, &mut tally)?;
    edges::compare(1, &mut tally)?;
    ties::compare(40, &mut tally)?;
    let mut random = Random::new(11);
    for round in 0..ROUNDS {
        let most = if round % 250 == 249 { 65_535 } else { 200 };
        drawn::compare(&mut random, most, &mut tally)?;
        damage::compare(&mut random, &mut tally)?;
    }
    tally.enough(LEAST)?;
    Ok(tally.summary())
}

/// A part of the same, for calls that take longer.
pub(super) fn compare_part(random: &mut Random, tally: &mut Tally) -> Result<(), String> {
    exhaustive::compare(6, tally)?;
    edges::compare(41, tally)?;
    ties::compare(8, tally)?;
    for round in 0..60 {
        drawn::compare(random, if round == 30 { 65_535 } else { 200 }, tally)?;
        damage::compare(random, tally)?;
    }
    Ok(())
}

/// Random requests, good and damaged: one round of them.
pub(super) fn compare_drawn(random: &mut Random, tally: &mut Tally) -> Result<(), String> {
    let most = if random.one_in(200) { 65_535 } else { 300 };
    drawn::compare(random, most, tally)?;
    damage::compare(random, tally)
}

impl Request {
    /// Seed ends as the original gathers them.
    fn gathered(case: Case) -> Self {
        let ends = Seeds::gathered(&case).ends();
        Self { case, seeds: ends.iter().map(|end| *end as u16).collect() }
    }

    /// Any table, good or not. The original gets the same seeds as pages where the table is good.
    fn with_table(mut case: Case, seeds: Vec<u16>) -> Self {
        let starts = std::iter::once(&0).chain(&seeds);
        let sizes = starts.zip(&seeds).map(|(start, end)| end.checked_sub(*start));
        let sizes: Option<Vec<u16>> = sizes.collect();
        let whole = seeds.last().is_some_and(|end| usize::from(*end) == case.rows.len());
        let sizes = sizes.filter(|_| whole).unwrap_or_default();
        case.gathering = sizes.iter().map(|size| Piece::Page(usize::from(*size))).collect();
        Self { case, seeds }
    }

    /// The same as ordinals, where they can be.
    fn ordinals(&self) -> Option<(u16, Vec<u16>)> {
        let Case { start, end, rows, .. } = &self.case;
        let short = self.seeds.is_empty() && *start == 0;
        let row_count = u16::try_from(*end).ok().filter(|_| short)?;
        let ordinals = rows.iter().map(|row| u16::try_from(*row).ok());
        Some((row_count, ordinals.collect::<Option<_>>()?))
    }
}

/// One request with each of the lendings. A difference is told with the smallest request found that has one.
fn compare_request(
    request: &Request,
    lendings: &[Lending],
    tally: &mut Tally,
) -> Result<(), String> {
    caught(|| compare_calls(request, lendings, tally)).map_err(|what| {
        let lent = Lent { request: request.clone(), lendings: lendings.to_vec() };
        told(lent, what, |lent| compare_calls(&lent.request, &lent.lendings, tally))
    })
}

fn compare_calls(request: &Request, lendings: &[Lending], tally: &mut Tally) -> Result<(), String> {
    let known = known::known(request)?;
    if let Ok(plan) = &known.plan {
        read_back(&request.case, plan)?;
    }
    tally.known(&known);
    lendings.iter().try_for_each(|lending| compare_call(request, lending, &known, tally))
}

/// The call with one lending, and the same as ordinals where that can be.
fn compare_call(
    request: &Request,
    lending: &Lending,
    known: &Known,
    tally: &mut Tally,
) -> Result<(), String> {
    let right = known.right(lending);
    let Request { case, seeds } = request;
    let coverage = (case.start, case.end);
    right.compare("plan_rows", |means| plan_rows(coverage, &case.rows, seeds, means))?;
    tally.call(right.answer.number);
    if let Some((row_count, ordinals)) = request.ordinals() {
        right.compare("plan_ordinals", |means| plan_ordinals(row_count, &ordinals, means))?;
        tally.call(right.answer.number);
        tally.ordinals += 1;
    }
    Ok(())
}

/// What planning of deletions must come to, with so much more workspace and output than needed: test 9, then Empty, then
/// as planning of ordinals without a limit.
pub(super) fn deletion_answer(set: &Deletions, (work, out): (i64, i64)) -> Result<Right, String> {
    let Deletions { row_count, block_limit, ordinals } = set;
    let rows = ordinals.iter().map(|ordinal| u64::from(*ordinal));
    let request = Request::gathered(Case::new(0, u64::from(*row_count), rows));
    let mut right = known::known(&request)?.right(&Lending { work, out, limit: None });
    let refused = *row_count == 0 || usize::from(*row_count) > *block_limit;
    if refused || ordinals.is_empty() {
        right.answer = Planned { number: if refused { 9 } else { 0 }, ..Planned::default() };
        right.work = canaries(right.work.len());
        right.out = canaries(right.out.len());
    }
    Ok(right)
}

/// What one call must come to: the answer, and what stands in workspace and output afterwards.
pub(super) struct Right {
    limit: usize,
    answer: Planned,
    work: Vec<u32>,
    out: Vec<u8>,
}

impl Right {
    pub(super) fn number(&self) -> u8 {
        self.answer.number
    }

    /// The tag and the body that are planned.
    pub(super) fn section(&self) -> (u8, &[u8]) {
        (self.answer.tag, &self.out[..usize::from(self.answer.length)])
    }

    pub(super) fn compare(
        &self,
        name: &str,
        call: impl Fn(Means) -> Planned,
    ) -> Result<(), String> {
        let (mut work, mut out) = (canaries(self.work.len()), canaries(self.out.len()));
        let answer = call(Means { limit: self.limit, work: &mut work, out: &mut out });
        if answer != self.answer {
            return Err(format!("{name} answers {answer:?}, not {:?}", self.answer));
        }
        if let Some(place) = differing(&out, &self.out) {
            let (found, right) = (out[place], self.out[place]);
            return Err(format!("{name} leaves {found:02X} at byte {place}, not {right:02X}"));
        }
        if let Some(place) = differing(&work, &self.work) {
            return Err(format!("{name} leaves {:08X} at word {place}", work[place]));
        }
        Ok(())
    }
}

/// The first place where two lists of one length differ.
fn differing<T: PartialEq>(found: &[T], right: &[T]) -> Option<usize> {
    if found == right {
        return None;
    }
    found.iter().zip(right).position(|(found, right)| found != right)
}

/// A planned body is accepted, and its count, walk, ranks and selects are those of the rows.
fn read_back(case: &Case, plan: &Plan) -> Result<(), String> {
    let (start, count) = (case.start, case.rows.len());
    let rows: Vec<u32> = case.rows.iter().map(|row| (row - start) as u32).collect();
    let body = Body { tag: plan.tag, span: (case.end - start) as u32, bytes: &plan.body };
    let mut walked = vec![0; count + 1];
    let written = body.walk(0, &mut walked);
    let read = body.validate() == Ok(Some(count as u64))
        && written == Ok(Some(count as u64))
        && walked[..count] == rows
        && body.select(0) == Ok(Some(u64::from(rows[0])))
        && body.select((count - 1) as u16) == Ok(Some(u64::from(rows[count - 1])));
    if !read {
        return Err(format!("tag {} is not read back as its rows", plan.tag));
    }
    // Each row, and what stands beside it: a row's rank is its place, and nothing else has one.
    let asked: Vec<u32> = rows.iter().flat_map(|p| [p.wrapping_sub(1), *p, p + 1]).collect();
    let mut ranks = vec![0; asked.len()];
    let told = body.ranks(&asked, &mut ranks);
    let place = |position: &u32| rows.binary_search(position).map_or(u32::MAX, |p| p as u32);
    let right = asked.iter().map(place);
    if told != Ok(Some(asked.len() as u64)) || !ranks.iter().copied().eq(right) {
        return Err(format!("tag {} has other ranks than its rows", plan.tag));
    }
    Ok(())
}
