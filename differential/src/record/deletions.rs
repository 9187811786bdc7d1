//! Deletion sets. Planned: row count u16, block limit u32, refusal u8 (0 for none), tag u8 (0 for
//! no deletions), length u16, items u16; then the items of the ordinals from base 0, and the body.
//! Read: row count u16, block limit u32, stated count u16, tag u8, length u16, refusal u8, an
//! ordinal u16 and whether it is deleted u8, items u16; then the body, and the items of all
//! deleted ordinals from base 0.

use super::{List, item_bytes, items};
use crate::index::deletions::{plan, read};
use crate::index::original::No;
use crate::random::Random;

const ROW_COUNTS: [u16; 15] =
    [0, 1, 2, 10, 63, 64, 65, 255, 256, 257, 4_095, 4_096, 4_097, 65_534, 65_535];

/// The largest block limit that a case holds.
const NO_LIMIT: usize = u32::MAX as usize;

/// Row count, block limit, stated count, tag and body.
type Section<'a> = (u16, usize, u16, u8, &'a [u8]);

pub(super) fn record(list: &mut List) -> Result<(), String> {
    let mut random = Random::new(13);
    for row_count in ROW_COUNTS {
        for ordinals in ordinal_sets(&mut random, row_count) {
            let rows = usize::from(row_count);
            let limits = [rows, NO_LIMIT, rows.saturating_sub(1)];
            let limit = limits[random.below(3) as usize];
            record_plan(list, row_count, limit, &ordinals)?;
            let Ok((Some(tag), body)) = plan(row_count, rows, &ordinals) else {
                continue;
            };
            let count = ordinals.len() as u16;
            record_section(list, &mut random, (row_count, rows, count, tag, &body))?;
            for (rows, limit, count, tag, body) in damaged(row_count, count, tag, &body) {
                if random.one_in(4) {
                    record_section(list, &mut random, (rows, limit, count, tag, &body))?;
                }
            }
        }
    }
    Ok(())
}

/// Few deletions and many, none at all, and some that no planner may take.
fn ordinal_sets(random: &mut Random, row_count: u16) -> Vec<Vec<u16>> {
    let mut sets = vec![
        Vec::new(),
        (0..row_count).collect(),
        (0..row_count.min(600)).step_by(2).collect(),
        (row_count / 3..row_count).collect(),
        vec![row_count.saturating_sub(1)],
        vec![row_count],
        vec![5, 5],
        vec![7, 6],
    ];
    for most in [3, 12, 30] {
        let ordinals = (0..most).map(|_| random.below(1 + u64::from(row_count)) as u16);
        let mut ordinals: Vec<u16> = ordinals.filter(|ordinal| *ordinal < row_count).collect();
        ordinals.sort_unstable();
        ordinals.dedup();
        sets.push(ordinals);
    }
    sets
}

/// Another count, tag, row count or block limit; a body that is cut or too long.
fn damaged(rows: u16, count: u16, tag: u8, body: &[u8]) -> Vec<(u16, usize, u16, u8, Vec<u8>)> {
    let limit = usize::from(rows);
    let longer = [body, &[0]].concat();
    let far_longer = [body, &vec![0; limit / 4 + 40]].concat();
    let cut = body[..body.len().saturating_sub(1)].to_vec();
    let body = body.to_vec();
    vec![
        (rows, limit, count.wrapping_add(1), tag, body.clone()),
        (rows, limit, count - 1, tag, body.clone()),
        (rows, limit, count, tag ^ 1, body.clone()),
        (rows, limit - 1, count, tag, body.clone()),
        (0, limit, count, tag, body.clone()),
        (rows / 2, limit, count, tag, body),
        (rows, limit, count, tag, longer),
        (rows, limit, count, tag, cut),
        (rows, limit, count, tag, far_longer),
    ]
    .into_iter()
    .filter(|(.., body)| body.len() <= 400)
    .collect()
}

fn record_plan(
    list: &mut List,
    row_count: u16,
    limit: usize,
    ordinals: &[u16],
) -> Result<(), String> {
    let (number, tag, body) = match plan(row_count, limit, ordinals) {
        Ok((tag, body)) => (0, tag.unwrap_or(0), body),
        Err(No::Assert) if row_count == 0 || usize::from(row_count) > limit => (9, 0, Vec::new()),
        Err(No::Assert) => (3, 0, Vec::new()),
        Err(no) => return Err(format!("{no:?} of {row_count} rows, deleted {ordinals:?}")),
    };
    let rows = items(0, ordinals.iter().map(|ordinal| u64::from(*ordinal)));
    let mut out = Vec::new();
    out.extend(row_count.to_le_bytes());
    out.extend((limit as u32).to_le_bytes());
    out.extend([number, tag]);
    out.extend((body.len() as u16).to_le_bytes());
    out.extend((rows.len() as u16).to_le_bytes());
    out.extend(item_bytes(&rows));
    out.extend(body);
    list.deletions(3, &out);
    Ok(())
}

fn record_section(list: &mut List, random: &mut Random, section: Section) -> Result<(), String> {
    let (row_count, limit, stated, tag, body) = section;
    let (number, deleted) = match read(row_count, limit, stated, tag, body) {
        Ok(deleted) => (0, deleted),
        Err(No::Payload) => (8, Vec::new()),
        Err(No::Bounds) => (9, Vec::new()),
        Err(No::Count) => (10, Vec::new()),
        Err(no) => return Err(format!("{no:?} of {section:?}")),
    };
    // A deleted ordinal, or any.
    let asked = match deleted.get(random.below(1 + 2 * deleted.len() as u64) as usize) {
        Some(ordinal) => *ordinal,
        None => random.below(65_536) as u16,
    };
    let walked = items(0, deleted.iter().map(|ordinal| u64::from(*ordinal)));
    let mut out = Vec::new();
    out.extend(row_count.to_le_bytes());
    out.extend((limit as u32).to_le_bytes());
    out.extend(stated.to_le_bytes());
    out.push(tag);
    out.extend((body.len() as u16).to_le_bytes());
    out.push(number);
    out.extend(asked.to_le_bytes());
    out.push(u8::from(deleted.contains(&asked)));
    out.extend((walked.len() as u16).to_le_bytes());
    out.extend(body);
    out.extend(item_bytes(&walked));
    list.deletions(4, &out);
    Ok(())
}
