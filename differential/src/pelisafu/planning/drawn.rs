//! Random row sets of every shape in random coverages, with random seeds.

use super::{BOUNDS, EXACT, Lending, Request, Tally, compare_request};
use crate::case::Case;
use crate::random::{Random, SHAPES, SOURCES, Source, case, gathered_in};

/// How far a coverage may reach past its rows on either side.
const MARGINS: [u64; 10] = [0, 0, 0, 1, 3, 100, 5_000, 70_000, 20_000_000, 4_294_967_295];

const WIDEST: u64 = 4_294_967_295;

/// One request of each shape from each source, with so many rows at most.
pub(super) fn compare(random: &mut Random, most: u64, tally: &mut Tally) -> Result<(), String> {
    for shape in SHAPES {
        for source in SOURCES {
            let count = 1 + random.below(most) as usize;
            let drawn = case(random, shape, count);
            let request = request(random, source, drawn);
            let bound = BOUNDS[random.below(8) as usize];
            let lendings = [EXACT, bound, lending(random)];
            compare_request(&request, &lendings, tally)?;
        }
    }
    Ok(())
}

/// The rows of a case in another coverage, at 0, at the top, or where they were, gathered in pieces of any size. Where
/// there are no seeds, half of them can be ordinals too.
pub(super) fn request(random: &mut Random, source: Source, drawn: Case) -> Request {
    let (first, count) = (drawn.rows[0], drawn.rows.len());
    let length = drawn.rows[count - 1] - first + 1;
    let short = matches!(source, Source::Nothing) && length <= 65_535 && random.one_in(2);
    let widest = if short { 65_535 } else { WIDEST };
    let mut margin = || MARGINS[random.below(10) as usize].min(widest.saturating_sub(length));
    let before = margin();
    let after = margin().min(widest.saturating_sub(length + before));
    let span = before + length + after;
    let start = match random.below(3) {
        _ if short => 0,
        0 => 0,
        1 => u64::MAX - span,
        _ => first,
    };
    let rows = drawn.rows.iter().map(|row| start + before + (row - first));
    let piece = [1, 4, 20, 300][random.below(4) as usize];
    Request::gathered(gathered_in(random, source, piece, Case::new(start, start + span, rows)))
}

/// Lendings with a little more or less than needed.
pub(super) fn lending(random: &mut Random) -> Lending {
    let mut near = || [0, 0, 1, -1, 2, -2, 24, -24, 1_000][random.below(9) as usize];
    let (work, out, limit) = (near(), near(), near());
    Lending { work, out, limit: (limit != 1_000).then_some(limit) }
}
