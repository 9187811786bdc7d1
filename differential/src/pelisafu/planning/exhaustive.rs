//! All row sets of short spans, with all cuts into pages, and without seeds at every place beside a window's border.

use super::{BOUNDS, EXACT, Request, Tally, compare_request};
use crate::case::{Case, Piece};

/// All spans up to that one.
pub(super) fn compare(longest: u64, tally: &mut Tally) -> Result<(), String> {
    for span in 1..=longest {
        for chosen in 0..1u64 << span {
            let rows: Vec<u64> = (0..span).filter(|row| chosen >> row & 1 == 1).collect();
            for cuts in 0..1u64 << rows.len().saturating_sub(1) {
                let mut case = Case::new(0, span, rows.iter().copied());
                case.gathering = pages(rows.len(), cuts);
                compare_request(&Request::gathered(case), &[EXACT], tally)?;
            }
            for start in [0].into_iter().chain(4_097 - span..4_096) {
                let moved = rows.iter().map(|row| start + row);
                let request = Request::gathered(Case::new(start, start + span, moved));
                let bound = BOUNDS[((chosen + start) % 8) as usize];
                compare_request(&request, &[EXACT, bound], tally)?;
            }
        }
    }
    Ok(())
}

/// Pages of so many rows together, with a cut behind each row whose digit in `cuts` is 1.
fn pages(rows: usize, cuts: u64) -> Vec<Piece> {
    let mut sizes = Vec::new();
    let mut size = 0;
    for row in 0..rows {
        size += 1;
        if cuts >> row & 1 == 1 || row + 1 == rows {
            sizes.push(Piece::Page(size));
            size = 0;
        }
    }
    sizes
}
