//! What is measured: for each tag a row set for which the planner takes it, and three large row
//! sets for merging.

use crate::case::Case;
use crate::random::Random;

/// A row set with the head of its column, a name that tells its shape, and the tag that the
/// planner takes for it.
pub(super) struct Input {
    pub(super) key: &'static str,
    pub(super) name: &'static str,
    pub(super) tag: u8,
    pub(super) case: Case,
}

/// All inputs, in the order of the columns.
pub(super) fn all() -> Vec<Input> {
    by_tag().into_iter().chain(for_merging()).collect()
}

/// One input for each tag, in the order of the tags; bitmaps come plain and trimmed.
pub(super) fn by_tag() -> Vec<Input> {
    let mut random = Random::new(4);
    let chance: Vec<u64> = (0..65_536).filter(|_| random.one_in(2)).collect();
    let moved: Vec<u64> = chance.iter().map(|row| row + 300_000).collect();
    let sparse = (0..10_000).map(|n| 400_000 * n);
    let scattered = (0..3_000).map(|n| 21 * n);
    let far = Case::new(0, 300_000_000, runs(3_000, 100_000, 20));
    let cases = [
        ("1", 1, "all rows", Case::new(0, 65_535, 0..65_535)),
        ("2", 2, "each 400,000th", Case::new(0, 4_294_967_295, sparse)),
        ("3", 3, "each 21st", Case::new(0, 65_536, scattered)),
        ("4", 4, "1,000 runs of 40", Case::new(0, 65_536, runs(1_000, 65, 40))),
        ("5", 5, "3,000 runs of 20, far apart", far),
        ("6", 6, "every other by chance", Case::new(0, 65_536, chance)),
        ("6t", 6, "the same, trimmed", Case::new(0, 4_000_000, moved)),
        ("7", 7, "each 65th absent", Case::new(0, 65_535, holed(0))),
        ("8", 8, "the same in a wide coverage", Case::new(0, 1_000_000, holed(130_000))),
        ("9", 9, "100 clusters of four kinds", Case::new(0, 100_000_000, clusters())),
    ];
    cases.map(|(key, tag, name, case)| Input { key, tag, name, case }).into()
}

/// 65,535 positions from there on, each 65th of them absent.
fn holed(from: u64) -> impl Iterator<Item = u64> {
    (from..from + 65_535).filter(|row| row % 65 != 3)
}

/// Runs of that length, their first rows that far apart.
pub(super) fn runs(count: u64, apart: u64, length: u64) -> impl Iterator<Item = u64> {
    (0..count).flat_map(move |run| run * apart..run * apart + length)
}

/// Clusters a million apart, by turns a run, every second row, scattered rows, and a run with
/// holes.
fn clusters() -> Vec<u64> {
    let cluster = |n: u64| {
        let base = 1_000_000 * n;
        let rows: Vec<u64> = match n % 4 {
            0 => (0..600).collect(),
            1 => (0..1_200).step_by(2).collect(),
            2 => (0..24_000).step_by(40).collect(),
            _ => (0..620).filter(|row| row % 31 != 5).collect(),
        };
        rows.into_iter().map(move |row| base + row)
    };
    (0..100).flat_map(cluster).collect()
}

/// 65,535 rows of three shapes, to be gathered in pages of any size.
pub(super) fn for_merging() -> Vec<Input> {
    let mut random = Random::new(5);
    let mut row = 0;
    let mut chance = Vec::new();
    while chance.len() < 65_535 {
        row += if random.one_in(25) { 1 + random.below(200) } else { 1 };
        chance.push(row);
    }
    let evens = Case::new(0, 131_072, (0..131_070).step_by(2));
    let cases = [
        ("A", 1, "one run", Case::new(0, 65_535, 0..65_535)),
        ("B", 6, "every second row", evens),
        ("C", 9, "runs of about 25, gaps up to 200", Case::new(0, row + 1, chance)),
    ];
    cases.map(|(key, tag, name, case)| Input { key, tag, name, case }).into()
}
