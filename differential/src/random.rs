//! Random inputs, the same on each run: a small xorshift generator and shapes of row sets.

use crate::case::{Case, Piece};

pub(crate) struct Random(u64);

impl Random {
    /// A generator of its own for each seed. Zero would stay zero and is not taken.
    pub(crate) fn new(seed: u64) -> Self {
        Self(seed.wrapping_mul(0x9E37_79B9_7F4A_7C15) | 1)
    }

    /// A number below `bound`.
    pub(crate) fn below(&mut self, bound: u64) -> u64 {
        self.0 ^= self.0 << 13;
        self.0 ^= self.0 >> 7;
        self.0 ^= self.0 << 17;
        (self.0 >> 11) % bound
    }

    pub(crate) fn one_in(&mut self, bound: u64) -> bool {
        self.below(bound) == 0
    }
}

/// How the gaps between rows fall.
#[derive(Clone, Copy, Debug)]
pub(crate) enum Shape {
    Crowded,
    Scattered,
    FarApart,
    LongRuns,
    Clusters,
    Edges,
    NearlyFull,
    Runs,
    Lonely,
    LonelyRuns,
}

pub(crate) const SHAPES: [Shape; 10] = [
    Shape::Crowded,
    Shape::Scattered,
    Shape::FarApart,
    Shape::LongRuns,
    Shape::Clusters,
    Shape::Edges,
    Shape::NearlyFull,
    Shape::Runs,
    Shape::Lonely,
    Shape::LonelyRuns,
];

/// Distances that stand just before, on and after the bounds of forms and windows.
const EDGES: [u64; 10] = [1, 2, 63, 64, 256, 4_095, 4_096, 65_534, 65_535, 65_536];

impl Shape {
    fn gap(self, random: &mut Random) -> u64 {
        match self {
            Self::Crowded => 1 + random.below(2),
            Self::Scattered => 1 + random.below(200),
            Self::FarApart => 1 + random.below(9_000),
            Self::LongRuns if random.one_in(10) => 1 + random.below(70_000),
            Self::LongRuns => 1,
            Self::Clusters if random.one_in(30) => 1 + random.below(4_000),
            Self::Clusters => 1 + random.below(3),
            Self::Edges if random.one_in(3) => EDGES[random.below(10) as usize],
            Self::Edges => 1,
            Self::NearlyFull if random.one_in(120) => 3 + random.below(13),
            Self::NearlyFull if random.one_in(40) => 2,
            Self::NearlyFull => 1,
            Self::Runs if random.one_in(10) => 1 + random.below(600),
            Self::Runs => 1,
            Self::Lonely => 1 + random.below(120_000),
            Self::LonelyRuns if random.one_in(8) => 40_000 + random.below(40_000),
            Self::LonelyRuns => 1,
        }
    }

    /// How far the coverage reaches past the rows, at most.
    fn margin(self) -> u64 {
        match self {
            Self::NearlyFull => 2,
            _ => 5_000,
        }
    }
}

/// A coverage with `count` rows of that shape, and no seeds.
pub(crate) fn case(random: &mut Random, shape: Shape, count: usize) -> Case {
    let start = random.below(1 << 40);
    let mut row = start + random.below(shape.margin());
    let mut rows = vec![row];
    while rows.len() < count {
        row += shape.gap(random);
        rows.push(row);
    }
    let end = row + 1 + random.below(shape.margin());
    Case::new(start, end, rows)
}

/// How rows reach the gatherer.
#[derive(Clone, Copy, Debug)]
pub(crate) enum Source {
    Nothing,
    Windows,
    Pages,
    Mixed,
}

pub(crate) const SOURCES: [Source; 4] =
    [Source::Nothing, Source::Windows, Source::Pages, Source::Mixed];

/// The same case, gathered from that source.
pub(crate) fn gathered(random: &mut Random, source: Source, case: Case) -> Case {
    gathered_in(random, source, 20, case)
}

/// The same case, gathered from that source in pieces of so many rows at most.
pub(crate) fn gathered_in(random: &mut Random, source: Source, most: u64, mut case: Case) -> Case {
    let mut left = case.rows.len();
    while left > 0 {
        let rows = left.min(1 + random.below(most) as usize);
        case.gathering.push(match source {
            Source::Nothing => break,
            Source::Windows => Piece::Singly(rows),
            Source::Pages => Piece::Page(rows),
            Source::Mixed if random.one_in(4) => Piece::Singly(rows),
            Source::Mixed => Piece::Page(rows),
        });
        left -= rows;
    }
    case
}
