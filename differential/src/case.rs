//! What the comparisons are about: an input of planning, and what planning answers.

mod smaller;

/// A coverage [start, end) with its rows. `gathering` says in which pieces the rows were
/// handed to the gatherer; where it is empty, planning gets no seeds.
#[derive(Clone, Debug)]
pub(crate) struct Case {
    pub(crate) start: u64,
    pub(crate) end: u64,
    pub(crate) rows: Vec<u64>,
    pub(crate) gathering: Vec<Piece>,
    pub(crate) limit: usize,
}

impl Case {
    /// A case without seeds, and without a limit of the caller's own.
    pub(crate) fn new(start: u64, end: u64, rows: impl IntoIterator<Item = u64>) -> Self {
        Self {
            start,
            end,
            rows: rows.into_iter().collect(),
            gathering: Vec::new(),
            limit: usize::MAX,
        }
    }

    /// The same rows, gathered as pages of `size` rows.
    pub(crate) fn in_pages_of(mut self, size: usize) -> Self {
        let sizes = self.rows.chunks(size).map(<[u64]>::len);
        self.gathering = sizes.map(Piece::Page).collect();
        self
    }

    pub(crate) fn limited(mut self, limit: usize) -> Self {
        self.limit = limit;
        self
    }

    /// Each piece of the gathering with its rows.
    pub(crate) fn pieces(&self) -> impl Iterator<Item = (Piece, &[u64])> {
        let mut from = 0;
        self.gathering.iter().map(move |piece| {
            let rows = &self.rows[from..from + piece.rows()];
            from += piece.rows();
            (*piece, rows)
        })
    }
}

/// So many rows handed over as one page, or one by one.
#[derive(Clone, Copy, Debug)]
pub(crate) enum Piece {
    Page(usize),
    Singly(usize),
}

impl Piece {
    fn rows(self) -> usize {
        let (Self::Page(rows) | Self::Singly(rows)) = self;
        rows
    }
}

/// Inputs that are refused, and beside each the nearest that is not.
pub(crate) fn bad_cases() -> Vec<Case> {
    const TOP: u64 = u64::MAX;
    let mut short_table = Case::new(0, 10, [3, 4, 5]);
    short_table.gathering = vec![Piece::Page(2)];
    vec![
        Case::new(5, 4, [5]),
        Case::new(5, 5, [5]),
        Case::new(5, 6, [5]),
        Case::new(TOP, 0, []),
        Case::new(0, 4_294_967_296, [0]),
        Case::new(1, 4_294_967_297, [1]),
        Case::new(TOP - 4_294_967_296, TOP, [TOP - 65_536, TOP - 1]),
        Case::new(TOP - 4_294_967_295, TOP, [TOP - 65_536, TOP - 1]),
        Case::new(TOP - 1, TOP, [TOP - 1]),
        Case::new(TOP - 1, TOP, [TOP]),
        Case::new(0, 10, []),
        Case::new(0, 70_000, 0..65_536),
        Case::new(0, 70_000, 0..65_537),
        Case::new(0, 70_000, 0..65_535),
        Case::new(0, 70_000, 0..65_534),
        Case::new(0, 10, [3, 3]),
        Case::new(0, 10, [4, 3]),
        Case::new(0, 70_000, [69_999, 2]),
        Case::new(2, 10, [1, 3]),
        Case::new(2, 10, [2, 9]),
        Case::new(2, 10, [3, 10]),
        short_table,
        Case::new(0, 10, [3, 4, 5]).limited(5),
        Case::new(0, 10, [3, 4, 5]).limited(6),
        Case::new(0, 10, 0..10).limited(0),
        Case::new(0, 10, 1..10).limited(0),
        // No form takes 40,000 rows that stand 20 apart in 65,535 bytes.
        Case::new(0, 1_000_000, (0..40_000).map(|n| 20 * n)),
        Case::new(0, 4_294_967_295, (0..600).map(|n| 200_000 * n)),
    ]
}

/// What planning answers.
#[derive(Debug, PartialEq, Eq)]
pub(crate) struct Plan {
    pub(crate) tag: u8,
    pub(crate) body: Vec<u8>,
    /// The end of each segment after merging, whichever form was taken in the end.
    pub(crate) segment_ends: Vec<usize>,
    pub(crate) offers: u64,
}

/// What a comparison comes to: a summary line, or the first difference.
pub(crate) type Verdict = Result<String, String>;
