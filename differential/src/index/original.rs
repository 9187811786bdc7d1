//! A face of the original: plain numbers in, plain numbers out.

#[cfg(pelisafu)]
use super::identity_set::probe::{entries, forget};
use super::identity_set::probe::{merge, seed_ends};
use super::identity_set::{EncodedIdentitySet, IdentitySetRef, IdentitySetSeeds};
use crate::case::{Case, Piece, Plan};
use crate::id::RowID;
use std::cell::Cell;
use std::collections::pushes;
use std::panic;

/// How the original refuses, as far as it tells.
#[derive(Clone, Copy, Debug, PartialEq, Eq)]
pub(crate) enum No {
    /// Its one error for what document 01 numbers 1, 2 and 6.
    Capacity,
    /// A failed assert: what document 01 numbers 3, 4 and, when deletions are planned, 9.
    Assert,
    /// A body that is not accepted, document 01's 8.
    Payload,
    /// Bounds of a deletion section, document 01's 9.
    Bounds,
    /// A stated count that differs, document 01's 10.
    Count,
}

impl No {
    /// Whether this is how the original gives document 01's refusal of that number.
    pub(crate) fn is(self, number: u8) -> bool {
        match self {
            Self::Capacity => matches!(number, 1 | 2 | 6),
            Self::Assert => matches!(number, 3 | 4 | 9),
            Self::Payload => number == 8,
            Self::Bounds => number == 9,
            Self::Count => number == 10,
        }
    }
}

thread_local! {
    static CATCHING: Cell<bool> = const { Cell::new(false) };
}

/// Makes panics silent that `asserting` and `caught` catch. All others are told as before.
pub(crate) fn hush_caught_panics() {
    let tell = panic::take_hook();
    panic::set_hook(Box::new(move |info| {
        if !CATCHING.get() {
            tell(info);
        }
    }));
}

fn hushed<T>(call: impl FnOnce() -> T) -> std::thread::Result<T> {
    let outer = CATCHING.replace(true);
    let caught = panic::catch_unwind(panic::AssertUnwindSafe(call));
    CATCHING.set(outer);
    caught
}

/// Runs a call of the original that may fail one of its asserts.
pub(crate) fn asserting<T>(call: impl FnOnce() -> Result<T, No>) -> Result<T, No> {
    hushed(call).unwrap_or(Err(No::Assert))
}

/// Runs a comparison. An assert that fails in it is a difference, told by its own words.
pub(crate) fn caught(compare: impl FnOnce() -> Result<(), String>) -> Result<(), String> {
    hushed(compare).unwrap_or_else(|thrown| {
        let words = thrown.downcast_ref::<String>().cloned();
        Err(words
            .or_else(|| thrown.downcast_ref::<&str>().map(ToString::to_string))
            .unwrap_or_default())
    })
}

pub(crate) fn row_ids(rows: &[u64]) -> Vec<RowID> {
    rows.iter().map(|row| RowID(*row)).collect()
}

/// The original's gatherer.
#[derive(Default)]
pub(crate) struct Seeds(IdentitySetSeeds);

impl Seeds {
    pub(crate) fn gathered(case: &Case) -> Self {
        let mut seeds = Self::default();
        for (piece, rows) in case.pieces() {
            match piece {
                Piece::Page(_) => seeds.0.append_page(&row_ids(rows)),
                Piece::Singly(_) => rows.iter().for_each(|row| seeds.0.append_row(RowID(*row))),
            }
        }
        seeds
    }

    /// Pages alone, for the benchmark.
    #[cfg(pelisafu)]
    pub(crate) fn in_pages(rows: &[RowID], size: usize) -> Self {
        let mut seeds = Self::default();
        rows.chunks(size).for_each(|page| seeds.0.append_page(page));
        seeds
    }

    /// Row by row, for the benchmark.
    #[cfg(pelisafu)]
    pub(crate) fn singly(rows: &[RowID]) -> Self {
        let mut seeds = Self::default();
        rows.iter().for_each(|row| seeds.0.append_row(*row));
        seeds
    }

    /// Pages into the vector that is there already.
    #[cfg(pelisafu)]
    pub(crate) fn in_pages_again(&mut self, rows: &[RowID], size: usize) {
        forget(&mut self.0);
        rows.chunks(size).for_each(|page| self.0.append_page(page));
    }

    pub(crate) fn ends(&self) -> Vec<usize> {
        seed_ends(&self.0)
    }
}

/// Planning alone, for the benchmark: nothing but the original's own call.
pub(crate) fn encode(case: &Case, rows: &[RowID], seeds: &Seeds) -> Option<EncodedIdentitySet> {
    let (start, end) = (RowID(case.start), RowID(case.end));
    EncodedIdentitySet::plan(start, end, rows, seeds.0.as_slice(), case.limit).ok()
}

/// Planning with all that is compared. Merging runs twice: the original's own call keeps its
/// segments to itself.
pub(crate) fn plan(case: &Case) -> Result<Plan, No> {
    asserting(|| {
        let rows = row_ids(&case.rows);
        let seeds = Seeds::gathered(case);
        let before = pushes();
        let encoded = encode(case, &rows, &seeds).ok_or(No::Capacity)?;
        let offers = pushes() - before;
        let merged = merge(case.start, encoded.row_id_span(), &rows, &seeds.0);
        assert_eq!(offers, merged.offers, "two runs of one merging");
        Ok(Plan {
            tag: encoded.codec(),
            body: encoded.body().to_vec(),
            segment_ends: merged.segment_ends,
            offers,
        })
    })
}

/// Planning of ordinals alone, for the benchmark.
#[cfg(pelisafu)]
pub(crate) fn encode_ordinals(row_count: u16, ordinals: &[u16]) -> Option<EncodedIdentitySet> {
    EncodedIdentitySet::plan_ordinals(row_count, ordinals, usize::MAX).ok()
}

/// Planning of ordinals: tag, body and offers.
#[cfg(pelisafu)]
pub(crate) fn plan_ordinals(row_count: u16, ordinals: &[u16]) -> Result<(u8, Vec<u8>, u64), No> {
    asserting(|| {
        let before = pushes();
        let encoded = encode_ordinals(row_count, ordinals).ok_or(No::Capacity)?;
        Ok((encoded.codec(), encoded.body().to_vec(), pushes() - before))
    })
}

/// A body that the original has accepted.
#[derive(Clone, Copy)]
pub(crate) struct Accepted<'a>(IdentitySetRef<'a>);

impl<'a> Accepted<'a> {
    #[inline]
    pub(crate) fn new(tag: u8, span: u32, body: &'a [u8]) -> Option<Self> {
        IdentitySetRef::validate(tag, body, span).ok().map(Self)
    }

    /// A body that was accepted before. It is not checked again.
    #[cfg(pelisafu)]
    #[inline]
    pub(crate) fn admitted(tag: u8, span: u32, body: &'a [u8]) -> Self {
        Self(IdentitySetRef::from_admitted(tag, body, span))
    }

    #[inline]
    pub(crate) fn count(self) -> u16 {
        self.0.row_count()
    }

    #[inline]
    pub(crate) fn rank(self, position: u32) -> Option<u16> {
        self.0.ordinal_for_delta(position)
    }

    #[inline]
    pub(crate) fn select(self, ordinal: u16) -> Option<u32> {
        self.0.delta_for_ordinal(ordinal)
    }

    #[inline]
    pub(crate) fn positions(self) -> impl Iterator<Item = u32> + 'a {
        self.0.iter_deltas()
    }

    /// The entries of the directory, none where there is no directory.
    #[cfg(pelisafu)]
    pub(crate) fn entries(self) -> Vec<crate::pelisafu::calls::Entry> {
        entries(self.0)
    }
}
