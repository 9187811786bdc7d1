//! A face of the original's deletion sets.

use super::ordinal_deletion_set::{OrdinalDeletionSet, OrdinalDeletionSetRef};
use super::original::{No, asserting};
use crate::lwc::set_block_limit;

/// A planned section: its tag, none where nothing is deleted, and its body.
pub(crate) type Section = (Option<u8>, Vec<u8>);

pub(crate) fn plan(row_count: u16, block_limit: usize, ordinals: &[u16]) -> Result<Section, No> {
    set_block_limit(block_limit);
    asserting(|| {
        let set = OrdinalDeletionSet::from_ordinals(row_count, ordinals);
        let set = set.map_err(|_| No::Capacity)?;
        Ok((set.codec(), set.body().to_vec()))
    })
}

/// Reads a section with deletions: the deleted ordinals, each of them found by `contains` and
/// no other.
pub(crate) fn read(
    row_count: u16,
    block_limit: usize,
    stated_count: u16,
    tag: u8,
    body: &[u8],
) -> Result<Vec<u16>, No> {
    set_block_limit(block_limit);
    let set =
        OrdinalDeletionSetRef::validate(row_count, stated_count, tag, body).map_err(|report| {
            match report.notes() {
                [note] if note.ends_with("deletion bounds") => No::Bounds,
                [note] if note.ends_with("cardinality mismatch") => No::Count,
                _ => No::Payload,
            }
        })?;
    Ok(deleted(set))
}

/// Reads a section without deletions: the original makes an empty set of a block that may have so many rows.
pub(crate) fn read_empty(row_count: u16, block_limit: usize) -> Result<Vec<u16>, No> {
    set_block_limit(block_limit);
    asserting(|| Ok(deleted(OrdinalDeletionSet::empty(row_count).as_ref())))
}

fn deleted(set: OrdinalDeletionSetRef) -> Vec<u16> {
    let deleted: Vec<u16> = set.iter().collect();
    let contained: Vec<u16> = (0..=u16::MAX).filter(|n| set.contains(*n)).collect();
    assert_eq!(deleted, contained, "the original's own two answers");
    deleted
}

/// Planning alone, for the benchmark.
#[cfg(pelisafu)]
pub(crate) fn encode(row_count: u16, ordinals: &[u16]) -> Option<OrdinalDeletionSet> {
    OrdinalDeletionSet::from_ordinals(row_count, ordinals).ok()
}

/// A section that the original has accepted, for the benchmark.
#[cfg(pelisafu)]
#[derive(Clone, Copy)]
pub(crate) struct Deleted<'a>(OrdinalDeletionSetRef<'a>);

#[cfg(pelisafu)]
impl<'a> Deleted<'a> {
    #[inline]
    pub(crate) fn new(row_count: u16, stated_count: u16, tag: u8, body: &'a [u8]) -> Option<Self> {
        OrdinalDeletionSetRef::validate(row_count, stated_count, tag, body).ok().map(Self)
    }

    /// A section that was accepted before. It is not checked again.
    #[inline]
    pub(crate) fn admitted(row_count: u16, tag: u8, body: &'a [u8]) -> Self {
        Self(OrdinalDeletionSetRef::from_admitted(row_count, Some((tag, body))))
    }

    #[inline]
    pub(crate) fn count(self) -> usize {
        self.0.len()
    }

    #[inline]
    pub(crate) fn contains(self, ordinal: u16) -> bool {
        self.0.contains(ordinal)
    }

    #[inline]
    pub(crate) fn ordinals(self) -> impl Iterator<Item = u16> + 'a {
        self.0.iter()
    }
}
