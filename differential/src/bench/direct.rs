//! The calls of the static library and nothing more: the calls of the comparisons may put slices
//! beside guarded pages, which a short call would be measured with.

use crate::pelisafu::calls::{
    Gathered, Gathering, pelisafu_add_page, pelisafu_add_row, pelisafu_gather_page,
    pelisafu_gather_row, pelisafu_rank, pelisafu_ranks, pelisafu_select, pelisafu_validate,
    pelisafu_walk,
};
use crate::pelisafu::plans::{Means, Planned};
use crate::pelisafu::sections::{
    pelisafu_check_deletions, pelisafu_deleted, pelisafu_plan_deletions, pelisafu_walk_deletions,
};

use std::hint::black_box;

/// Tag, span and body of a row set that is accepted.
#[derive(Clone, Copy)]
pub(super) struct Set<'a> {
    pub(super) tag: u8,
    pub(super) span: u32,
    pub(super) body: &'a [u8],
}

#[inline]
fn accepted(number: u8) {
    assert!(number == 0, "a body that is accepted");
}

// SAFETY, for every call below: a slice gives a pointer that is not null, aligned and good for its length, and a `&mut`
// slice overlaps no other one. The library asks nothing more.
impl Set<'_> {
    #[inline]
    pub(super) fn validate(self) -> u16 {
        let Self { tag, span, body } = self;
        let answer = unsafe { pelisafu_validate(tag, span, body.as_ptr(), body.len()) };
        accepted(answer.number);
        answer.rows
    }

    #[inline]
    pub(super) fn rank(self, position: u32) -> Option<u16> {
        let Self { tag, span, body } = self;
        let answer = unsafe { pelisafu_rank(tag, span, body.as_ptr(), body.len(), position) };
        accepted(answer.number);
        (answer.found == 1).then_some(answer.ordinal)
    }

    #[inline]
    pub(super) fn ranks(self, positions: &[u32], out: &mut [u32]) -> usize {
        let Self { tag, span, body } = self;
        let (asked, count, room) = (positions.as_ptr(), positions.len(), out.len());
        let (bytes, length, out) = (body.as_ptr(), body.len(), out.as_mut_ptr());
        let answer = unsafe { pelisafu_ranks(tag, span, bytes, length, asked, count, out, room) };
        accepted(answer.number);
        answer.written
    }

    #[inline]
    pub(super) fn select(self, ordinal: u16) -> Option<u32> {
        let Self { tag, span, body } = self;
        let answer = unsafe { pelisafu_select(tag, span, body.as_ptr(), body.len(), ordinal) };
        accepted(answer.number);
        (answer.found == 1).then_some(answer.position)
    }

    /// All rows from the first on.
    #[inline]
    pub(super) fn walk(self, out: &mut [u32]) -> usize {
        let Self { tag, span, body } = self;
        let (bytes, length, room) = (body.as_ptr(), body.len(), out.len());
        let answer = unsafe { pelisafu_walk(tag, span, bytes, length, 0, out.as_mut_ptr(), room) };
        accepted(answer.number);
        answer.written
    }
}

/// Gathers rows in pages of that size, with the record lent. Answers the number of seeds.
#[inline]
pub(super) fn gather(rows: &[u64], size: usize, table: &mut [u16]) -> usize {
    let mut record = Gathering::default();
    let (entries, room) = (table.as_mut_ptr(), table.len());
    for page in rows.chunks(size) {
        let (rows, length) = (page.as_ptr(), page.len());
        let number = unsafe { pelisafu_add_page(&mut record, entries, room, rows, length) };
        assert!(number == 0, "rows that rise");
    }
    record.entries
}

#[inline]
pub(super) fn gather_singly(rows: &[u64], table: &mut [u16]) -> usize {
    let mut record = Gathering::default();
    let (entries, room) = (table.as_mut_ptr(), table.len());
    for row in rows {
        let number = unsafe { pelisafu_add_row(&mut record, entries, room, *row) };
        assert!(number == 0, "rows that rise");
    }
    record.entries
}

/// Gathers rows in pages of that size, with the record passed and answered by value.
#[inline]
pub(super) fn gather_by_value(rows: &[u64], size: usize, table: &mut [u16]) -> usize {
    let mut record = Gathering::default();
    let (entries, room) = (table.as_mut_ptr(), table.len());
    for page in rows.chunks(size) {
        let (rows, length) = (page.as_ptr(), page.len());
        let answer = unsafe { pelisafu_gather_page(record, entries, room, rows, length) };
        assert!(answer.number == 0, "rows that rise");
        record = answer.record;
    }
    record.entries
}

#[inline]
pub(super) fn gather_singly_by_value(rows: &[u64], table: &mut [u16]) -> usize {
    let mut record = Gathering::default();
    let (entries, room) = (table.as_mut_ptr(), table.len());
    for row in rows {
        let answer = unsafe { pelisafu_gather_row(record, entries, room, *row) };
        assert!(answer.number == 0, "rows that rise");
        record = answer.record;
    }
    record.entries
}

/// A call on a lent record that does nothing but count: the number lies in memory, and each call
/// waits for what the last one has stored.
extern "C" fn counted_lent(record: &mut Gathering, _: *mut u16, _: usize, row: u64) -> u8 {
    record.rows += 1;
    record.last = row;
    0
}

#[inline]
pub(super) fn count_lent(rows: &[u64], table: &mut [u16]) -> usize {
    let call: extern "C" fn(&mut Gathering, *mut u16, usize, u64) -> u8 = black_box(counted_lent);
    let mut record = Gathering::default();
    let (entries, room) = (table.as_mut_ptr(), table.len());
    for row in rows {
        assert!(call(&mut record, entries, room, *row) == 0, "a call that refuses nothing");
    }
    record.rows
}

/// A call with a record by value that does nothing but count: what passing it to and fro takes.
extern "C" fn counted(record: Gathering, _: *mut u16, _: usize, row: u64) -> Gathered {
    let record = Gathering { rows: record.rows + 1, last: row, ..record };
    Gathered { number: 0, record }
}

#[inline]
pub(super) fn count_by_value(rows: &[u64], table: &mut [u16]) -> usize {
    let call: extern "C" fn(Gathering, *mut u16, usize, u64) -> Gathered = black_box(counted);
    let mut record = Gathering::default();
    let (entries, room) = (table.as_mut_ptr(), table.len());
    for row in rows {
        let answer = call(record, entries, room, *row);
        assert!(answer.number == 0, "a call that refuses nothing");
        record = answer.record;
    }
    record.rows
}

/// What says that a section has a body.
const CODED: u8 = 1;

/// Row count, block limit, count, tag and body of deletions that are accepted.
#[derive(Clone, Copy)]
pub(super) struct Section<'a> {
    pub(super) row_count: u16,
    pub(super) block_limit: usize,
    pub(super) count: u16,
    pub(super) tag: u8,
    pub(super) body: &'a [u8],
}

impl Section<'_> {
    #[inline]
    pub(super) fn check(self) -> u16 {
        let Self { row_count, block_limit, count, tag, body } = self;
        let (bytes, length) = (body.as_ptr(), body.len());
        let answer = unsafe {
            pelisafu_check_deletions(row_count, block_limit, CODED, count, tag, bytes, length)
        };
        accepted(answer.number);
        answer.rows
    }

    #[inline]
    pub(super) fn contains(self, ordinal: u16) -> bool {
        let Self { row_count, block_limit, count, tag, body } = self;
        let (bytes, length) = (body.as_ptr(), body.len());
        let answer = unsafe {
            pelisafu_deleted(row_count, block_limit, CODED, count, tag, bytes, length, ordinal)
        };
        accepted(answer.number);
        answer.found == 1
    }

    #[inline]
    pub(super) fn walk(self, out: &mut [u16]) -> usize {
        let Self { row_count, block_limit, count, tag, body } = self;
        let (bytes, length) = (body.as_ptr(), body.len());
        let (room, out) = (out.len(), out.as_mut_ptr());
        let answer = unsafe {
            pelisafu_walk_deletions(
                row_count,
                block_limit,
                CODED,
                count,
                tag,
                bytes,
                length,
                0,
                out,
                room,
            )
        };
        accepted(answer.number);
        answer.written
    }
}

/// Plans the deletions of a block that has no more rows than the limit.
pub(super) fn plan_deletions(row_count: u16, ordinals: &[u16], means: Means) -> Planned {
    let (given, count, limit) = (ordinals.as_ptr(), ordinals.len(), usize::from(u16::MAX));
    let (work, words) = (means.work.as_mut_ptr(), means.work.len());
    let (out, room) = (means.out.as_mut_ptr(), means.out.len());
    unsafe { pelisafu_plan_deletions(row_count, limit, given, count, work, words, out, room) }
}
