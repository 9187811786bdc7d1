//! The calls of libpelisafu.a as include/pelisafu.h declares them, each behind a safe function. The only unsafe code.
//!
//! What every call asks of its caller: each slice is a pointer that is aligned and good for the given number of
//! elements, and no slice that is written overlaps another one of the call. A reference to a slice is just that, also
//! where it is empty: its pointer is then dangling, but aligned and not null, and nothing is read there. No call keeps
//! a pointer, unwinds, or has a state of its own, so all may run on any number of threads.

pub(crate) mod deletions;

use crate::Refusal;
use crate::row_set::Segment;

#[repr(C)]
struct Made {
    number: u8,
    tag: u8,
    length: u16,
    segments: u16,
    offers: u32,
}

#[repr(C)]
struct Checked {
    number: u8,
    rows: u16,
}

#[repr(C)]
struct Ranked {
    number: u8,
    found: u8,
    ordinal: u16,
}

#[repr(C)]
struct Selected {
    number: u8,
    found: u8,
    position: u32,
}

#[repr(C)]
struct Filled {
    number: u8,
    written: usize,
}

#[repr(C)]
struct Entry {
    number: u8,
    found: u8,
    record: Segment,
}

/// Where gathering stands: entries of the table in use, rows, first row of the last seed, last row.
#[derive(Clone, Copy, Debug, Default, PartialEq, Eq)]
#[repr(C)]
pub(crate) struct Record {
    pub(crate) entries: usize,
    pub(crate) rows: usize,
    pub(crate) first: u64,
    pub(crate) last: u64,
}

#[repr(C)]
struct Gathered {
    number: u8,
    record: Record,
}

#[rustfmt::skip]
unsafe extern "C" {
    fn pelisafu_plan_rows(
        start: u64, end: u64, rows: *const u64, rows_len: usize, seeds: *const u16, seeds_len: usize, limit: usize,
        work: *mut u32, work_len: usize, out: *mut u8, out_len: usize,
    ) -> Made;
    fn pelisafu_plan_ordinals(
        row_count: u16, ordinals: *const u16, ordinals_len: usize, limit: usize,
        work: *mut u32, work_len: usize, out: *mut u8, out_len: usize,
    ) -> Made;
    fn pelisafu_validate(tag: u8, span: u32, body: *const u8, body_len: usize) -> Checked;
    fn pelisafu_rank(tag: u8, span: u32, body: *const u8, body_len: usize, position: u32) -> Ranked;
    fn pelisafu_ranks(
        tag: u8, span: u32, body: *const u8, body_len: usize,
        positions: *const u32, positions_len: usize, out: *mut u32, out_len: usize,
    ) -> Filled;
    fn pelisafu_select(tag: u8, span: u32, body: *const u8, body_len: usize, ordinal: u16) -> Selected;
    fn pelisafu_walk(
        tag: u8, span: u32, body: *const u8, body_len: usize, from: u16, out: *mut u32, out_len: usize,
    ) -> Filled;
    fn pelisafu_segments(
        tag: u8, span: u32, body: *const u8, body_len: usize, table: *mut Segment, table_len: usize,
    ) -> Filled;
    fn pelisafu_segment(tag: u8, span: u32, body: *const u8, body_len: usize, i: usize) -> Entry;
    fn pelisafu_gather_row(record: Record, table: *mut u16, table_len: usize, row: u64) -> Gathered;
    fn pelisafu_gather_page(
        record: Record, table: *mut u16, table_len: usize, rows: *const u64, rows_len: usize,
    ) -> Gathered;
}

/// The value where the number is 0, else the refusal.
fn answer<T>(number: u8, value: T) -> Result<T, Refusal> {
    match (number, Refusal::from_number(number)) {
        (0, _) => Ok(value),
        (_, Some(refusal)) => Err(refusal),
        (_, None) => panic!("the archive is not this crate's: it answers refusal {number}"),
    }
}

/// Tag, span and body, as every reading call takes them.
#[derive(Clone, Copy)]
pub(crate) struct Coded<'a> {
    pub(crate) tag: u8,
    pub(crate) span: u32,
    pub(crate) body: &'a [u8],
}

impl Coded<'_> {
    pub(crate) fn validate(self) -> Result<u16, Refusal> {
        let Self { tag, span, body } = self;
        // SAFETY: the pointer and length are those of a shared slice.
        let told = unsafe { pelisafu_validate(tag, span, body.as_ptr(), body.len()) };
        answer(told.number, told.rows)
    }

    pub(crate) fn rank(self, position: u32) -> Result<Option<u16>, Refusal> {
        let Self { tag, span, body } = self;
        // SAFETY: the pointer and length are those of a shared slice.
        let told = unsafe { pelisafu_rank(tag, span, body.as_ptr(), body.len(), position) };
        answer(told.number, (told.found != 0).then_some(told.ordinal))
    }

    pub(crate) fn ranks(self, positions: &[u32], out: &mut [u32]) -> Result<usize, Refusal> {
        let Self { tag, span, body } = self;
        let (asked, asked_len) = (positions.as_ptr(), positions.len());
        let (room, room_len) = (out.as_mut_ptr(), out.len());
        // SAFETY: the pointers and lengths are those of two shared slices and of one lent alone.
        let told = unsafe {
            pelisafu_ranks(tag, span, body.as_ptr(), body.len(), asked, asked_len, room, room_len)
        };
        answer(told.number, told.written)
    }

    pub(crate) fn select(self, ordinal: u16) -> Result<Option<u32>, Refusal> {
        let Self { tag, span, body } = self;
        // SAFETY: the pointer and length are those of a shared slice.
        let told = unsafe { pelisafu_select(tag, span, body.as_ptr(), body.len(), ordinal) };
        answer(told.number, (told.found != 0).then_some(told.position))
    }

    pub(crate) fn walk(self, from: u16, out: &mut [u32]) -> Result<usize, Refusal> {
        let Self { tag, span, body } = self;
        let (room, room_len) = (out.as_mut_ptr(), out.len());
        // SAFETY: the pointers and lengths are those of a shared slice and of one lent alone.
        let told =
            unsafe { pelisafu_walk(tag, span, body.as_ptr(), body.len(), from, room, room_len) };
        answer(told.number, told.written)
    }

    pub(crate) fn segments(self, table: &mut [Segment]) -> Result<usize, Refusal> {
        let Self { tag, span, body } = self;
        let (room, room_len) = (table.as_mut_ptr(), table.len());
        // SAFETY: the pointers and lengths are those of a shared slice and of one lent alone, whose elements have
        // the layout of pelisafu_segment_record and are good whatever numbers are written to them.
        let told =
            unsafe { pelisafu_segments(tag, span, body.as_ptr(), body.len(), room, room_len) };
        answer(told.number, told.written)
    }

    pub(crate) fn segment(self, i: usize) -> Result<Option<Segment>, Refusal> {
        let Self { tag, span, body } = self;
        // SAFETY: the pointer and length are those of a shared slice.
        let told = unsafe { pelisafu_segment(tag, span, body.as_ptr(), body.len(), i) };
        answer(told.number, (told.found != 0).then_some(told.record))
    }
}

/// What a plan answers beside the bytes in the output.
#[derive(Clone, Copy)]
pub(crate) struct Planned {
    pub(crate) tag: u8,
    pub(crate) length: u16,
    pub(crate) segments: u16,
    pub(crate) offers: u32,
}

impl Made {
    fn planned(self) -> Result<Planned, Refusal> {
        let Self { number, tag, length, segments, offers } = self;
        answer(number, Planned { tag, length, segments, offers })
    }
}

pub(crate) fn plan_rows(
    (start, end): (u64, u64),
    rows: &[u64],
    seeds: &[u16],
    limit: usize,
    work: &mut [u32],
    out: &mut [u8],
) -> Result<Planned, Refusal> {
    let (given, given_len) = (rows.as_ptr(), rows.len());
    let (ends, ends_len) = (seeds.as_ptr(), seeds.len());
    let (words, words_len) = (work.as_mut_ptr(), work.len());
    let (room, room_len) = (out.as_mut_ptr(), out.len());
    // SAFETY: the pointers and lengths are those of two shared slices and of two lent alone.
    unsafe {
        pelisafu_plan_rows(
            start, end, given, given_len, ends, ends_len, limit, words, words_len, room, room_len,
        )
    }
    .planned()
}

pub(crate) fn plan_ordinals(
    row_count: u16,
    ordinals: &[u16],
    limit: usize,
    work: &mut [u32],
    out: &mut [u8],
) -> Result<Planned, Refusal> {
    let (given, given_len) = (ordinals.as_ptr(), ordinals.len());
    let (words, words_len) = (work.as_mut_ptr(), work.len());
    let (room, room_len) = (out.as_mut_ptr(), out.len());
    // SAFETY: the pointers and lengths are those of a shared slice and of two lent alone.
    unsafe {
        pelisafu_plan_ordinals(row_count, given, given_len, limit, words, words_len, room, room_len)
    }
    .planned()
}

impl Record {
    pub(crate) fn with_row(self, table: &mut [u16], row: u64) -> Result<Self, Refusal> {
        // SAFETY: the pointer and length are those of a slice lent alone.
        let told = unsafe { pelisafu_gather_row(self, table.as_mut_ptr(), table.len(), row) };
        answer(told.number, told.record)
    }

    pub(crate) fn with_page(self, table: &mut [u16], rows: &[u64]) -> Result<Self, Refusal> {
        let (room, room_len) = (table.as_mut_ptr(), table.len());
        // SAFETY: the pointers and lengths are those of a shared slice and of one lent alone.
        let told = unsafe { pelisafu_gather_page(self, room, room_len, rows.as_ptr(), rows.len()) };
        answer(told.number, told.record)
    }
}
