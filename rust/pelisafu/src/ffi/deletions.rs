//! The calls of the deletion view. What they ask of their caller is said in the module above.

use super::{Checked, Filled, Made, Planned, answer};
use crate::{Refusal, Section};

#[repr(C)]
struct Contained {
    number: u8,
    found: u8,
}

#[rustfmt::skip]
unsafe extern "C" {
    fn pelisafu_plan_deletions(
        row_count: u16, block_limit: usize, ordinals: *const u16, ordinals_len: usize,
        work: *mut u32, work_len: usize, out: *mut u8, out_len: usize,
    ) -> Made;
    fn pelisafu_check_deletions(
        row_count: u16, block_limit: usize, coded: u8, count: u16, tag: u8, body: *const u8, body_len: usize,
    ) -> Checked;
    fn pelisafu_deleted(
        row_count: u16, block_limit: usize, coded: u8, count: u16, tag: u8, body: *const u8, body_len: usize,
        ordinal: u16,
    ) -> Contained;
    fn pelisafu_walk_deletions(
        row_count: u16, block_limit: usize, coded: u8, count: u16, tag: u8, body: *const u8, body_len: usize,
        from: u16, out: *mut u16, out_len: usize,
    ) -> Filled;
}

/// Row count, block limit and section, as every call that reads deletions takes them.
#[derive(Clone, Copy)]
pub(crate) struct Struck<'a> {
    pub(crate) rows: u16,
    pub(crate) limit: usize,
    pub(crate) section: Section<'a>,
}

/// Whether it is coded, count, tag and body. Of an empty section the last three are not looked at.
fn spelled(section: Section<'_>) -> (u8, u16, u8, &[u8]) {
    match section {
        Section::Empty => (0, 0, 0, &[]),
        Section::Coded { count, tag, body } => (1, count, tag, body),
    }
}

impl Struck<'_> {
    pub(crate) fn check(self) -> Result<u16, Refusal> {
        let Self { rows, limit, section } = self;
        let (coded, count, tag, body) = spelled(section);
        let (bytes, length) = (body.as_ptr(), body.len());
        // SAFETY: the pointer and length are those of a shared slice.
        let told =
            unsafe { pelisafu_check_deletions(rows, limit, coded, count, tag, bytes, length) };
        answer(told.number, told.rows)
    }

    pub(crate) fn contains(self, ordinal: u16) -> Result<bool, Refusal> {
        let Self { rows, limit, section } = self;
        let (coded, count, tag, body) = spelled(section);
        let (bytes, length) = (body.as_ptr(), body.len());
        // SAFETY: the pointer and length are those of a shared slice.
        let told =
            unsafe { pelisafu_deleted(rows, limit, coded, count, tag, bytes, length, ordinal) };
        answer(told.number, told.found != 0)
    }

    pub(crate) fn walk(self, from: u16, out: &mut [u16]) -> Result<usize, Refusal> {
        let Self { rows, limit, section } = self;
        let (coded, count, tag, body) = spelled(section);
        let (bytes, length) = (body.as_ptr(), body.len());
        let (room, room_len) = (out.as_mut_ptr(), out.len());
        // SAFETY: the pointers and lengths are those of a shared slice and of one lent alone.
        let told = unsafe {
            pelisafu_walk_deletions(
                rows, limit, coded, count, tag, bytes, length, from, room, room_len,
            )
        };
        answer(told.number, told.written)
    }
}

/// None where there are no deletions.
pub(crate) fn plan_deletions(
    rows: u16,
    limit: usize,
    ordinals: &[u16],
    work: &mut [u32],
    out: &mut [u8],
) -> Result<Option<Planned>, Refusal> {
    let (given, given_len) = (ordinals.as_ptr(), ordinals.len());
    let (words, words_len) = (work.as_mut_ptr(), work.len());
    let (room, room_len) = (out.as_mut_ptr(), out.len());
    // SAFETY: the pointers and lengths are those of a shared slice and of two lent alone.
    let told = unsafe {
        pelisafu_plan_deletions(rows, limit, given, given_len, words, words_len, room, room_len)
    };
    told.planned().map(|planned| (planned.tag != 0).then_some(planned))
}
