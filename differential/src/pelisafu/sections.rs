//! The deletion calls of the static library, as include/pelisafu.h declares them, each behind a safe one.

use super::calls::{Checked, Filled, Told, told};
use super::memory::{Lent, LentMut};
use super::plans::{Means, Planned};
use crate::deletions::{Deletions, Section};

#[repr(C)]
pub(crate) struct Contained {
    pub(crate) number: u8,
    pub(crate) found: u8,
}

unsafe extern "C" {
    pub(crate) fn pelisafu_plan_deletions(
        row_count: u16,
        block_limit: usize,
        ordinals: *const u16,
        ordinals_length: usize,
        work: *mut u32,
        work_length: usize,
        out: *mut u8,
        out_length: usize,
    ) -> Planned;
    pub(crate) fn pelisafu_check_deletions(
        row_count: u16,
        block_limit: usize,
        coded: u8,
        count: u16,
        tag: u8,
        body: *const u8,
        length: usize,
    ) -> Checked;
    pub(crate) fn pelisafu_deleted(
        row_count: u16,
        block_limit: usize,
        coded: u8,
        count: u16,
        tag: u8,
        body: *const u8,
        length: usize,
        ordinal: u16,
    ) -> Contained;
    pub(crate) fn pelisafu_walk_deletions(
        row_count: u16,
        block_limit: usize,
        coded: u8,
        count: u16,
        tag: u8,
        body: *const u8,
        length: usize,
        from: u16,
        out: *mut u16,
        out_length: usize,
    ) -> Filled;
}

// SAFETY, for every call: as in `calls`.
/// The caller's limit has no place here.
pub(super) fn plan_deletions(set: &Deletions, means: Means) -> Planned {
    let Deletions { row_count, block_limit, ordinals } = set;
    let (count, words, room) = (ordinals.len(), means.work.len(), means.out.len());
    let ordinals = Lent::new(ordinals);
    let (mut work, mut out) = (LentMut::new(means.work), LentMut::new(means.out));
    let (given, work, out) = (ordinals.pointer(), work.pointer(), out.pointer());
    unsafe {
        pelisafu_plan_deletions(*row_count, *block_limit, given, count, work, words, out, room)
    }
}

impl Section {
    pub(super) fn check(&self) -> Told<u64> {
        let (rows, limit, count, tag, bytes) = self.given();
        let coded = self.coded;
        let body = Lent::new(bytes);
        let body = body.pointer();
        unsafe { pelisafu_check_deletions(rows, limit, coded, count, tag, body, bytes.len()) }
            .told()
    }

    /// Something where the ordinal is deleted.
    pub(super) fn deleted(&self, ordinal: u16) -> Told<u64> {
        let (rows, limit, count, tag, bytes) = self.given();
        let coded = self.coded;
        let body = Lent::new(bytes);
        let (body, length) = (body.pointer(), bytes.len());
        let answer =
            unsafe { pelisafu_deleted(rows, limit, coded, count, tag, body, length, ordinal) };
        told(answer.number, answer.found, u64::from(answer.found))
    }

    pub(super) fn walk(&self, from: u16, out: &mut [u16]) -> Told<u64> {
        let (rows, limit, count, tag, bytes) = self.given();
        let coded = self.coded;
        let (length, room) = (bytes.len(), out.len());
        let (body, mut out) = (Lent::new(bytes), LentMut::new(out));
        let (body, out) = (body.pointer(), out.pointer());
        unsafe {
            pelisafu_walk_deletions(rows, limit, coded, count, tag, body, length, from, out, room)
        }
        .told()
    }
}
