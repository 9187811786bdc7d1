//! The calls of the static library, as include/pelisafu.h declares them, each behind a safe one.

use super::memory::{Lent, LentMut};
use std::fmt::Debug;

#[repr(C)]
pub(crate) struct Checked {
    pub(crate) number: u8,
    pub(crate) rows: u16,
}

#[repr(C)]
pub(crate) struct Ranked {
    pub(crate) number: u8,
    pub(crate) found: u8,
    pub(crate) ordinal: u16,
}

#[repr(C)]
pub(crate) struct Selected {
    pub(crate) number: u8,
    pub(crate) found: u8,
    pub(crate) position: u32,
}

#[repr(C)]
pub(crate) struct Filled {
    pub(crate) number: u8,
    pub(crate) written: usize,
}

/// A directory entry, in a table that is lent and in an answer.
#[derive(Clone, Copy, Debug, Default, PartialEq, Eq)]
#[repr(C)]
pub(crate) struct Record {
    start: u32,
    span: u16,
    count: u16,
    ordinal: u16,
    offset: u16,
    length: u16,
    tag: u8,
}

#[repr(C)]
struct Found {
    number: u8,
    found: u8,
    record: Record,
}

#[derive(Clone, Copy, Debug, Default, PartialEq, Eq)]
#[repr(C)]
pub(crate) struct Gathering {
    pub(crate) entries: usize,
    pub(crate) rows: usize,
    pub(crate) first: u64,
    pub(crate) last: u64,
}

#[repr(C)]
pub(crate) struct Gathered {
    pub(crate) number: u8,
    pub(crate) record: Gathering,
}

unsafe extern "C" {
    pub(crate) fn pelisafu_validate(tag: u8, span: u32, body: *const u8, length: usize) -> Checked;
    pub(crate) fn pelisafu_rank(
        tag: u8,
        span: u32,
        body: *const u8,
        length: usize,
        position: u32,
    ) -> Ranked;
    pub(crate) fn pelisafu_ranks(
        tag: u8,
        span: u32,
        body: *const u8,
        length: usize,
        positions: *const u32,
        positions_length: usize,
        out: *mut u32,
        out_length: usize,
    ) -> Filled;
    pub(crate) fn pelisafu_select(
        tag: u8,
        span: u32,
        body: *const u8,
        length: usize,
        ordinal: u16,
    ) -> Selected;
    pub(crate) fn pelisafu_walk(
        tag: u8,
        span: u32,
        body: *const u8,
        length: usize,
        from: u16,
        out: *mut u32,
        out_length: usize,
    ) -> Filled;
    fn pelisafu_segments(
        tag: u8,
        span: u32,
        body: *const u8,
        length: usize,
        table: *mut Record,
        table_length: usize,
    ) -> Filled;
    fn pelisafu_segment(tag: u8, span: u32, body: *const u8, length: usize, i: usize) -> Found;
    pub(crate) fn pelisafu_gather_row(
        g: Gathering,
        table: *mut u16,
        length: usize,
        row: u64,
    ) -> Gathered;
    pub(crate) fn pelisafu_gather_page(
        g: Gathering,
        table: *mut u16,
        length: usize,
        rows: *const u64,
        rows_length: usize,
    ) -> Gathered;
    pub(crate) fn pelisafu_add_row(
        g: *mut Gathering,
        table: *mut u16,
        length: usize,
        row: u64,
    ) -> u8;
    pub(crate) fn pelisafu_add_page(
        g: *mut Gathering,
        table: *mut u16,
        length: usize,
        rows: *const u64,
        rows_length: usize,
    ) -> u8;
}

/// A value or none, or the number of the refusal.
pub(crate) type Told<T> = Result<Option<T>, u8>;

/// A value that is not there is 0.
pub(super) fn told<T: Default + PartialEq + Debug>(number: u8, found: u8, value: T) -> Told<T> {
    match (number, found, value == T::default()) {
        (0, 1, _) => Ok(Some(value)),
        (0, 0, true) => Ok(None),
        (number @ 1.., 0, true) => Err(number),
        _ => panic!("no answer: number {number}, found {found}, {value:?}"),
    }
}

impl Checked {
    pub(super) fn told(self) -> Told<u64> {
        told(self.number, u8::from(self.number == 0), u64::from(self.rows))
    }
}

impl Filled {
    pub(super) fn told(self) -> Told<u64> {
        told(self.number, u8::from(self.number == 0), self.written as u64)
    }
}

/// The start, span, count, ordinal, offset, length and tag of a directory entry.
pub(crate) type Entry = (u32, u16, u16, u16, u16, u16, u8);

impl From<Entry> for Record {
    fn from((start, span, count, ordinal, offset, length, tag): Entry) -> Self {
        Self { start, span, count, ordinal, offset, length, tag }
    }
}

/// Tag, span and body, as every reading call takes them.
#[derive(Clone, Copy)]
pub(crate) struct Body<'a> {
    pub(crate) tag: u8,
    pub(crate) span: u32,
    pub(crate) bytes: &'a [u8],
}

// SAFETY, for every call below: a slice gives a pointer that is aligned and good for its length, or null where it is empty,
// and a `&mut` slice overlaps no other one. The library asks nothing more.
impl Body<'_> {
    #[inline]
    pub(crate) fn validate(self) -> Told<u64> {
        let Self { tag, span, bytes } = self;
        let body = Lent::new(bytes);
        unsafe { pelisafu_validate(tag, span, body.pointer(), bytes.len()) }.told()
    }

    #[inline]
    pub(crate) fn rank(self, position: u32) -> Told<u64> {
        let Self { tag, span, bytes } = self;
        let body = Lent::new(bytes);
        let answer = unsafe { pelisafu_rank(tag, span, body.pointer(), bytes.len(), position) };
        told(answer.number, answer.found, u64::from(answer.ordinal))
    }

    #[inline]
    pub(crate) fn ranks(self, positions: &[u32], out: &mut [u32]) -> Told<u64> {
        let Self { tag, span, bytes } = self;
        let (count, room) = (positions.len(), out.len());
        let (body, asked, mut out) = (Lent::new(bytes), Lent::new(positions), LentMut::new(out));
        let (body, asked, out) = (body.pointer(), asked.pointer(), out.pointer());
        unsafe { pelisafu_ranks(tag, span, body, bytes.len(), asked, count, out, room) }.told()
    }

    #[inline]
    pub(crate) fn select(self, ordinal: u16) -> Told<u64> {
        let Self { tag, span, bytes } = self;
        let body = Lent::new(bytes);
        let answer = unsafe { pelisafu_select(tag, span, body.pointer(), bytes.len(), ordinal) };
        told(answer.number, answer.found, u64::from(answer.position))
    }

    #[inline]
    pub(crate) fn walk(self, from: u16, out: &mut [u32]) -> Told<u64> {
        let Self { tag, span, bytes } = self;
        let room = out.len();
        let (body, mut out) = (Lent::new(bytes), LentMut::new(out));
        let (body, out) = (body.pointer(), out.pointer());
        unsafe { pelisafu_walk(tag, span, body, bytes.len(), from, out, room) }.told()
    }

    #[inline]
    pub(crate) fn segments(self, table: &mut [Record]) -> Told<u64> {
        let Self { tag, span, bytes } = self;
        let room = table.len();
        let (body, mut table) = (Lent::new(bytes), LentMut::new(table));
        let (body, table) = (body.pointer(), table.pointer());
        unsafe { pelisafu_segments(tag, span, body, bytes.len(), table, room) }.told()
    }

    pub(crate) fn segment(self, i: usize) -> Told<Record> {
        let Self { tag, span, bytes } = self;
        let body = Lent::new(bytes);
        let answer = unsafe { pelisafu_segment(tag, span, body.pointer(), bytes.len(), i) };
        told(answer.number, answer.found, answer.record)
    }
}

impl Gathered {
    /// A refusal hands the record back as it was.
    fn told(self, before: Gathering) -> Result<Gathering, u8> {
        match self.number {
            0 => Ok(self.record),
            number => {
                assert_eq!(self.record, before, "refusal {number} changed the record");
                Err(number)
            }
        }
    }
}

/// A record that is lent.
fn one(record: &mut Gathering) -> LentMut<'_, Gathering> {
    LentMut::new(std::slice::from_mut(record))
}

/// The longest table that is also gathered into with the record lent.
const LENT: usize = 16;

impl Gathering {
    pub(crate) fn record(entries: usize, rows: usize, first: u64, last: u64) -> Self {
        Self { entries, rows, first, last }
    }

    pub(crate) fn fields(self) -> (usize, usize, u64, u64) {
        (self.entries, self.rows, self.first, self.last)
    }

    /// What `add` does with the record and the table lent is what `answer` says and `after` holds.
    fn lent(
        self,
        mut table: Vec<u16>,
        add: impl FnOnce(&mut Self, &mut [u16]) -> u8,
        answer: &Gathered,
        after: &[u16],
    ) {
        let mut lent = self;
        let number = add(&mut lent, &mut table);
        assert_eq!(
            (number, lent, &table[..]),
            (answer.number, answer.record, after),
            "lent {self:?}"
        );
    }

    pub(crate) fn row(self, table: &mut [u16], row: u64) -> Result<Self, u8> {
        let before = (table.len() <= LENT).then(|| table.to_vec());
        let room = table.len();
        let answer = unsafe { pelisafu_gather_row(self, LentMut::new(table).pointer(), room, row) };
        if let Some(before) = before {
            let add = |g: &mut Self, t: &mut [u16]| unsafe {
                pelisafu_add_row(one(g).pointer(), LentMut::new(t).pointer(), room, row)
            };
            self.lent(before, add, &answer, table);
        }
        answer.told(self)
    }

    pub(crate) fn page(self, table: &mut [u16], rows: &[u64]) -> Result<Self, u8> {
        let before = (table.len() <= LENT).then(|| table.to_vec());
        let (room, count) = (table.len(), rows.len());
        let rows = Lent::new(rows);
        let page = rows.pointer();
        let answer =
            unsafe { pelisafu_gather_page(self, LentMut::new(table).pointer(), room, page, count) };
        if let Some(before) = before {
            let add = |g: &mut Self, t: &mut [u16]| unsafe {
                pelisafu_add_page(one(g).pointer(), LentMut::new(t).pointer(), room, page, count)
            };
            self.lent(before, add, &answer, table);
        }
        answer.told(self)
    }
}
