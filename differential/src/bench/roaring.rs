//! CRoaring beside Pelisafu, on the same row sets: its bytes, and its calls on a bitmap that was
//! built or opened before.

use super::clock::{Pair, turns};
use super::planning::{Memory, planned};
use super::ratios::digits;
use super::subject::{QUESTIONS, Subject};
use super::{begin, end, head, progress};
use crate::pelisafu::plans::plan_rows;
use std::ffi::{c_char, c_void};
use std::hint::black_box;

unsafe extern "C" {
    fn roaring_bitmap_of_ptr(count: usize, values: *const u32) -> *mut c_void;
    fn roaring_bitmap_run_optimize(set: *mut c_void) -> bool;
    fn roaring_bitmap_portable_size_in_bytes(set: *const c_void) -> usize;
    fn roaring_bitmap_portable_serialize(set: *const c_void, out: *mut c_char) -> usize;
    fn roaring_bitmap_portable_deserialize_safe(from: *const c_char, most: usize) -> *mut c_void;
    fn roaring_bitmap_rank(set: *const c_void, value: u32) -> u64;
    fn roaring_bitmap_contains(set: *const c_void, value: u32) -> bool;
    fn roaring_bitmap_select(set: *const c_void, rank: u32, value: *mut u32) -> bool;
    fn roaring_bitmap_to_uint32_array(set: *const c_void, out: *mut u32);
    fn roaring_bitmap_free(set: *mut c_void);
}

/// A bitmap of CRoaring's.
struct Roaring(*mut c_void);

// SAFETY, for every call: the pointer is a bitmap that CRoaring made and that is freed once, and
// each slice has the room that the call needs.
impl Roaring {
    fn built(positions: &[u32]) -> Self {
        let set = unsafe { roaring_bitmap_of_ptr(positions.len(), positions.as_ptr()) };
        unsafe { roaring_bitmap_run_optimize(set) };
        Self(set)
    }

    fn opened(bytes: &[u8]) -> Self {
        let from = bytes.as_ptr().cast();
        let set = unsafe { roaring_bitmap_portable_deserialize_safe(from, bytes.len()) };
        assert!(!set.is_null(), "bytes that CRoaring wrote");
        Self(set)
    }

    fn size(&self) -> usize {
        unsafe { roaring_bitmap_portable_size_in_bytes(self.0) }
    }

    fn write(&self, out: &mut [u8]) -> usize {
        assert!(out.len() >= self.size());
        unsafe { roaring_bitmap_portable_serialize(self.0, out.as_mut_ptr().cast()) }
    }

    /// The number of rows up to this position.
    #[inline]
    fn rank(&self, position: u32) -> u64 {
        unsafe { roaring_bitmap_rank(self.0, position) }
    }

    #[inline]
    fn contains(&self, position: u32) -> bool {
        unsafe { roaring_bitmap_contains(self.0, position) }
    }

    #[inline]
    fn select(&self, ordinal: u16) -> u32 {
        let mut position = 0;
        unsafe { roaring_bitmap_select(self.0, u32::from(ordinal), &mut position) };
        position
    }

    fn walk(&self, out: &mut [u32]) {
        unsafe { roaring_bitmap_to_uint32_array(self.0, out.as_mut_ptr()) };
    }
}

impl Drop for Roaring {
    fn drop(&mut self) {
        unsafe { roaring_bitmap_free(self.0) };
    }
}

/// The two sides of one subject.
struct Both<'a> {
    subject: &'a Subject,
    positions: Vec<u32>,
    set: Roaring,
    bytes: Vec<u8>,
}

impl<'a> Both<'a> {
    fn new(subject: &'a Subject) -> Self {
        let case = &subject.case;
        let positions: Vec<u32> = case.rows.iter().map(|row| (row - case.start) as u32).collect();
        let set = Roaring::built(&positions);
        let mut bytes = vec![0; set.size()];
        set.write(&mut bytes);
        Self { subject, positions, set, bytes }
    }

    /// From rising rows to bytes.
    fn build(&self) -> Pair {
        let (case, mut memory) = (&self.subject.case, Memory::new());
        let mut out = vec![1; self.bytes.len()];
        let coverage = (case.start, case.end);
        let times = turns(
            || planned(plan_rows(coverage, black_box(&case.rows), &[], memory.lent())),
            || Roaring::built(black_box(&self.positions)).write(&mut out),
        );
        times.each(self.subject.rows())
    }

    /// From bytes to what can be asked.
    fn open(&self) -> Pair {
        let theirs = || Roaring::opened(black_box(&self.bytes)).0;
        turns(|| self.subject.ours().validate(), theirs)
    }

    /// 4,096 ranks of rows, the check of our body included.
    fn ranks(&self) -> Pair {
        let positions = &self.subject.questions.present;
        let (mut ours, mut theirs) = (vec![0; QUESTIONS], vec![0; QUESTIONS]);
        let times = turns(
            || black_box(self.subject.ours().ranks(black_box(positions), &mut ours)),
            || {
                for (place, position) in theirs.iter_mut().zip(black_box(positions)) {
                    *place = self.set.rank(*position) as u32 - 1;
                }
                black_box(&theirs).len()
            },
        );
        assert!(ours == theirs, "both sides have the same ranks");
        times.each(QUESTIONS)
    }

    /// The same questions, of which only the yes is asked. Pelisafu has no other call for it.
    fn contains(&self) -> Pair {
        let positions = &self.subject.questions.present;
        let mut ours = vec![0; QUESTIONS];
        let times = turns(
            || black_box(self.subject.ours().ranks(black_box(positions), &mut ours)),
            || black_box(positions).iter().filter(|n| self.set.contains(**n)).count(),
        );
        times.each(QUESTIONS)
    }

    /// One select by us, the check of the body included, and one by a bitmap that is open.
    fn select(&self) -> Pair {
        let ordinals = &self.subject.questions.ordinals;
        let Pair { ours, theirs } = turns(
            || in_turn(&ordinals[..64], |ordinal| self.subject.ours().select(ordinal)),
            || in_turn(ordinals, |ordinal| self.set.select(ordinal)),
        );
        Pair { ours: ours / 64.0, theirs: theirs / QUESTIONS as f64 }
    }

    /// One select from bytes, which CRoaring opens for it.
    fn select_from_bytes(&self) -> Pair {
        let ordinals = &self.subject.questions.ordinals[..16];
        let times = turns(
            || in_turn(ordinals, |ordinal| self.subject.ours().select(ordinal)),
            || in_turn(ordinals, |ordinal| Roaring::opened(&self.bytes).select(ordinal)),
        );
        times.each(ordinals.len())
    }

    fn walk(&self) -> Pair {
        let rows = self.subject.rows();
        let (mut ours, mut theirs) = (vec![0; rows], vec![0; rows]);
        let times = turns(
            || black_box(self.subject.ours().walk(&mut ours)),
            || {
                self.set.walk(&mut theirs);
                black_box(&theirs).len()
            },
        );
        assert!(ours == theirs, "both sides walk the same rows");
        times.each(rows)
    }
}

fn in_turn<A>(ordinals: &[u16], ask: impl Fn(u16) -> A) {
    for ordinal in ordinals {
        black_box(ask(black_box(*ordinal)));
    }
}

/// A ratio with what it comes from, in bold where Pelisafu is behind.
fn cell(Pair { ours, theirs }: Pair) -> String {
    let ratio = format!("{:.2}", ours / theirs);
    let ratio = if ours > theirs { format!("**{ratio}**") } else { ratio };
    format!("{ratio} ({} / {})", digits(ours), digits(theirs))
}

pub(super) fn tables(subjects: &[Subject]) {
    begin("roaring");
    head(&[
        "input",
        "bytes",
        "rows to bytes, ns per row",
        "opening bytes, ns",
        "rank, ns per query",
        "contains, ns per query",
        "select, ns",
        "select from bytes, ns",
        "walk, ns per row",
    ]);
    for subject in subjects {
        progress(&format!("CRoaring, input {}", subject.key));
        let both = Both::new(subject);
        let (ours, theirs) = (subject.body.len() as f64, both.bytes.len() as f64);
        let cells = [
            Pair { ours, theirs },
            both.build(),
            both.open(),
            both.ranks(),
            both.contains(),
            both.select(),
            both.select_from_bytes(),
            both.walk(),
        ];
        println!("| {} | {} |", subject.key, cells.map(cell).join(" | "));
    }
    end("roaring");
}
