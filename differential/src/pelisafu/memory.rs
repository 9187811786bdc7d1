//! Where the slices of a call stand: as they were given, or beside a page that may not be touched, so that one byte
//! read or written outside ends the run. This checks the compiler's back end, which no proof covers.

use std::cell::RefCell;
use std::ffi::c_void;
use std::ptr::{copy_nonoverlapping, null_mut};
use std::sync::atomic::{AtomicU8, Ordering};

#[derive(Clone, Copy, Debug, PartialEq, Eq)]
pub(crate) enum Place {
    AsGiven,
    /// The slice ends where a page begins that may not be touched.
    Ending,
    /// The slice starts where such a page ends. An empty slice stands nowhere: its pointer is null.
    Starting,
}

static PLACE: AtomicU8 = AtomicU8::new(Place::AsGiven as u8);

/// From now on every slice of every call stands there.
pub(crate) fn set_place(place: Place) {
    PLACE.store(place as u8, Ordering::Relaxed);
}

unsafe extern "C" {
    fn mmap(at: *mut c_void, size: usize, access: i32, kind: i32, file: i32, from: i64) -> *mut u8;
    fn mprotect(at: *mut u8, size: usize, access: i32) -> i32;
}

/// A multiple of every size that pages have on Linux.
const PAGE: usize = 65_536;

/// Bytes between two pages that may not be touched. They are never given back to the system, only to `FREE`.
struct Slab {
    bytes: *mut u8,
    size: usize,
}

thread_local! {
    static FREE: RefCell<Vec<Slab>> = const { RefCell::new(Vec::new()) };
}

impl Slab {
    /// The smallest free slab with so many bytes, or a new one.
    fn taken(size: usize) -> Self {
        let free = FREE.with_borrow_mut(|free| {
            let fitting = free.iter().enumerate().filter(|(_, slab)| slab.size >= size);
            let least = fitting.min_by_key(|(_, slab)| slab.size).map(|(place, _)| place);
            least.map(|place| free.swap_remove(place))
        });
        free.unwrap_or_else(|| Self::new(size.max(1).next_multiple_of(PAGE).next_power_of_two()))
    }

    fn new(size: usize) -> Self {
        const NOTHING: i32 = 0;
        const READ_AND_WRITE: i32 = 3;
        const PRIVATE_AND_ANONYMOUS: i32 = 0x22;
        // SAFETY: the kernel chooses the place, so that no memory in use is touched; the part that is made usable lies
        // inside of it.
        let bytes = unsafe {
            let all = mmap(null_mut(), size + 2 * PAGE, NOTHING, PRIVATE_AND_ANONYMOUS, -1, 0);
            assert_ne!(all as usize, usize::MAX, "the system gives memory");
            let bytes = all.add(PAGE);
            assert_eq!(mprotect(bytes, size, READ_AND_WRITE), 0, "a part of it can be used");
            bytes
        };
        Self { bytes, size }
    }

    /// A copy of the slice in a slab, where slices stand in one now.
    fn holding<T: Copy>(given: &[T]) -> Option<(Self, *mut T)> {
        let place = PLACE.load(Ordering::Relaxed);
        if place == Place::AsGiven as u8 {
            return None;
        }
        let (size, ending) = (size_of_val(given), place == Place::Ending as u8);
        let slab = Self::taken(size);
        if given.is_empty() && !ending {
            return Some((slab, null_mut()));
        }
        let skipped = if ending { slab.size - size } else { 0 };
        // SAFETY: the slab has `size` bytes from there on. Both ends of it are aligned for every type.
        let copy = unsafe { slab.bytes.add(skipped).cast::<T>() };
        unsafe { copy_nonoverlapping(given.as_ptr(), copy, given.len()) };
        Some((slab, copy))
    }
}

/// A slice lent to be read.
pub(crate) struct Lent<'a, T> {
    given: &'a [T],
    copy: Option<(Slab, *mut T)>,
}

impl<'a, T: Copy> Lent<'a, T> {
    #[inline]
    pub(crate) fn new(given: &'a [T]) -> Self {
        Self { given, copy: Slab::holding(given) }
    }

    #[inline]
    pub(crate) fn pointer(&self) -> *const T {
        self.copy.as_ref().map_or(self.given.as_ptr(), |(_, copy)| *copy)
    }
}

impl<T> Drop for Lent<'_, T> {
    #[inline]
    fn drop(&mut self) {
        if let Some((slab, _)) = self.copy.take() {
            FREE.with_borrow_mut(|free| free.push(slab));
        }
    }
}

/// A slice lent to be written. What was written to its copy stands in it afterwards.
pub(crate) struct LentMut<'a, T> {
    given: &'a mut [T],
    copy: Option<(Slab, *mut T)>,
}

impl<'a, T: Copy> LentMut<'a, T> {
    #[inline]
    pub(crate) fn new(given: &'a mut [T]) -> Self {
        let copy = Slab::holding(given);
        Self { given, copy }
    }

    #[inline]
    pub(crate) fn pointer(&mut self) -> *mut T {
        self.copy.as_ref().map_or(self.given.as_mut_ptr(), |(_, copy)| *copy)
    }
}

impl<T> Drop for LentMut<'_, T> {
    #[inline]
    fn drop(&mut self) {
        if let Some((slab, copy)) = self.copy.take() {
            if !copy.is_null() {
                // SAFETY: the copy has as many elements as the slice.
                unsafe { copy_nonoverlapping(copy, self.given.as_mut_ptr(), self.given.len()) };
            }
            FREE.with_borrow_mut(|free| free.push(slab));
        }
    }
}

/// What stands in memory that is lent to be written: another value at each place, so that a stray write shows wherever
/// it falls.
pub(super) trait Canary: Copy {
    fn at(place: u32) -> Self;
}

impl Canary for u32 {
    fn at(place: u32) -> Self {
        place.wrapping_mul(0x9E37_79B9) ^ 0xA5A5_0F0F
    }
}

impl Canary for u16 {
    fn at(place: u32) -> Self {
        (u32::at(place) >> 16) as Self
    }
}

impl Canary for u8 {
    fn at(place: u32) -> Self {
        (u32::at(place) >> 24) as Self
    }
}

pub(super) fn canaries<T: Canary>(length: usize) -> Vec<T> {
    (0..length as u32).map(T::at).collect()
}
