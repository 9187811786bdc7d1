//! The original stands here under its own module name. What calls its `pub(super)` functions
//! must stand here too. Each call takes tag, span and body, and answers -1 where the body is refused.

include!(concat!(env!("OUT_DIR"), "/modules.rs"));

use identity_set::IdentitySetRef;
use std::slice;

/// What the original has accepted.
///
/// # Safety
/// `body` has `length` bytes, or `length` is 0.
unsafe fn accepted<'a>(
    tag: u8,
    span: u32,
    body: *const u8,
    length: usize,
) -> Option<IdentitySetRef<'a>> {
    let body = if length == 0 { &[] } else { unsafe { slice::from_raw_parts(body, length) } };
    IdentitySetRef::validate(tag, body, span).ok()
}

/// The number of rows.
///
/// # Safety
/// `body` has `length` bytes.
#[unsafe(no_mangle)]
pub unsafe extern "C" fn original_validate(
    tag: u8,
    span: u32,
    body: *const u8,
    length: usize,
) -> i64 {
    unsafe { accepted(tag, span, body, length) }.map_or(-1, |set| i64::from(set.row_count()))
}

/// The positions by the original's iterator, as many as fit. Answers how many the iterator
/// gives, also where they do not fit.
///
/// # Safety
/// `body` has `length` bytes, and `out` room for `room` positions, at least one.
#[unsafe(no_mangle)]
pub unsafe extern "C" fn original_walk(
    tag: u8,
    span: u32,
    body: *const u8,
    length: usize,
    out: *mut u32,
    room: usize,
) -> i64 {
    let Some(set) = (unsafe { accepted(tag, span, body, length) }) else { return -1 };
    let out = unsafe { slice::from_raw_parts_mut(out, room) };
    let mut given = 0;
    for position in set.iter_deltas() {
        if let Some(place) = out.get_mut(given) {
            *place = position;
        }
        given += 1;
    }
    given as i64
}

/// For each position its ordinal, or 4,294,967,295.
///
/// # Safety
/// `body` has `length` bytes, `positions` and `out` have `asked` elements, at least one.
#[unsafe(no_mangle)]
pub unsafe extern "C" fn original_ranks(
    tag: u8,
    span: u32,
    body: *const u8,
    length: usize,
    positions: *const u32,
    out: *mut u32,
    asked: usize,
) -> i64 {
    let Some(set) = (unsafe { accepted(tag, span, body, length) }) else { return -1 };
    let positions = unsafe { slice::from_raw_parts(positions, asked) };
    let out = unsafe { slice::from_raw_parts_mut(out, asked) };
    for (position, place) in positions.iter().zip(out) {
        *place = set.ordinal_for_delta(*position).map_or(u32::MAX, u32::from);
    }
    asked as i64
}

/// The position of an ordinal, or -1 where there is none.
///
/// # Safety
/// `body` has `length` bytes.
#[unsafe(no_mangle)]
pub unsafe extern "C" fn original_select(
    tag: u8,
    span: u32,
    body: *const u8,
    length: usize,
    ordinal: u16,
) -> i64 {
    unsafe { accepted(tag, span, body, length) }
        .and_then(|set| set.delta_for_ordinal(ordinal))
        .map_or(-1, i64::from)
}
