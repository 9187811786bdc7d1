//! Every body up to three bytes, under every tag, over small spans: who accepts it, and with how many rows.

use super::calls::{Body, Told};
use super::reading::same;
use crate::index::original::{Accepted, caught};
use crate::reading::Reading;
use crate::shrink::shrinking;

/// Bodies of three bytes are many, and no form has that length. All of them are given to Pelisafu, and each with a third
/// byte that this number divides to the original too.
const EVERY: u8 = 37;

pub(super) fn compare() -> Result<String, String> {
    let (mut accepted, mut refused) = (0, 0);
    for span in 0..=16 {
        let mut ask = |bytes: &[u8]| {
            for_tags(span, bytes, |body| {
                let right = right(body);
                accepted += usize::from(right.is_ok());
                refused += usize::from(right.is_err());
                body.validate() == right
            })
        };
        ask(&[])?;
        (0..=255).try_for_each(|byte| ask(&[byte]))?;
        (0..=u16::MAX).try_for_each(|both| ask(&both.to_le_bytes()))?;
        if span == 12 {
            let thirds = (0..=255u8).filter(|byte| byte % EVERY == 0);
            thirds.flat_map(ending_in).try_for_each(|body| ask(&body))?;
        }
    }
    let long = (0..=255u8).flat_map(ending_in).try_fold(0, |count, bytes| {
        for_tags(12, &bytes, |body| body.validate() == Err(8)).map(|()| count + 11)
    })?;
    Ok(format!(
        "short bodies: {accepted} accepted alike and {refused} refused alike, {long} of three bytes refused"
    ))
}

/// The original's answer.
fn right(body: Body) -> Told<u64> {
    let set = Accepted::new(body.tag, body.span, body.bytes);
    set.map(|set| Some(u64::from(set.count()))).ok_or(8)
}

/// Asks under every tag.
fn for_tags(span: u32, bytes: &[u8], mut alike: impl FnMut(Body) -> bool) -> Result<(), String> {
    let mut tags = 0..=10;
    let compared = caught(|| match tags.all(|tag| alike(Body { tag, span, bytes })) {
        true => Ok(()),
        false => Err(String::new()),
    });
    compared.map_err(|_| difference(span, bytes))
}

/// Tells which tag differs, once one was seen to.
fn difference(span: u32, bytes: &[u8]) -> String {
    let compared = |Reading { tag, span, body }: &Reading| {
        let body = Body { tag: *tag, span: *span, bytes: body };
        same("validate", body.validate(), right(body))
    };
    let readings = (0..=10).map(|tag| Reading { tag, span, body: bytes.to_vec() });
    let told = readings.map(|reading| shrinking(&reading, compared)).find_map(Result::err);
    told.unwrap_or_else(|| format!("{bytes:?} is accepted by both, span {span}"))
}

/// All bodies of three bytes with that last byte.
fn ending_in(last: u8) -> impl Iterator<Item = [u8; 3]> {
    (0..=u16::MAX).map(move |both| {
        let [first, second] = both.to_le_bytes();
        [first, second, last]
    })
}
