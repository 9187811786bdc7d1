//! Short bodies, all of them: every body up to two bytes, and longer ones whose two-byte
//! fields are all small or all on an edge.

use super::Reading;

/// Spans around each bound that document 01 names.
pub(super) const SPANS: [u32; 8] = [0, 1, 2, 5, 65_535, 65_536, 65_537, 4_294_967_295];

pub(super) fn for_each(
    each: &mut impl FnMut(&Reading) -> Result<(), String>,
) -> Result<(), String> {
    let mut ask = |body: &[u8], spans: &[u32]| {
        for tag in 0..=10 {
            for span in spans {
                each(&Reading { tag, span: *span, body: body.to_vec() })?;
            }
        }
        Ok(())
    };
    ask(&[], &SPANS)?;
    for low in 0..=255 {
        ask(&[low], &SPANS)?;
    }
    for both in 0..=u16::MAX {
        ask(&both.to_le_bytes(), &[256, 65_535])?;
    }
    for fields in 2..=5 {
        every_choice(fields, &[0, 1, 2, 256, 65_535], &mut |body| ask(body, &SPANS))?;
    }
    for fields in 6..=8 {
        every_choice(fields, &[0, 1, 2, 3], &mut |body| ask(body, &[5, 65]))?;
    }
    Ok(())
}

/// Every body of so many two-byte fields, each field one of the values.
fn every_choice(
    fields: u32,
    values: &[u16],
    each: &mut impl FnMut(&[u8]) -> Result<(), String>,
) -> Result<(), String> {
    for choice in 0..values.len().pow(fields) {
        let digit = |place| choice / values.len().pow(place) % values.len();
        let chosen = (0..fields).map(|place| values[digit(place)]);
        let body: Vec<u8> = chosen.flat_map(u16::to_le_bytes).collect();
        each(&body)?;
    }
    Ok(())
}
