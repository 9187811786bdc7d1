//! Streams for the listing: long ones with many records, and short ones that end in every way.

use super::Stream;
use crate::plain::bodies::whole;
use crate::plain::costs::Cost;
use crate::plain::{BITMAP, DENSE, LIST16, LIST32, MISSING, RUNS16, RUNS32, TRIMMED_MISSING};
use crate::random::Random;
use crate::reading::{self, Reading, in_every_form, segmented_body, spans};

type Each<'a> = dyn FnMut(&Stream) -> Result<(), String> + 'a;

/// The longest body that a record takes.
const LONGEST: usize = 65_535;

/// Random row sets, and random short streams.
const DRAWN: usize = 40;
const NOISE: usize = 1_000;

pub(super) fn for_each(each: &mut Each) -> Result<(), String> {
    let mut random = Random::new(19);
    for_each_long(&mut random, each)?;
    for version in 0..=255 {
        let version = Some(version);
        each(&Stream { version, ..Stream::default() })?;
        each(&Stream { version, ..Stream::of(small_records()) })?;
    }
    each(&Stream::default())?;
    for_each_cut(each)?;
    for_each_length(each)?;
    for_each_noise(&mut random, each)
}

/// Streams that are filled with records.
struct Long<'a, 'b> {
    stream: Stream,
    bytes: usize,
    each: &'a mut Each<'b>,
}

impl Long<'_, '_> {
    /// A record too long for a stream is left to others.
    fn add(&mut self, record: &Reading) -> Result<(), String> {
        if record.body.len() > LONGEST {
            return Ok(());
        }
        self.bytes += record.body.len();
        self.stream.records.push(record.clone());
        if self.bytes > 16 << 20 || self.stream.records.len() >= 200_000 {
            return self.flush();
        }
        Ok(())
    }

    fn flush(&mut self) -> Result<(), String> {
        (self.each)(&self.stream)?;
        self.bytes = 0;
        self.stream.records.clear();
        Ok(())
    }
}

/// Every tag with spans on every bound and no body; the longest bodies; all bodies that readers are compared on; random
/// row sets in every form, each of them also damaged; and so many records that their numbers have seven digits.
fn for_each_long(random: &mut Random, each: &mut Each) -> Result<(), String> {
    let mut long = Long { stream: Stream::of(Vec::new()), bytes: 0, each };
    for tag in 0..=255 {
        let bare = |span| Reading { tag, span, body: Vec::new() };
        // Beside the bounds of forms those where a number gets one digit more.
        let spans = spans().chain([9, 10, 99, 100, 999_999_999, 1_000_000_000, 4_294_967_294]);
        spans.map(bare).try_for_each(|record| long.add(&record))?;
    }
    longest().iter().try_for_each(|record| long.add(record))?;
    reading::for_each(&mut |record| long.add(record))?;
    for _ in 0..DRAWN {
        reading::for_each_drawn(random, &mut |record| long.add(record))?;
    }
    long.flush()?;
    let dense = |k: u32| Reading { tag: DENSE, span: k % 100, body: Vec::new() };
    each(&Stream::of((0..1_000_100).map(dense).collect()))
}

/// The longest body of each form, the same with one byte more or less, and bodies of zeros as long as can be.
fn longest() -> Vec<Reading> {
    let bitmap = Cost::new(BITMAP, 0, 0);
    let trimmed = Cost { trimmed: true, ..bitmap };
    let form = |tag| Cost::new(tag, 0, 0);
    let words = 7_708;
    let sparse: Vec<u64> = (0..60_000).map(|n| 8 * n + n % 3).chain([64 * words - 1]).collect();
    let holed = |holes: u64| -> Vec<u64> {
        let present = |row: &u64| row & 1 == 0 || *row > 2 * holes;
        (0..65_535).filter(present).collect()
    };
    let written = [
        (form(LIST16), (0..32_767).collect(), 65_536),
        (form(LIST32), (0..16_383).map(|n| 250_000 * n).collect(), u32::MAX),
        (form(RUNS16), (0..10_921).map(|n| 6 * n).collect(), 65_536),
        (form(RUNS32), (0..8_191).map(|n| 500_000 * n).collect(), u32::MAX),
        (bitmap, sparse.clone(), 64 * words as u32),
        (trimmed, sparse, 64 * words as u32 + 9),
        (form(MISSING), holed(32_765), 65_535),
        (form(TRIMMED_MISSING), holed(32_763), 65_536),
    ];
    let records = written.map(|(form, rows, span): (Cost, Vec<u64>, u32)| Reading {
        tag: form.tag,
        span,
        body: whole(&form, &rows, u64::from(span)),
    });
    let rows: Vec<u64> = (0..32_757).map(|n| 2 * n).collect();
    let mut all = records.to_vec();
    all.extend(segmented_body(&rows, 65_536, 32_757));
    for record in all.clone() {
        for length in [record.body.len() - 1, record.body.len() + 1, LONGEST] {
            let mut other = record.clone();
            other.body.resize(length, 0);
            all.push(other);
        }
    }
    let zeros = |tag, length| Reading { tag, span: 70_000, body: vec![0; length] };
    all.extend((0..=10).flat_map(|tag| [1, LONGEST - 1, LONGEST].map(|length| zeros(tag, length))));
    all
}

/// A few rows in every form, and a record that is refused.
fn small_records() -> Vec<Reading> {
    let mut all = in_every_form(&[3, 4, 5, 7], 10);
    all.push(Reading { tag: DENSE, span: 5, body: Vec::new() });
    all.push(Reading { tag: 0, span: 5, body: Vec::new() });
    all
}

/// A stream cut at each of its bytes, and streams that come a byte at a time.
fn for_each_cut(each: &mut Each) -> Result<(), String> {
    let whole = Stream::of(small_records()).bytes();
    for length in 0..=whole.len() {
        each(&Stream::from(&whole[..length]))?;
        if length % 16 == 0 {
            each(&Stream { slowly: true, ..Stream::from(&whole[..length]) })?;
        }
    }
    each(&Stream { slowly: true, ..Stream::of(vec![longest().swap_remove(0)]) })
}

/// Lengths on both sides of every bound, and lengths that are good ones if read from the other end.
fn lengths() -> impl Iterator<Item = u32> {
    let bounds = (0..=10).chain(65_534..=65_542);
    bounds.chain([13, 255, 256, 261, 4_096, 65_796, 0x0500_0000, 0x8000_0005, u32::MAX])
}

/// Records of every length at the start of a stream and later, with fewer bytes behind than that, as many, and more.
fn for_each_length(each: &mut Each) -> Result<(), String> {
    for records in [Vec::new(), small_records()] {
        for length in lengths() {
            let near = (length as usize).min(LONGEST + 20);
            let mut counts = vec![0, 1, 4, 5, 9, near.saturating_sub(1), near, near + 1, near + 9];
            counts.sort_unstable();
            counts.dedup();
            for count in counts {
                let mut tail = length.to_be_bytes().to_vec();
                tail.extend([1, 0, 0, 0, 5, 0, 0, 0, 5].iter().cycle().take(count));
                each(&Stream { tail, ..Stream::of(records.clone()) })?;
            }
        }
    }
    Ok(())
}

/// Short streams of records and of bytes that are none.
fn for_each_noise(random: &mut Random, each: &mut Each) -> Result<(), String> {
    let records = small_records();
    for _ in 0..NOISE {
        let mut bytes = vec![1];
        for _ in 0..random.below(9) {
            let record = &records[random.below(records.len() as u64) as usize];
            let mut piece = Stream::of(vec![record.clone()]).bytes().split_off(1);
            for _ in 0..random.below(3) {
                let place = random.below(piece.len() as u64) as usize;
                match random.below(4) {
                    0 => piece[place] = random.below(256) as u8,
                    1 => piece[place] ^= 1 << random.below(8),
                    2 => piece.truncate(place + 1),
                    _ => piece.insert(place, random.below(12) as u8),
                }
            }
            bytes.extend(piece);
        }
        each(&Stream::from(&bytes[..]))?;
    }
    Ok(())
}
