//! Document 01, "The listing": what the program `lister` writes for an input.

use super::reading::read;
use std::fmt::Write;

/// A record's length counts its tag and its span too, so that a body has 65,535 bytes at most.
const LENGTHS: std::ops::RangeInclusive<usize> = 5..=65_540;

pub(crate) fn list(input: &[u8]) -> String {
    let mut lines = "k tag span rows holes bytes\n".to_string();
    let Some((1, mut rest)) = input.split_first() else {
        return lines + "version\n";
    };
    for k in 0.. {
        if rest.is_empty() {
            return lines + &format!("end {k}\n");
        }
        let Some((record, behind)) = record(rest) else {
            return lines + &format!("broken {k}\n");
        };
        writeln!(lines, "{k} {}", told(record)).expect("a string takes all");
        rest = behind;
    }
    unreachable!("an input has an end")
}

/// The first record without its length, and what stands behind it. None where the length is not allowed or the input
/// stops inside.
pub(crate) fn record(input: &[u8]) -> Option<(&[u8], &[u8])> {
    let (length, behind) = input.split_at_checked(4)?;
    let length = big_endian(length) as usize;
    if !LENGTHS.contains(&length) {
        return None;
    }
    behind.split_at_checked(length)
}

/// The line of a record, without its number.
fn told(record: &[u8]) -> String {
    let (tag, span, body) = (record[0], big_endian(&record[1..5]), &record[5..]);
    match read(tag, span, body) {
        None => "refused".to_string(),
        Some(list) => {
            let rows = list.len() as u64;
            format!("{tag} {span} {rows} {} {}", span - rows, body.len())
        }
    }
}

fn big_endian(bytes: &[u8]) -> u64 {
    bytes.iter().fold(0, |number, byte| 256 * number + u64::from(*byte))
}
