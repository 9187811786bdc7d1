//! The program `lister` against document 01's listing written anew, over whole streams: every byte of its output, nothing
//! on standard error, and an end with status 0.

mod streams;

use crate::case::Verdict;
use crate::plain::listing::{list, record};
use crate::reading::Reading;
use crate::shrink::{Input, MOST, cuts, fewer, shrinking};
use std::env;
use std::io::Write;
use std::path::Path;
use std::process::{Command, Output, Stdio};
use std::thread;

/// Where the program is, from the folder that comparisons run in, unless `LISTER` names another one.
const PROGRAM: &str = "../crates/lister/out/lister";

/// An input: a version byte or none, whole records, and bytes behind them.
#[derive(Clone, Default)]
pub(crate) struct Stream {
    pub(crate) version: Option<u8>,
    pub(crate) records: Vec<Reading>,
    pub(crate) tail: Vec<u8>,
    /// Written a byte at a time.
    pub(crate) slowly: bool,
}

impl Stream {
    pub(crate) fn of(records: Vec<Reading>) -> Self {
        Self { version: Some(1), records, ..Self::default() }
    }

    pub(crate) fn bytes(&self) -> Vec<u8> {
        let mut bytes: Vec<u8> = self.version.into_iter().collect();
        for Reading { tag, span, body } in &self.records {
            bytes.extend((5 + body.len() as u32).to_be_bytes());
            bytes.push(*tag);
            bytes.extend(span.to_be_bytes());
            bytes.extend(body);
        }
        bytes.extend(&self.tail);
        bytes
    }
}

impl From<&[u8]> for Stream {
    fn from(bytes: &[u8]) -> Self {
        let Some((version, mut tail)) = bytes.split_first() else {
            return Self::default();
        };
        let mut records = Vec::new();
        while let Some((record, behind)) = record(tail) {
            let span = u32::from_be_bytes([record[1], record[2], record[3], record[4]]);
            records.push(Reading { tag: record[0], span, body: record[5..].to_vec() });
            tail = behind;
        }
        Self { version: Some(*version), records, tail: tail.to_vec(), slowly: false }
    }
}

impl Input for Stream {
    /// Fewer records, a shorter tail, and smaller records.
    fn smaller(&self) -> impl Iterator<Item = Self> {
        let fewer_records = cuts(self.records.len()).map(|cut| {
            let records = [&self.records[..cut.start], &self.records[cut.end..]].concat();
            Self { records, ..self.clone() }
        });
        let shorter = fewer(&self.tail).map(|tail| Self { tail, ..self.clone() });
        let smaller_records = (0..self.records.len()).flat_map(move |place| {
            self.records[place].smaller().map(move |record| {
                let mut stream = self.clone();
                stream.records[place] = record;
                stream
            })
        });
        let at_once = self.slowly.then(|| Self { slowly: false, ..self.clone() });
        fewer_records.chain(shorter).chain(at_once).chain(smaller_records)
    }

    /// As what a shell's `printf` writes.
    fn shown(&self) -> String {
        let bytes = self.bytes();
        let hex: String = bytes.iter().take(MOST).map(|byte| format!("\\x{byte:02x}")).collect();
        let cut = if bytes.len() > MOST { ", and more" } else { "" };
        let slowly = if self.slowly { ", a byte at a time" } else { "" };
        format!("{} bytes{slowly}: printf '{hex}'{cut}", bytes.len())
    }
}

/// What the comparison has met.
#[derive(Default)]
struct Tally {
    starts: usize,
    bytes: usize,
    /// Records that are listed, by tag.
    listed: [usize; 10],
    refused: usize,
    ends: usize,
    broken: usize,
    versions: usize,
}

impl Tally {
    fn listing(&mut self, bytes: usize, listing: &str) {
        self.starts += 1;
        self.bytes += bytes;
        for line in listing.lines().skip(1) {
            let count = match line.split(' ').collect::<Vec<_>>()[..] {
                [_, "refused"] => &mut self.refused,
                ["end", _] => &mut self.ends,
                ["broken", _] => &mut self.broken,
                ["version"] => &mut self.versions,
                [_, tag, ..] => &mut self.listed[tag.parse::<usize>().expect("a tag")],
                [..] => unreachable!("a line has two words at least, but for the version"),
            };
            *count += 1;
        }
    }
}

pub(crate) fn compare() -> Verdict {
    let program = env::var("LISTER").unwrap_or(PROGRAM.to_string());
    if !Path::new(&program).is_file() {
        return Err(format!("there is no {program}; make makes it"));
    }
    let mut tally = Tally::default();
    streams::for_each(&mut |stream: &Stream| {
        shrinking(stream, |stream| compare_stream(&program, stream, &mut tally))
    })?;
    let Tally { starts, bytes, listed, refused, ends, broken, versions } = tally;
    let tags: Vec<String> = listed[1..].iter().map(usize::to_string).collect();
    Ok(format!(
        "listing: {starts} streams of {bytes} bytes alike, with {} records listed and {refused} refused; {ends} streams \
         whole, {broken} broken, {versions} of another version; listed by tags 1 to 9: {}",
        listed.iter().sum::<usize>(),
        tags.join(" ")
    ))
}

fn compare_stream(program: &str, stream: &Stream, tally: &mut Tally) -> Result<(), String> {
    let bytes = stream.bytes();
    let right = list(&bytes);
    let step = if stream.slowly { 1 } else { bytes.len().max(1) };
    let Output { status, stdout, stderr } =
        run(program, bytes.chunks(step)).map_err(|error| format!("{program}: {error}"))?;
    if stdout != right.as_bytes() {
        return Err(difference(&String::from_utf8_lossy(&stdout), &right));
    }
    if !status.success() || !stderr.is_empty() {
        return Err(format!("{status}, and {:?}", String::from_utf8_lossy(&stderr)));
    }
    tally.listing(bytes.len(), &right);
    Ok(())
}

/// The first line that differs.
fn difference(ours: &str, right: &str) -> String {
    let (mut ours, mut right) = (ours.split_inclusive('\n'), right.split_inclusive('\n'));
    loop {
        match (ours.next(), right.next()) {
            (Some(ours), Some(right)) if ours == right => {}
            (ours, right) => return format!("a line {ours:?}, not {right:?}"),
        }
    }
}

/// Runs the program. It may end before it has read all, so that a write may fail.
fn run<'a>(
    program: &str,
    pieces: impl Iterator<Item = &'a [u8]> + Send,
) -> std::io::Result<Output> {
    let mut command = Command::new(program);
    let piped = command.stdin(Stdio::piped()).stdout(Stdio::piped()).stderr(Stdio::piped());
    let mut child = piped.spawn()?;
    let mut input = child.stdin.take().expect("it is piped");
    thread::scope(|scope| {
        scope.spawn(move || {
            let mut pieces = pieces;
            pieces.try_for_each(|piece| input.write_all(piece)).ok()
        });
        child.wait_with_output()
    })
}
