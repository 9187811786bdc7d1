//! Measures Pelisafu beside the original, and beside CRoaring where it is installed. Inputs and
//! outputs are made before the clock runs, and every answer goes into a black box. What is
//! printed is the Markdown that docs/BENCHMARKS.md keeps between its markers; how far it has come
//! is told on standard error.

mod bodies;
mod clock;
mod counts;
mod deletions;
mod direct;
mod growth;
mod inputs;
mod meter;
mod planning;
mod ratios;
mod reading;
#[cfg(roaring)]
mod roaring;
mod subject;

use crate::case::Verdict;
use subject::Subject;

/// The parts of the benchmark, in the order in which they run.
const PARTS: [&str; 4] = ["ratios", "growth", "roaring", "counts"];

/// All parts, or the one that is named.
pub(crate) fn tables(named: Option<&str>) -> Verdict {
    if named == Some("counting") {
        return counts::region(&subjects()?);
    }
    if let Some(name) = named.filter(|name| !PARTS.contains(name)) {
        return Err(format!("no part {name}; there are {}", PARTS.join(", ")));
    }
    let subjects = subjects()?;
    for part in PARTS.into_iter().filter(|part| named.is_none_or(|name| name == *part)) {
        match part {
            "ratios" => {
                inputs_table(&subjects);
                ratios::tables(&subjects);
            }
            "growth" => growth::tables(),
            "roaring" => roaring_tables(&subjects),
            _ => counts::tables(&subjects)?,
        }
    }
    Ok(String::new())
}

fn subjects() -> Result<Vec<Subject>, String> {
    inputs::all().into_iter().map(Subject::new).collect()
}

#[cfg(roaring)]
fn roaring_tables(subjects: &[Subject]) {
    roaring::tables(subjects);
}

#[cfg(not(roaring))]
fn roaring_tables(_: &[Subject]) {
    progress("CRoaring is left out: libroaring is not installed (Debian: libroaring-dev)");
}

/// Says on standard error how far it has come.
fn progress(what: &str) {
    eprintln!("bench: {what}");
}

/// What stands between these two lines takes the place of what docs/BENCHMARKS.md has there.
fn begin(block: &str) {
    println!("\n<!-- {block} -->\n");
}

fn end(block: &str) {
    println!("\n<!-- end of {block} -->");
}

/// The head of a table.
fn head(columns: &[&str]) {
    println!("| {} |", columns.join(" | "));
    println!("|{}", "---|".repeat(columns.len()));
}

fn inputs_table(subjects: &[Subject]) {
    begin("inputs");
    head(&["column", "tag", "rows are", "span", "rows", "segments", "bytes"]);
    for subject in subjects {
        let Subject { key, tag, name, segments, .. } = subject;
        let (span, rows, bytes) = (subject.span(), subject.rows(), subject.body.len());
        println!("| {key} | {tag} | {name} | {span} | {rows} | {segments} | {bytes} |");
    }
    end("inputs");
}
