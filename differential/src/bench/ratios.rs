//! The table of ratios: every call on every input, with its target beside it; and the times that
//! the ratios come from.

use super::clock::Pair;
use super::meter::{Measured, Meter};
use super::subject::Subject;
use super::{begin, deletions, end, head, planning, progress, reading};

/// How often the table is measured; the least of all is kept.
pub(super) const ROUNDS: usize = 6;

/// A call that is measured, in what it is told, and at most which ratio is asked for.
pub(super) struct Line {
    pub(super) call: &'static str,
    pub(super) unit: &'static str,
    target: Option<f64>,
    pub(super) measure: fn(&Subject, Meter) -> Option<Measured>,
    /// Takes long under valgrind, and is counted for three inputs only.
    pub(super) slow: bool,
}

pub(super) fn lines() -> Vec<Line> {
    let line = |call, unit, target, measure| Line { call, unit, target, measure, slow: false };
    let slow = |line| Line { slow: true, ..line };
    vec![
        line("validate: lists, bitmaps, missing", "byte", Some(0.35), reading::validate_items),
        line("validate: runs, segmented", "byte", Some(0.6), reading::validate_runs),
        line("validate: dense", "call", None, reading::validate_dense),
        line("ranks of rows", "query", Some(0.9), reading::ranks_of_rows),
        line("ranks of rows in order", "query", Some(0.9), reading::ranks_in_order),
        line("ranks of absent positions", "query", Some(0.9), reading::ranks_of_absent),
        line("ranks of those behind a row", "query", Some(0.9), reading::ranks_beside_rows),
        line("ranks past the span", "query", Some(0.9), reading::ranks_past_the_span),
        line("one rank", "call", Some(0.6), reading::one_rank),
        line("one select", "call", Some(0.6), reading::one_select),
        line("walk", "row", Some(0.5), reading::walk),
        line("plan without seeds", "row", Some(0.7), planning::without_seeds),
        line("plan of ordinals", "row", Some(0.7), planning::of_ordinals),
        line("plan, pages of 64 rows", "row", Some(0.8), planning::with_pages),
        line("plan, pages of 16 rows", "row", Some(0.8), planning::with_small_pages),
        slow(line("plan, pages of one row", "row", Some(0.8), planning::with_pages_of_one)),
        line("gathering pages of 64 rows", "row", Some(0.8), planning::gathering),
        line("the same, its vector grown before", "row", None, planning::gathering_grown),
        line("gathering pages of 16 rows", "row", Some(0.8), planning::gathering_small),
        line("gathering single rows", "row", None, planning::gathering_singly),
        line("a call that only counts", "row", None, planning::counting_lent),
        line("pages of 64, record by value", "row", None, planning::gathering_by_value),
        line("single rows, record by value", "row", None, planning::gathering_singly_by_value),
        line("a call by value that only counts", "row", None, planning::counting_by_value),
        line("deletions: plan", "row", None, deletions::plan),
        line("deletions: check", "call", None, deletions::check),
        line("deletions: one contains", "call", None, deletions::contains),
        line("deletions: walk", "row", None, deletions::walk),
    ]
}

/// What stands apart: here the Rust does not check the body at all, and Pelisafu does each time.
fn apart() -> Vec<Line> {
    let line = |call, measure| Line { call, unit: "call", target: None, measure, slow: false };
    vec![
        line("one rank, the Rust's body validated before", reading::rank_validated_before),
        line("one select, the Rust's body validated before", reading::select_validated_before),
    ]
}

/// What was measured of a line, a cell to a subject.
type Cells = Vec<Option<Pair>>;

pub(super) fn tables(subjects: &[Subject]) {
    let (lines, apart) = (lines(), apart());
    let (cells, once) = (measured(&lines, subjects), measured(&apart, subjects));
    begin("ratios");
    ratios(&lines, &cells, subjects);
    end("ratios");
    begin("times");
    times(&lines, &cells, subjects, told);
    end("times");
    begin("validated-before");
    times(&apart, &once, subjects, |pair| format!("{:.1} ({})", pair.ratio(), told(pair)));
    end("validated-before");
}

fn measured(lines: &[Line], subjects: &[Subject]) -> Vec<Cells> {
    let mut all: Vec<Cells> = lines.iter().map(|_| vec![None; subjects.len()]).collect();
    for round in 1..=ROUNDS {
        for (line, cells) in lines.iter().zip(&mut all) {
            progress(&format!("round {round} of {ROUNDS}, {}", line.call));
            for (cell, subject) in cells.iter_mut().zip(subjects) {
                let Some((pair, units)) = (line.measure)(subject, Meter::Time) else { continue };
                let pair = pair.each(units);
                *cell = Some(cell.map_or(pair, |before| pair.least(before)));
            }
        }
    }
    all
}

fn columns<'a>(first: &[&'a str], subjects: &[Subject], last: &[&'a str]) -> Vec<&'a str> {
    let keys = subjects.iter().map(|subject| subject.key);
    first.iter().copied().chain(keys).chain(last.iter().copied()).collect()
}

fn ratios(lines: &[Line], all: &[Cells], subjects: &[Subject]) {
    head(&columns(&["call", "target"], subjects, &["met"]));
    sizes("rows", subjects, Subject::rows);
    sizes("bytes of the body", subjects, |subject| subject.body.len());
    for (line, cells) in lines.iter().zip(all) {
        let shown: Vec<String> = cells.iter().map(|cell| ratio(*cell, line.target)).collect();
        let target = line.target.map_or("-".to_string(), |most| format!("≤ {most:.2}"));
        println!("| {} | {target} | {} | {} |", line.call, shown.join(" | "), met(line, cells));
    }
}

fn sizes(name: &str, subjects: &[Subject], size: impl Fn(&Subject) -> usize) {
    let sizes: Vec<String> = subjects.iter().map(|subject| size(subject).to_string()).collect();
    println!("| *{name}* | | {} | |", sizes.join(" | "));
}

/// A ratio that misses its target is set in bold.
fn ratio(cell: Option<Pair>, target: Option<f64>) -> String {
    match (cell.map(Pair::ratio), target) {
        (None, _) => "-".to_string(),
        (Some(ratio), Some(most)) if ratio > most => format!("**{ratio:.2}**"),
        (Some(ratio), _) => format!("{ratio:.2}"),
    }
}

fn met(line: &Line, cells: &Cells) -> String {
    let Some(most) = line.target else { return "-".to_string() };
    let ratios = || cells.iter().flatten().map(|pair| pair.ratio());
    match (ratios().filter(|ratio| *ratio > most).count(), ratios().count()) {
        (0, _) => "yes".to_string(),
        (missed, all) => format!("**no**, {missed} of {all}"),
    }
}

/// Our time and that of the other side.
pub(super) fn told(Pair { ours, theirs }: Pair) -> String {
    format!("{} / {}", digits(ours), digits(theirs))
}

fn times(lines: &[Line], all: &[Cells], subjects: &[Subject], shown: fn(Pair) -> String) {
    head(&columns(&["ns", "to a"], subjects, &[]));
    for (line, cells) in lines.iter().zip(all) {
        let shown = |cell: &Option<Pair>| cell.map_or("-".to_string(), shown);
        let shown: Vec<String> = cells.iter().map(shown).collect();
        println!("| {} | {} | {} |", line.call, line.unit, shown.join(" | "));
    }
}

/// Three digits, or all before the point.
pub(super) fn digits(number: f64) -> String {
    match number {
        ..0.9995 => format!("{number:.3}"),
        ..9.995 => format!("{number:.2}"),
        ..99.95 => format!("{number:.1}"),
        _ => format!("{number:.0}"),
    }
}
