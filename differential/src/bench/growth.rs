//! How the cost of one row, one seed, one byte and one query changes with the size of the whole.

use super::bodies::{FORMS, Long, largest_bitmap, long};
use super::clock::{Pair, turns};
use super::direct::{Set, gather_singly};
use super::inputs::{Input, for_merging, runs};
use super::meter::Meter;
use super::planning::{PAGE, plan};
use super::ratios::{ROUNDS, digits, told};
use super::subject::QUESTIONS;
use super::{begin, end, head, progress};
use crate::case::Case;
use crate::index::original::{Accepted, Seeds, row_ids};
use crate::random::Random;
use std::array::from_fn;
use std::hint::black_box;

const ROWS: [usize; 4] = [1_000, 4_000, 16_000, 65_535];
const SEEDS: [usize; 4] = [64, 512, 4_096, 65_535];
const RUNS: [u64; 12] = [1, 2, 3, 5, 10, 15, 20, 25, 30, 40, 60, 200];
const BYTES: [u64; 7] = [1_000, 8_000, 64_000, 128_000, 256_000, 512_000, 1_000_000];

pub(super) fn tables() {
    begin("growth-rows");
    head(&["ns to a row", "seeds", "1,000 rows", "4,000", "16,000", "65,535", "last by first"]);
    for input in for_merging() {
        progress(&format!("growth with rows, {}", input.name));
        let by_row = |case: Case| planned(&case).each(case.rows.len());
        let cases = || ROWS.map(|count| first_rows(&input, count));
        cells(input.name, "none", &cases().map(by_row), 0);
        cells(input.name, "pages", &cases().map(|case| by_row(case.in_pages_of(PAGE))), 0);
    }
    end("growth-rows");
    begin("growth-seeds");
    let columns = ["ns to a seed", "rows", "64 seeds", "512", "4,096", "65,535", "last by 4,096"];
    head(&columns);
    for input in for_merging() {
        progress(&format!("growth with seeds, {}", input.name));
        let by_seed = |case: Case| planned(&case).each(case.gathering.len());
        let single = SEEDS.map(|seeds| first_rows(&input, seeds).in_pages_of(1));
        cells(input.name, "one to a seed", &single.map(by_seed), 2);
        let shared = [1_024, 128, 16, 1].map(|size| input.case.clone().in_pages_of(size));
        cells(input.name, "65,535", &shared.map(by_seed), 2);
    }
    end("growth-seeds");
    progress("single rows by the length of runs");
    begin("growth-runs");
    let name = |length: u64| format!("runs of {length}");
    let names = RUNS.map(name);
    let columns = ["gathering single rows"].into_iter().chain(names.iter().map(String::as_str));
    head(&columns.collect::<Vec<_>>());
    let round = || RUNS.map(single_rows);
    let pairs = (1..ROUNDS).fold(round(), |before, _| {
        let now = round();
        from_fn(|at| before[at].least(now[at]))
    });
    println!("| ns to a row | {} |", pairs.map(told).join(" | "));
    println!("| ratio | {} |", pairs.map(|pair| format!("{:.2}", pair.ratio())).join(" | "));
    end("growth-runs");
    reading();
}

/// Some 60,000 rows one by one, in runs that are far apart, so that each begins a seed.
fn single_rows(length: u64) -> Pair {
    let rows: Vec<u64> = runs(60_000 / length, 100_000, length).collect();
    let (ids, mut table) = (row_ids(&rows), vec![1; rows.len()]);
    let least = turns(
        || gather_singly(black_box(&rows), black_box(&mut table)),
        || Seeds::singly(black_box(&ids)),
    );
    least.each(rows.len())
}

/// The least of three measurements.
fn planned(case: &Case) -> Pair {
    let least = plan(case, Meter::Time).least(plan(case, Meter::Time));
    least.least(plan(case, Meter::Time))
}

/// The first rows of an input, in a coverage that ends with the last of them.
fn first_rows(input: &Input, count: usize) -> Case {
    let rows = &input.case.rows[..count];
    Case::new(0, rows[count - 1] + 1, rows.iter().copied())
}

/// A line of times to a unit, and how many times as much the last one is as the one at `from`.
fn cells(name: &str, second: &str, pairs: &[Pair], from: usize) {
    let (first, last) = (pairs[from], pairs[pairs.len() - 1]);
    let (ours, theirs) = (last.ours / first.ours, last.theirs / first.theirs);
    let pairs: Vec<String> = pairs.iter().map(|pair| told(*pair)).collect();
    println!("| {name} | {second} | {} | {ours:.2} / {theirs:.2} |", pairs.join(" | "));
}

fn reading() {
    let columns = ["tag", "1 kB", "8 kB", "64 kB", "128 kB", "256 kB", "512 kB", "1 MB", "bound"];
    let bodies: Vec<(u8, &str, [Option<Long>; 7])> =
        FORMS.iter().map(|(tag, most)| (*tag, *most, BYTES.map(|n| long(*tag, n)))).collect();
    let line = |(tag, most, long): &(u8, &str, [Option<Long>; 7]), cell: fn(&Long) -> String| {
        let shown = |body: &Option<Long>| body.as_ref().map_or("-".to_string(), cell);
        let shown: Vec<String> = long.iter().map(shown).collect();
        println!("| {tag} | {} | {most} |", shown.join(" | "));
    };
    progress("growth of validating with bytes");
    begin("growth-bytes");
    head(&columns);
    bodies.iter().for_each(|form| line(form, bytes_cell));
    end("growth-bytes");
    progress("growth of ranks with bytes");
    begin("growth-ranks");
    head(&columns);
    bodies.iter().for_each(|form| line(form, ranks_cell));
    end("growth-ranks");
    progress("a bitmap of the largest span");
    let bitmap = largest_bitmap();
    let Pair { ours, theirs } = validate(&bitmap);
    let bytes = bitmap.body.len();
    begin("growth-largest");
    head(&["bytes", "ours, ms", "the Rust, ms", "ours, bytes to a ns", "the Rust, bytes to a ns"]);
    let rate = |time: f64| format!("{:.1}", bytes as f64 / time);
    let millis = |time: f64| format!("{:.0}", time / 1e6);
    let (our_millis, their_millis) = (millis(ours), millis(theirs));
    println!("| {bytes} | {our_millis} | {their_millis} | {} | {} |", rate(ours), rate(theirs));
    end("growth-largest");
}

fn bytes_cell(long: &Long) -> String {
    let Pair { ours, theirs } = validate(long).each(long.body.len());
    format!("{ours:.3} / {theirs:.3}")
}

fn ours(long: &Long) -> Set<'_> {
    black_box(Set { tag: long.tag, span: long.span, body: &long.body })
}

fn validate(long: &Long) -> Pair {
    assert_eq!(usize::from(ours(long).validate()), long.positions.len(), "all rows are there");
    turns(
        || ours(long).validate(),
        || {
            let Set { tag, span, body } = ours(long);
            Accepted::new(tag, span, body).expect("accepted by both").count()
        },
    )
}

/// One of 4,096 ranks: with its share of the one check of the body, in brackets without it, and
/// beside them the original's on a body that it takes as validated before.
fn ranks_cell(long: &Long) -> String {
    let mut random = Random::new(8);
    let row = |_| long.positions[random.below(long.positions.len() as u64) as usize] as u32;
    let positions: Vec<u32> = (0..QUESTIONS).map(row).collect();
    let mut out = vec![0; QUESTIONS];
    let mut place = vec![0; QUESTIONS];
    let pair = turns(
        || black_box(ours(long).ranks(black_box(&positions), &mut out)),
        || {
            let Set { tag, span, body } = ours(long);
            let set = Accepted::admitted(tag, span, body);
            for (place, position) in place.iter_mut().zip(black_box(&positions)) {
                *place = set.rank(*position).map_or(u32::MAX, u32::from);
            }
            black_box(&place).len()
        },
    );
    let check = validate(long).ours;
    let each = |time: f64| digits(time / QUESTIONS as f64);
    format!("{} ({}) / {}", each(pair.ours), each(pair.ours - check), each(pair.theirs))
}
