//! The comparison with the Rust that Pelisafu is a port of. See docs/DIFFERENCES.md.

extern crate counting_std as std;

// The original finds its imports at the root of its crate, so the stand-ins stand here.
#[path = "stand_ins/bit_width.rs"]
mod bit_width;
#[path = "stand_ins/error.rs"]
mod error;
#[path = "stand_ins/id.rs"]
mod id;
#[path = "stand_ins/lwc.rs"]
mod lwc;

#[cfg(pelisafu)]
mod bench;
mod case;
mod deletions;
mod examples;
mod index;
mod listing;
mod merging;
#[cfg(pelisafu)]
mod pelisafu;
mod plain;
mod random;
mod reading;
mod record;
mod shrink;

use std::process::ExitCode;

const USAGE: &str = "differential shrinking|examples|merging|reading|largest|deletions|listing|\
                     pelisafu|planning|guarded|recorded|bench|record, or differential soak SECONDS SEED";

fn main() -> ExitCode {
    index::original::hush_caught_panics();
    let name = std::env::args().nth(1).unwrap_or_default();
    let verdict = match name.as_str() {
        "examples" => examples::compare(),
        "merging" => merging::compare(),
        "reading" => reading::compare(),
        "largest" => reading::compare_largest(),
        "deletions" => deletions::compare(),
        "listing" => listing::compare(),
        "shrinking" => shrink::check(),
        #[cfg(pelisafu)]
        "pelisafu" => pelisafu::compare(),
        #[cfg(pelisafu)]
        "planning" => pelisafu::compare_planning(),
        #[cfg(pelisafu)]
        "guarded" => pelisafu::compare_guarded(),
        #[cfg(pelisafu)]
        "soak" => soak(),
        #[cfg(pelisafu)]
        "bench" => bench::tables(std::env::args().nth(2).as_deref()),
        "record" => record::write(),
        "recorded" => record::compare(),
        _ => Err(format!("usage: {USAGE}")),
    };
    match verdict {
        Ok(summary) => {
            println!("{summary}");
            ExitCode::SUCCESS
        }
        Err(difference) => {
            eprintln!("{name}: {difference}");
            ExitCode::FAILURE
        }
    }
}

/// Runs for as many seconds as the second argument says, from the seed that the third one names.
#[cfg(pelisafu)]
fn soak() -> case::Verdict {
    let number = |place| std::env::args().nth(place).and_then(|n| n.parse().ok());
    match (number(2), number(3)) {
        (Some(seconds), Some(seed)) => pelisafu::soak(seconds, seed),
        _ => Err(format!("usage: {USAGE}")),
    }
}
