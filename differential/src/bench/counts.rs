//! Instructions of each call, as valgrind counts them: the same on each run, whatever else the
//! machine does. The benchmark starts itself under valgrind, where each call runs once on each
//! side in a region that is counted for itself.

use super::meter::Meter;
use super::ratios::{Line, digits, lines};
use super::subject::Subject;
use super::{begin, end, head, progress};
use crate::case::Verdict;
use std::path::Path;
use std::process::Command;
use std::{env, fs, process};

/// The columns A, B and C have three shapes of what takes long.
fn is_counted(line: &Line, subject: &Subject) -> bool {
    !line.slow || matches!(subject.key, "A" | "B" | "C")
}

/// Runs under valgrind: names each measured call by line, column and units, in the order of the
/// regions.
pub(super) fn region(subjects: &[Subject]) -> Verdict {
    for (line, place) in lines().iter().zip(0..) {
        for (subject, column) in subjects.iter().zip(0..) {
            if is_counted(line, subject)
                && let Some((_, units)) = (line.measure)(subject, Meter::Instructions)
            {
                println!("{place} {column} {units}");
            }
        }
    }
    Ok(String::new())
}

pub(super) fn tables(subjects: &[Subject]) -> Result<(), String> {
    if Command::new("valgrind").arg("--version").output().is_err() {
        progress("instructions are left out: valgrind is not installed");
        return Ok(());
    }
    progress("instructions under valgrind");
    let folder = env::temp_dir().join(format!("pelisafu-counts-{}", process::id()));
    let failed = |what: &str, error: &dyn ToString| format!("{what}: {}", error.to_string());
    fs::create_dir(&folder).map_err(|error| failed("a folder for valgrind", &error))?;
    let counted = counted(&folder, subjects.len());
    fs::remove_dir_all(&folder).map_err(|error| failed("the folder for valgrind", &error))?;
    let cells = counted?;
    begin("counts");
    let keys = subjects.iter().map(|subject| subject.key);
    head(&["instructions", "to a"].into_iter().chain(keys).collect::<Vec<_>>());
    for (Line { call, unit, .. }, cells) in lines().iter().zip(cells) {
        println!("| {call} | {unit} | {} |", cells.join(" | "));
    }
    end("counts");
    Ok(())
}

/// The cells of each line.
fn counted(folder: &Path, columns: usize) -> Result<Vec<Vec<String>>, String> {
    let own = env::current_exe().map_err(|error| error.to_string())?;
    let out = folder.join("counts");
    let run = Command::new("valgrind")
        .args(["--tool=callgrind", "--quiet"])
        .args(["--toggle-collect=counted_region", "--dump-after=counted_region"])
        .arg(format!("--callgrind-out-file={}", out.display()))
        .arg(own)
        .args(["bench", "counting"])
        .output()
        .map_err(|error| format!("valgrind: {error}"))?;
    if !run.status.success() {
        return Err(format!("valgrind: {}", String::from_utf8_lossy(&run.stderr)));
    }
    let mut cells = vec![vec!["-".to_string(); columns]; lines().len()];
    let mut dumps = (1..).map(|number| total(&folder.join(format!("counts.{number}"))));
    for named in String::from_utf8_lossy(&run.stdout).lines().filter(|line| !line.is_empty()) {
        let numbers: Option<Vec<usize>> = named.split(' ').map(|n| n.parse().ok()).collect();
        let [line, column, units] = numbers.as_deref().unwrap_or(&[]) else {
            return Err(format!("no region: {named}"));
        };
        let mut next = || dumps.next().flatten().ok_or(format!("no count for {named}"));
        let [ours, theirs] = [next()?, next()?].map(|n| digits(n / *units as f64));
        cells[*line][*column] = format!("{ours} / {theirs}");
    }
    Ok(cells)
}

/// The instructions of one region.
fn total(dump: &Path) -> Option<f64> {
    let text = fs::read_to_string(dump).ok()?;
    let line = text.lines().find_map(|line| line.strip_prefix("totals: "))?;
    line.split(' ').next()?.parse().ok()
}
