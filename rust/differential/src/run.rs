//! One run: the corpus first, then the cases that are made, then what never occurred.

use std::fs;
use std::path::{Path, PathBuf};
use std::time::Instant;

use crate::case::Case;
use crate::case_file;
use crate::census::Tally;
use crate::compare::{compare, Library};
use crate::kinds::{make_case, KINDS};
use crate::options::Options;

/// From this many cases on, every outcome of every kind is asked to occur.
const ENOUGH_CASES: u64 = 20_000;

/// The run's last line, or what went wrong.
pub fn run(options: &Options) -> Result<String, String> {
    let start = Instant::now();
    let corpus = replay_corpus(options)?;
    println!("{}", corpus.summary("corpus"));
    let tallies = compare_made(options)?;
    let mut total = corpus;
    for (kind, tally) in KINDS.iter().zip(&tallies) {
        println!("{}", tally.summary(kind.name));
        total.add(tally);
    }
    if options.cases >= ENOUGH_CASES {
        check_occurred(&tallies)?;
    } else {
        println!("fewer than {ENOUGH_CASES} cases: not asked whether every outcome occurred");
    }
    Ok(format!("{}; no difference; seed {}, {:.1} s", total.summary("total"), options.seed, start.elapsed().as_secs_f64()))
}

fn compare_made(options: &Options) -> Result<Vec<Tally>, String> {
    let mut tallies = vec![Tally::default(); KINDS.len()];
    for number in 0..options.cases {
        let (kind, case) = make_case(options.seed, number);
        let name = KINDS[kind].name;
        let origin = format!("seed {} case {number} ({name})", options.seed);
        let outcome = compare(&case, &Library).map_err(|difference| report(options, &case, number, &origin, &difference))?;
        tallies[kind].count(outcome);
    }
    Ok(tallies)
}

/// Writes the case to a file, and tells of it.
fn report(options: &Options, case: &Case, number: u64, origin: &str, difference: &str) -> String {
    let path = options.found.join(format!("difference-{}-{number}.case", options.seed));
    let remark = format!("{origin}\n{difference}");
    let told = match fs::write(&path, case_file::written(case, &remark)) {
        Ok(()) => format!("the case is in {}", path.display()),
        Err(error) => format!("the case could not be written to {}: {error}", path.display()),
    };
    format!("DIFFERENCE in {}, {origin}: {difference}\n{told}", case.entry.name())
}

fn check_occurred(tallies: &[Tally]) -> Result<(), String> {
    let missing: Vec<String> = KINDS
        .iter()
        .zip(tallies)
        .flat_map(|(kind, tally)| tally.missing(kind).into_iter().map(|number| format!("{}: outcome {number} never occurred", kind.name)))
        .collect();
    if missing.is_empty() {
        Ok(())
    } else {
        Err(missing.join("\n"))
    }
}

fn replay_corpus(options: &Options) -> Result<Tally, String> {
    let mut tally = Tally::default();
    for path in corpus_files(&options.corpus)? {
        let told = |problem: String| format!("{}: {problem}", path.display());
        let file = fs::read_to_string(&path).map_err(|error| told(error.to_string()))?;
        let case = case_file::read(&file).map_err(told)?;
        let outcome = compare(&case, &Library).map_err(|difference| format!("DIFFERENCE in {}", told(difference)))?;
        tally.count(outcome);
    }
    if tally.cases() == 0 {
        return Err(format!("no cases in {}", options.corpus.display()));
    }
    Ok(tally)
}

/// The case files in the order of their names.
fn corpus_files(folder: &Path) -> Result<Vec<PathBuf>, String> {
    let entries = fs::read_dir(folder).map_err(|error| format!("{}: {error}", folder.display()))?;
    let mut files: Vec<PathBuf> = entries.filter_map(|entry| entry.ok().map(|entry| entry.path())).collect();
    files.retain(|path| path.extension().is_some_and(|extension| extension == "case"));
    files.sort();
    Ok(files)
}
