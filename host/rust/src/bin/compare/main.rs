//! Holds the engine's calls against the twin's, on seeded cases.
//!
//!   compare [--calls N] [--seed N]      the engine against the twin; built with ENGINE_ARCHIVE
//!   compare --with-itself ..            the twin against itself, which tries only the cases
//!   compare --book PROGRAM [--books N]  a program's listings against the twin's
//!   compare --sheet PROGRAM ..          a program's exports of books against the twin's
//!
//! A difference is printed as the smallest case found, and ends the run with 1.

mod books;
mod case;
mod cases;
mod crowded;
mod damage;
mod edges;
mod holdings;
mod kinds;
mod limits;
mod lines;
mod options;
mod random;
#[cfg(test)]
mod sheet_tests;
mod sheets;
mod shrink;
mod tables;
mod tally;
#[cfg(test)]
mod tests;

use carbon_twin::call::{Calls, TWIN};
use carbon_twin::engine::engine_calls;
use case::{Case, Outcome};
use cases::Cases;
use options::Options;
use std::process::ExitCode;
use std::time::Instant;
use tally::Tally;

/// Below so many calls, an answer may well be missing by chance.
const ENOUGH_FOR_EVERY_ANSWER: u64 = 100_000;

fn main() -> ExitCode {
    let options = match Options::read(std::env::args().skip(1)) {
        Ok(options) => options,
        Err(problem) => return failed(&problem),
    };
    let printed = [(&options.book, &books::LISTING), (&options.sheet, &books::EXPORT)];
    match printed.iter().find_map(|(program, printed)| Some((program.as_ref()?, printed))) {
        Some((program, printed)) => said(books::compare(program, printed, options.books, options.seed)),
        None => compare_calls(&options),
    }
}

fn compare_calls(options: &Options) -> ExitCode {
    let (name, calls) = match (options.with_itself, engine_calls()) {
        (true, _) => ("the twin with itself", TWIN),
        (false, Some(engine)) => ("the engine with the twin", engine),
        (false, None) => {
            return failed("built without ENGINE_ARCHIVE: there is no engine to compare; see --with-itself")
        }
    };
    let started = Instant::now();
    let cases = edges::cases().chain(seeded(options.calls, options.seed));
    match compare(calls, TWIN, cases) {
        Err(problem) => failed(&problem),
        Ok(tally) if options.calls >= ENOUGH_FOR_EVERY_ANSWER && !tally.missing().is_empty() => {
            failed(&format!("{tally}\nnever met: {}", tally.missing().join(", ")))
        }
        Ok(tally) => {
            let (calls, seed, seconds) = (tally.calls(), options.seed, started.elapsed().as_secs_f64());
            passed(&format!("{name}: {calls} calls alike, seed {seed}, {seconds:.1} s\n{tally}"))
        }
    }
}

fn said(compared: Result<String, String>) -> ExitCode {
    match compared {
        Ok(said) => passed(&said),
        Err(problem) => failed(&problem),
    }
}

fn passed(said: &str) -> ExitCode {
    println!("{said}");
    ExitCode::SUCCESS
}

fn failed(problem: &str) -> ExitCode {
    eprintln!("compare: {problem}");
    ExitCode::FAILURE
}

/// So many cases of the seed.
fn seeded(calls: u64, seed: u64) -> impl Iterator<Item = Case> {
    let mut cases = Cases::new(seed);
    (0..calls).map(move |_| cases.next())
}

/// Counts the answers where all are alike; else says where the two part, on the smallest case found.
fn compare(one: Calls, other: Calls, cases: impl Iterator<Item = Case>) -> Result<Tally, String> {
    tallied(one, other, cases).map_err(|case| {
        let smallest = shrink::shrink(case, &|case| differ(&case.run(one), &case.run(other)));
        describe(&smallest, one, other)
    })
}

/// Counts the answers where all are alike; else gives the first case where the two part.
fn tallied(one: Calls, other: Calls, cases: impl Iterator<Item = Case>) -> Result<Tally, Case> {
    let mut tally = Tally::default();
    for case in cases {
        let outcome = case.run(one);
        if differ(&outcome, &case.run(other)) {
            return Err(case);
        }
        tally.count(&case, &outcome);
    }
    Ok(tally)
}

fn differ(one: &Outcome, other: &Outcome) -> bool {
    one != other || one.touches_more()
}

fn describe(case: &Case, one: Calls, other: Calls) -> String {
    let (first, second) = (case.run(one), case.run(other));
    format!("the answers differ; the smallest case found is\n{case}\n  answers   {first}\n  twin      {second}")
}
