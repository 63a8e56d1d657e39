//! Measures the engine beside the twin on the same bytes; built with ENGINE_ARCHIVE.
//!
//!   bench PROGRAM TWIN BOOK..                 nanoseconds of each call, and of both programs `book` on each book
//!   bench PROGRAM TWIN BOOK.. --instructions  instructions instead, as callgrind counts them
//!   bench --only engine|twin ROW TIMES        the calls of one row and nothing else, for callgrind to count
//!
//! Both must first give the same answers and bytes; a difference ends the run with 1.

mod calls;
mod instructions;
mod options;
mod pair;
mod programs;
mod rows;
mod table;
mod timing;

use options::{Measure, Options};
use programs::Programs;
use std::process::ExitCode;
use table::{Measured, Table};

fn main() -> ExitCode {
    let done = match Options::read(std::env::args().skip(1)) {
        Ok(Options::Only { who, row, times }) => calls::only(&who, row, times),
        Ok(Options::Table { measure, programs }) => table_of(measure, &programs).map(|table| print!("{table}")),
        Err(problem) => Err(problem),
    };
    match done {
        Ok(()) => ExitCode::SUCCESS,
        Err(problem) => {
            eprintln!("bench: {problem}");
            ExitCode::FAILURE
        }
    }
}

fn table_of(measure: Measure, programs: &[Programs]) -> Result<Table, String> {
    for on_book in programs {
        on_book.agree()?;
    }
    let mut rows = measured_calls(measure)?;
    for on_book in programs {
        rows.push(measured_programs(measure, on_book)?);
    }
    if let (Measure::Time, Some(first)) = (measure, programs.first()) {
        rows.push(Measured { name: "of that, the start of the process".into(), cost: first.start().time() });
    }
    Ok(Table { unit: measure.unit(), rows })
}

fn measured_programs(measure: Measure, programs: &Programs) -> Result<Measured, String> {
    let cost = match measure {
        Measure::Time => programs.time(),
        Measure::Instructions => instructions::of_programs(programs)?,
    };
    Ok(Measured { name: programs.name()?, cost })
}

fn measured_calls(measure: Measure) -> Result<Vec<Measured>, String> {
    let calls = calls::both()?;
    let mut measured = Vec::new();
    for (place, row) in rows::rows().into_iter().enumerate() {
        calls::agree(calls, &row)?;
        let cost = match measure {
            Measure::Time => calls::time(calls, &row),
            Measure::Instructions => instructions::of_row(place)?,
        };
        measured.push(Measured { name: row.name, cost });
    }
    Ok(measured)
}
