//! Instructions, as valgrind's callgrind counts them: the same at every run.

use crate::pair::Pair;
use crate::programs::Programs;
use std::process::Command;

const CALLS: u64 = 10;

/// Of one call: what ten more calls cost, by ten.
pub fn of_row(row: usize) -> Result<Pair<f64>, String> {
    let cost = |who: &str| {
        let more = calls(who, row, 1 + CALLS)? - calls(who, row, 1)?;
        Ok::<f64, String>(more as f64 / CALLS as f64)
    };
    Ok(Pair { engine: cost("engine")?, twin: cost("twin")? })
}

fn calls(who: &str, row: usize, times: u64) -> Result<u64, String> {
    let own = std::env::current_exe().map_err(|problem| problem.to_string())?;
    let words = ["--only", who, &row.to_string(), &times.to_string()];
    collected(callgrind().arg(own).args(words))
}

/// Of the whole process, its start with it.
pub fn of_programs(programs: &Programs) -> Result<Pair<f64>, String> {
    let cost = |program: &str| Ok::<f64, String>(collected(callgrind().arg(program).stdin(programs.open()?))? as f64);
    Ok(Pair { engine: cost(&programs.programs.engine)?, twin: cost(&programs.programs.twin)? })
}

fn callgrind() -> Command {
    let mut command = Command::new("valgrind");
    command.args(["--tool=callgrind", "--callgrind-out-file=/dev/null"]);
    command
}

fn collected(command: &mut Command) -> Result<u64, String> {
    let output = command.output().map_err(|problem| format!("valgrind: {problem}"))?;
    let said = String::from_utf8_lossy(&output.stderr);
    let count = said.split("Collected : ").nth(1).and_then(|rest| rest.split_whitespace().next()?.parse().ok());
    count.filter(|_| output.status.success()).ok_or_else(|| format!("valgrind counted nothing:\n{said}"))
}
