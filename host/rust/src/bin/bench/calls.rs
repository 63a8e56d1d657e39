//! The calls of both on a row's bytes.

use crate::pair::Pair;
use crate::rows::{rows, Asked, Row};
use crate::timing::least_of_batches;
use carbon_twin::call::{Calls, TWIN};
use carbon_twin::engine::engine_calls;
use carbon_twin::header::size;
use std::cell::RefCell;
use std::hint::black_box;

const FILLED: u8 = 0xA5;

pub fn both() -> Result<Pair<Calls>, String> {
    let engine = engine_calls().ok_or("built without ENGINE_ARCHIVE: there is no engine to measure")?;
    Ok(Pair { engine, twin: TWIN })
}

/// An output for the row, of the size that is always enough.
fn output(row: &Row) -> Vec<u8> {
    let room = if let Asked::Export(_) = row.asked { "CARBON_EXPORT_BYTES" } else { "CARBON_OUT_BYTES" };
    vec![FILLED; size(room)]
}

/// Whether both take what the row asks, or refuse it as is due, and write the same bytes.
pub fn agree(calls: Pair<Calls>, row: &Row) -> Result<(), String> {
    let Pair { engine, twin } = calls.map(|calls| {
        let mut out = output(row);
        (make(calls, row, &mut out), out)
    });
    if engine != twin {
        return Err(format!("{}: the answers differ, {} and {}", row.name, engine.0, twin.0));
    }
    let refused = (twin.0 < 0).then_some(-twin.0);
    if refused != row.refusal.map(|refusal| i64::from(refusal.number())) {
        return Err(format!("{}: the answer is {}", row.name, twin.0));
    }
    Ok(())
}

/// Nanoseconds of a call. Both write to the same output.
pub fn time(calls: Pair<Calls>, row: &Row) -> Pair<f64> {
    let out = &RefCell::new(output(row));
    least_of_batches(calls.map(|calls| {
        move || {
            make(calls, row, &mut out.borrow_mut());
        }
    }))
}

/// Makes the calls of a row so many times, by the engine or the twin.
pub fn only(who: &str, row: usize, times: u32) -> Result<(), String> {
    let calls = both()?;
    let calls = match who {
        "engine" => calls.engine,
        "twin" => calls.twin,
        _ => return Err(format!("{who} is neither engine nor twin")),
    };
    let rows = rows();
    let row = rows.get(row).ok_or_else(|| format!("there is no row {row}"))?;
    let mut out = output(row);
    for _ in 0..times {
        make(calls, row, &mut out);
    }
    Ok(())
}

fn make(calls: Calls, row: &Row, out: &mut [u8]) -> i64 {
    let (statement, out) = (black_box(row.statement.as_slice()), black_box(out));
    black_box(match &row.asked {
        Asked::Line(line) => (calls.line)(statement, &[], black_box(line.as_bytes()), out),
        Asked::Foot => (calls.foot)(statement, out),
        Asked::Import(sheet) => (calls.import)(statement, &[], black_box(sheet), out),
        Asked::Export(book) => (calls.export)(black_box(book), out),
    })
}
