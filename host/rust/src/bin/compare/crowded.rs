//! An area of many sub-areas, up to the limit and past it: lines, sheets and the foot on its statement, and the export of
//! its book.

use crate::case::Case;
use crate::holdings::{MANY_SUBS, ONE_TOO_MANY};

/// Before any return, and after two that received all they may, or one more.
const FIELDS: [&str; 3] = [
    "2010,2010,0,0,0,0,0,0",
    "2010,2012,2011,0,2,0,6000000000,1000000000",
    "2010,2012,2011,0,2,0,6000000001,1000000000",
];

pub fn cases() -> impl Iterator<Item = Case> {
    MANY_SUBS.into_iter().chain([ONE_TOO_MANY]).flat_map(|subs| {
        let statements = FIELDS.into_iter().map(move |fields| statement_of(fields, subs));
        let on_each = statements.flat_map(move |statement| on(statement, subs));
        on_each.chain([Case::export(book_of(subs))])
    })
}

/// Every sub-area is cleared and entered again in turn, and so is one more; sheets add none, and more up to two too many.
fn on(statement: String, subs: usize) -> impl Iterator<Item = Case> {
    let of_sub = |sub: usize| [format!("C,7,{sub},2012"), format!("S,7,{}", row(sub))];
    let lines = ["A,8,2010", "R,7,2012", "W,7"].map(str::to_string).into_iter().chain((1..=subs + 1).flat_map(of_sub));
    let sheets = (subs..=ONE_TOO_MANY + 1).map(move |last| sheet_of(subs + 1, last));
    let feet = doubled(&statement, subs).into_iter().chain([statement.clone()]);
    let bytes = statement.into_bytes();
    let onto = bytes.clone();
    let by_lines = lines.map(move |line| Case::line(bytes.clone(), Vec::new(), line.into_bytes()));
    let by_sheets = sheets.map(move |sheet| Case::import(onto.clone(), Vec::new(), sheet.into_bytes()));
    by_lines.chain(by_sheets).chain(feet.map(|statement| Case::foot(statement.into_bytes())))
}

/// The statement with each sub-area in turn under the number of the one before it.
fn doubled(statement: &str, subs: usize) -> Vec<String> {
    let under = |sub: usize| statement.replacen(&format!("\nS,{sub},"), &format!("\nS,{},", sub - 1), 1);
    (2..=subs).map(under).collect()
}

/// Sub-area n has n hectares.
fn statement_of(fields: &str, subs: usize) -> String {
    let lines: String = (1..=subs).map(|sub| format!("S,{sub},{}0,D,{},B,0,0\n", sub, 1960 + sub)).collect();
    format!("H,1\nA,7,{fields},{subs}\n{lines}")
}

fn row(sub: usize) -> String {
    format!("7,{sub},{sub},D,{}", 1960 + sub)
}

fn sheet_of(first: usize, last: usize) -> String {
    let rows: String = (first..=last).map(|sub| row(sub) + "\r\n").collect();
    format!("area,sub,hectares,type,planted\r\n{rows}")
}

fn book_of(subs: usize) -> Vec<u8> {
    let lines: String = (1..=subs).map(|sub| format!("S,{}\n", row(sub))).collect();
    format!("A,7,2010\n{lines}R,7,2012\n").into_bytes()
}
