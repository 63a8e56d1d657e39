//! The field unit's calls: a statement, a table and a line or a sheet to the bytes after it; a statement to its foot; a
//! book to its sheet.

use crate::listing::push_foot;
use crate::parsing::{parse, Entry};
use crate::refusal::Refusal;
use crate::sheet;
use crate::statement;
use crate::tables::Table;

/// Statement, table, a line or a sheet, and output; the bytes written, or a refusal's number with a minus sign.
pub type CallOfThree = fn(&[u8], &[u8], &[u8], &mut [u8]) -> i64;

/// A statement or a book, and output; the bytes written, or a refusal's number with a minus sign.
pub type CallOfOne = fn(&[u8], &mut [u8]) -> i64;

/// The calls of one implementation.
#[derive(Debug, Clone, Copy)]
pub struct Calls {
    pub line: CallOfThree,
    pub foot: CallOfOne,
    pub import: CallOfThree,
    pub export: CallOfOne,
}

pub const TWIN: Calls = Calls { line: twin, foot: twin_foot, import: twin_import, export: twin_export };

/// Everything that refuses is weighed from the smallest number up: the line, the table, the statement, the state.
pub fn account_line(statement: &[u8], table: &[u8], line: &[u8]) -> Result<Vec<u8>, Refusal> {
    let entry = parse(line)?;
    let mut table = Table::from_bytes(table)?;
    if let Entry::Column { column, cells } = &entry {
        table.extend(*column, cells)?;
        statement::read(statement)?.apply(&entry, &table)?;
        return Ok(table.to_bytes());
    }
    let mut holding = statement::read(statement)?;
    let report = holding.apply(&entry, &table)?;
    let mut out = statement::write(&holding);
    if let Some(report) = report {
        report.write(&mut out);
    }
    Ok(out)
}

/// The foot of the listing of a book that leads to the statement.
pub fn foot(statement: &[u8]) -> Result<Vec<u8>, Refusal> {
    let mut out = Vec::new();
    push_foot(&mut out, &statement::read(statement)?);
    Ok(out)
}

/// The statement with a sheet's sub-areas. The table is judged first, then the statement, then the sheet.
pub fn import_sheet(statement: &[u8], table: &[u8], sheet: &[u8]) -> Result<Vec<u8>, Refusal> {
    let table = Table::from_bytes(table)?;
    let mut holding = statement::read(statement)?;
    sheet::import(&mut holding, &table, sheet)?;
    Ok(statement::write(&holding))
}

pub fn twin(statement: &[u8], table: &[u8], line: &[u8], out: &mut [u8]) -> i64 {
    written(account_line(statement, table, line), out)
}

pub fn twin_foot(statement: &[u8], out: &mut [u8]) -> i64 {
    written(foot(statement), out)
}

pub fn twin_import(statement: &[u8], table: &[u8], sheet: &[u8], out: &mut [u8]) -> i64 {
    written(import_sheet(statement, table, sheet), out)
}

pub fn twin_export(book: &[u8], out: &mut [u8]) -> i64 {
    written(sheet::export(book), out)
}

fn written(result: Result<Vec<u8>, Refusal>, out: &mut [u8]) -> i64 {
    let length = result.and_then(|bytes| {
        out.get_mut(..bytes.len()).ok_or(Refusal::Room)?.copy_from_slice(&bytes);
        Ok(bytes.len())
    });
    match length {
        Ok(length) => length as i64,
        Err(refusal) => -i64::from(refusal.number()),
    }
}
