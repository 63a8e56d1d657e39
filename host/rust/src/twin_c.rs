//! The twin's calls for C, each with the signature of the engine's call of its name.

use crate::call::{CallOfOne, CallOfThree, TWIN};
use std::slice::{from_raw_parts, from_raw_parts_mut};

/// Bytes that C lends: where they start, and how many.
type Lent = (*const u8, usize);
type LentOut = (*mut u8, usize);

/// # Safety
/// Each pointer is valid for its length; the output overlaps nothing else.
unsafe fn on_three(call: CallOfThree, one: Lent, two: Lent, three: Lent, out: LentOut) -> i64 {
    call(
        from_raw_parts(one.0, one.1),
        from_raw_parts(two.0, two.1),
        from_raw_parts(three.0, three.1),
        from_raw_parts_mut(out.0, out.1),
    )
}

/// # Safety
/// Each pointer is valid for its length; the output overlaps nothing else.
unsafe fn on_one(call: CallOfOne, one: Lent, out: LentOut) -> i64 {
    call(from_raw_parts(one.0, one.1), from_raw_parts_mut(out.0, out.1))
}

/// # Safety
/// Each pointer is valid for its length; the output overlaps nothing else.
#[no_mangle]
pub unsafe extern "C" fn carbon_account_line_twin(
    statement: *const u8,
    statement_length: usize,
    table: *const u8,
    table_length: usize,
    line: *const u8,
    line_length: usize,
    out: *mut u8,
    out_length: usize,
) -> i64 {
    let (statement, table) = ((statement, statement_length), (table, table_length));
    on_three(TWIN.line, statement, table, (line, line_length), (out, out_length))
}

/// # Safety
/// Each pointer is valid for its length; the output overlaps nothing else.
#[no_mangle]
pub unsafe extern "C" fn carbon_foot_twin(
    statement: *const u8,
    statement_length: usize,
    out: *mut u8,
    out_length: usize,
) -> i64 {
    on_one(TWIN.foot, (statement, statement_length), (out, out_length))
}

/// # Safety
/// Each pointer is valid for its length; the output overlaps nothing else.
#[no_mangle]
pub unsafe extern "C" fn carbon_import_sheet_twin(
    statement: *const u8,
    statement_length: usize,
    table: *const u8,
    table_length: usize,
    sheet: *const u8,
    sheet_length: usize,
    out: *mut u8,
    out_length: usize,
) -> i64 {
    let (statement, table) = ((statement, statement_length), (table, table_length));
    on_three(TWIN.import, statement, table, (sheet, sheet_length), (out, out_length))
}

/// # Safety
/// Each pointer is valid for its length; the output overlaps nothing else.
#[no_mangle]
pub unsafe extern "C" fn carbon_export_sheet_twin(
    book: *const u8,
    book_length: usize,
    out: *mut u8,
    out_length: usize,
) -> i64 {
    on_one(TWIN.export, (book, book_length), (out, out_length))
}
