//! That faults of an import and of an export are found, and shrunk.

use crate::tests::{assert_found_and_shrunk, is_found};
use carbon_twin::call::{twin_export, twin_import, CallOfOne, CallOfThree, Calls, TWIN};
use carbon_twin::listing::lines;

fn takes_the_rows_before_the_one_refused(statement: &[u8], table: &[u8], sheet: &[u8], out: &mut [u8]) -> i64 {
    let mut rows: Vec<&[u8]> = sheet.split_inclusive(|&byte| byte == b'\n').collect();
    let mut answer = twin_import(statement, table, sheet, out);
    while (-32..=-22).contains(&answer) {
        rows.pop();
        answer = twin_import(statement, table, &rows.concat(), out);
    }
    answer
}

fn judges_the_heading_first(statement: &[u8], table: &[u8], sheet: &[u8], out: &mut [u8]) -> i64 {
    match twin_import(statement, table, sheet, out) {
        -41 if !sheet.starts_with(b"area") && !sheet.starts_with(b"\"area") => -42,
        answer => answer,
    }
}

fn takes_a_bare_line_feed(statement: &[u8], table: &[u8], sheet: &[u8], out: &mut [u8]) -> i64 {
    let answer = twin_import(statement, table, sheet, out);
    if answer != -41 {
        return answer;
    }
    let mut mended = Vec::new();
    for (place, &byte) in sheet.iter().enumerate() {
        if byte == b'\n' && (place == 0 || sheet[place - 1] != b'\r') {
            mended.push(b'\r');
        }
        mended.push(byte);
    }
    twin_import(statement, table, &mended, out)
}

fn loses_the_last_row_without_an_end(statement: &[u8], table: &[u8], sheet: &[u8], out: &mut [u8]) -> i64 {
    let answer = twin_import(statement, table, sheet, &mut out.to_vec());
    let end = sheet.iter().rposition(|&byte| byte == b'\n').map_or(0, |last| last + 1);
    if answer > 0 && end > 0 {
        return twin_import(statement, table, &sheet[..end], out);
    }
    twin_import(statement, table, sheet, out)
}

fn import_refuses_exact_room(statement: &[u8], table: &[u8], sheet: &[u8], out: &mut [u8]) -> i64 {
    if twin_import(statement, table, sheet, &mut out.to_vec()) == out.len() as i64 {
        return -8;
    }
    twin_import(statement, table, sheet, out)
}

#[test]
fn every_fault_of_an_import_is_found_and_shrunk() {
    let faults: [(&str, CallOfThree); 5] = [
        ("not entire", takes_the_rows_before_the_one_refused),
        ("42 before 41", judges_the_heading_first),
        ("LF alone", takes_a_bare_line_feed),
        ("the last row", loses_the_last_row_without_an_end),
        ("room of an import", import_refuses_exact_room),
    ];
    for (name, import) in faults {
        assert_found_and_shrunk(name, Calls { import, ..TWIN });
    }
}

fn full_is_used(statement: &[u8], table: &[u8], sheet: &[u8], out: &mut [u8]) -> i64 {
    match twin_import(statement, table, sheet, out) {
        -26 => -25,
        answer => answer,
    }
}

#[test]
fn sheets_fill_an_area() {
    assert!(is_found(Calls { import: full_is_used, ..TWIN }));
}

/// Each field of every row with the change, where an export is made.
fn with_fields_changed(book: &[u8], out: &mut [u8], change: fn(&str) -> String) -> i64 {
    let answer = twin_export(book, &mut out.to_vec());
    if answer < 0 {
        return answer;
    }
    let mut made = vec![0; answer as usize];
    twin_export(book, &mut made);
    let changed = change(std::str::from_utf8(&made).expect("an export is text"));
    out[..changed.len()].copy_from_slice(changed.as_bytes());
    changed.len() as i64
}

fn drops_ending_noughts(book: &[u8], out: &mut [u8]) -> i64 {
    with_fields_changed(book, out, |sheet| sheet.replace("0\",\"B\"", "\",\"B\""))
}

fn orders_the_rows(book: &[u8], out: &mut [u8]) -> i64 {
    with_fields_changed(book, out, |sheet| {
        let mut rows: Vec<&str> = sheet.split_inclusive("\r\n").collect();
        rows[1..].sort();
        rows.concat()
    })
}

fn exports_without_withdrawals(book: &[u8], out: &mut [u8]) -> i64 {
    let kept: Vec<&[u8]> = lines(book).filter(|line| !line.starts_with(b"W,")).collect();
    if book.len() > 65_536 {
        return twin_export(book, out);
    }
    twin_export(&kept.concat(), out)
}

fn export_touches_on_refusal(book: &[u8], out: &mut [u8]) -> i64 {
    let answer = twin_export(book, out);
    if answer == -8 && !out.is_empty() {
        out[0] = 0;
    }
    answer
}

#[test]
fn every_fault_of_an_export_is_found_and_shrunk() {
    let faults: [(&str, CallOfOne); 4] = [
        ("hectares not as entered", drops_ending_noughts),
        ("rows in order of area", orders_the_rows),
        ("a refused S line", exports_without_withdrawals),
        ("refusal of an export", export_touches_on_refusal),
    ];
    for (name, export) in faults {
        assert_found_and_shrunk(name, Calls { export, ..TWIN });
    }
}

/// The edges have no book of more bytes than a book may have.
fn takes_an_oversized_book(book: &[u8], out: &mut [u8]) -> i64 {
    twin_export(&book[..book.len().min(65_536)], out)
}

#[test]
fn oversized_books_are_tried() {
    assert!(is_found(Calls { export: takes_an_oversized_book, ..TWIN }));
}
