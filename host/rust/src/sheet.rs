//! Sub-area schedules as comma-separated values: read by the grammar of RFC 4180, section 2, and written with every field quoted.

use crate::holding::Holding;
use crate::listing::{lines, Account};
use crate::parsing::parse;
use crate::ranges::BOOK_BYTES;
use crate::refusal::{refuse_if, Refusal};
use crate::tables::Table;
use std::borrow::Cow;

/// A row's fields, unquoted.
pub type Row<'a> = Vec<Cow<'a, [u8]>>;

pub const HEADING: [&str; 5] = ["area", "sub", "hectares", "type", "planted"];

/// "file = record *(CRLF record) [CRLF]"
pub fn rows(mut sheet: &[u8]) -> Result<Vec<Row<'_>>, Refusal> {
    let mut rows = Vec::new();
    while !sheet.is_empty() {
        let (row, behind) = record(sheet)?;
        rows.push(row);
        sheet = behind;
    }
    Ok(rows)
}

/// "record = field *(COMMA field)", and what stands behind its CRLF.
fn record(mut sheet: &[u8]) -> Result<(Row<'_>, &[u8]), Refusal> {
    let mut row = Row::with_capacity(HEADING.len());
    loop {
        let (field, behind) = field(sheet)?;
        row.push(field);
        match behind {
            [b',', next @ ..] => sheet = next,
            [] | [b'\r', b'\n', ..] => return Ok((row, behind.get(2..).unwrap_or_default())),
            _ => return Err(Refusal::SheetForm),
        }
    }
}

/// "field = (escaped / non-escaped)"; "non-escaped = *TEXTDATA", and every byte is text but comma, quote, CR and LF.
fn field(sheet: &[u8]) -> Result<(Cow<'_, [u8]>, &[u8]), Refusal> {
    if let [b'"', inside @ ..] = sheet {
        return escaped(inside);
    }
    let end = sheet.iter().position(|byte| matches!(byte, b',' | b'"' | b'\r' | b'\n')).unwrap_or(sheet.len());
    Ok((Cow::Borrowed(&sheet[..end]), &sheet[end..]))
}

/// "escaped = DQUOTE *(TEXTDATA / COMMA / CR / LF / 2DQUOTE) DQUOTE", from behind the first quote.
fn escaped(mut inside: &[u8]) -> Result<(Cow<'_, [u8]>, &[u8]), Refusal> {
    let mut field = Cow::Borrowed(&inside[..0]);
    loop {
        let quote = inside.iter().position(|&byte| byte == b'"').ok_or(Refusal::SheetForm)?;
        let (text, behind) = (&inside[..quote], &inside[quote + 1..]);
        if field.is_empty() {
            field = Cow::Borrowed(text);
        } else {
            field.to_mut().extend_from_slice(text);
        }
        let [b'"', further @ ..] = behind else {
            return Ok((field, behind));
        };
        field.to_mut().push(b'"');
        inside = further;
    }
}

/// Adds a sheet's sub-areas to a holding, all of them, or refuses the sheet and leaves the holding as it was.
pub fn import(holding: &mut Holding, table: &Table, sheet: &[u8]) -> Result<(), Refusal> {
    let rows = rows(sheet)?;
    let headed = rows.first().is_some_and(|row| row.iter().eq(HEADING.map(str::as_bytes).iter()));
    let of_five = rows.iter().all(|row| row.len() == HEADING.len());
    refuse_if(!(headed && of_five), Refusal::SheetRow)?;
    let mut after = holding.clone();
    let mut line = Vec::new();
    for row in &rows[1..] {
        write_line(&mut line, row);
        after.apply(&parse(&line)?, table)?;
    }
    *holding = after;
    Ok(())
}

/// The S line of a row: its fields joined by commas.
fn write_line(line: &mut Vec<u8>, row: &Row<'_>) {
    line.clear();
    line.push(b'S');
    for field in row {
        line.push(b',');
        line.extend_from_slice(field);
    }
    line.push(b'\n');
}

/// The accepted S entries of a book as a sheet, in the book's order.
pub fn export(book: &[u8]) -> Result<Vec<u8>, Refusal> {
    refuse_if(book.len() > BOOK_BYTES, Refusal::Form)?;
    let mut sheet = Vec::new();
    push_row(&mut sheet, HEADING.iter().map(|name| name.as_bytes()));
    let mut account = Account::default();
    for line in lines(book) {
        if account.enter(line).is_err() {
            continue;
        }
        if let Some(fields) = line.strip_suffix(b"\n").unwrap_or(line).strip_prefix(b"S,") {
            push_row(&mut sheet, fields.split(|&byte| byte == b','));
        }
    }
    Ok(sheet)
}

fn push_row<'a>(sheet: &mut Vec<u8>, fields: impl Iterator<Item = &'a [u8]>) {
    for (place, field) in fields.enumerate() {
        if place > 0 {
            sheet.push(b',');
        }
        push_quoted(sheet, field);
    }
    sheet.extend_from_slice(b"\r\n");
}

pub fn push_quoted(sheet: &mut Vec<u8>, field: &[u8]) {
    sheet.push(b'"');
    for &byte in field {
        if byte == b'"' {
            sheet.push(b'"');
        }
        sheet.push(byte);
    }
    sheet.push(b'"');
}

#[cfg(test)]
mod tests {
    use super::*;

    fn read(sheet: &[u8]) -> Result<Vec<Vec<Vec<u8>>>, u8> {
        let rows = rows(sheet).map_err(Refusal::number)?;
        Ok(rows.into_iter().map(|row| row.into_iter().map(Cow::into_owned).collect()).collect())
    }

    fn owned(rows: &[&[&[u8]]]) -> Vec<Vec<Vec<u8>>> {
        rows.iter().map(|row| row.iter().map(|field| field.to_vec()).collect()).collect()
    }

    #[test]
    fn rows_of_rfc_4180() {
        let sheets: [(&[u8], &[&[&[u8]]]); 12] = [
            (b"", &[]),
            (b"a", &[&[b"a"]]),
            (b"a\r\n", &[&[b"a"]]),
            (b"\r\n", &[&[b""]]),
            (b"a,b\r\nc,", &[&[b"a", b"b"], &[b"c", b""]]),
            (b"a\r\n\r\nb", &[&[b"a"], &[b""], &[b"b"]]),
            (b"\"a\",\"\"\r\n", &[&[b"a", b""]]),
            (b"\"a\"\"b\"\"\"", &[&[b"a\"b\""]]),
            (b"\"\"\"\"", &[&[b"\""]]),
            (b"\"a,\r\n\r\n\",b", &[&[b"a,\r\n\r\n", b"b"]]),
            (b" a , \r\n", &[&[b" a ", b" "]]),
            (b"\0 \xff\t,\x1a", &[&[b"\0 \xff\t", b"\x1a"]]),
        ];
        for (sheet, rows) in sheets {
            assert_eq!(read(sheet), Ok(owned(rows)), "{}", sheet.escape_ascii());
        }
    }

    #[test]
    fn broken_quoting_and_row_ends() {
        let sheets: [&[u8]; 14] = [
            b"a\nb",
            b"a\rb",
            b"a\r",
            b"\n",
            b"\r",
            b"\r\r\n",
            b" a , \"",
            b"a\"b\"",
            b"\"a",
            b"\"",
            b"\"a\" ,b",
            b"\"a\"b",
            b"\"a\"\n",
            b"a,\"b\"\"\r\n",
        ];
        for sheet in sheets {
            assert_eq!(read(sheet), Err(41), "{}", sheet.escape_ascii());
        }
    }

    #[test]
    fn what_is_written_reads_back() {
        let rows: [&[&[u8]]; 3] = [&[b"a", b"", b"\"\"\r\n,"], &[b""], &[b"\0", b"\xff"]];
        let mut sheet = Vec::new();
        for row in rows {
            push_row(&mut sheet, row.iter().copied());
        }
        assert_eq!(read(&sheet), Ok(owned(&rows)));
    }
}
