//! The calls of the proved engine, where its archive is linked.

use crate::call::Calls;

#[cfg(engine)]
mod linked {
    use crate::call::Calls;

    type OfThree = unsafe extern "C" fn(*const u8, usize, *const u8, usize, *const u8, usize, *mut u8, usize) -> i64;
    type OfOne = unsafe extern "C" fn(*const u8, usize, *mut u8, usize) -> i64;

    extern "C" {
        fn carbon_account_line(
            statement: *const u8,
            statement_length: usize,
            table: *const u8,
            table_length: usize,
            line: *const u8,
            line_length: usize,
            out: *mut u8,
            out_length: usize,
        ) -> i64;

        fn carbon_foot(statement: *const u8, statement_length: usize, out: *mut u8, out_length: usize) -> i64;

        fn carbon_import_sheet(
            statement: *const u8,
            statement_length: usize,
            table: *const u8,
            table_length: usize,
            sheet: *const u8,
            sheet_length: usize,
            out: *mut u8,
            out_length: usize,
        ) -> i64;

        fn carbon_export_sheet(book: *const u8, book_length: usize, out: *mut u8, out_length: usize) -> i64;
    }

    fn on_three(call: OfThree, one: &[u8], two: &[u8], three: &[u8], out: &mut [u8]) -> i64 {
        let (at, length) = (out.as_mut_ptr(), out.len());
        // The slices give pointers valid for their lengths, and `out` is borrowed alone.
        unsafe { call(one.as_ptr(), one.len(), two.as_ptr(), two.len(), three.as_ptr(), three.len(), at, length) }
    }

    fn on_one(call: OfOne, one: &[u8], out: &mut [u8]) -> i64 {
        // As above.
        unsafe { call(one.as_ptr(), one.len(), out.as_mut_ptr(), out.len()) }
    }

    pub const ENGINE: Calls = Calls {
        line: |statement, table, line, out| on_three(carbon_account_line, statement, table, line, out),
        foot: |statement, out| on_one(carbon_foot, statement, out),
        import: |statement, table, sheet, out| on_three(carbon_import_sheet, statement, table, sheet, out),
        export: |book, out| on_one(carbon_export_sheet, book, out),
    };
}

/// The engine's calls, where this was built with its archive.
pub fn engine_calls() -> Option<Calls> {
    #[cfg(engine)]
    return Some(linked::ENGINE);
    #[cfg(not(engine))]
    return None;
}
