//! The accepted S entries of a book as comma-separated values: document 02, item 3.

use crate::common::{answer, both_calls, Recorder};
use carbon_twin::call::Calls;
use carbon_twin::header::size;
use carbon_twin::ranges::{BOOK_BYTES, MOST_AREAS, MOST_SUBS};

pub const QUOTED_HEADING: &str = "\"area\",\"sub\",\"hectares\",\"type\",\"planted\"\r\n";

const BOOK: &str = "T,G,D,0,1,4.5,10,20
A,8,2012
S,8,12,10.04,D,2008
S,7,1,1,B,0
A,7,2010
S,7,1,1.0000,B,0
S,7,1,2,B,0
S,8,2,45.85,P3,1999
S,7,02,1,B,0
R,8,2012
S,8,3,1,B,0
C,7,1,2011
P,7,1,D,2011
W,8
S,7,2,9999.9499,N,2010
S,7,3,1,D,2011
A,999,2199
S,999,99,10000,P9,2199";

const BOOK_EXPORTED: &str = "\"8\",\"12\",\"10.04\",\"D\",\"2008\"\r
\"7\",\"1\",\"1.0000\",\"B\",\"0\"\r
\"8\",\"2\",\"45.85\",\"P3\",\"1999\"\r
\"7\",\"2\",\"9999.9499\",\"N\",\"2010\"\r
\"999\",\"99\",\"10000\",\"P9\",\"2199\"\r
";

/// With room for any export, and one byte more.
pub fn export(calls: Calls, book: &str) -> Result<String, i64> {
    let mut out = vec![0xA5; size("CARBON_EXPORT_BYTES") + 1];
    let length = (calls.export)(book.as_bytes(), &mut out);
    let kept = usize::try_from(length).unwrap_or(0);
    assert!(out[kept..].iter().all(|&byte| byte == 0xA5), "bytes past the result are touched");
    out.truncate(kept);
    (length > 0).then(|| String::from_utf8(out).expect("an export is text")).ok_or(-length)
}

/// In the book's order, of withdrawn areas too, hectares as entered, and no refused line.
#[test]
fn the_export_of_a_book() {
    let exported = QUOTED_HEADING.to_string() + BOOK_EXPORTED;
    for (name, calls) in both_calls() {
        assert_eq!(export(calls, BOOK), Ok(exported.clone()), "{name}");
        assert_eq!(export(calls, &format!("{BOOK}\n")), Ok(exported.clone()), "{name}");
        for without_rows in
            ["", "\n", "A,7,2010", "S,7,1,1,B,0\n", "A,7,2010\nS,7,1,1,B,0\r\n", "A,7,2010\nS,7,1,1,B,0,"]
        {
            assert_eq!(export(calls, without_rows).as_deref(), Ok(QUOTED_HEADING), "{name}: {without_rows:?}");
        }
    }
}

#[test]
fn a_book_of_65536_bytes_is_exported_and_a_longer_one_is_1() {
    let opened = "A,7,2010\nS,7,1,1,B,0\n";
    let largest = opened.to_string() + &"\n".repeat(BOOK_BYTES - opened.len());
    for (name, calls) in both_calls() {
        let exported = format!("{QUOTED_HEADING}\"7\",\"1\",\"1\",\"B\",\"0\"\r\n");
        assert_eq!(export(calls, &largest), Ok(exported), "{name}");
        assert_eq!(export(calls, &format!("{largest}\n")), Err(1), "{name}");
        assert_eq!((calls.export)(format!("{largest}\n").as_bytes(), &mut []), -1, "{name}");
    }
}

/// The lines of a book that are taken, and that start with one of the letters; and the table that its T lines make.
fn accepted(calls: Calls, book: &str, letters: &[char]) -> (Vec<String>, Vec<u8>) {
    let mut recorder = Recorder::new(calls.line);
    let lines = book.lines().filter(|line| recorder.enter(line).is_ok() && line.starts_with(letters));
    let lines = lines.map(str::to_string).collect();
    (lines, recorder.table)
}

/// "Importing an export onto the book's accepted A entries alone must give those S entries back."
#[test]
fn exports_imported_onto_the_a_entries_alone() {
    let full: String = (1..=MOST_AREAS + 1).map(|area| format!("A,{area},2010\n")).collect();
    let subs = (1..=MOST_SUBS + 1)
        .flat_map(|sub| (1..=MOST_AREAS).map(move |area| format!("S,{area},{sub},{}.{sub},H,1990\n", area + 1)));
    let full = full + &subs.collect::<String>() + "W,3\n";
    for (name, calls) in both_calls() {
        for book in
            ["", "A,1,2010\nW,1\n", "A,1,2010\nS,1,1,1,D,2000\nR,1,2012\nC,1,1,2013\nW,1\nA,2,2100", BOOK, &full]
        {
            let (entries, table) = accepted(calls, book, &['A', 'S']);
            let mut alone = Recorder::new(calls.line);
            alone.table = table.clone();
            alone.enter_all(&accepted(calls, book, &['A']).0.join("\n"));
            let opened = alone.statement;
            let mut both = Recorder::new(calls.line);
            both.table = table.clone();
            both.enter_all(&entries.join("\n"));
            let exported = export(calls, book).expect("it is exported");
            let imported = answer(calls.import, &opened, &table, exported.as_bytes());
            assert_eq!(imported, Ok(both.statement), "{name}: {book}");
        }
    }
}

#[test]
fn the_room_of_an_export() {
    let exported = QUOTED_HEADING.to_string() + BOOK_EXPORTED;
    for (name, calls) in both_calls() {
        for room in 0..exported.len() + 3 {
            let mut out = vec![7; room];
            let length = (calls.export)(BOOK.as_bytes(), &mut out);
            if room < exported.len() {
                assert_eq!((length, out), (-8, vec![7; room]), "{name}");
            } else {
                assert_eq!(length, exported.len() as i64, "{name}");
                assert_eq!(out, [exported.as_bytes(), &vec![7; room - exported.len()]].concat(), "{name}");
            }
        }
    }
}
