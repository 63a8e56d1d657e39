//! Sub-area schedules imported from comma-separated values: document 02, item 3.

use crate::common::{answer, both_calls, Recorder};
use crate::exports::QUOTED_HEADING;
use carbon_twin::call::Calls;
use carbon_twin::ranges::{MOST_AREAS, MOST_SUBS};

const HEADING: &str = "area,sub,hectares,type,planted\r\n";

/// Area 7 opened in 2010 and area 8 in 2012.
const OPENED: &str = "H,2\nA,7,2010,2010,0,0,0,0,0,0,0\nA,8,2012,2012,0,0,0,0,0,0,0\n";
/// One area that has filed, and one that is withdrawn.
const CLOSED: &str = "H,2\nA,7,2010,2011,0,0,1,0,5,0,0\nA,8,2010,2011,0,1,1,0,5,5,0\n";

fn import(calls: Calls, statement: &str, sheet: &str) -> Result<String, i64> {
    let statement = answer(calls.import, statement.as_bytes(), &[], sheet.as_bytes())?;
    Ok(String::from_utf8(statement).expect("a statement is text"))
}

/// The rows under the heading; each ended by `|` here.
fn sheet(rows: &str) -> String {
    HEADING.to_string() + &rows.replace('|', "\r\n")
}

/// The statement after these lines.
fn by_lines(calls: Calls, statement: &str, lines: &[&str]) -> String {
    let mut recorder = Recorder::new(calls.line);
    recorder.statement = statement.as_bytes().to_vec();
    recorder.enter_all(&lines.join("\n"));
    String::from_utf8(recorder.statement).expect("a statement is text")
}

fn assert_refused(statement: &str, sheet: &str, number: i64) {
    for (name, calls) in both_calls() {
        assert_eq!(import(calls, statement, sheet), Err(number), "{name}: {}", sheet.escape_debug());
        assert_eq!((calls.import)(statement.as_bytes(), &[], sheet.as_bytes(), &mut []), -number, "{name}");
    }
}

#[test]
fn rows_are_s_lines_in_their_order() {
    let lines = ["S,8,1,10.04,D,2008", "S,7,99,1,B,0", "S,8,2,45.85,P3,1999", "S,7,1,10000,N,1900"];
    let bare = "8,1,10.04,D,2008|7,99,1,B,0|8,2,45.85,P3,1999|7,1,10000,N,1900";
    let quoted = "\"8\",1,10.04,\"D\",2008|\"7\",\"99\",\"1\",\"B\",\"0\"|8,2,45.85,P3,1999|7,1,10000,N,\"1900\"";
    for (name, calls) in both_calls() {
        let expected = by_lines(calls, OPENED, &lines);
        for rows in [bare, quoted] {
            assert_eq!(import(calls, OPENED, &sheet(rows)), Ok(expected.clone()), "{name}");
            assert_eq!(import(calls, OPENED, &(sheet(rows) + "\r\n")), Ok(expected.clone()), "{name}");
        }
    }
}

#[test]
fn the_heading_alone_adds_nothing() {
    for (name, calls) in both_calls() {
        for heading in [HEADING, HEADING.trim_end(), QUOTED_HEADING, "area,\"sub\",hectares,\"type\",planted"] {
            for statement in ["H,0\n", OPENED, CLOSED] {
                assert_eq!(import(calls, statement, heading).as_deref(), Ok(statement), "{name}: {heading}");
            }
        }
    }
}

/// 41: "quoting or a row end broken, checked first".
#[test]
fn broken_quoting_and_row_ends_are_41() {
    let broken = [
        "7,1,1,B,0\n",
        "7,1,1,B,0\r",
        "\n",
        "\r",
        "7,1,1,B,0|\n",
        "7,1,1\r,B,0|",
        "7,1,1\n,B,0|",
        "7\",1,1,B,0|",
        "7\"\",1,1,B,0|",
        " \"7\",1,1,B,0|",
        "\"7\" ,1,1,B,0|",
        "\"7\"1,1,1,B,0|",
        "\"7,1,1,B,0|",
        "7,1,1,B,\"0\n",
        "7,1,1,B,\"0\"\"|",
        "7,1,1,B,\"",
    ];
    for rows in broken {
        assert_refused(OPENED, &sheet(rows), 41);
    }
    for whole in ["\"", "area\n", "a\"", "\n", "\r", "area,sub,hectares,type,planted\n7,1,1,B,0"] {
        assert_refused(OPENED, whole, 41);
    }
}

/// 42: "a row without five fields or another first row".
#[test]
fn rows_without_five_fields_and_other_headings_are_42() {
    for rows in ["7,1,1,B|", "7,1,1,B,0,|", "|", "7,1,1,B,0||", "||", "\"7,1,1,B,0\"|", "7,1,1,B,0|8"] {
        assert_refused(OPENED, &sheet(rows), 42);
    }
    let headings = [
        "",
        "\r\n",
        "area",
        "Area,sub,hectares,type,planted",
        "area,sub,hectares,type,planted ",
        "sub,area,hectares,type,planted",
        "area,sub,hectares,type",
        "area,sub,hectares,type,planted,",
        "\u{feff}area,sub,hectares,type,planted",
        "\"area,sub,hectares,type,planted\"",
        "area,sub,hectares,type,\"\"\"planted\"\"\"",
        "7,1,1,B,0",
        "area,sub,hectares,type,planted\0",
        "area,sub,hectares,\"type,\",planted",
        "area,sub,hectares,type,\"planted\n\"",
    ];
    for heading in headings {
        assert_refused(OPENED, heading, 42);
        assert_refused(OPENED, &format!("{heading}\r\n7,1,1,B,0\r\n"), 42);
    }
}

#[test]
fn forty_one_then_forty_two_then_the_first_row_turned_down() {
    for (rows, number) in [
        ("7,1,1,B|9,1,1,B,0|7\"", 41),
        ("9,1,1,B,0|7,1,1,B|", 42),
        ("x,1,1,B,0|7,1,1,B|", 42),
        ("7,1,1,B,0|9,1,1,B,0|x,1,1,B,0|", 22),
        ("7,1,1,B,0|x,1,1,B,0|9,1,1,B,0|", 1),
        ("7,1,1,D,2011|7,0,1,B,0|", 32),
    ] {
        assert_refused(OPENED, &sheet(rows), number);
    }
}

#[test]
fn every_number_that_s_gives() {
    for (rows, number) in [
        ("7,1,01,B,0", 1),
        ("7,1, 1,B,0", 1),
        ("7,1,1,B,", 1),
        ("0,1,1,B,0", 2),
        ("7,100,1,B,0", 2),
        ("7,1,1,Q,0", 3),
        ("7,1,0.9999,B,0", 4),
        ("7,1,1,D,1899", 5),
        ("7,1,1,B,2000", 5),
        ("9,1,1,B,0", 22),
        ("7,1,1,D,2011", 32),
    ] {
        assert_refused(OPENED, &sheet(rows), number);
        assert_refused(OPENED, &sheet(&format!("8,1,1,B,0|{rows}|8,2,1,B,0|")), number);
    }
    assert_refused(CLOSED, &sheet("8,1,1,B,0"), 23);
    assert_refused(CLOSED, &sheet("7,1,1,B,0"), 27);
}

/// A row is weighed on the holding that the earlier rows left.
#[test]
fn doubles_and_the_limit_by_earlier_rows() {
    assert_refused(OPENED, &sheet("7,1,1,B,0|8,1,1,B,0|7,1,2,D,2000"), 25);
    let subs = |most: usize| (1..=most).map(|sub| format!("7,{sub},1,B,0|")).collect::<String>();
    assert_refused(OPENED, &sheet(&subs(MOST_SUBS + 1)), 26);
    assert_refused(OPENED, &sheet(&(subs(MOST_SUBS) + "7,1,1,B,0")), 25);
    for (name, calls) in both_calls() {
        let full = import(calls, OPENED, &sheet(&(subs(MOST_SUBS) + "8,99,1,B,0"))).expect("the limit is kept");
        assert_eq!(import(calls, &full, &sheet("7,99,1,B,0")), Err(26), "{name}");
        assert!(import(calls, &full, &sheet("8,1,1,B,0")).is_ok(), "{name}");
    }
}

/// A comma, a quote or byte 10 in a field makes a line that has no entry's form.
#[test]
fn what_quoting_lets_into_a_field_is_1() {
    for rows in [
        "\"7,1\",1,B,0,|",
        "7,1,\"1,B\",0,0|",
        "7,1,1,B,\"0,\"|",
        "7,1,1,B,\"0\n\"|",
        "7,1,1,B,\"0\n\"",
        "7,1,1,B,\"\n0\"|",
        "\"7\n\",1,1,B,0|",
        "7,1,1,\"B\r\n\",0|",
        "7,1,1,B,\"0\r\"|",
        "7,1,\"\"\"1\",B,0|",
        "7,1,1,B,\"0\"\"\"|",
        "7,1,1,B,0\0|",
        "7,1,1,B,\"0\n\n\"",
    ] {
        assert_refused(OPENED, &sheet(rows), 1);
    }
}

/// The joined line has at most 1024 bytes besides its end; quotes and commas of the sheet are counted as the line has them.
#[test]
fn a_joined_line_has_1024_bytes_at_most() {
    let digits = |bytes: usize| "9".repeat(bytes - "S,,1,1,B,0".len());
    for (area, number) in [(digits(1024), 2), (digits(1025), 1)] {
        assert_refused(OPENED, &sheet(&format!("{area},1,1,B,0|")), number);
        assert_refused(OPENED, &sheet(&format!("\"{area}\",\"1\",\"1\",\"B\",\"0\"|")), number);
    }
    assert_refused(OPENED, &sheet(&format!("7,1,1,\"{}\",0", "\"\"".repeat(1013))), 3);
    assert_refused(OPENED, &sheet(&format!("7,1,1,\"{}\",0", "\"\"".repeat(1015))), 1);
}

#[test]
fn the_table_and_the_statement_are_judged_before_the_sheet() {
    for (name, calls) in both_calls() {
        let given = |statement: &str, table: &[u8], sheet: &str| {
            answer(calls.import, statement.as_bytes(), table, sheet.as_bytes()).expect_err("it is refused")
        };
        for bad_sheet in ["\"", "", &sheet("x,1,1,B,0"), HEADING] {
            assert_eq!(given("", &[0], bad_sheet), 6, "{name}");
            assert_eq!(given(OPENED, &[0], bad_sheet), 6, "{name}");
            assert_eq!(given("", &[], bad_sheet), 11, "{name}");
            assert_eq!(given("H,0", &[], bad_sheet), 11, "{name}");
        }
    }
}

/// The stock that the area opens on is the table's.
#[test]
fn the_participants_table_serves() {
    let lines = ["T,G,D,0,1,4.5,10,20", "A,7,2010", "S,7,1,10.04,D,2008"];
    for (name, calls) in both_calls() {
        let mut recorder = Recorder::new(calls.line);
        recorder.enter_all(&lines[..2].join("\n"));
        let sheet = sheet("7,1,10.04,D,2008");
        let imported = answer(calls.import, &recorder.statement, &recorder.table, sheet.as_bytes());
        recorder.enter_all(lines[2]);
        assert_eq!(recorder.stock(), 45_000, "{name}");
        assert_eq!(imported, Ok(recorder.statement), "{name}");
    }
}

#[test]
fn a_sheet_has_no_greatest_size() {
    let rows: String = (0..100_000).map(|row| format!("7,{},12.5,\"P1\",1990\r\n", 1 + row % 99)).collect();
    let long = HEADING.to_string() + &rows;
    assert_refused(OPENED, &long, 26);
    assert_refused(OPENED, &(long.clone() + "7,1,1,B"), 42);
    assert_refused(OPENED, &(long.clone() + "7,1,1,B,0\r"), 41);
    assert_refused(OPENED, &(long + "\""), 41);
    let long_field = format!("{HEADING}7,1,1,B,\"{}\"\r\n", "\"\"\n,".repeat(250_000));
    assert_refused(OPENED, &long_field, 1);
    for (name, calls) in both_calls() {
        let areas: String = (1..=MOST_AREAS).map(|area| format!("A,{area},2008,2008,0,0,0,0,0,0,0\n")).collect();
        let all =
            (1..=MOST_SUBS).flat_map(|sub| (1..=MOST_AREAS).map(move |area| format!("{area},{sub},9999.95,P9,1900|")));
        let full = import(calls, &format!("H,{MOST_AREAS}\n{areas}"), &sheet(&all.collect::<String>()));
        assert_eq!(full.map(|statement| statement.matches("\nS,").count()), Ok(MOST_AREAS * MOST_SUBS), "{name}");
    }
}

#[test]
fn the_room_of_an_import() {
    let sheet = sheet("7,1,1,B,0|8,2,1,D,2000|");
    for (name, calls) in both_calls() {
        let statement = import(calls, OPENED, &sheet).expect("it is taken");
        for room in 0..statement.len() + 3 {
            let mut out = vec![7; room];
            let length = (calls.import)(OPENED.as_bytes(), &[], sheet.as_bytes(), &mut out);
            if room < statement.len() {
                assert_eq!((length, out), (-8, vec![7; room]), "{name}");
            } else {
                assert_eq!(length, statement.len() as i64, "{name}");
                assert_eq!(out, [statement.as_bytes(), &vec![7; room - statement.len()]].concat(), "{name}");
            }
        }
    }
}
