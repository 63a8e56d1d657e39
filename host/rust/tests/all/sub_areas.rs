//! Areas of up to forty-eight sub-areas, in every call and in a book: document 02, item 4.

use crate::common::{answer, both_calls, calls, Recorder};
use crate::exports::{export, QUOTED_HEADING};
use crate::statements::is_read;
use carbon_twin::listing::book;
use carbon_twin::ranges::MOST_SUBS;

const HEADING: &str = "area,sub,hectares,type,planted\r\n";
const OPENED: &str = "H,1\nA,7,2010,2010,0,0,0,0,0,0,0\n";

/// The limit of document 01.
const MOST_SUBS_BEFORE: usize = 16;
/// On both sides of that limit, and up to the present one.
const COUNTS: [usize; 4] = [MOST_SUBS_BEFORE, MOST_SUBS_BEFORE + 1, MOST_SUBS - 1, MOST_SUBS];
const ONE_TOO_MANY: usize = MOST_SUBS + 1;

/// Of an area with so many sub-areas of bare land.
pub fn statement_of(subs: usize) -> String {
    let lines: String = (1..=subs).map(|sub| format!("S,{sub},10,B,0,B,0,0\n")).collect();
    format!("H,1\nA,7,2010,2010,0,0,0,0,0,0,{subs}\n{lines}")
}

fn filed(statement: &str) -> String {
    statement.replacen("2010,2010,0,0,0", "2010,2011,0,0,1", 1)
}

fn row(sub: usize) -> String {
    format!("7,{sub},1,B,0")
}

fn sheet_of(subs: std::ops::RangeInclusive<usize>) -> String {
    HEADING.to_string() + &subs.map(|sub| row(sub) + "\r\n").collect::<String>()
}

fn book_of(subs: usize) -> String {
    "A,7,2010\n".to_string() + &(1..=subs).map(|sub| format!("S,{}\n", row(sub))).collect::<String>()
}

#[test]
fn lines_add_forty_eight() {
    assert_eq!((MOST_SUBS, ONE_TOO_MANY), (48, 49));
    for (name, call) in calls() {
        let mut recorder = Recorder::new(call);
        recorder.enter_all("A,7,2010");
        for sub in 1..=MOST_SUBS {
            recorder.enter_all(&format!("S,{}", row(sub)));
            assert_eq!(String::from_utf8_lossy(&recorder.statement), statement_of(sub), "{name}");
        }
        assert_eq!(recorder.enter(&format!("S,{}", row(ONE_TOO_MANY))), Err(26), "{name}");
        assert_eq!(recorder.enter("S,7,99,1,D,2011"), Err(26), "{name}");
        assert_eq!(recorder.enter(&format!("S,{}", row(MOST_SUBS))), Err(25), "{name}");
        recorder.enter_all(&format!("A,8,2010\nS,8,99,1,B,0\nP,7,{MOST_SUBS},D,2010\nC,7,{MOST_SUBS},2010"));
    }
}

/// 26 is given at the limit alone, and before 27.
#[test]
fn an_area_that_has_filed_is_full_at_forty_eight() {
    for (subs, number) in COUNTS.map(|subs| (subs, if subs == MOST_SUBS { 26 } else { 27 })) {
        let statement = filed(&statement_of(subs));
        for (name, calls) in both_calls() {
            let line = answer(calls.line, statement.as_bytes(), &[], b"S,7,99,1,D,2011");
            assert_eq!(line, Err(number), "{name}: {subs}");
            let sheet = answer(calls.import, statement.as_bytes(), &[], sheet_of(99..=99).as_bytes());
            assert_eq!(sheet, Err(number), "{name}: {subs}");
        }
    }
}

#[test]
fn sheets_add_forty_eight() {
    for (name, calls) in both_calls() {
        let import = |statement: &str, sheet: &str| answer(calls.import, statement.as_bytes(), &[], sheet.as_bytes());
        for subs in COUNTS {
            let all = Ok(statement_of(subs).into_bytes());
            assert_eq!(import(OPENED, &sheet_of(1..=subs)), all, "{name}: {subs}");
            assert_eq!(import(&statement_of(subs - 1), &sheet_of(subs..=subs)), all, "{name}: {subs}");
            assert_eq!(import(&statement_of(subs), &sheet_of(subs + 1..=ONE_TOO_MANY)), Err(26), "{name}: {subs}");
        }
        assert_eq!(import(OPENED, &sheet_of(1..=ONE_TOO_MANY)), Err(26), "{name}");
    }
}

#[test]
fn exports_have_forty_eight_rows_of_an_area() {
    let exported = |rows: usize| -> String {
        let rows = (1..=rows).map(|sub| format!("\"7\",\"{sub}\",\"1\",\"B\",\"0\"\r\n"));
        QUOTED_HEADING.to_string() + &rows.collect::<String>()
    };
    for (name, calls) in both_calls() {
        for subs in COUNTS {
            assert_eq!(export(calls, &book_of(subs)), Ok(exported(subs)), "{name}: {subs}");
        }
        assert_eq!(export(calls, &book_of(ONE_TOO_MANY)), Ok(exported(MOST_SUBS)), "{name}");
    }
}

/// A book of an area whose sub-areas are added, then a return, and a line for each sub-area.
#[test]
fn books_have_forty_eight() {
    for subs in COUNTS.into_iter().chain([ONE_TOO_MANY]) {
        let plantings: String = (1..=subs).map(|sub| format!("P,7,{sub},D,2011\n")).collect();
        let printed = book((book_of(subs) + "R,7,2010\n" + &plantings).as_bytes());
        let (most, refused) = (subs.min(MOST_SUBS), subs.saturating_sub(MOST_SUBS));
        let (at_s, at_p) = (2 + MOST_SUBS, 2 + 2 * subs);
        let (s, p) = (format!("X,{at_s},26\n").repeat(refused), format!("X,{at_p},28\n").repeat(refused));
        let taken = 2 + 2 * most;
        let expected = format!("{s}R,7,2010,2010,0,0,0,0\n{p}F,0,0,0\nE,{taken},{}\n", 2 * refused);
        assert_eq!(String::from_utf8_lossy(&printed), expected, "{subs}");
    }
}

/// Document 01's table: 4.5 tonnes a hectare at two years, 10 at three and 20 at four. Sub-area n has n hectares; the last
/// one is cleared after the first return, and loses 10 tonnes a hectare while the others gain 10.
#[test]
fn every_sub_area_counts_in_a_return() {
    for subs in COUNTS {
        let hectares = subs * (subs + 1) / 2;
        let lines: String = (1..=subs).map(|sub| format!("S,7,{sub},{sub},D,2008\n")).collect();
        for (name, call) in calls() {
            let mut recorder = Recorder::new(call);
            recorder.enter_all(&format!("T,G,D,0,1,4.5,10,20\nT,R,D,0\nA,7,2010\n{lines}R,7,2010\nC,7,{subs},2011"));
            recorder.enter_all("R,7,2011");
            let (first, second) = ((5_500 * hectares + 500) / 1000, 10 * (hectares - 2 * subs));
            let balance = first + second;
            let filed =
                format!("R,7,2010,2010,{first},{first},0,{first}\nR,7,2011,2011,{second},{second},0,{balance}\n");
            assert_eq!(recorder.told, filed, "{name}: {subs}");
        }
    }
}

#[test]
fn statements_have_forty_eight() {
    for (name, calls) in both_calls() {
        let foot = |statement: &str| (calls.foot)(statement.as_bytes(), &mut [0; 8]);
        for subs in COUNTS {
            let statement = statement_of(subs);
            assert!(is_read(&statement), "{subs}");
            assert_eq!(foot(&statement), 8, "{name}: {subs}");
            let unchanged = answer(calls.import, statement.as_bytes(), &[], HEADING.as_bytes());
            assert_eq!(unchanged, Ok(statement.into_bytes()), "{name}: {subs}");
        }
        let beyond = statement_of(ONE_TOO_MANY);
        assert!(!is_read(&beyond), "{ONE_TOO_MANY}");
        assert_eq!(foot(&beyond), -11, "{name}");
        assert_eq!(answer(calls.import, beyond.as_bytes(), &[], HEADING.as_bytes()), Err(11), "{name}");
    }
}

/// "A holding with no area above 16 sub-areas is written just as before, and each old statement is still read": the
/// largest one that document 01 lets in.
#[test]
fn the_largest_old_statement_comes_back_byte_for_byte() {
    let subs: String = (84..100).map(|sub| format!("S,{sub},100000,P9,2199,P9,299,2199\n")).collect();
    let fields = "2008,2200,2199,1,192,960000000000,192000000000,192000000000,16";
    let areas: String = (984..1000).map(|area| format!("A,{area},{fields}\n{subs}")).collect();
    let old = format!("H,16\n{areas}");
    assert_eq!(old.len(), 9_301);
    assert!(is_read(&old));
    for (name, calls) in both_calls() {
        let unchanged = answer(calls.import, old.as_bytes(), &[], HEADING.as_bytes());
        assert_eq!(unchanged, Ok(old.clone().into_bytes()), "{name}");
    }
}
