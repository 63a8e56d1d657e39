//! Every refusal that the call can give, where two apply the smaller, and the edges of the state's rules. 26 is tried in
//! sub_areas.

use crate::common::{answer, calls, Recorder, EMPTY};
use carbon_twin::ranges::MOST_AREAS;

/// One area, opened in 2010, cleared and planted in 2011, with one return.
const FILED: &str = "H,1\nA,7,2010,2011,2011,0,1,135000,55,0,2\nS,1,100,D,2011,D,3,2011\nS,2,10,B,0,B,0,0\n";
const FRESH: &str = "H,1\nA,7,2010,2010,0,0,0,0,0,0,1\nS,1,10,B,0,B,0,0\n";
const WITHDRAWN: &str = "H,1\nA,7,2010,2011,0,1,1,0,5,5,0\n";

fn sixteen_areas() -> String {
    let areas: String = (1..=MOST_AREAS).map(|number| format!("A,{number},2010,2010,0,0,0,0,0,0,0\n")).collect();
    format!("H,{MOST_AREAS}\n{areas}")
}

fn assert_refused(statement: &str, table: &[u8], line: &str, number: i64) {
    for (name, call) in calls() {
        assert_eq!(answer(call, statement.as_bytes(), table, line.as_bytes()), Err(number), "{name}: {line}");
    }
}

fn assert_taken(statement: &str, line: &str) {
    for (name, call) in calls() {
        let taken = answer(call, statement.as_bytes(), &[], line.as_bytes());
        assert!(taken.is_ok(), "{name}: {line}: {taken:?}");
    }
}

#[test]
fn by_the_line() {
    for (line, number) in
        [("X", 1), ("A,0,2010", 2), ("P,7,1,B,2010", 3), ("S,7,3,0,D,2010", 4), ("R,7,2200", 5), ("T,G,D,3001", 6)]
    {
        assert_refused(FILED, &[], line, number);
    }
}

#[test]
fn by_the_table_and_the_statement() {
    assert_refused(FILED, &[0], "W,7", 6);
    assert_refused("", &[0], "W,7", 6);
    assert_refused("", &[0], "W,0", 2);
    assert_refused("", &[], "W,7", 11);
    assert_refused("H,0", &[], "T,G,D,1", 11);
    let indigenous_residue_alone = [&[0; 18][..], &[1, 0, 5, 0]].concat();
    assert_refused(FILED, &indigenous_residue_alone, "T,R,N,1", 6);
    assert_refused("", &indigenous_residue_alone, "T,G,P,1", 6);
}

#[test]
fn by_the_state() {
    let cases = [
        (FILED, "A,7,2010", 21),
        (FILED, "W,8", 22),
        (WITHDRAWN, "R,7,2010", 23),
        (WITHDRAWN, "A,7,2010", 21),
        (WITHDRAWN, "T,G,D,1", 33),
        (FILED, "S,7,1,1,B,0", 25),
        (FILED, "S,7,3,1,D,2011", 27),
        (FILED, "C,7,3,2008", 28),
        (FILED, "C,7,2,2008", 29),
        (FILED, "P,7,1,D,2008", 30),
        (FILED, "C,7,1,2010", 31),
        (FILED, "P,7,2,D,2010", 31),
        (FILED, "R,7,2010", 31),
        (FRESH, "S,7,2,1,D,2011", 32),
        (FRESH, "T,G,D,1", 33),
    ];
    for (statement, line, number) in cases {
        assert_refused(statement, &[], line, number);
    }
    assert_refused(&sixteen_areas(), &[], "A,17,2010", 24);
    assert_refused(&sixteen_areas(), &[], "A,16,2010", 21);
}

#[test]
fn what_stands_at_the_edge_is_taken() {
    for line in ["C,7,1,2011", "P,7,2,N,2011", "R,7,2011", "R,7,2199", "W,7", "A,8,2199"] {
        assert_taken(FILED, line);
    }
    for line in ["S,7,2,1,D,2010", "S,7,99,10000,D,1900", "P,7,1,P9,2199"] {
        assert_taken(FRESH, line);
    }
}

#[test]
fn the_latest_year_is_the_areas() {
    for (name, call) in calls() {
        let mut recorder = Recorder::new(call);
        recorder.enter_all("A,1,2010\nS,1,1,1,D,2000\nS,1,2,1,D,2000\nC,1,1,2020\nS,1,3,1,D,2010");
        for line in ["C,1,2,2019", "P,1,1,D,2019", "R,1,2019"] {
            assert_eq!(recorder.enter(line), Err(31), "{name}: {line}");
        }
        recorder.enter_all("P,1,1,D,2020\nC,1,1,2020\nC,1,2,2020\nR,1,2020");
        let subs = "S,1,10,B,0,D,0,2020\nS,2,10,B,0,D,20,2020\nS,3,10,D,2010,B,0,0\n";
        assert!(String::from_utf8_lossy(&recorder.statement).ends_with(subs), "{name}");
    }
}

#[test]
fn after_a_return_to_2199_only_a_withdrawal_is_taken() {
    for (name, call) in calls() {
        let mut recorder = Recorder::new(call);
        recorder.enter_all("A,1,2199\nS,1,1,1,D,2199\nR,1,2199");
        for line in ["C,1,1,2199", "R,1,2199"] {
            assert_eq!(recorder.enter(line), Err(31), "{name}: {line}");
        }
        recorder.enter_all("W,1");
    }
}

#[test]
fn a_short_output_is_refused_last_and_left_alone() {
    let longer = b"H,1\nA,1,2010,2010,0,0,0,0,0,0,0\n";
    for (name, call) in calls() {
        for room in 0..longer.len() + 3 {
            let mut out = vec![7; room];
            let length = call(EMPTY, &[], b"A,1,2010\n", &mut out);
            if room < longer.len() {
                assert_eq!((length, out), (-8, vec![7; room]), "{name}");
            } else {
                assert_eq!(length, longer.len() as i64, "{name}");
                assert_eq!(out, [&longer[..], &vec![7; room - longer.len()]].concat(), "{name}");
            }
        }
        assert_eq!(call(EMPTY, &[], b"W,1", &mut []), -22, "{name}");
        assert_eq!(call(EMPTY, &[], b"T,G,D,1", &mut [7; 21]), -8, "{name}");
        assert_eq!(call(EMPTY, &[], b"T,G,D,1", &mut [7; 22]), 22, "{name}");
    }
}
