//! The foot of a listing, and of a statement: document 02, item 2.

use crate::common::{both_calls, Recorder, EMPTY};
use carbon_twin::call::CallOfOne;
use carbon_twin::header::size;
use carbon_twin::listing::book;
use carbon_twin::ranges::{BOOK_BYTES, MOST_AREAS, RECEIVED_BY_A_RETURN};

/// Three areas that receive units: the second surrenders a part of them and the third is withdrawn.
const THREE_AREAS: &str = "T,G,D,0,10,30,20,60
A,1,2010
S,1,1,1,D,2010
A,2,2010
S,2,1,2,D,2010
A,3,2010
S,3,1,3,D,2010
R,1,2011
R,2,2011
R,2,2012
R,3,2010
W,3
R,3,2011
";

const THREE_AREAS_LISTED: &str = "R,1,2010,2011,30,30,0,30
R,2,2010,2011,60,60,0,60
R,2,2012,2012,-20,0,20,40
R,3,2010,2010,30,30,0,30
W,3,30
X,13,23
F,120,50,70
E,12,1
";

const LONGEST: &str = "F,9216000000000,4608000000000,4608000000000\n";

/// What an area has received at most: a return is filed for every year.
const MOST_RECEIVED: u64 = 192 * RECEIVED_BY_A_RETURN;

fn listing(text: &str) -> String {
    String::from_utf8(book(text.as_bytes())).expect("a listing is text")
}

/// The foot of the statement, or the refusal's number. The output has room for any foot, and one byte more.
fn foot(call: CallOfOne, statement: &str) -> Result<String, i64> {
    let mut out = vec![0xA5; LONGEST.len() + 1];
    let length = call(statement.as_bytes(), &mut out);
    let kept = usize::try_from(length).unwrap_or(0);
    assert!(out[kept..].iter().all(|&byte| byte == 0xA5), "bytes past the result are touched");
    out.truncate(kept);
    (length > 0).then(|| String::from_utf8(out).expect("a foot is text")).ok_or(-length)
}

fn of_sixteen_areas(received: u64, surrendered: u64) -> String {
    let areas = (1..=MOST_AREAS).map(|number| format!("A,{number},2008,2200,0,0,192,0,{received},{surrendered},0\n"));
    format!("H,{MOST_AREAS}\n{}", areas.collect::<String>())
}

#[test]
fn several_areas_and_a_withdrawn_one() {
    assert_eq!(listing(THREE_AREAS), THREE_AREAS_LISTED);
    let without_withdrawal = THREE_AREAS.replace("W,3\n", "");
    assert!(listing(&without_withdrawal).ends_with("F,180,20,160\nE,12,0\n"));
}

#[test]
fn books_without_areas() {
    assert_eq!(listing(""), "F,0,0,0\nE,0,0\n");
    assert_eq!(listing("T,G,D,1,2\nT,R,D,1"), "F,0,0,0\nE,2,0\n");
    assert_eq!(listing("A,0,2010\nR,7,2010\n"), "X,1,2\nX,2,22\nF,0,0,0\nE,0,2\n");
}

#[test]
fn areas_without_returns() {
    assert_eq!(listing("A,1,2010\nS,1,1,1,D,2000\nA,2,2010\nW,2"), "W,2,0\nF,0,0,0\nE,4,0\n");
}

#[test]
fn an_oversized_book_has_no_foot() {
    let largest = format!("{THREE_AREAS}{}", "\n".repeat(BOOK_BYTES - THREE_AREAS.len()));
    assert!(listing(&largest).contains("\nF,120,50,70\nE,12,"));
    assert_eq!(listing(&(largest + "\n")), "X,0,1\nE,0,1\n");
}

/// After each line, the foot of the statement is that of the book so far.
#[test]
fn the_foot_of_a_statement_is_the_listings() {
    for (name, calls) in both_calls() {
        let mut recorder = Recorder::new(calls.line);
        let mut so_far = String::new();
        for line in THREE_AREAS.lines() {
            recorder.enter(line).ok();
            so_far += &format!("{line}\n");
            let statement = String::from_utf8_lossy(&recorder.statement);
            let foot = foot(calls.foot, &statement).expect("what is written is read");
            let listed = listing(&so_far);
            assert_eq!(listed.lines().rev().nth(1), foot.strip_suffix('\n'), "{name}: {line}");
        }
        let last = String::from_utf8_lossy(&recorder.statement);
        assert_eq!(foot(calls.foot, &last), Ok("F,120,50,70\n".to_string()), "{name}");
    }
}

#[test]
fn the_feet_of_statements() {
    let withdrawn = "H,1\nA,7,2010,2011,0,1,1,0,5,5,0\n";
    let beside = "H,2\nA,7,2010,2011,0,1,1,0,5,5,0\nA,8,2010,2011,0,0,1,0,3000000000,1,0\n";
    let cases = [("H,0\n", "F,0,0,0\n"), (withdrawn, "F,5,5,0\n"), (beside, "F,3000000005,6,2999999999\n")];
    for (name, calls) in both_calls() {
        for (statement, expected) in cases {
            assert_eq!(foot(calls.foot, statement), Ok(expected.to_string()), "{name}: {statement}");
        }
    }
}

#[test]
fn the_longest_foot_has_44_bytes() {
    assert_eq!((LONGEST.len(), size("CARBON_FOOT_BYTES")), (44, 44));
    for (name, calls) in both_calls() {
        let most = foot(calls.foot, &of_sixteen_areas(MOST_RECEIVED, MOST_RECEIVED / 2));
        assert_eq!(most, Ok(LONGEST.to_string()), "{name}");
        let all_kept = foot(calls.foot, &of_sixteen_areas(MOST_RECEIVED, 0));
        assert_eq!(all_kept, Ok("F,9216000000000,0,9216000000000\n".to_string()), "{name}");
    }
}

#[test]
fn statements_that_have_no_foot() {
    let most = of_sixteen_areas(MOST_RECEIVED, 0);
    let one_beyond = (MOST_RECEIVED + 1).to_string();
    let refused = [
        String::new(),
        "H,0".to_string(),
        "H,0\n\n".to_string(),
        "H,1\n".to_string(),
        "H,1\nA,7,2010,2011,0,0,1,0,5,6,0\n".to_string(),
        "H,1\nA,7,2010,2011,0,1,1,0,5,4,0\n".to_string(),
        "H,1\nA,7,2010,2011,0,0,1,0,05,5,0\n".to_string(),
        "H,1\nA,7,2010,2011,0,0,1,0,3000000001,0,0\n".to_string(),
        most.replacen(&MOST_RECEIVED.to_string(), &one_beyond, 1),
        most[..most.len() - 1].to_string(),
    ];
    for (name, calls) in both_calls() {
        for statement in &refused {
            assert_eq!(foot(calls.foot, statement), Err(11), "{name}: {statement:?}");
            assert_eq!((calls.foot)(statement.as_bytes(), &mut []), -11, "{name}: {statement:?}");
        }
    }
}

#[test]
fn the_room_of_a_foot() {
    let longest = of_sixteen_areas(MOST_RECEIVED, MOST_RECEIVED / 2);
    let cases = [(EMPTY, &b"F,0,0,0\n"[..]), (longest.as_bytes(), LONGEST.as_bytes())];
    for (name, calls) in both_calls() {
        for (statement, foot) in cases {
            for room in 0..foot.len() + 3 {
                let mut out = vec![7; room];
                let length = (calls.foot)(statement, &mut out);
                if room < foot.len() {
                    assert_eq!((length, out), (-8, vec![7; room]), "{name}");
                } else {
                    assert_eq!(length, foot.len() as i64, "{name}");
                    assert_eq!(out, [foot, &vec![7; room - foot.len()]].concat(), "{name}");
                }
            }
        }
    }
}
