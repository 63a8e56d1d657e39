//! That the comparison finds faults, and shrinks them.

use crate::kinds::{Kind, Kinds, CROWDED, EXPORTED, LISTED};
use crate::random::Random;
use crate::tally::Tally;
use crate::{compare, edges, seeded, tallied};
use carbon_twin::call::{twin, twin_foot, CallOfOne, CallOfThree, Calls, TWIN};
use carbon_twin::ranges::{BOOK_BYTES, MOST_SUBS};
use carbon_twin::statement;

fn refuses_exact_room(statement: &[u8], table: &[u8], line: &[u8], out: &mut [u8]) -> i64 {
    let answer = twin(statement, table, line, &mut out.to_vec());
    if answer == out.len() as i64 {
        return -8;
    }
    twin(statement, table, line, out)
}

fn touches_a_byte_past(statement: &[u8], table: &[u8], line: &[u8], out: &mut [u8]) -> i64 {
    let answer = twin(statement, table, line, out);
    if answer > 0 && (answer as usize) < out.len() {
        out[answer as usize] = 0;
    }
    answer
}

fn touches_on_refusal(statement: &[u8], table: &[u8], line: &[u8], out: &mut [u8]) -> i64 {
    let answer = twin(statement, table, line, out);
    if answer == -33 && !out.is_empty() {
        out[0] = 0;
    }
    answer
}

fn confuses_22_and_23(statement: &[u8], table: &[u8], line: &[u8], out: &mut [u8]) -> i64 {
    match twin(statement, table, line, out) {
        -23 => -22,
        answer => answer,
    }
}

fn loses_the_balance(statement: &[u8], table: &[u8], line: &[u8], out: &mut [u8]) -> i64 {
    let answer = twin(statement, table, line, out);
    if answer > 1 && line.starts_with(b"W") && out[answer as usize - 2] != b'0' {
        out[answer as usize - 2] = b'0';
    }
    answer
}

#[test]
fn every_fault_is_found_and_shrunk() {
    let faults: [(&str, CallOfThree); 5] = [
        ("room", refuses_exact_room),
        ("past", touches_a_byte_past),
        ("refusal", touches_on_refusal),
        ("numbers", confuses_22_and_23),
        ("balance", loses_the_balance),
    ];
    for (name, line) in faults {
        assert_found_and_shrunk(name, Calls { line, ..TWIN });
    }
}

/// By the seeded cases alone.
pub fn is_found(fault: Calls) -> bool {
    tallied(fault, TWIN, seeded(20_000, 7)).is_err()
}

pub fn assert_found_and_shrunk(name: &str, fault: Calls) {
    let Err(said) = compare(fault, TWIN, edges::cases().chain(seeded(20_000, 7))) else {
        panic!("the fault '{name}' is not found");
    };
    let given = said
        .lines()
        .filter(|line| line.starts_with("  ") && !line.starts_with("  answers") && !line.starts_with("  twin"));
    let longest = given.map(str::len).max().expect("the case is printed");
    assert!(longest < 120, "the fault '{name}' is not shrunk: {said}");
}

fn foot_refuses_exact_room(statement: &[u8], out: &mut [u8]) -> i64 {
    let answer = twin_foot(statement, &mut out.to_vec());
    if answer == out.len() as i64 {
        return -8;
    }
    twin_foot(statement, out)
}

fn foot_touches_a_byte_past(statement: &[u8], out: &mut [u8]) -> i64 {
    let answer = twin_foot(statement, out);
    if answer > 0 && (answer as usize) < out.len() {
        out[answer as usize] = 0;
    }
    answer
}

fn foot_touches_on_refusal(statement: &[u8], out: &mut [u8]) -> i64 {
    let answer = twin_foot(statement, out);
    if answer == -8 && !out.is_empty() {
        out[0] = 0;
    }
    answer
}

fn foot_measures_before_it_reads(statement: &[u8], out: &mut [u8]) -> i64 {
    if out.len() < b"F,0,0,0\n".len() {
        return -8;
    }
    twin_foot(statement, out)
}

fn foot_passes_withdrawn_areas_over(statement: &[u8], out: &mut [u8]) -> i64 {
    let Ok(mut holding) = statement::read(statement) else {
        return -11;
    };
    holding.areas.retain(|area| !area.withdrawn);
    twin_foot(&statement::write(&holding), out)
}

#[test]
fn every_fault_of_a_foot_is_found_and_shrunk() {
    let faults: [(&str, CallOfOne); 5] = [
        ("room of a foot", foot_refuses_exact_room),
        ("past a foot", foot_touches_a_byte_past),
        ("refusal of a foot", foot_touches_on_refusal),
        ("8 before 11", foot_measures_before_it_reads),
        ("withdrawn areas", foot_passes_withdrawn_areas_over),
    ];
    for (name, foot) in faults {
        assert_found_and_shrunk(name, Calls { foot, ..TWIN });
    }
}

/// The edges have no foot of so many digits.
fn foot_of_44_bytes_is_refused(statement: &[u8], out: &mut [u8]) -> i64 {
    match twin_foot(statement, out) {
        44 => -11,
        answer => answer,
    }
}

#[test]
fn the_longest_foot_is_tried() {
    assert!(is_found(Calls { foot: foot_of_44_bytes_is_refused, ..TWIN }));
}

#[test]
fn outcomes_that_never_came_are_named() {
    let nothing = Tally::default().missing();
    for outcome in ["T", "line 33", "foot taken", "foot 8", "foot 11", "import taken", "import 42", "export 1"] {
        assert!(nothing.contains(&outcome.to_string()), "{outcome}");
    }
    for limit in
        ["line 16 sub-areas", "line most received", "foot 49 sub-areas", "import 48 sub-areas", "export 17 sub-areas"]
    {
        assert!(nothing.contains(&limit.to_string()), "{limit}");
    }
    assert!(!nothing.contains(&"export most received".to_string()));
}

/// How many kinds are missing before the first book, and after each.
fn missing_after_each(kinds: &'static [Kind], books: &[String]) -> Vec<usize> {
    let mut came = Kinds::new(kinds);
    let mut missing = vec![came.missing().len()];
    for book in books {
        came.count(book.as_bytes());
        missing.push(came.missing().len());
    }
    missing
}

#[test]
fn books_are_told_apart_by_what_their_export_has() {
    let mapped = "A,1,2008\nS,1,1,1,B,0\n".to_string();
    let two = mapped.clone() + "A,2,2008\nS,2,1,1,B,0\n";
    let books = ["A,1,2008\n".into(), two, mapped.clone() + "W,1\n", mapped.repeat(2), "\n".repeat(BOOK_BYTES + 1)];
    assert_eq!(missing_after_each(&EXPORTED, &books), [5, 4, 3, 2, 1, 0]);
}

#[test]
fn books_are_told_apart_by_what_their_foot_adds_up() {
    let received = |area: u64| format!("A,{area},2008\nS,{area},1,1,P1,1998\nR,{area},2010\n");
    let two = received(1) + &received(2);
    let books = [
        "T,G,D,1\n".to_string(),
        two.clone(),
        two + "W,2\n",
        "T,G,D,0,30,20\nA,1,2010\nS,1,1,1,D,2010\nR,1,2010\nR,1,2011\n".to_string(),
        "\n".repeat(BOOK_BYTES + 1),
    ];
    assert_eq!(missing_after_each(&LISTED, &books), [5, 4, 3, 2, 1, 0]);
}

#[test]
fn books_are_told_apart_by_the_sub_areas_of_an_area() {
    let book = |subs: usize| -> String {
        let lines: String = (1..=subs).map(|sub| format!("S,7,{sub},1,B,0\n")).collect();
        format!("A,7,2008\n{lines}")
    };
    let books = [15, 16, 17, 47, 48, 49].map(book);
    assert_eq!(missing_after_each(&CROWDED, &books), [5, 5, 4, 3, 3, 2, 1]);
    assert_eq!(missing_after_each(&CROWDED, &[book(47)]), [5, 4]);
}

fn full_before_the_last(statement: &[u8], table: &[u8], line: &[u8], out: &mut [u8]) -> i64 {
    let subs = statement.windows(3).filter(|window| window == b"\nS,").count();
    if line.starts_with(b"S") && statement.starts_with(b"H,1\n") && subs == MOST_SUBS - 1 {
        return -26;
    }
    twin(statement, table, line, out)
}

#[test]
fn the_last_sub_is_tried() {
    assert!(is_found(Calls { line: full_before_the_last, ..TWIN }));
}

/// Without the edges: areas of each count of sub-areas, and the most units received, by every call. Only statements that
/// are beyond a limit by one are left to the edges.
#[test]
fn seeded_cases_come_to_the_limits() {
    let missing = tallied(TWIN, TWIN, seeded(60_000, 7)).expect("alike").missing();
    let is_limit = |name: &&String| name.ends_with("sub-areas") || name.ends_with("received");
    let is_left = |name: &&String| ["line", "foot", "import"].iter().any(|call| name.starts_with(call));
    let beyond = |name: &&String| name.ends_with("49 sub-areas") || name.ends_with("one more received");
    let limits: Vec<&String> =
        missing.iter().filter(is_limit).filter(|name| !(is_left(name) && beyond(name))).collect();
    assert!(limits.is_empty(), "{limits:?}");
}

#[test]
fn full_room_is_enough() {
    for case in edges::cases().chain(seeded(10_000, 7)).filter(|case| case.has_full_room()) {
        assert_ne!(case.run(TWIN).answer, -8, "{case}");
    }
}

#[test]
fn the_twin_is_like_itself_and_a_seed_repeats() {
    let said = |seed: u64| tallied(TWIN, TWIN, seeded(5_000, seed)).expect("alike").to_string();
    assert_eq!(said(3), said(3));
    assert_ne!(said(3), said(4));
}

#[test]
fn numbers_within_a_range_reach_its_ends() {
    let mut random = Random::new(0);
    let numbers: Vec<u64> = (0..200).map(|_| random.within(5..=9)).collect();
    assert!((5..=9).all(|number| numbers.contains(&number)));
    assert!(numbers.iter().all(|number| (5..=9).contains(number)));
}
