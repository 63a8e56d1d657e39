//! The form of a statement: "the bytes are the writer's". Whatever is written otherwise is refused under 11.

use crate::statements::{area, is_read, sub};
use crate::sub_areas::statement_of;
use carbon_twin::ranges::{MOST_AREAS, MOST_SUBS};

/// Every kind of line, and areas with sub-areas and without.
const KEPT: &str = "H,3
A,7,2010,2013,2012,0,2,85000,55,15,2
S,1,100,D,2011,P9,3,2011
S,20,10,B,0,B,0,0
A,8,2008,2008,0,0,0,0,0,0,0
A,9,2010,2011,0,1,1,60000000000,5,5,1
S,3,100000,P1,1990,B,0,0
";

/// The statement with each such field of it changed in turn.
fn with_each(is_such: impl Fn(&str) -> bool, change: impl Fn(&str) -> String) -> Vec<String> {
    let mut start = 0;
    let mut changed = Vec::new();
    for field in KEPT.split_terminator([',', '\n']) {
        let end = start + field.len();
        if is_such(field) {
            changed.push(format!("{}{}{}", &KEPT[..start], change(field), &KEPT[end..]));
        }
        start = end + 1;
    }
    changed
}

fn is_number(field: &str) -> bool {
    field.parse::<u64>().is_ok()
}

fn assert_none_is_read(texts: &[String]) {
    assert!(is_read(KEPT));
    assert!(!texts.is_empty());
    for text in texts {
        assert!(!is_read(text), "{text:?}");
    }
}

#[test]
fn numbers_are_decimal_without_leading_zeros() {
    let in_front = ["0", "00", "+", "-", " ", "\t", "0x", "."];
    let behind = [" ", "\r", "\0", ".", ".0", "e0", "x", "_"];
    for sign in in_front {
        assert_none_is_read(&with_each(is_number, |field| format!("{sign}{field}")));
    }
    for sign in behind {
        assert_none_is_read(&with_each(is_number, |field| format!("{field}{sign}")));
    }
    for text in ["", "+", "-", "x", "B"] {
        assert_none_is_read(&with_each(is_number, |_| text.to_string()));
    }
}

/// No number is taken for what is left of it in 64 bits.
#[test]
fn numbers_of_any_length_keep_their_value() {
    let wrapped = |field: &str| (field.parse::<u128>().unwrap() + (1 << 64)).to_string();
    assert_none_is_read(&with_each(is_number, wrapped));
    assert_none_is_read(&with_each(is_number, |_| "9".repeat(5000)));
}

#[test]
fn every_line_ends_with_byte_10() {
    let ends = KEPT.match_indices('\n');
    let instead = |text: &str| -> Vec<String> {
        ends.clone().map(|(end, _)| format!("{}{text}{}", &KEPT[..end], &KEPT[end + 1..])).collect()
    };
    for text in ["", "\r", "\r\n", "\n\r", "\n\n", " \n", "\0", ",", ",\n", "\u{b}"] {
        assert_none_is_read(&instead(text));
    }
    let cut: Vec<String> = (0..KEPT.len()).map(|length| KEPT[..length].to_string()).collect();
    assert_none_is_read(&cut);
}

#[test]
fn nothing_stands_behind_the_last_line() {
    let behind = ["\n", "\r", " ", "\0", ",", "0", "H,0\n", "S,4,10,B,0,B,0,0\n", "A,6,2008,2008,0,0,0,0,0,0,0\n"];
    assert_none_is_read(&behind.map(|behind| format!("{KEPT}{behind}")));
    assert_none_is_read(&behind.map(|before| format!("{before}{KEPT}")));
}

#[test]
fn commas_part_the_fields() {
    let commas = KEPT.match_indices(',');
    for text in ["", ",,", ";", ".", " ", ", ", " ,", "\n", ",\n", "\t"] {
        let instead = commas.clone().map(|(comma, _)| format!("{}{text}{}", &KEPT[..comma], &KEPT[comma + 1..]));
        assert_none_is_read(&instead.collect::<Vec<_>>());
    }
}

#[test]
fn fields_are_just_so_many() {
    let lines: Vec<&str> = KEPT.lines().collect();
    let with_line = |place: usize, line: String| -> String {
        let kept = lines.iter().enumerate();
        kept.map(|(other, &kept)| if other == place { format!("{line}\n") } else { format!("{kept}\n") }).collect()
    };
    for (place, line) in lines.iter().enumerate() {
        let fields: Vec<&str> = line.split(',').collect();
        let fewer = (0..fields.len()).map(|gone| [&fields[..gone], &fields[gone + 1..]].concat().join(","));
        let more = (0..=fields.len()).map(|at| [&fields[..at], &["0"], &fields[at..]].concat().join(","));
        let texts: Vec<String> = fewer.chain(more).map(|line| with_line(place, line)).collect();
        assert_none_is_read(&texts);
    }
}

#[test]
fn letters_stand_where_the_form_has_them() {
    for text in ["", "h", "a", "s", "H", "A", "S", "HH", "AA", "SS", "B", "T", "0", " A"] {
        let is_another = |field: &str| ["H", "A", "S"].contains(&field) && field != text;
        assert_none_is_read(&with_each(is_another, |_| text.to_string()));
    }
    for text in ["", "b", "BB", "P", "P0", "P10", "p1", "d", "DD", "G", "R", "0", "D ", " D"] {
        let is_type = |field: &str| ["B", "D", "P1", "P9"].contains(&field);
        assert_none_is_read(&with_each(is_type, |_| text.to_string()));
    }
}

/// Counts above and below what stands, and above the limit where so many stand.
#[test]
fn counts_are_what_stands() {
    for areas in [0, 1, 2, 4, MOST_AREAS, MOST_AREAS + 1, 256] {
        assert_none_is_read(&[KEPT.replacen("H,3", &format!("H,{areas}"), 1)]);
    }
    for subs in [0, 1, 3, 16, 17, MOST_SUBS, MOST_SUBS + 1, 256] {
        assert_none_is_read(&[KEPT.replacen("55,15,2\n", &format!("55,15,{subs}\n"), 1)]);
        assert_none_is_read(&[KEPT.replacen("0,0,0\nA,9", &format!("0,0,{}\nA,9", subs + 1), 1)]);
    }
    let areas = |count: usize| -> String {
        let areas: String = (1..=count).map(|number| format!("A,{number},2010,2010,0,0,0,0,0,0,0\n")).collect();
        format!("H,{count}\n{areas}")
    };
    assert!(is_read(&areas(MOST_AREAS)) && is_read(&statement_of(MOST_SUBS)));
    assert!(!is_read(&areas(MOST_AREAS + 1)) && !is_read(&statement_of(MOST_SUBS + 1)));
}

#[test]
fn withdrawn_is_0_or_1() {
    let of = |withdrawn: &str| area(&format!("7,2010,2011,0,{withdrawn},1,0,5,5,0"));
    assert!(is_read(&of("0")) && is_read(&of("1")));
    for withdrawn in ["2", "3", "9", "10", "11", "256", "257", "00", "01", "+1", "-1", "", "x", "true"] {
        assert!(!is_read(&of(withdrawn)), "{withdrawn}");
    }
}

#[test]
fn bare_land_keeps_noughts() {
    let of = |trees: &str, residue: &str| sub(2012, &format!("1,10,{trees},{residue}"));
    for (trees, residue) in [("B,0", "B,0,0"), ("B,0", "D,5,2011"), ("D,2010", "B,0,0")] {
        assert!(is_read(&of(trees, residue)), "{trees},{residue}");
    }
    for trees in ["B,1", "B,1900", "B,2010", "B,2012", "B,", "B,00"] {
        assert!(!is_read(&of(trees, "B,0,0")), "{trees}");
        assert!(!is_read(&of(trees, "D,5,2011")), "{trees}");
    }
    for residue in ["B,1,0", "B,0,1", "B,0,2011", "B,5,2011", "B,299,2012", "B,,0", "B,0,", "B,00,0", "B,0,00"] {
        assert!(!is_read(&of("B,0", residue)), "{residue}");
        assert!(!is_read(&of("D,2010", residue)), "{residue}");
    }
}
