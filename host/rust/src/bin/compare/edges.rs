//! Small statements, alone for their foot and with lines, each field in turn at every value where a rule changes; and small
//! sheets and books, each byte in turn changed, taken out, doubled and made the last; and sheets with every short end.
//! Areas of many sub-areas are in crowded.

use crate::case::Case;
use crate::crowded;
use crate::damage::BYTES;

const STATEMENTS: [&str; 4] = [
    "H,0\n",
    "H,1\nA,7,2010,2010,2012,0,0,45000,0,0,1\nS,1,100,D,2008,B,0,0\n",
    "H,1\nA,7,2010,2013,2011,0,2,85000,55,15,2\nS,1,100,D,2011,D,3,2011\nS,2,10,B,0,B,0,0\n",
    "H,2\nA,7,2198,2200,0,1,1,0,5,5,0\nA,8,2008,2008,0,0,0,0,0,0,0\n",
];

const LINES: [&str; 10] = [
    "T,R,N,1,2.5",
    "A,9,2010",
    "S,7,3,10.04,D,2008",
    "S,8,1,1,B,0",
    "C,7,1,2013",
    "P,7,2,P1,2013",
    "R,7,2013",
    "R,8,2008",
    "W,7",
    "W,8",
];

/// Onto the second and the last statement.
const SHEETS: [&str; 4] = [
    "area,sub,hectares,type,planted\r\n8,2,10.04,D,2008\r\n8,1,1,B,0",
    "\"area\",\"sub\",\"hectares\",\"type\",\"planted\"\r\n\"7\",\"2\",\"1.5\",\"P1\",\"2010\"\r\n",
    "area,\"sub\",hectares,type,planted\r\n8,1,\"1\"\"\",B,\"0\r\n,\"\r\n",
    "area,sub,hectares,type,planted\r\n7,2,1,D,2010\r\n\"7\",3,1,B,\"0\"\r\n7,2,2,D,2009\r\n",
];

/// Where a row starts, and where its last field starts.
const STARTS: [&str; 2] =
    ["area,sub,hectares,type,planted\r\n", "area,sub,hectares,type,planted\r\n8,1,1,B,0\r\n8,2,1,B,"];
const MARKS: &[u8; 5] = b"\",\r\n0";

const BOOKS: [&str; 2] = [
    "A,7,2010\nS,7,1,10.04,D,2008\nW,7\nS,7,2,1,B,0\n",
    "T,G,D,1\nS,8,1,1,B,0\nA,8,2010\nS,8,1,1.50,P1,2010\nS,8,1,1,B,0\nR,8,2010\nS,8,2,1,B,0",
];

/// Parted by blanks; the first is the empty field.
const VALUES: &str = concat!(
    " 0 00 01 1 +1 -1 1. .5 0.5 0.9999 0.99999 1.0 1.05 1.25 2 3 4 5 7 8 9 10 15 16 17 47 48 49 54 55 56 98 99 100",
    " 101 299 300 998 999 1000 1899 1900 2007 2008 2009 2010 2011 2012 2013 2014 2198 2199 2200 2201 3000",
    " 3000.0 3000.1 9999.95 10000 10000.0001 99999 100000 100001 999999 1000000 1000000000 1000000001",
    " 2000000000 2000000001 3000000000 3000000001 6000000000 6000000001 60000000000 60000000001 120000000000",
    " 120000000001 18446744073709551616 B P P1 P9 D S N G R",
);

pub fn cases() -> impl Iterator<Item = Case> {
    let lines =
        STATEMENTS.into_iter().flat_map(|statement| LINES.into_iter().flat_map(move |line| around(statement, line)));
    let feet = STATEMENTS.into_iter().flat_map(variants).map(|statement| Case::foot(statement.into_bytes()));
    lines.chain(feet).chain(imports()).chain(exports()).chain(crowded::cases())
}

fn imports() -> impl Iterator<Item = Case> {
    let onto = |statement: &'static str| {
        let ended = STARTS.into_iter().flat_map(|start| ends().map(|end| [start.as_bytes(), &end].concat()));
        let sheets = SHEETS.into_iter().flat_map(damaged_everywhere).chain(ended);
        sheets.map(|sheet| Case::import(statement.as_bytes().to_vec(), Vec::new(), sheet))
    };
    onto(STATEMENTS[1]).chain(onto(STATEMENTS[3]))
}

/// Every text of up to five of the marks.
fn ends() -> impl Iterator<Item = Vec<u8>> {
    let of_length = |length: u32| (0..MARKS.len().pow(length)).map(move |number| end(number, length));
    (0..=5).flat_map(of_length)
}

fn end(number: usize, length: u32) -> Vec<u8> {
    (0..length).map(|place| MARKS[number / MARKS.len().pow(place) % MARKS.len()]).collect()
}

fn exports() -> impl Iterator<Item = Case> {
    BOOKS.into_iter().flat_map(damaged_everywhere).map(Case::export)
}

/// The text as it is, and for each of its places: the byte changed to any that has a meaning and to some that have none,
/// taken out and doubled, and the text cut.
fn damaged_everywhere(text: &'static str) -> impl Iterator<Item = Vec<u8>> {
    let text = text.as_bytes();
    let at_each = (0..text.len()).flat_map(|place| {
        let (before, after) = (&text[..place], &text[place + 1..]);
        let changed = BYTES.iter().map(move |&value| [before, &[value], after].concat());
        let doubled = [before, &[text[place]; 2], after].concat();
        changed.chain([[before, after].concat(), doubled, before.to_vec()])
    });
    at_each.chain([text.to_vec()])
}

fn around(statement: &'static str, line: &'static str) -> impl Iterator<Item = Case> {
    let statements = variants(statement).map(move |statement| (statement, line.to_string()));
    let lines = variants(line).map(move |line| (statement.to_string(), line));
    statements.chain(lines).map(|(statement, line)| Case::line(statement.into_bytes(), Vec::new(), line.into_bytes()))
}

/// The text with one field replaced by one of the values.
fn variants(text: &'static str) -> impl Iterator<Item = String> {
    let mut end = 0;
    text.split([',', '\n']).flat_map(move |field| {
        let start = end;
        end += field.len() + 1;
        let after = start + field.len();
        VALUES.split(' ').map(move |value| format!("{}{value}{}", &text[..start], &text[after..]))
    })
}
