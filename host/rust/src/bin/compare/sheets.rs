//! Sheets that suit a holding, most of them: rows at the edges of what S takes, quoted or not, and the ways to break one.

use crate::lines::add_line_to;
use crate::random::Random;
use carbon_twin::holding::Holding;
use carbon_twin::parsing::parse;
use carbon_twin::ranges::MOST_SUBS;
use carbon_twin::sheet::{push_quoted, HEADING};
use carbon_twin::tables::Table;

type Rows = Vec<Vec<Vec<u8>>>;

pub fn sheet(random: &mut Random, holding: &Holding) -> Vec<u8> {
    let mut rows: Rows = vec![HEADING.iter().map(|name| name.as_bytes().to_vec()).collect()];
    add_rows(random, holding, &mut rows);
    if random.one_in(4) {
        spoil(random, &mut rows);
    }
    let mut sheet = written(random, &rows);
    if random.one_in(4) {
        sheet.truncate(sheet.len() - b"\r\n".len());
    }
    sheet
}

/// Rows that the holding takes one after the other, and now and then one that it does not: seldom where there are so many
/// that they fill an area.
fn add_rows(random: &mut Random, holding: &Holding, rows: &mut Rows) {
    let mut after = holding.clone();
    let fills = random.one_in(12);
    let tries = if fills { 3 * MOST_SUBS } else { *random.pick(&[0, 1, 1, 2, 3, 6]) };
    let seldom = if fills { 2 * MOST_SUBS } else { 8 };
    let roams = random.one_in(2);
    let mut number = area_number(random, holding);
    for _ in 0..tries {
        if roams && random.one_in(4) {
            number = area_number(random, holding);
        }
        let line = add_line_to(random, number, &after);
        let taken = parse(line.as_bytes()).and_then(|entry| after.apply(&entry, &Table::default()));
        if taken.is_ok() || random.one_in(seldom) {
            rows.push(line.as_bytes().split(|&byte| byte == b',').skip(1).map(<[u8]>::to_vec).collect());
        }
    }
}

/// That of an area which takes sub-areas, if there is one.
fn area_number(random: &mut Random, holding: &Holding) -> u64 {
    let takes: Vec<u64> =
        holding.areas.iter().filter(|area| !area.withdrawn && area.returns == 0).map(|area| area.number).collect();
    match random.below(24) {
        0 => random.within(0..=1000),
        1 if !holding.areas.is_empty() => random.pick(&holding.areas).number,
        _ if !takes.is_empty() => *random.pick(&takes),
        _ => random.within(1..=999),
    }
}

/// One thing of the rows goes wrong: a row doubled, moved or without five fields, another heading, or an odd field.
fn spoil(random: &mut Random, rows: &mut Rows) {
    let (from, to) = (random.below(rows.len()), random.below(rows.len()));
    match random.below(8) {
        0 => rows.push(rows[from].clone()),
        1 => rows.swap(from, to),
        2 => drop(rows[from].pop()),
        3 => rows[from].push(b"0".to_vec()),
        4 => rows.insert(from, vec![Vec::new()]),
        5 => drop(rows.remove(0)),
        6 => rows[0][0].splice(..0, *b"\xef\xbb\xbf").for_each(drop),
        _ => spoil_field(random, &mut rows[to]),
    }
    if rows.is_empty() {
        rows.push(vec![Vec::new()]);
    }
}

/// A field with what only quotes let in, or a row whose line has nearly 1024 bytes.
fn spoil_field(random: &mut Random, row: &mut [Vec<u8>]) {
    const ODD: [&[u8]; 8] = [b",", b"\n", b"\r", b"\r\n", b"\"", b"\"\"", b" ", b"\0"];
    let place = random.below(row.len());
    if random.one_in(3) {
        let others: usize = row.iter().map(Vec::len).sum::<usize>() - row[place].len();
        let length = *random.pick(&[1023, 1024, 1025]) - b"S,,,,,".len() - others.min(900);
        row[place] = vec![b'9'; length];
    } else if random.one_in(2) {
        row[place].extend_from_slice(random.pick::<&[u8]>(&ODD));
    } else {
        let odd = random.pick::<&[u8]>(&ODD).to_vec();
        row[place].splice(..0, odd);
    }
}

fn written(random: &mut Random, rows: &Rows) -> Vec<u8> {
    let quoted_of_four = *random.pick(&[0, 0, 2, 4]);
    let mut sheet = Vec::new();
    for row in rows {
        for (place, field) in row.iter().enumerate() {
            if place > 0 {
                sheet.push(b',');
            }
            push_field(random, &mut sheet, field, quoted_of_four);
        }
        sheet.extend_from_slice(b"\r\n");
    }
    sheet
}

/// Where a field must be quoted, it mostly is.
fn push_field(random: &mut Random, sheet: &mut Vec<u8>, field: &[u8], quoted_of_four: usize) {
    let wants = field.iter().any(|byte| matches!(byte, b',' | b'"' | b'\r' | b'\n')) && !random.one_in(4);
    if wants || random.below(4) < quoted_of_four {
        push_quoted(sheet, field);
    } else {
        sheet.extend_from_slice(field);
    }
}
