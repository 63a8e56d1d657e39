//! Every kind of damage to a line, a sheet, a book or a statement.

use crate::random::Random;

pub const BYTES: &[u8] = b",\n\r\".0123456789+- \0\x09\x0b:/TASCPRWHBDNGXtasb\x80\xff";

/// What quotes a field or ends a row.
const MARKS: [&[u8]; 7] = [b"\"", b"\"\"", b"\"\"\"", b"\r\n", b"\r", b"\n", b"\",\""];

pub fn damaged(random: &mut Random, text: &[u8]) -> Vec<u8> {
    let mut text = text.to_vec();
    loop {
        damage_once(random, &mut text);
        if !random.one_in(4) {
            return text;
        }
    }
}

fn damage_once(random: &mut Random, text: &mut Vec<u8>) {
    let place = random.below(text.len() + 1);
    match random.below(13) {
        0..=3 => nudge_number(random, text),
        4 if place < text.len() => text[place] = *random.pick(BYTES),
        5 => text.insert(place, *random.pick(BYTES)),
        6 if place < text.len() => drop(text.remove(place)),
        7 => text.truncate(place),
        8 => move_line(random, text),
        9 => change_field(random, text),
        10 => text.push(*random.pick(BYTES)),
        11 => text.splice(place..place, random.pick::<&[u8]>(&MARKS).to_vec()).for_each(drop),
        _ => repeat_part(random, text),
    }
}

/// A number becomes another that is near it, at an edge, malformed or far too long.
fn nudge_number(random: &mut Random, text: &mut Vec<u8>) {
    let starts: Vec<usize> =
        (0..text.len()).filter(|&i| text[i].is_ascii_digit() && (i == 0 || !text[i - 1].is_ascii_digit())).collect();
    if starts.is_empty() {
        return;
    }
    let start = *random.pick(&starts);
    let length = text[start..].iter().take_while(|byte| byte.is_ascii_digit()).count();
    let digits = String::from_utf8_lossy(&text[start..start + length]).into_owned();
    let value: u128 = digits.parse().unwrap_or(u128::MAX / 16);
    let nudged = match random.below(12) {
        0..=3 => value.saturating_add(1).to_string(),
        4..=6 => value.saturating_sub(1).to_string(),
        7 => value.saturating_mul(10).to_string(),
        8 => format!("0{digits}"),
        9 => random
            .pick(&["0", "1", "2", "17", "49", "100", "1000", "1899", "1900", "2007", "2008", "2199", "2200", "2201"])
            .to_string(),
        10 => random
            .pick(&["18446744073709551615", "18446744073709551616", "18446744073709553626", "4294967306"])
            .to_string(),
        _ => digits.repeat(1 + random.below(300)),
    };
    text.splice(start..start + length, nudged.into_bytes());
}

fn move_line(random: &mut Random, text: &mut Vec<u8>) {
    let mut lines: Vec<Vec<u8>> = text.split_inclusive(|&byte| byte == b'\n').map(<[u8]>::to_vec).collect();
    if lines.is_empty() {
        return;
    }
    let (from, to) = (random.below(lines.len()), random.below(lines.len()));
    match random.below(3) {
        0 => lines.swap(from, to),
        1 => drop(lines.remove(from)),
        _ => {
            let line = lines[from].clone();
            lines.insert(to, line);
        }
    }
    *text = lines.concat();
}

fn change_field(random: &mut Random, text: &mut Vec<u8>) {
    const FIELDS: [&str; 20] = [
        "", "B", "P", "P0", "P1", "P9", "P10", "D", "S", "H", "N", "G", "R", "T", "0", "1", "2008", "0.5", ".5",
        "99.99",
    ];
    let mut fields: Vec<Vec<u8>> = text.split(|&byte| byte == b',').map(<[u8]>::to_vec).collect();
    let (from, to) = (random.below(fields.len()), random.below(fields.len()));
    match random.below(4) {
        0 => fields.swap(from, to),
        1 => drop(fields.remove(from)),
        2 => fields.insert(to, random.pick(&FIELDS).as_bytes().to_vec()),
        _ => fields[to] = random.pick(&FIELDS).as_bytes().to_vec(),
    }
    *text = fields.join(&b',');
}

fn repeat_part(random: &mut Random, text: &mut Vec<u8>) {
    let start = random.below(text.len() + 1);
    let end = start + random.below(text.len() - start + 1);
    let part = text[start..end].to_vec();
    let place = random.below(text.len() + 1);
    text.splice(place..place, part);
}
