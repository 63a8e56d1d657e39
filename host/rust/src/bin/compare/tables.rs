//! Participants' tables, good ones and damaged ones, as bytes.

use crate::random::Random;

pub fn table(random: &mut Random) -> Vec<u8> {
    if random.one_in(4) {
        return Vec::new();
    }
    let lengths: Vec<u16> = (0..10).map(|_| length(random)).collect();
    let cells: usize = lengths.iter().map(|&length| usize::from(length)).sum();
    let cells: Vec<u16> = (0..cells).map(|_| random.within(0..=30_000) as u16).collect();
    bytes(&[lengths, cells].concat())
}

fn length(random: &mut Random) -> u16 {
    match random.below(4) {
        0 => random.within(0..=101) as u16,
        1 => random.within(1..=5) as u16,
        _ => 0,
    }
}

fn bytes(numbers: &[u16]) -> Vec<u8> {
    numbers.iter().flat_map(|number| number.to_le_bytes()).collect()
}

pub fn damaged(random: &mut Random, table: &[u8]) -> Vec<u8> {
    const EDGES: [u16; 10] = [0, 1, 2, 100, 101, 102, 30_000, 30_001, 32_768, 65_535];
    let mut numbers: Vec<u16> = table.chunks_exact(2).map(|pair| u16::from_le_bytes([pair[0], pair[1]])).collect();
    let place = random.below(numbers.len() + 1);
    match random.below(6) {
        0 => numbers.insert(place, *random.pick(&EDGES)),
        1 => numbers.truncate(place),
        2 => drop(numbers.pop()),
        3 => numbers.truncate(10),
        _ if place < numbers.len() => numbers[place] = *random.pick(&EDGES),
        _ => numbers.push(0),
    }
    let mut table = bytes(&numbers);
    if random.one_in(8) {
        table.push(0);
    }
    table
}
