//! Lines that suit a holding, most of them, with years and numbers at the edges of what is taken.

use crate::holdings::{MANY_SUBS, ONE_TOO_MANY};
use crate::random::Random;
use carbon_twin::forest::Forest;
use carbon_twin::holding::{Area, Holding, Sub};
use carbon_twin::ranges::MOST_SUBS;

pub const LETTERS: [&str; 7] = ["T", "A", "S", "C", "P", "R", "W"];

/// How often each letter comes, and how many sub-areas an area is first filled with, where it is; with one too many, the
/// book goes on trying.
pub struct Mood {
    often: [usize; 7],
    fills: Option<usize>,
}

pub fn mood(random: &mut Random) -> Mood {
    let mut often = || *random.pick(&[1, 4, 16]);
    let often = [often(), 2 * often(), 4 * often(), 4 * often(), 4 * often(), 4 * often(), 1];
    let fills = match random.below(24) {
        0..=2 => Some(*random.pick(&MANY_SUBS)),
        3 => Some(ONE_TOO_MANY),
        _ => None,
    };
    Mood { often, fills }
}

impl Mood {
    /// How many lines suit it: enough to fill an area, where it does, and to go on.
    pub fn lines(&self, random: &mut Random) -> usize {
        let filling = if self.fills.is_some() { 3 * MOST_SUBS } else { 0 };
        filling + 10 + random.below(200)
    }
}

pub fn line(random: &mut Random, mood: &Mood, holding: &Holding) -> Vec<u8> {
    let filled = mood.fills.filter(|_| !random.one_in(16)).and_then(|most| below(most, holding));
    let mut line = match filled {
        Some(area) => add_line(random, area.number, area),
        None => any_line(random, mood.often, holding),
    };
    if random.one_in(2) {
        line.push('\n');
    }
    line.into_bytes()
}

/// The first area that takes sub-areas and has fewer than so many.
fn below(most: usize, holding: &Holding) -> Option<&Area> {
    holding.areas.iter().find(|area| !area.withdrawn && area.returns == 0 && area.subs.len() < most)
}

fn any_line(random: &mut Random, mut often: [usize; 7], holding: &Holding) -> String {
    if holding.areas.is_empty() {
        often[0] *= 8;
        often[1] *= 16;
    }
    match LETTERS[random.weighted(&often)] {
        "T" => column_line(random),
        "A" => open_line(random, holding),
        letter => area_line(random, letter, holding),
    }
}

fn column_line(random: &mut Random) -> String {
    let kind = random.pick(&["G", "R"]);
    let forest = random.pick(&["P", "D", "S", "H", "N"]);
    let most = *random.pick(&[1, 5, 30, 101, 102]);
    let count = random.within(1..=most);
    let cells: Vec<String> = (0..count).map(|_| cell(random, count)).collect();
    format!("T,{kind},{forest},{}", cells.join(","))
}

/// Short where there are many, so that the line stays within its bytes.
fn cell(random: &mut Random, count: u64) -> String {
    let tonnes = random.within(0..=if count > 60 { 999 } else { 3000 });
    if random.one_in(3) && tonnes < 3000 {
        format!("{tonnes}.{}", random.below(10))
    } else {
        tonnes.to_string()
    }
}

fn open_line(random: &mut Random, holding: &Holding) -> String {
    let number = if random.one_in(12) { area_number(random, holding) } else { random.within(1..=999) };
    let opening = if random.one_in(3) { random.within(2008..=2199) } else { random.within(2008..=2020) };
    format!("A,{number},{opening}")
}

fn area_number(random: &mut Random, holding: &Holding) -> u64 {
    if holding.areas.is_empty() || random.one_in(40) {
        random.within(0..=1000)
    } else {
        let open: Vec<u64> = holding.areas.iter().filter(|area| !area.withdrawn).map(|area| area.number).collect();
        let any_will_do = open.is_empty() || random.one_in(12);
        if any_will_do {
            random.pick(&holding.areas).number
        } else {
            *random.pick(&open)
        }
    }
}

/// The area, or one that stands for an area that is not there.
fn area_of(number: u64, holding: &Holding) -> Area {
    let unknown = Area { opening: 2010, open_year: 2010, ..Area::default() };
    holding.areas.iter().find(|area| area.number == number).cloned().unwrap_or(unknown)
}

/// An S line that suits the area of this number.
pub fn add_line_to(random: &mut Random, number: u64, holding: &Holding) -> String {
    add_line(random, number, &area_of(number, holding))
}

fn area_line(random: &mut Random, letter: &str, holding: &Holding) -> String {
    let number = area_number(random, holding);
    let area = &area_of(number, holding);
    let letter = if random.one_in(6) { letter } else { suiting(letter, area) };
    match letter {
        "S" => add_line(random, number, area),
        "C" => {
            let sub = sub_number(random, area, |sub| sub.trees.is_some());
            format!("C,{number},{sub},{}", year_near(random, area))
        }
        "P" => {
            let sub = sub_number(random, area, |sub| sub.trees.is_none());
            let forest = if random.one_in(40) { "B" } else { random.pick(&Forest::ALL).code() };
            format!("P,{number},{sub},{forest},{}", year_near(random, area))
        }
        "R" => format!("R,{number},{}", year_near(random, area)),
        _ => format!("W,{number}"),
    }
}

/// Where the area's state would refuse the letter, one that it takes.
fn suiting<'a>(letter: &'a str, area: &Area) -> &'a str {
    match letter {
        "S" if area.returns > 0 => "R",
        "C" | "P" if area.subs.is_empty() && area.returns == 0 => "S",
        "C" if area.subs.iter().all(|sub| sub.trees.is_none()) => "P",
        "P" if area.subs.iter().all(|sub| sub.trees.is_some()) => "C",
        _ => letter,
    }
}

fn add_line(random: &mut Random, number: u64, area: &Area) -> String {
    let sub = if random.one_in(12) { sub_number(random, area, |_| true) } else { random.within(1..=99) };
    let hectares = hectares(random);
    if random.one_in(6) {
        let planted = if random.one_in(12) { area.opening } else { 0 };
        return format!("S,{number},{sub},{hectares},B,{planted}");
    }
    let forest = random.pick(&Forest::ALL).code();
    let planted = match random.below(12) {
        0 => area.opening + 1,
        1 => random.within(1900..=2199),
        2 => 0,
        3..=5 => area.opening,
        _ => area.opening - random.within(0..=60),
    };
    format!("S,{number},{sub},{hectares},{forest},{planted}")
}

fn hectares(random: &mut Random) -> String {
    const EDGES: [&str; 8] = ["1", "0.9999", "1.0000", "10000", "10000.0001", "9999.95", "9999.9499", "999999"];
    let most = if random.one_in(4) { 9999 } else { 60 };
    let whole = random.within(1..=most);
    match random.below(4) {
        0 => random.pick(&EDGES).to_string(),
        1 => whole.to_string(),
        2 => format!("{whole}.{}5", random.below(10)),
        _ => {
            let decimals = 1 + random.below(4);
            let fraction: String = (0..decimals).map(|_| char::from(b'0' + random.below(10) as u8)).collect();
            format!("{whole}.{fraction}")
        }
    }
}

fn sub_number(random: &mut Random, area: &Area, suits: impl Fn(&Sub) -> bool) -> u64 {
    let suiting: Vec<u64> = area.subs.iter().filter(|sub| suits(sub)).map(|sub| sub.number).collect();
    if !suiting.is_empty() && !random.one_in(6) {
        *random.pick(&suiting)
    } else if !area.subs.is_empty() && !random.one_in(4) {
        random.pick(&area.subs).number
    } else {
        random.within(0..=100)
    }
}

fn year_near(random: &mut Random, area: &Area) -> u64 {
    let earliest = area.open_year.max(area.latest_year);
    match random.below(64) {
        0..=3 => earliest - 1,
        4..=5 => area.open_year,
        6..=7 => area.latest_year,
        8 => random.within(2007..=2200),
        9..=40 => earliest,
        41..=62 => (earliest + random.within(0..=5)).min(2199),
        _ => earliest + random.within(0..=12),
    }
}
