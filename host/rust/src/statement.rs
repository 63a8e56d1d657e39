//! The carried statement. The reader takes only "the writer's" bytes, and of these only what keeps the ranges.

use crate::forest::{Forest, BARE};
use crate::holding::{Area, Holding, Residue, Sub, Trees};
use crate::ranges::*;
use crate::refusal::Refusal;
use crate::text::{push_line, push_numbers, split_number};

/// The longest lines, and the longest report behind them: room for them is reserved at once.
const HEAD_BYTES: usize = "H,16\n".len();
const AREA_BYTES: usize = "A,999,2008,2200,2199,1,192,2880000000000,576000000000,576000000000,48\n".len();
const SUB_BYTES: usize = "S,99,100000,P9,2199,P9,299,2199\n".len();
const REPORT_BYTES: usize = "R,999,2008,2199,-2880000000,2880000000,2880000000,576000000000\n".len();

pub fn write(holding: &Holding) -> Vec<u8> {
    let subs: usize = holding.areas.iter().map(|area| area.subs.len()).sum();
    let lines = HEAD_BYTES + holding.areas.len() * AREA_BYTES + subs * SUB_BYTES;
    let mut text = Vec::with_capacity(lines + REPORT_BYTES);
    push_line(&mut text, b'H', &[holding.areas.len() as u64]);
    for area in &holding.areas {
        write_area(&mut text, area);
        for sub in &area.subs {
            write_sub(&mut text, sub);
        }
    }
    text
}

fn write_area(text: &mut Vec<u8>, area: &Area) {
    text.push(b'A');
    push_numbers(text, &[area.number, area.opening, area.open_year, area.latest_year]);
    push_numbers(text, &[u64::from(area.withdrawn), area.returns]);
    push_numbers(text, &[area.stock, area.received, area.surrendered, area.subs.len() as u64]);
    text.push(b'\n');
}

/// "no trees B,0; no residue B,0,0"
fn write_sub(text: &mut Vec<u8>, sub: &Sub) {
    let (forest, planted) = sub.trees.map_or((BARE, 0), |trees| (trees.forest.code(), trees.planted));
    let (left, age, year) =
        sub.residue.map_or((BARE, 0, 0), |residue| (residue.forest.code(), residue.age, residue.year));
    text.push(b'S');
    push_numbers(text, &[sub.number, sub.tenths]);
    push_code(text, forest);
    push_numbers(text, &[planted]);
    push_code(text, left);
    push_numbers(text, &[age, year]);
    text.push(b'\n');
}

fn push_code(text: &mut Vec<u8>, code: &str) {
    text.push(b',');
    text.extend_from_slice(code.as_bytes());
}

pub fn read(bytes: &[u8]) -> Result<Holding, Refusal> {
    scan(bytes).filter(carried).ok_or(Refusal::Statement)
}

fn scan(bytes: &[u8]) -> Option<Holding> {
    let mut fields = Fields { rest: bytes };
    fields.skip(b"H,")?;
    let count = fields.last_count(MOST_AREAS)?;
    let mut areas = Vec::with_capacity(count);
    for _ in 0..count {
        areas.push(scan_area(&mut fields)?);
    }
    fields.rest.is_empty().then_some(Holding { areas })
}

fn scan_area(fields: &mut Fields) -> Option<Area> {
    fields.skip(b"A,")?;
    let mut area = Area {
        number: fields.number()?,
        opening: fields.number()?,
        open_year: fields.number()?,
        latest_year: fields.number()?,
        withdrawn: fields.flag()?,
        returns: fields.number()?,
        stock: fields.number()?,
        received: fields.number()?,
        surrendered: fields.number()?,
        subs: Vec::new(),
    };
    let count = fields.last_count(MOST_SUBS)?;
    area.subs.reserve_exact(count);
    for _ in 0..count {
        area.subs.push(scan_sub(fields)?);
    }
    Some(area)
}

fn scan_sub(fields: &mut Fields) -> Option<Sub> {
    fields.skip(b"S,")?;
    let (number, tenths) = (fields.number()?, fields.number()?);
    let (forest, planted) = (fields.forest()?, fields.number()?);
    let (left, age, year) = (fields.forest()?, fields.number()?, fields.last_number()?);
    if (forest.is_none() && planted != 0) || (left.is_none() && (age, year) != (0, 0)) {
        return None;
    }
    let trees = forest.map(|forest| Trees { forest, planted });
    let residue = left.map(|forest| Residue { forest, age, year });
    Some(Sub { number, tenths, trees, residue })
}

/// What is left of a statement. A comma ends a field, and byte 10 the last field of a line: "every line ends with byte
/// 10".
struct Fields<'a> {
    rest: &'a [u8],
}

impl Fields<'_> {
    fn skip(&mut self, bytes: &[u8]) -> Option<()> {
        self.rest = self.rest.strip_prefix(bytes)?;
        Some(())
    }

    fn number_ended_by(&mut self, end: u8) -> Option<u64> {
        let (number, behind) = split_number(self.rest)?;
        self.rest = behind;
        self.skip(&[end])?;
        Some(number)
    }

    fn number(&mut self) -> Option<u64> {
        self.number_ended_by(b',')
    }

    fn last_number(&mut self) -> Option<u64> {
        self.number_ended_by(b'\n')
    }

    fn last_count(&mut self, most: usize) -> Option<usize> {
        let count = usize::try_from(self.last_number()?).ok()?;
        (count <= most).then_some(count)
    }

    fn flag(&mut self) -> Option<bool> {
        match self.number()? {
            0 => Some(false),
            1 => Some(true),
            _ => None,
        }
    }

    /// A forest type, or none where the land is bare.
    fn forest(&mut self) -> Option<Option<Forest>> {
        let length = self.rest.iter().position(|&byte| byte == b',')?;
        let (code, behind) = self.rest.split_at(length);
        self.rest = behind;
        self.skip(b",")?;
        if code == BARE.as_bytes() {
            Some(None)
        } else {
            Forest::of_code(code).map(Some)
        }
    }
}

/// Whether a statement carries the holding: the ranges of document 01.
pub fn carried(holding: &Holding) -> bool {
    holding.areas.len() <= MOST_AREAS
        && distinct(&holding.areas, |area| area.number)
        && holding.areas.iter().all(carried_area)
}

/// There are so few that each is held against those before it.
fn distinct<T>(items: &[T], number: impl Fn(&T) -> u64) -> bool {
    items.iter().enumerate().all(|(place, item)| items[..place].iter().all(|earlier| number(earlier) != number(item)))
}

fn carried_area(area: &Area) -> bool {
    let subs = area.subs.len();
    let years = AREA_NUMBERS.contains(&area.number)
        && ENTRY_YEARS.contains(&area.opening)
        && (area.latest_year == 0 || ENTRY_YEARS.contains(&area.latest_year))
        && (area.opening..=LAST_OPEN_YEAR).contains(&area.open_year);
    let returns =
        || (area.open_year == area.opening) == (area.returns == 0) && area.returns <= area.open_year - area.opening;
    let amounts = || {
        area.stock <= STOCK_OF_A_SUB * subs as u64
            && area.received <= RECEIVED_BY_A_RETURN * area.returns
            && area.surrendered <= area.received
            && (!area.withdrawn || area.surrendered == area.received)
    };
    years
        && returns()
        && amounts()
        && subs <= MOST_SUBS
        && distinct(&area.subs, |sub| sub.number)
        && area.subs.iter().all(|sub| carried_sub(area, sub))
}

fn carried_sub(area: &Area, sub: &Sub) -> bool {
    let last_planting = area.opening.max(area.latest_year);
    let trees = sub.trees.is_none_or(|trees| PLANTING_YEARS.contains(&trees.planted) && trees.planted <= last_planting);
    let residue = sub.residue.is_none_or(|residue| {
        residue.age <= OLDEST_RESIDUE && (area.opening..=area.latest_year).contains(&residue.year)
    });
    SUB_NUMBERS.contains(&sub.number) && TENTHS.contains(&sub.tenths) && trees && residue
}
