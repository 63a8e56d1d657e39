//! How many books of each kind came: what the foot adds up, what an export has rows of, and areas of many sub-areas.

use crate::holdings::MANY_SUBS;
use carbon_twin::holding::{Area, Holding};
use carbon_twin::listing::{lines, Account};
use carbon_twin::ranges::{BOOK_BYTES, MOST_SUBS};
use carbon_twin::refusal::Refusal;
use std::collections::{BTreeMap, BTreeSet};
use std::fmt;
use std::ops::RangeInclusive;

const OVERSIZED: &str = "oversized";

/// A book, the holding that it leads to, and why lines of it are refused.
pub struct Led<'a> {
    book: &'a [u8],
    pub holding: Holding,
    pub refused: BTreeSet<Refusal>,
}

pub type Kind = (&'static str, fn(&Led) -> bool);

pub const LISTED: [Kind; 4] = [
    ("without areas", |led| led.holding.areas.is_empty()),
    ("several areas received", |led| led.receivers().count() > 1),
    ("a standing and a withdrawn area received", |led| {
        led.receivers().any(|area| area.withdrawn) && led.receivers().any(|area| !area.withdrawn)
    }),
    ("a part surrendered", |led| led.receivers().any(|area| area.surrendered > 0 && area.balance() > 0)),
];

pub const EXPORTED: [Kind; 4] = [
    ("without sub-areas", |led| led.mapped().next().is_none()),
    ("sub-areas of several areas", |led| led.mapped().count() > 1),
    ("sub-areas of a withdrawn area", |led| led.mapped().any(|area| area.withdrawn)),
    ("a sub-area refused", |led| {
        let entered = lines(led.book).filter(|line| line.starts_with(b"S,")).count();
        entered > led.mapped().map(|area| area.subs.len()).sum()
    }),
];

pub const CROWDED: [Kind; 4] = [
    ("an area at document 01's limit of sub-areas", |led| led.has_area_of(MANY_SUBS[0]..=MANY_SUBS[0])),
    ("an area between that and the limit", |led| led.has_area_of(MANY_SUBS[1]..=MANY_SUBS[2])),
    ("an area at the limit", |led| led.has_area_of(MOST_SUBS..=MOST_SUBS)),
    ("a sub-area beyond the limit", |led| led.refused.contains(&Refusal::SubsFull)),
];

impl Led<'_> {
    pub fn by(book: &[u8]) -> Led<'_> {
        let mut account = Account::default();
        let refused = lines(book).filter_map(|line| account.enter(line).err()).collect();
        Led { book, holding: account.holding, refused }
    }

    fn has_area_of(&self, subs: RangeInclusive<usize>) -> bool {
        self.holding.areas.iter().any(|area| subs.contains(&area.subs.len()))
    }

    fn receivers(&self) -> impl Iterator<Item = &Area> {
        self.holding.areas.iter().filter(|area| area.received > 0)
    }

    fn mapped(&self) -> impl Iterator<Item = &Area> {
        self.holding.areas.iter().filter(|area| !area.subs.is_empty())
    }
}

#[derive(Debug)]
pub struct Kinds {
    kinds: Vec<Kind>,
    came: BTreeMap<&'static str, u64>,
}

impl Kinds {
    pub fn new(kinds: &[Kind]) -> Kinds {
        Kinds { kinds: kinds.to_vec(), came: BTreeMap::new() }
    }

    pub fn count(&mut self, book: &[u8]) {
        if book.len() > BOOK_BYTES {
            self.add(OVERSIZED);
            return;
        }
        let led = Led::by(book);
        let such: Vec<Kind> = self.kinds.iter().filter(|(_, is_such)| is_such(&led)).copied().collect();
        for (kind, _) in such {
            self.add(kind);
        }
    }

    fn add(&mut self, kind: &'static str) {
        *self.came.entry(kind).or_default() += 1;
    }

    /// The kinds that never came.
    pub fn missing(&self) -> Vec<&'static str> {
        let kinds = self.kinds.iter().map(|&(kind, _)| kind).chain([OVERSIZED]);
        kinds.filter(|kind| !self.came.contains_key(kind)).collect()
    }
}

impl fmt::Display for Kinds {
    fn fmt(&self, f: &mut fmt::Formatter<'_>) -> fmt::Result {
        let kinds: Vec<String> = self.came.iter().map(|(kind, count)| format!("{kind}: {count}")).collect();
        write!(f, "{}", kinds.join(", "))
    }
}
