//! What a holding keeps, and the carbon stock of its land.

use crate::forest::Forest;
use crate::tables::Table;
use crate::units::kilograms_of;

#[derive(Debug, Clone, Copy, PartialEq, Eq)]
pub struct Trees {
    pub forest: Forest,
    pub planted: u64,
}

/// What the latest clearing left.
#[derive(Debug, Clone, Copy, PartialEq, Eq)]
pub struct Residue {
    pub forest: Forest,
    pub age: u64,
    pub year: u64,
}

#[derive(Debug, Clone, PartialEq, Eq)]
pub struct Sub {
    pub number: u64,
    pub tenths: u64,
    pub trees: Option<Trees>,
    pub residue: Option<Residue>,
}

#[derive(Debug, Clone, Default, PartialEq, Eq)]
pub struct Area {
    pub number: u64,
    pub opening: u64,
    pub open_year: u64,
    pub latest_year: u64,
    pub withdrawn: bool,
    pub returns: u64,
    /// In kilograms: the last closing stock, or the opening stock before any return.
    pub stock: u64,
    pub received: u64,
    pub surrendered: u64,
    pub subs: Vec<Sub>,
}

#[derive(Debug, Clone, Default, PartialEq, Eq)]
pub struct Holding {
    pub areas: Vec<Area>,
}

impl Trees {
    pub fn age(&self, year: u64) -> u64 {
        year.saturating_sub(self.planted)
    }
}

/// The share of a residue, in tenths, so many years after the clearing: ten less the years, nought past ten.
pub fn share(years: u64) -> u64 {
    10u64.saturating_sub(years)
}

impl Sub {
    /// In kilograms, on 1 January of the year.
    pub fn stock(&self, table: &Table, year: u64) -> u64 {
        let standing =
            self.trees.map_or(0, |trees| kilograms_of(self.tenths, table.stock_cell(trees.forest, trees.age(year))));
        let decaying = self.residue.map_or(0, |residue| {
            let cell = table.residue_cell(residue.forest, residue.age);
            kilograms_of(self.tenths, cell) / 10 * share(year.saturating_sub(residue.year))
        });
        standing + decaying
    }
}

impl Area {
    pub fn stock_on(&self, table: &Table, year: u64) -> u64 {
        self.subs.iter().map(|sub| sub.stock(table, year)).sum()
    }

    pub fn balance(&self) -> u64 {
        self.received - self.surrendered
    }

    pub fn sub(&mut self, number: u64) -> Option<&mut Sub> {
        self.subs.iter_mut().find(|sub| sub.number == number)
    }
}

impl Holding {
    pub fn area(&mut self, number: u64) -> Option<&mut Area> {
        self.areas.iter_mut().find(|area| area.number == number)
    }
}

#[cfg(test)]
mod tests {
    use super::*;

    #[test]
    fn shares_fall_from_ten_to_nought() {
        let shares: Vec<u64> = (0..=10).map(share).collect();
        assert_eq!(shares, [10, 9, 8, 7, 6, 5, 4, 3, 2, 1, 0]);
        assert!((11..=400).all(|years| share(years) == 0));
    }

    /// The guide, section 6: radiata of 1996 felled in 2014 and replanted in hardwoods.
    #[test]
    fn trees_and_residue_of_the_guide() {
        let felled = Residue { forest: Forest::Radiata { region: 1 }, age: 18, year: 2014 };
        let eucalypts = Trees { forest: Forest::Hardwoods, planted: 2014 };
        let sub = Sub { number: 1, tenths: 458, trees: Some(eucalypts), residue: Some(felled) };
        assert_eq!(sub.stock(&Table::default(), 2018), 7_795_160);
    }
}
