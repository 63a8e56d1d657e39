//! The steps A, S, C, P, R and W on a holding. Each weighs every refusal before it changes anything.

use crate::holding::{Area, Holding, Residue, Sub, Trees};
use crate::parsing::Entry;
use crate::ranges::{MOST_AREAS, MOST_SUBS};
use crate::refusal::{refuse_if, Refusal};
use crate::tables::Table;
use crate::text::{push_line, push_number, push_numbers};
use crate::units::tonnes_of;

/// What a return or a withdrawal reports, as `book` prints it.
#[derive(Debug, Clone, Copy, PartialEq, Eq)]
pub enum Report {
    Return { area: u64, first: u64, last: u64, change: i64, received: u64, due: u64, balance: u64 },
    Withdrawal { area: u64, due: u64 },
}

impl Report {
    pub fn write(&self, text: &mut Vec<u8>) {
        match *self {
            Report::Return { area, first, last, change, received, due, balance } => {
                text.push(b'R');
                push_numbers(text, &[area, first, last]);
                text.extend_from_slice(if change < 0 { b",-" } else { b"," });
                push_number(text, change.unsigned_abs());
                push_numbers(text, &[received, due, balance]);
                text.push(b'\n');
            }
            Report::Withdrawal { area, due } => push_line(text, b'W', &[area, due]),
        }
    }
}

impl Holding {
    /// Takes an entry, or refuses it and stays as it was. Of a T entry only the state is weighed here.
    pub fn apply(&mut self, entry: &Entry, table: &Table) -> Result<Option<Report>, Refusal> {
        match *entry {
            Entry::Column { .. } => refuse_if(!self.areas.is_empty(), Refusal::TableAfterArea)?,
            Entry::Open { area, opening } => self.open(area, opening)?,
            Entry::Add { area, sub, tenths, trees } => {
                self.active(area)?.add(Sub { number: sub, tenths, trees, residue: None }, table)?
            }
            Entry::Clear { area, sub, year } => self.active(area)?.clear(sub, year)?,
            Entry::Plant { area, sub, trees } => self.active(area)?.plant(sub, trees)?,
            Entry::Return { area, last } => return self.active(area)?.file(last, table).map(Some),
            Entry::Withdraw { area } => return Ok(Some(self.active(area)?.withdraw())),
        }
        Ok(None)
    }

    fn open(&mut self, number: u64, opening: u64) -> Result<(), Refusal> {
        refuse_if(self.area(number).is_some(), Refusal::AreaUsed)?;
        refuse_if(self.areas.len() >= MOST_AREAS, Refusal::AreasFull)?;
        self.areas.push(Area { number, opening, open_year: opening, ..Area::default() });
        Ok(())
    }

    fn active(&mut self, number: u64) -> Result<&mut Area, Refusal> {
        let area = self.area(number).ok_or(Refusal::AreaUnknown)?;
        refuse_if(area.withdrawn, Refusal::AreaWithdrawn)?;
        Ok(area)
    }
}

impl Area {
    fn add(&mut self, sub: Sub, table: &Table) -> Result<(), Refusal> {
        refuse_if(self.sub(sub.number).is_some(), Refusal::SubUsed)?;
        refuse_if(self.subs.len() >= MOST_SUBS, Refusal::SubsFull)?;
        refuse_if(self.returns > 0, Refusal::AreaHasFiled)?;
        let planted_after = sub.trees.is_some_and(|trees| trees.planted > self.opening);
        refuse_if(planted_after, Refusal::PlantedAfterOpening)?;
        self.stock += sub.stock(table, self.opening);
        self.subs.push(sub);
        Ok(())
    }

    fn too_early(&self, year: u64) -> bool {
        year < self.open_year || year < self.latest_year
    }

    fn clear(&mut self, number: u64, year: u64) -> Result<(), Refusal> {
        let too_early = self.too_early(year);
        let sub = self.sub(number).ok_or(Refusal::SubUnknown)?;
        let felled = sub.trees.ok_or(Refusal::ClearingBareLand)?;
        refuse_if(too_early, Refusal::YearTooEarly)?;
        sub.trees = None;
        sub.residue = Some(Residue { forest: felled.forest, age: felled.age(year), year });
        self.latest_year = year;
        Ok(())
    }

    fn plant(&mut self, number: u64, trees: Trees) -> Result<(), Refusal> {
        let too_early = self.too_early(trees.planted);
        let sub = self.sub(number).ok_or(Refusal::SubUnknown)?;
        refuse_if(sub.trees.is_some(), Refusal::PlantingUnderTrees)?;
        refuse_if(too_early, Refusal::YearTooEarly)?;
        sub.trees = Some(trees);
        self.latest_year = trees.planted;
        Ok(())
    }

    fn file(&mut self, last: u64, table: &Table) -> Result<Report, Refusal> {
        refuse_if(self.too_early(last), Refusal::YearTooEarly)?;
        let first = self.open_year;
        let closing = self.stock_on(table, last + 1);
        let change = tonnes_of(closing as i64 - self.stock as i64);
        let (received, due) =
            if change > 0 { (change.unsigned_abs(), 0) } else { (0, change.unsigned_abs().min(self.balance())) };
        self.stock = closing;
        self.received += received;
        self.surrendered += due;
        self.returns += 1;
        self.open_year = last + 1;
        let (area, balance) = (self.number, self.balance());
        Ok(Report::Return { area, first, last, change, received, due, balance })
    }

    fn withdraw(&mut self) -> Report {
        let due = self.balance();
        self.surrendered += due;
        self.withdrawn = true;
        Report::Withdrawal { area: self.number, due }
    }
}
