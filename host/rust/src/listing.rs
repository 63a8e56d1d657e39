//! What the program `book` prints for a book.

use crate::holding::{Area, Holding};
use crate::parsing::{parse, Entry};
use crate::ranges::BOOK_BYTES;
use crate::refusal::Refusal;
use crate::steps::Report;
use crate::tables::Table;
use crate::text::push_line;

#[derive(Debug, Default)]
pub struct Account {
    pub table: Table,
    pub holding: Holding,
}

impl Account {
    /// Takes a line, or refuses it and stays as it was.
    pub fn enter(&mut self, line: &[u8]) -> Result<Option<Report>, Refusal> {
        let entry = parse(line)?;
        let Entry::Column { column, cells } = &entry else {
            return self.holding.apply(&entry, &self.table);
        };
        let mut longer = self.table.clone();
        longer.extend(*column, cells)?;
        let report = self.holding.apply(&entry, &self.table)?;
        self.table = longer;
        Ok(report)
    }
}

pub fn book(book: &[u8]) -> Vec<u8> {
    let mut listing = Vec::new();
    if book.len() > BOOK_BYTES {
        push_line(&mut listing, b'X', &[0, 1]);
        push_line(&mut listing, b'E', &[0, 1]);
        return listing;
    }
    let mut account = Account::default();
    let (mut accepted, mut refused) = (0, 0);
    for (number, line) in (1..).zip(lines(book)) {
        match account.enter(line) {
            Ok(report) => {
                accepted += 1;
                if let Some(report) = report {
                    report.write(&mut listing);
                }
            }
            Err(refusal) => {
                refused += 1;
                push_line(&mut listing, b'X', &[number, u64::from(refusal.number())]);
            }
        }
    }
    push_foot(&mut listing, &account.holding);
    push_line(&mut listing, b'E', &[accepted, refused]);
    listing
}

/// "F, then units received, units surrendered and balance over all areas, withdrawn ones included"
pub fn push_foot(text: &mut Vec<u8>, holding: &Holding) {
    let over_all = |units: fn(&Area) -> u64| holding.areas.iter().map(units).sum();
    let (received, surrendered) = (over_all(|area| area.received), over_all(|area| area.surrendered));
    push_line(text, b'F', &[received, surrendered, over_all(Area::balance)]);
}

/// The lines of a book, each with its end: a byte 10 at the book's end adds none.
pub fn lines(book: &[u8]) -> impl Iterator<Item = &[u8]> {
    book.split_inclusive(|&byte| byte == b'\n')
}
