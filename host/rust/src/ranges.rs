//! The limits of document 01, and of document 02, item 4.

use std::ops::RangeInclusive;

pub const AREA_NUMBERS: RangeInclusive<u64> = 1..=999;
pub const SUB_NUMBERS: RangeInclusive<u64> = 1..=99;
pub const ENTRY_YEARS: RangeInclusive<u64> = 2008..=2199;
pub const PLANTING_YEARS: RangeInclusive<u64> = 1900..=2199;
pub const TENTHS: RangeInclusive<u64> = 10..=100_000;
/// 1 to 10000 hectares, in ten-thousandths.
pub const TEN_THOUSANDTHS: RangeInclusive<u64> = 10_000..=100_000_000;

pub const MOST_AREAS: usize = 16;
pub const MOST_SUBS: usize = 48;
pub const LAST_OPEN_YEAR: u64 = 2200;
pub const OLDEST_RESIDUE: u64 = 299;
pub const STOCK_OF_A_SUB: u64 = 60_000_000_000;
pub const RECEIVED_BY_A_RETURN: u64 = 3_000_000_000;

pub const COLUMNS: usize = 10;
pub const MOST_CELLS: usize = 101;
pub const MOST_TENTHS_OF_A_CELL: u64 = 30_000;

pub const LINE_BYTES: usize = 1024;
pub const BOOK_BYTES: usize = 65_536;
