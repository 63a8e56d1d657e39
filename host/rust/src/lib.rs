//! A second implementation of the carbon accounts, written from documents 01 and 02 and the guide alone, to hold the proved
//! engine against. It shares no code with the engine; only the sheet of default cells is the same file.

pub mod call;
pub mod engine;
pub mod forest;
pub mod header;
pub mod holding;
pub mod listing;
pub mod parcels;
pub mod parsing;
pub mod ranges;
pub mod refusal;
pub mod schedules;
pub mod sheet;
pub mod statement;
pub mod steps;
pub mod tables;
pub mod text;
pub mod trees;
pub mod twin_c;
pub mod units;
