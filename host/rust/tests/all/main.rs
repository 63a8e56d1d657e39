//! The documents' examples and rules, tried on the twin and, where its archive is linked, on the engine's calls.

mod common;
mod document;
mod exports;
mod foot;
mod land;
mod refusals;
mod sheets;
mod statement_forms;
mod statements;
mod sub_areas;
