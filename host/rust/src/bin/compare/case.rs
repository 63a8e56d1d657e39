//! One call, and what came of it.

use carbon_twin::call::{account_line, foot, import_sheet, Calls};
use carbon_twin::sheet;
use std::fmt;

#[derive(Debug, Clone, Copy, PartialEq, Eq, PartialOrd, Ord)]
pub enum Asked {
    Line,
    Foot,
    Import,
    Export,
}

/// What is not handed in is empty: the table and what is given of a foot, and the statement and the table of an export.
#[derive(Debug, Clone, PartialEq, Eq)]
pub struct Case {
    pub asked: Asked,
    pub statement: Vec<u8>,
    pub table: Vec<u8>,
    /// The line, the sheet or the book.
    pub given: Vec<u8>,
    pub room: usize,
}

/// More than a line, a heading or a foot writes besides what is handed in, or the digits that a sheet adds to areas.
const ADDED_BYTES: usize = 300;
const MARGIN: usize = 8;
const FILLED: u8 = 0xA5;

/// The answer, and the output with a margin before and after it.
#[derive(Debug, PartialEq, Eq)]
pub struct Outcome {
    pub answer: i64,
    memory: Vec<u8>,
}

impl Case {
    fn of(asked: Asked, statement: Vec<u8>, table: Vec<u8>, given: Vec<u8>) -> Case {
        let case = Case { asked, statement, table, given, room: 0 };
        Case { room: case.full_room(), ..case }
    }

    /// Room for any answer. A row of an export has less than three bytes for each of its line, the end counted, and so has
    /// a sub-area's line for each of its row.
    pub fn full_room(&self) -> usize {
        ADDED_BYTES + self.statement.len() + self.table.len() + 3 * self.given.len()
    }

    pub fn has_full_room(&self) -> bool {
        self.room == self.full_room()
    }

    pub fn line(statement: Vec<u8>, table: Vec<u8>, line: Vec<u8>) -> Case {
        Case::of(Asked::Line, statement, table, line)
    }

    pub fn foot(statement: Vec<u8>) -> Case {
        Case::of(Asked::Foot, statement, Vec::new(), Vec::new())
    }

    pub fn import(statement: Vec<u8>, table: Vec<u8>, sheet: Vec<u8>) -> Case {
        Case::of(Asked::Import, statement, table, sheet)
    }

    pub fn export(book: Vec<u8>) -> Case {
        Case::of(Asked::Export, Vec::new(), Vec::new(), book)
    }

    pub fn run(&self, calls: Calls) -> Outcome {
        let mut memory = vec![FILLED; self.room + 2 * MARGIN];
        let out = &mut memory[MARGIN..MARGIN + self.room];
        let answer = match self.asked {
            Asked::Line => (calls.line)(&self.statement, &self.table, &self.given, out),
            Asked::Foot => (calls.foot)(&self.statement, out),
            Asked::Import => (calls.import)(&self.statement, &self.table, &self.given, out),
            Asked::Export => (calls.export)(&self.given, out),
        };
        Outcome { answer, memory }
    }

    /// The bytes that are to be written, 0 where the case is refused.
    pub fn need(&self) -> usize {
        let written = match self.asked {
            Asked::Line => account_line(&self.statement, &self.table, &self.given),
            Asked::Foot => foot(&self.statement),
            Asked::Import => import_sheet(&self.statement, &self.table, &self.given),
            Asked::Export => sheet::export(&self.given),
        };
        written.map_or(0, |out| out.len())
    }

    /// A line's letter.
    pub fn letter(&self) -> char {
        self.given.first().map_or(' ', |&byte| char::from(byte))
    }
}

impl Outcome {
    pub fn written(&self) -> &[u8] {
        let length = usize::try_from(self.answer).unwrap_or(0);
        &self.memory[MARGIN..MARGIN + length.min(self.memory.len() - 2 * MARGIN)]
    }

    pub fn touches_more(&self) -> bool {
        let end = MARGIN + self.written().len();
        let others = self.memory[..MARGIN].iter().chain(&self.memory[end..]);
        others.into_iter().any(|&byte| byte != FILLED)
    }
}

impl fmt::Display for Case {
    fn fmt(&self, f: &mut fmt::Formatter<'_>) -> fmt::Result {
        let (statement, given) = (self.statement.escape_ascii(), self.given.escape_ascii());
        if self.asked != Asked::Export {
            writeln!(f, "  statement \"{statement}\"")?;
        }
        if let Asked::Line | Asked::Import = self.asked {
            writeln!(f, "  table     {:?}", self.table)?;
        }
        match self.asked {
            Asked::Line => writeln!(f, "  line      \"{given}\"")?,
            Asked::Foot => writeln!(f, "  asked     the foot")?,
            Asked::Import => writeln!(f, "  sheet     \"{given}\"")?,
            Asked::Export => writeln!(f, "  book      \"{given}\"")?,
        }
        write!(f, "  room      {}", self.room)
    }
}

impl fmt::Display for Outcome {
    fn fmt(&self, f: &mut fmt::Formatter<'_>) -> fmt::Result {
        write!(f, "{} \"{}\"", self.answer, self.written().escape_ascii())?;
        if self.touches_more() {
            write!(f, ", and touches bytes besides")?;
        }
        Ok(())
    }
}
