//! The program `book` of both, each a process that reads the book from a file.

use crate::pair::Pair;
use crate::timing::least;
use std::fs::File;
use std::process::{Command, Stdio};

const RUNS: usize = 200;

#[derive(Debug)]
pub struct Programs {
    pub book: String,
    pub programs: Pair<String>,
}

impl Programs {
    /// The same programs on a book of no lines.
    pub fn start(&self) -> Programs {
        Programs { book: "/dev/null".into(), programs: self.programs.as_ref().map(String::clone) }
    }

    pub fn name(&self) -> Result<String, String> {
        let text = std::fs::read(&self.book).map_err(|problem| format!("{}: {problem}", self.book))?;
        let lines = carbon_twin::listing::lines(&text).count();
        Ok(format!("`book`, {lines} lines in {} bytes", text.len()))
    }

    /// Whether both list the book alike.
    pub fn agree(&self) -> Result<(), String> {
        let Pair { engine, twin } = &self.programs;
        if self.listing(engine)? != self.listing(twin)? {
            return Err(format!("{engine} and {twin} list {} differently", self.book));
        }
        Ok(())
    }

    fn listing(&self, program: &str) -> Result<Vec<u8>, String> {
        let output = Command::new(program).stdin(self.open()?).output();
        let output = output.map_err(|problem| format!("{program}: {problem}"))?;
        if !output.status.success() {
            return Err(format!("{program}: {}", output.status));
        }
        Ok(output.stdout)
    }

    pub fn open(&self) -> Result<File, String> {
        File::open(&self.book).map_err(|problem| format!("{}: {problem}", self.book))
    }

    /// Nanoseconds from the start of the process to its end; the listing goes nowhere.
    pub fn time(&self) -> Pair<f64> {
        least(
            self.programs.as_ref().map(|program| || self.run(program).expect("it ran when its listing was read")),
            RUNS,
        )
    }

    fn run(&self, program: &str) -> Result<(), String> {
        let status = Command::new(program).stdin(self.open()?).stdout(Stdio::null()).status();
        status.map(drop).map_err(|problem| format!("{program}: {problem}"))
    }
}
