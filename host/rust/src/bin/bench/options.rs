//! The words of the command line.

use crate::pair::Pair;
use crate::programs::Programs;

#[derive(Debug, Clone, Copy)]
pub enum Measure {
    Time,
    Instructions,
}

impl Measure {
    pub fn unit(self) -> &'static str {
        match self {
            Measure::Time => "ns",
            Measure::Instructions => "instructions",
        }
    }
}

#[derive(Debug)]
pub enum Options {
    /// The programs on each book.
    Table {
        measure: Measure,
        programs: Vec<Programs>,
    },
    Only {
        who: String,
        row: usize,
        times: u32,
    },
}

impl Options {
    pub fn read(words: impl Iterator<Item = String>) -> Result<Options, String> {
        let words: Vec<String> = words.collect();
        let words: Vec<&str> = words.iter().map(String::as_str).collect();
        match words.as_slice() {
            ["--only", who, row, times] => {
                Ok(Options::Only { who: who.to_string(), row: number(row)?, times: number(times)? })
            }
            [engine, twin, books @ .., "--instructions"] => {
                Ok(Options::table(Measure::Instructions, engine, twin, books))
            }
            [engine, twin, books @ ..] => Ok(Options::table(Measure::Time, engine, twin, books)),
            _ => Err("wants PROGRAM TWIN BOOK.., and --instructions or nothing".into()),
        }
    }

    fn table(measure: Measure, engine: &str, twin: &str, books: &[&str]) -> Options {
        let on = |book: &&str| Programs {
            book: book.to_string(),
            programs: Pair { engine: engine.into(), twin: twin.into() },
        };
        Options::Table { measure, programs: books.iter().map(on).collect() }
    }
}

fn number<T: std::str::FromStr>(word: &str) -> Result<T, String> {
    word.parse().map_err(|_| format!("{word} is no number"))
}
