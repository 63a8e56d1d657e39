//! How often each answer came, and each limit of an area.

use crate::case::{Asked, Case, Outcome};
use crate::limits::{self, Limit};
use std::collections::BTreeMap;
use std::fmt;

const TAKEN: [char; 7] = ['T', 'A', 'S', 'C', 'P', 'R', 'W'];

/// What is asked, what is taken of it, and the numbers that it can be refused with.
const ASKED: [(Asked, &str, &[i64]); 4] = [
    (Asked::Line, "line", &[1, 2, 3, 4, 5, 6, 8, 11, 21, 22, 23, 24, 25, 26, 27, 28, 29, 30, 31, 32, 33]),
    (Asked::Foot, "foot", &[8, 11]),
    (Asked::Import, "import", &[1, 2, 3, 4, 5, 6, 8, 11, 22, 23, 25, 26, 27, 32, 41, 42]),
    (Asked::Export, "export", &[1, 8]),
];

#[derive(Debug, Default)]
pub struct Tally {
    letters: BTreeMap<char, u64>,
    taken: BTreeMap<Asked, u64>,
    refused: BTreeMap<(Asked, i64), u64>,
    limits: BTreeMap<(Asked, Limit), u64>,
}

impl Tally {
    pub fn count(&mut self, case: &Case, outcome: &Outcome) {
        for limit in limits::met(case, outcome) {
            *self.limits.entry((case.asked, limit)).or_default() += 1;
        }
        if outcome.answer < 0 {
            *self.refused.entry((case.asked, -outcome.answer)).or_default() += 1;
            return;
        }
        *self.taken.entry(case.asked).or_default() += 1;
        if case.asked == Asked::Line {
            *self.letters.entry(case.letter()).or_default() += 1;
        }
    }

    pub fn calls(&self) -> u64 {
        self.taken.values().chain(self.refused.values()).sum()
    }

    /// The letters, numbers and limits of a line that never came, and what never came of the other calls.
    pub fn missing(&self) -> Vec<String> {
        let letters = TAKEN.iter().filter(|letter| !self.letters.contains_key(letter)).map(char::to_string);
        let taken = ASKED.iter().filter(|(asked, ..)| !self.taken.contains_key(asked));
        let taken = taken.map(|(_, name, _)| format!("{name} taken"));
        let numbers = ASKED.iter().flat_map(|(asked, name, numbers)| {
            let missing = numbers.iter().filter(|&&number| !self.refused.contains_key(&(*asked, number)));
            missing.map(move |number| format!("{name} {number}"))
        });
        let limits = ASKED.iter().flat_map(|&(asked, name, _)| {
            let missing =
                limits::wanted(asked).into_iter().filter(move |&limit| !self.limits.contains_key(&(asked, limit)));
            missing.map(move |limit| format!("{name} {limit}"))
        });
        letters.chain(taken).chain(numbers).chain(limits).collect()
    }

    fn limits(&self, asked: Asked) -> String {
        let limits = self.limits.iter().filter(|((of, _), _)| *of == asked);
        let limits: Vec<String> = limits.map(|((_, limit), count)| format!("{limit}: {count}")).collect();
        limits.join(", ")
    }

    fn refused(&self, asked: Asked) -> String {
        let numbers = self.refused.iter().filter(|((of, _), _)| *of == asked);
        let numbers: Vec<String> = numbers.map(|((_, number), count)| format!("{number}: {count}")).collect();
        numbers.join(", ")
    }
}

impl fmt::Display for Tally {
    fn fmt(&self, f: &mut fmt::Formatter<'_>) -> fmt::Result {
        let letters: Vec<String> = self.letters.iter().map(|(letter, count)| format!("{letter} {count}")).collect();
        write!(f, "letters taken: {}", letters.join(", "))?;
        for (asked, name, _) in ASKED {
            let taken = self.taken.get(&asked).copied().unwrap_or_default();
            write!(f, "\n{name}: taken {taken}; refused {}", self.refused(asked))?;
            write!(f, "\n{name}, areas of {}", self.limits(asked))?;
        }
        Ok(())
    }
}
