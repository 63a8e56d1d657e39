//! Whole books: what a program prints for them, against what the twin prints.

use crate::cases::Cases;
use crate::kinds::{Kind, Kinds, CROWDED, EXPORTED, LISTED};
use crate::random::Random;
use carbon_twin::listing::book;
use carbon_twin::ranges::BOOK_BYTES;
use carbon_twin::sheet;
use carbon_twin::text::push_line;
use std::io::Write;
use std::process::{Command, Stdio};

/// Below so many books, a kind may well be missing by chance.
const ENOUGH_FOR_EVERY_KIND: u64 = 500;

/// What is printed for a book, and the kinds of books that must come.
pub struct Printed {
    by_twin: fn(&[u8]) -> Vec<u8>,
    kinds: &'static [Kind],
    how: &'static str,
}

pub const LISTING: Printed = Printed { by_twin: book, kinds: &LISTED, how: "listed" };
pub const EXPORT: Printed = Printed { by_twin: exported, kinds: &EXPORTED, how: "exported" };

/// The export, and for an oversized book the line X,0,1.
fn exported(book: &[u8]) -> Vec<u8> {
    sheet::export(book).unwrap_or_else(|refusal| {
        let mut said = Vec::new();
        push_line(&mut said, b'X', &[0, u64::from(refusal.number())]);
        said
    })
}

pub fn compare(program: &str, printed_for: &Printed, books: u64, seed: u64) -> Result<String, String> {
    let mut random = Random::new(seed);
    let mut kinds = Kinds::new(&[printed_for.kinds, &CROWDED].concat());
    for number in 1..=books {
        let text = a_book(&mut random);
        kinds.count(&text);
        let printed = run(program, &text).map_err(|problem| format!("{program}: {problem}"))?;
        let expected = (printed_for.by_twin)(&text);
        if printed != expected {
            let (text, printed, expected) = (text.escape_ascii(), printed.escape_ascii(), expected.escape_ascii());
            return Err(format!(
                "book {number} of seed {seed} differs\n  book     \"{text}\"\n  printed  \"{printed}\"\n  expected \"{expected}\""
            ));
        }
    }
    if books >= ENOUGH_FOR_EVERY_KIND && !kinds.missing().is_empty() {
        return Err(format!("{kinds}\nno book came of the kind: {}", kinds.missing().join(", ")));
    }
    Ok(format!("{program}: {books} books {} alike, seed {seed}\n{kinds}", printed_for.how))
}

/// How many lines `book` lists at a time.
const PART: usize = 512;

/// The lines of a run of cases, some of them damaged, often as many as parts have; at times cut or grown to the greatest length of a book.
fn a_book(random: &mut Random) -> Vec<u8> {
    let lines = *random.pick(&[0, 3, 30, 300, PART - 1, PART, PART + 1, 2 * PART, 2 * PART + 1]);
    let mut cases = Cases::of_one_book(random.next(), lines);
    let mut text = Vec::new();
    for _ in 0..lines {
        let line = cases.next_line();
        text.extend(line.strip_suffix(b"\n").unwrap_or(&line));
        text.push(b'\n');
    }
    match random.below(20) {
        0 => text.resize(BOOK_BYTES, b'\n'),
        1 => text.resize(BOOK_BYTES + 1, b'\n'),
        2..=5 => drop(text.pop()),
        _ => {}
    }
    text
}

fn run(program: &str, text: &[u8]) -> std::io::Result<Vec<u8>> {
    let mut child = Command::new(program).stdin(Stdio::piped()).stdout(Stdio::piped()).spawn()?;
    let mut stdin = child.stdin.take().expect("its standard input is piped");
    let output = std::thread::scope(|scope| {
        scope.spawn(move || stdin.write_all(text).ok());
        child.wait_with_output()
    })?;
    Ok(output.stdout)
}
