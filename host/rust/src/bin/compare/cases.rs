//! The cases of a run: books taken line by line, holdings made up at the edges, sheets onto both, the sheets of books, and
//! each of them damaged.

use crate::case::Case;
use crate::lines::{line, mood, Mood};
use crate::random::Random;
use crate::{damage, holdings, sheets, tables};
use carbon_twin::call::account_line;
use carbon_twin::header::size;
use carbon_twin::holding::Holding;
use carbon_twin::ranges::BOOK_BYTES;
use carbon_twin::statement;

pub struct Cases {
    random: Random,
    book: Book,
}

/// A book that is being taken: what the recorder keeps, the lines so far, and how many are still to come.
struct Book {
    mood: Mood,
    holding: Holding,
    table: Vec<u8>,
    text: Vec<u8>,
    lines_left: usize,
}

impl Book {
    fn new(random: &mut Random) -> Book {
        let table = if random.one_in(2) { Vec::new() } else { tables::table(random) };
        let holding = if random.one_in(4) { holdings::holding(random) } else { Holding::default() };
        let mood = mood(random);
        let lines_left = mood.lines(random);
        Book { mood, holding, table, text: Vec::new(), lines_left }
    }
}

impl Cases {
    pub fn new(seed: u64) -> Cases {
        let mut random = Random::new(seed);
        let book = Book::new(&mut random);
        Cases { random, book }
    }

    /// A book from the empty holding without a table, of so many lines.
    pub fn of_one_book(seed: u64, lines: usize) -> Cases {
        let mut random = Random::new(seed);
        let mood = mood(&mut random);
        let (holding, table, text) = (Holding::default(), Vec::new(), Vec::new());
        let book = Book { mood, holding, table, text, lines_left: lines };
        Cases { random, book }
    }

    /// Of 32 cases, four a foot, four an import and one an export.
    pub fn next(&mut self) -> Case {
        let case = if self.random.one_in(4) { self.made_up() } else { self.next_of_book() };
        match self.random.below(32) {
            0..=3 => self.foot_of(case.statement),
            4..=7 => self.import_onto(case),
            8 => self.export(),
            _ => self.changed(case),
        }
    }

    /// A sheet in the line's place.
    fn import_onto(&mut self, case: Case) -> Case {
        let holding = statement::read(&case.statement).expect("what is written is read");
        let mut sheet = sheets::sheet(&mut self.random, &holding);
        if self.random.one_in(8) {
            sheet = damage::damaged(&mut self.random, &sheet);
        }
        self.changed(Case::import(case.statement, case.table, sheet))
    }

    /// The sheet of the book so far, damaged or grown to the greatest length of a book, with any room.
    fn export(&mut self) -> Case {
        let mut book = self.book.text.clone();
        match self.random.below(16) {
            0..=3 => book = damage::damaged(&mut self.random, &book),
            4 => book.resize(BOOK_BYTES, b'\n'),
            5 => book.resize(BOOK_BYTES + 1, b'\n'),
            _ => {}
        }
        let mut case = Case::export(book);
        if self.random.one_in(4) {
            case.room = self.room(&case);
        }
        case
    }

    /// The line or the sheet with something damaged, with another room or the one that is not measured, or as it is.
    fn changed(&mut self, mut case: Case) -> Case {
        let change = self.random.below(8);
        match change {
            0 => case.given = damage::damaged(&mut self.random, &case.given),
            1 => case.statement = damage::damaged(&mut self.random, &case.statement),
            2 if self.random.one_in(3) => case.table = tables::damaged(&mut self.random, &case.table),
            3 if self.random.one_in(3) => case.statement = self.junk(),
            _ => {}
        }
        case.room = match change {
            4 => self.room(&case),
            5 => size("CARBON_OUT_BYTES"),
            _ => case.full_room(),
        };
        case
    }

    /// The foot of the statement, damaged or not, each with any room: 8 is given only where 11 does not apply.
    fn foot_of(&mut self, statement: Vec<u8>) -> Case {
        let mut case = Case::foot(match self.random.below(8) {
            0..=1 => damage::damaged(&mut self.random, &statement),
            2 => self.junk(),
            _ => statement,
        });
        if self.random.one_in(2) {
            case.room = self.room(&case);
        }
        case
    }

    /// The next line of a book that is taken from its start, at times damaged.
    pub fn next_line(&mut self) -> Vec<u8> {
        let line = self.next_of_book().given;
        if self.random.one_in(8) {
            damage::damaged(&mut self.random, &line)
        } else {
            line
        }
    }

    /// The next line of the book, which is then taken: damage is done to a copy.
    fn next_of_book(&mut self) -> Case {
        if self.book.lines_left == 0 {
            self.book = Book::new(&mut self.random);
        }
        let book = &mut self.book;
        book.lines_left -= 1;
        let line = line(&mut self.random, &book.mood, &book.holding);
        book.text.extend(line.strip_suffix(b"\n").unwrap_or(&line));
        book.text.push(b'\n');
        let statement = statement::write(&book.holding);
        let case = Case::line(statement, book.table.clone(), line);
        match account_line(&case.statement, &case.table, &case.given) {
            Ok(longer) if case.letter() == 'T' => book.table = longer,
            Ok(out) => book.holding = statement::read(statement_part(&case, &out)).expect("what is written is read"),
            Err(_) => {}
        }
        case
    }

    fn made_up(&mut self) -> Case {
        let random = &mut self.random;
        let holding = holdings::holding(random);
        let mood = mood(random);
        let line = line(random, &mood, &holding);
        Case::line(statement::write(&holding), tables::table(random), line)
    }

    fn junk(&mut self) -> Vec<u8> {
        let length = self.random.below(12);
        let junk: Vec<u8> = (0..length).map(|_| self.random.next() as u8).collect();
        if self.random.one_in(2) {
            junk
        } else {
            damage::damaged(&mut self.random, b"H,0\n")
        }
    }

    /// Too little, just enough, or a little more.
    fn room(&mut self, case: &Case) -> usize {
        let need = case.need();
        match self.random.below(4) {
            0 => need.saturating_sub(1),
            1 => need,
            2 => self.random.below(need + 1),
            _ => need + self.random.below(9),
        }
    }
}

/// The output without the report at its end.
fn statement_part<'a>(case: &Case, out: &'a [u8]) -> &'a [u8] {
    if !matches!(case.letter(), 'R' | 'W') {
        return out;
    }
    let report = out[..out.len() - 1].iter().rposition(|&byte| byte == b'\n').expect("a statement comes first");
    &out[..=report]
}
