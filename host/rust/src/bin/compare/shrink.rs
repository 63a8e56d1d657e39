//! The smallest case found that still fails: parts are taken away, and what is left made plain, as long as it fails.

use crate::case::Case;
use carbon_twin::statement;

/// What is tried has so many bytes in all, so that a long book or sheet ends too.
const BYTES_TRIED: usize = 20_000_000;

pub struct Shrinking<'a> {
    smallest: Case,
    fails: &'a dyn Fn(&Case) -> bool,
    bytes_left: usize,
}

pub fn shrink(case: Case, fails: &dyn Fn(&Case) -> bool) -> Case {
    let mut shrinking = Shrinking { smallest: case, fails, bytes_left: BYTES_TRIED };
    loop {
        let before = shrinking.smallest.clone();
        shrinking.take(Case { room: before.full_room(), ..before.clone() });
        shrinking.fewer_areas();
        for part in [Case::table_mut, Case::given_mut, Case::statement_mut] {
            shrinking.fewer_bytes(part);
            shrinking.plainer_digits(part);
        }
        if shrinking.smallest == before {
            return before;
        }
    }
}

type Part = fn(&mut Case) -> &mut Vec<u8>;

impl Case {
    fn table_mut(&mut self) -> &mut Vec<u8> {
        &mut self.table
    }

    fn given_mut(&mut self) -> &mut Vec<u8> {
        &mut self.given
    }

    fn statement_mut(&mut self) -> &mut Vec<u8> {
        &mut self.statement
    }
}

impl Shrinking<'_> {
    /// Keeps the case where it fails still, if need be with a room as near to what it needs.
    fn take(&mut self, smaller: Case) -> bool {
        if self.bytes_left == 0 {
            return false;
        }
        self.bytes_left = self.bytes_left.saturating_sub(smaller.statement.len() + smaller.given.len());
        let rooms = if self.smallest.has_full_room() {
            vec![smaller.full_room()]
        } else {
            let need = smaller.need();
            vec![smaller.room, need, need.saturating_sub(1), need + 1]
        };
        for room in rooms {
            let candidate = Case { room, ..smaller.clone() };
            if (self.fails)(&candidate) {
                self.smallest = candidate;
                return true;
            }
        }
        false
    }

    /// Whole areas and sub-areas go while the statement stays a statement.
    fn fewer_areas(&mut self) {
        let Ok(mut holding) = statement::read(&self.smallest.statement) else {
            return;
        };
        for area in (0..holding.areas.len()).rev() {
            let mut fewer = holding.clone();
            fewer.areas.remove(area);
            if self.take(Case { statement: statement::write(&fewer), ..self.smallest.clone() }) {
                holding = fewer;
                continue;
            }
            for sub in (0..holding.areas[area].subs.len()).rev() {
                let mut fewer = holding.clone();
                fewer.areas[area].subs.remove(sub);
                if self.take(Case { statement: statement::write(&fewer), ..self.smallest.clone() }) {
                    holding = fewer;
                }
            }
        }
    }

    /// Chunks go, from the whole down to single bytes.
    fn fewer_bytes(&mut self, part: Part) {
        let mut chunk = part(&mut self.smallest).len();
        while chunk > 0 {
            let mut start = 0;
            while start < part(&mut self.smallest).len() {
                let mut smaller = self.smallest.clone();
                let bytes = part(&mut smaller);
                let end = (start + chunk).min(bytes.len());
                bytes.drain(start..end);
                if !self.take(smaller) {
                    start += chunk;
                }
            }
            chunk /= 2;
        }
    }

    fn plainer_digits(&mut self, part: Part) {
        for place in 0..part(&mut self.smallest).len() {
            for plain in [b'1', b'0'] {
                let mut plainer = self.smallest.clone();
                let byte = &mut part(&mut plainer)[place];
                if byte.is_ascii_digit() && *byte > plain {
                    *byte = plain;
                    self.take(plainer);
                }
            }
        }
    }
}
