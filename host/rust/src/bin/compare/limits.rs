//! The limits of an area that a case came to: so many sub-areas, the units that its returns let it receive, and one more.

use crate::case::{Asked, Case, Outcome};
use crate::holdings::{MANY_SUBS, ONE_TOO_MANY};
use crate::kinds::Led;
use carbon_twin::ranges::RECEIVED_BY_A_RETURN;
use carbon_twin::refusal::Refusal;
use carbon_twin::text::number;
use std::collections::BTreeSet;
use std::fmt;

/// What is beyond a limit came to it where it was refused for that.
#[derive(Debug, Clone, Copy, PartialEq, Eq, PartialOrd, Ord)]
pub enum Limit {
    Subs(usize),
    MostReceived,
    ReceivedBeyond,
}

const NO_STATEMENT: i64 = -(Refusal::Statement as i64);

/// The limits that cases of each call must come to.
pub fn wanted(asked: Asked) -> Vec<Limit> {
    let subs = MANY_SUBS.into_iter().chain([ONE_TOO_MANY]).map(Limit::Subs);
    let received = [Limit::MostReceived, Limit::ReceivedBeyond];
    subs.chain(received.into_iter().filter(|_| asked != Asked::Export)).collect()
}

pub fn met(case: &Case, outcome: &Outcome) -> BTreeSet<Limit> {
    match (case.asked, outcome.answer) {
        (Asked::Export, 1..) => by_book(&case.given),
        (Asked::Foot, 1..) => kept(&case.statement),
        (Asked::Import, 1..) => kept(outcome.written()),
        (Asked::Line, 1..) if case.letter() != 'T' => kept(outcome.written()),
        (_, NO_STATEMENT) => passed(&case.statement),
        _ => BTreeSet::new(),
    }
}

fn by_book(book: &[u8]) -> BTreeSet<Limit> {
    let led = Led::by(book);
    let counts = led.holding.areas.iter().map(|area| area.subs.len());
    let many = counts.filter(|count| MANY_SUBS.contains(count));
    let beyond = led.refused.contains(&Refusal::SubsFull).then_some(ONE_TOO_MANY);
    many.chain(beyond).map(Limit::Subs).collect()
}

/// By a statement that was read.
fn kept(statement: &[u8]) -> BTreeSet<Limit> {
    let of_area = |area: Seen| {
        let subs = MANY_SUBS.contains(&area.subs).then_some(Limit::Subs(area.subs));
        let most = area.returns > 0 && area.received == area.most_received();
        [subs, most.then_some(Limit::MostReceived)].into_iter().flatten()
    };
    areas(statement).flat_map(of_area).collect()
}

/// By a statement that was not read.
fn passed(statement: &[u8]) -> BTreeSet<Limit> {
    let of_area = |area: Seen| {
        let subs = (area.subs == ONE_TOO_MANY).then_some(Limit::Subs(area.subs));
        let beyond = area.returns > 0 && area.received == area.most_received() + 1;
        [subs, beyond.then_some(Limit::ReceivedBeyond)].into_iter().flatten()
    };
    areas(statement).flat_map(of_area).collect()
}

/// An area as its line in a statement shows it.
struct Seen {
    returns: u64,
    received: u64,
    subs: usize,
}

impl Seen {
    fn most_received(&self) -> u64 {
        RECEIVED_BY_A_RETURN.saturating_mul(self.returns).min(u64::MAX - 1)
    }
}

fn areas(statement: &[u8]) -> impl Iterator<Item = Seen> + '_ {
    statement.split(|&byte| byte == b'\n').filter(|line| line.starts_with(b"A,")).filter_map(seen)
}

fn seen(line: &[u8]) -> Option<Seen> {
    let mut fields = line.split(|&byte| byte == b',');
    let (returns, received) = (number(fields.nth(6)?)?, number(fields.nth(1)?)?);
    let subs = usize::try_from(number(fields.nth(1)?)?).ok()?;
    Some(Seen { returns, received, subs })
}

impl fmt::Display for Limit {
    fn fmt(&self, f: &mut fmt::Formatter<'_>) -> fmt::Result {
        match self {
            Limit::Subs(count) => write!(f, "{count} sub-areas"),
            Limit::MostReceived => write!(f, "most received"),
            Limit::ReceivedBeyond => write!(f, "one more received"),
        }
    }
}

#[cfg(test)]
mod tests {
    use super::*;

    const NONE: [Limit; 0] = [];

    fn of(limits: BTreeSet<Limit>) -> Vec<Limit> {
        limits.into_iter().collect()
    }

    #[test]
    fn areas_are_seen_by_their_lines() {
        let area = |returns: u64, received: u64, subs: usize| {
            format!("H,1\nA,7,2008,2012,0,0,{returns},0,{received},5,{subs}\n").into_bytes()
        };
        assert_eq!(of(kept(&area(2, 6_000_000_000, 48))), [Limit::Subs(48), Limit::MostReceived]);
        assert_eq!(of(kept(&area(2, 5_999_999_999, 15))), NONE);
        assert_eq!(of(kept(&area(0, 0, 49))), NONE);
        assert_eq!(of(passed(&area(1, 3_000_000_001, 49))), [Limit::Subs(49), Limit::ReceivedBeyond]);
        assert_eq!(of(passed(&area(1, 3_000_000_000, 48))), NONE);
        assert_eq!(of(passed(&area(u64::MAX, u64::MAX, 1))), [Limit::ReceivedBeyond]);
        assert_eq!(of(passed(b"A,x\nA,\n")), NONE);
    }

    #[test]
    fn books_come_to_the_limit_by_their_lines() {
        let book = |subs: usize| -> Vec<u8> {
            let lines: String = (1..=subs).map(|sub| format!("S,7,{sub},1,B,0\n")).collect();
            format!("A,7,2010\n{lines}").into_bytes()
        };
        assert_eq!(of(by_book(&book(15))), NONE);
        assert_eq!(of(by_book(&book(48))), [Limit::Subs(48)]);
        assert_eq!(of(by_book(&book(49))), [Limit::Subs(48), Limit::Subs(49)]);
    }
}
