//! Holdings that a statement carries, with every field at the edges of its range as often as not.

use crate::random::Random;
use carbon_twin::forest::Forest;
use carbon_twin::holding::{Area, Holding, Residue, Sub, Trees};
use carbon_twin::ranges::{MOST_AREAS, MOST_SUBS, RECEIVED_BY_A_RETURN, STOCK_OF_A_SUB};

/// Sub-areas of an area at the limit of document 01 and one past it, short of the present limit by one, and at it.
pub const MANY_SUBS: [usize; 4] = [16, 17, MOST_SUBS - 1, MOST_SUBS];
pub const ONE_TOO_MANY: usize = MOST_SUBS + 1;

pub fn holding(random: &mut Random) -> Holding {
    let most = *random.pick(&[0, 1, 1, 2, 3, MOST_AREAS]);
    let numbers = distinct(random, most, 999);
    let history = if most == MOST_AREAS && random.one_in(2) { filed_every_year } else { filed };
    let subs = if most == MOST_AREAS && random.one_in(16) { full } else { mostly_few };
    Holding { areas: numbers.into_iter().map(|number| area(random, number, history, subs)).collect() }
}

fn full(_: &mut Random) -> usize {
    MOST_SUBS
}

fn mostly_few(random: &mut Random) -> usize {
    let many = random.one_in(8);
    *random.pick(if many { &MANY_SUBS } else { &[0, 1, 2, 3, 5] })
}

struct Filed {
    opening: u64,
    open_year: u64,
    returns: u64,
    received: u64,
}

fn filed(random: &mut Random) -> Filed {
    let opening = random.within(2008..=2199);
    let open_year = if random.one_in(2) { opening } else { random.within(opening..=2200) };
    let returns = if open_year == opening { 0 } else { random.within(1..=open_year - opening) };
    let received = random.within(0..=RECEIVED_BY_A_RETURN * returns);
    Filed { opening, open_year, returns, received }
}

/// The units of sixteen such areas add up to the most digits that a foot has.
fn filed_every_year(random: &mut Random) -> Filed {
    let returns = 192;
    let most = RECEIVED_BY_A_RETURN * returns;
    Filed { opening: 2008, open_year: 2200, returns, received: random.within(most / 2..=most) }
}

fn distinct(random: &mut Random, most: usize, greatest: u64) -> Vec<u64> {
    let mut numbers = Vec::new();
    while numbers.len() < most {
        let number = random.within(1..=greatest);
        if !numbers.contains(&number) {
            numbers.push(number);
        }
    }
    numbers
}

fn area(random: &mut Random, number: u64, history: fn(&mut Random) -> Filed, subs: fn(&mut Random) -> usize) -> Area {
    let Filed { opening, open_year, returns, received } = history(random);
    let latest_year = if random.one_in(3) { 0 } else { random.within(2008..=2199) };
    let withdrawn = random.one_in(6);
    let surrendered = if withdrawn { received } else { random.within(0..=received) };
    let most = subs(random);
    let numbers = distinct(random, most, 99);
    let subs: Vec<Sub> = numbers.into_iter().map(|number| sub(random, number, opening, latest_year)).collect();
    let stock = random.within(0..=STOCK_OF_A_SUB * subs.len() as u64);
    Area { number, opening, open_year, latest_year, withdrawn, returns, stock, received, surrendered, subs }
}

fn sub(random: &mut Random, number: u64, opening: u64, latest_year: u64) -> Sub {
    let tenths = random.within(10..=100_000);
    let forest = *random.pick(&Forest::ALL);
    let planted = random.within(1900..=opening.max(latest_year));
    let trees = (!random.one_in(3)).then_some(Trees { forest, planted });
    let has_residue = latest_year >= opening && !random.one_in(3);
    let residue = has_residue.then(|| Residue {
        forest: *random.pick(&Forest::ALL),
        age: random.within(0..=299),
        year: random.within(opening..=latest_year),
    });
    Sub { number, tenths, trees, residue }
}
