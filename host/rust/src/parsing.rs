//! A line to an entry. The form of the whole line is judged first, then the ranges in the order of their numbers.

use crate::forest::{Forest, BARE};
use crate::holding::Trees;
use crate::ranges::*;
use crate::refusal::{refuse_if, Refusal};
use crate::tables::RESIDUE;
use crate::text;
use crate::units::tenths_of;
use std::ops::RangeInclusive;

#[derive(Debug, Clone, PartialEq, Eq)]
pub enum Entry {
    Column { column: usize, cells: Vec<u16> },
    Open { area: u64, opening: u64 },
    Add { area: u64, sub: u64, tenths: u64, trees: Option<Trees> },
    Clear { area: u64, sub: u64, year: u64 },
    Plant { area: u64, sub: u64, trees: Trees },
    Return { area: u64, last: u64 },
    Withdraw { area: u64 },
}

pub fn parse(line: &[u8]) -> Result<Entry, Refusal> {
    let line = line.strip_suffix(b"\n").unwrap_or(line);
    refuse_if(line.len() > LINE_BYTES || line.contains(&b'\n'), Refusal::Form)?;
    let mut fields = line.split(|&byte| byte == b',');
    match fields.next() {
        Some(b"T") => column_entry(fields),
        Some(b"A") => open_entry(just(fields)?),
        Some(b"S") => add_entry(just(fields)?),
        Some(b"C") => clear_entry(just(fields)?),
        Some(b"P") => plant_entry(just(fields)?),
        Some(b"R") => return_entry(just(fields)?),
        Some(b"W") => withdraw_entry(just(fields)?),
        _ => Err(Refusal::Form),
    }
}

/// The fields, which must be just so many.
fn just<'a, const N: usize>(mut fields: impl Iterator<Item = &'a [u8]>) -> Result<[&'a [u8]; N], Refusal> {
    let mut all: [&[u8]; N] = [&[]; N];
    for field in &mut all {
        *field = fields.next().ok_or(Refusal::Form)?;
    }
    refuse_if(fields.next().is_some(), Refusal::Form)?;
    Ok(all)
}

fn column_entry<'a>(mut fields: impl Iterator<Item = &'a [u8]>) -> Result<Entry, Refusal> {
    let first = match fields.next() {
        Some(b"G") => 0,
        Some(b"R") => RESIDUE,
        _ => return Err(Refusal::Form),
    };
    let forest = fields.next().ok_or(Refusal::Form)?;
    let cells: Vec<u16> = fields.map(cell_tenths).collect::<Result<_, _>>()?;
    refuse_if(cells.is_empty(), Refusal::Form)?;
    let group = [b"P", b"D", b"S", b"H", b"N"].iter().position(|code| *code == forest);
    let column = first + group.ok_or(Refusal::Type)?;
    let too_large = cells.iter().any(|&cell| u64::from(cell) > MOST_TENTHS_OF_A_CELL);
    refuse_if(cells.len() > MOST_CELLS || too_large, Refusal::Table)?;
    Ok(Entry::Column { column, cells })
}

fn open_entry([area, opening]: [&[u8]; 2]) -> Result<Entry, Refusal> {
    let (area, opening) = (number(area)?, number(opening)?);
    Ok(Entry::Open { area: number_in(AREA_NUMBERS, area)?, opening: year_in(ENTRY_YEARS, opening)? })
}

fn add_entry([area, sub, hectares, forest, planted]: [&[u8]; 5]) -> Result<Entry, Refusal> {
    let (area, sub) = (number(area)?, number(sub)?);
    let (hectares, planted) = (ten_thousandths(hectares)?, number(planted)?);
    let (area, sub) = (number_in(AREA_NUMBERS, area)?, number_in(SUB_NUMBERS, sub)?);
    let forest = if forest == BARE.as_bytes() { None } else { Some(listed(forest)?) };
    refuse_if(!TEN_THOUSANDTHS.contains(&hectares), Refusal::Hectares)?;
    let trees = match forest {
        None => {
            refuse_if(planted != 0, Refusal::Year)?;
            None
        }
        Some(forest) => Some(Trees { forest, planted: year_in(PLANTING_YEARS, planted)? }),
    };
    Ok(Entry::Add { area, sub, tenths: tenths_of(hectares), trees })
}

fn clear_entry([area, sub, year]: [&[u8]; 3]) -> Result<Entry, Refusal> {
    let (area, sub, year) = (number(area)?, number(sub)?, number(year)?);
    let (area, sub) = (number_in(AREA_NUMBERS, area)?, number_in(SUB_NUMBERS, sub)?);
    Ok(Entry::Clear { area, sub, year: year_in(ENTRY_YEARS, year)? })
}

fn plant_entry([area, sub, forest, year]: [&[u8]; 4]) -> Result<Entry, Refusal> {
    let (area, sub, year) = (number(area)?, number(sub)?, number(year)?);
    let (area, sub) = (number_in(AREA_NUMBERS, area)?, number_in(SUB_NUMBERS, sub)?);
    let forest = listed(forest)?;
    Ok(Entry::Plant { area, sub, trees: Trees { forest, planted: year_in(ENTRY_YEARS, year)? } })
}

fn return_entry([area, last]: [&[u8]; 2]) -> Result<Entry, Refusal> {
    let (area, last) = (number(area)?, number(last)?);
    Ok(Entry::Return { area: number_in(AREA_NUMBERS, area)?, last: year_in(ENTRY_YEARS, last)? })
}

fn withdraw_entry([area]: [&[u8]; 1]) -> Result<Entry, Refusal> {
    Ok(Entry::Withdraw { area: number_in(AREA_NUMBERS, number(area)?)? })
}

fn number_in(range: RangeInclusive<u64>, number: u64) -> Result<u64, Refusal> {
    refuse_if(!range.contains(&number), Refusal::Number)?;
    Ok(number)
}

fn year_in(range: RangeInclusive<u64>, year: u64) -> Result<u64, Refusal> {
    refuse_if(!range.contains(&year), Refusal::Year)?;
    Ok(year)
}

fn listed(forest: &[u8]) -> Result<Forest, Refusal> {
    Forest::of_code(forest).ok_or(Refusal::Type)
}

fn number(field: &[u8]) -> Result<u64, Refusal> {
    text::number(field).ok_or(Refusal::Form)
}

/// A number with at most so many decimals, as a count of the last of them.
fn decimal(field: &[u8], decimals: usize) -> Result<u64, Refusal> {
    let (whole, behind) = text::split_number(field).ok_or(Refusal::Form)?;
    let fraction = match behind {
        [] => 0,
        [b'.', digits @ ..] => fraction(digits, decimals)?,
        _ => return Err(Refusal::Form),
    };
    Ok(whole.saturating_mul(10u64.pow(decimals as u32)).saturating_add(fraction))
}

fn fraction(digits: &[u8], decimals: usize) -> Result<u64, Refusal> {
    let formed = (1..=decimals).contains(&digits.len()) && digits.iter().all(u8::is_ascii_digit);
    refuse_if(!formed, Refusal::Form)?;
    let value = digits.iter().fold(0, |value, digit| 10 * value + u64::from(digit - b'0'));
    Ok(value * 10u64.pow((decimals - digits.len()) as u32))
}

/// What is too large for 16 bits stays at their greatest number, which is over the range.
fn cell_tenths(field: &[u8]) -> Result<u16, Refusal> {
    let tenths = decimal(field, 1)?;
    Ok(u16::try_from(tenths).unwrap_or(u16::MAX))
}

/// Up to six digits, then optionally a point and one to four digits.
fn ten_thousandths(field: &[u8]) -> Result<u64, Refusal> {
    let whole = field.iter().take_while(|&&byte| byte != b'.').count();
    refuse_if(whole > 6, Refusal::Form)?;
    decimal(field, 4)
}

#[cfg(test)]
mod tests {
    use super::*;

    fn hectares(text: &str) -> Result<u64, u8> {
        match parse(format!("S,1,1,{text},B,0").as_bytes()) {
            Ok(Entry::Add { tenths, .. }) => Ok(tenths),
            Ok(other) => panic!("{other:?}"),
            Err(refusal) => Err(refusal.number()),
        }
    }

    #[test]
    fn hectares_as_entered() {
        for (text, tenths) in [("45.83", 458), ("45.85", 459), ("1.04", 10), ("1", 10)] {
            assert_eq!(hectares(text), Ok(tenths), "{text}");
        }
        for (text, tenths) in [("10000", 100_000), ("9999.95", 100_000), ("9999.9499", 99_999)] {
            assert_eq!(hectares(text), Ok(tenths), "{text}");
        }
        for text in ["0.99", "10000.01", "0", "0.9999", "10000.0001", "999999.9999"] {
            assert_eq!(hectares(text), Err(4), "{text}");
        }
        let malformed = ["", ".", "1.", ".5", "01", "1234567", "1.00000", "1.2.3", "-1", "1,0", "00.5"];
        for text in malformed {
            assert_eq!(hectares(text), Err(1), "{text}");
        }
    }

    fn cells(text: &str) -> Result<Vec<u16>, u8> {
        match parse(format!("T,G,D,{text}").as_bytes()) {
            Ok(Entry::Column { column: 1, cells }) => Ok(cells),
            Ok(other) => panic!("{other:?}"),
            Err(refusal) => Err(refusal.number()),
        }
    }

    #[test]
    fn cells_of_a_column() {
        assert_eq!(cells("0,0.0,4.5,3000,3000.0"), Ok(vec![0, 0, 45, 30_000, 30_000]));
        for malformed in ["", ".5", "5.", "1.25", "01", "1,", "00.5", "5.x"] {
            assert_eq!(cells(malformed), Err(1), "{malformed}");
        }
        for over in ["3000.1", "3001", &"9".repeat(500)] {
            assert_eq!(cells(over), Err(6), "{over}");
        }
        assert_eq!(cells(&["7"; 101].join(",")), Ok(vec![70; 101]));
        assert_eq!(cells(&["7"; 102].join(",")), Err(6));
        assert_eq!(cells(&(["7"; 102].join(",") + ",x")), Err(1));
    }

    fn refused(line: &str) -> u8 {
        parse(line.as_bytes()).expect_err(line).number()
    }

    #[test]
    fn forms_that_are_refused() {
        let lines = [
            "",
            "\n",
            "X,1",
            "AA,1,2010",
            "a,1,2010",
            "A,1",
            "A,1,2010,",
            "A,01,2010",
            "A,,2010",
            "A,1,+2010",
            "A,1,2010\r",
            "A,1,2010\n\n",
            "A,1,\n2010",
            "W",
            "W,",
            "W,1,",
            "T,G,D",
            "T,X,D,1",
            "T,G",
            "T",
            "S,1,1,1,B",
            "R,1, 2010",
            "C,1,1,2010,0",
            "P,1,1,,D,2010",
        ];
        for line in lines {
            assert_eq!(refused(line), 1, "{line:?}");
        }
    }

    #[test]
    fn ranges_give_their_own_numbers_in_rising_order() {
        let lines = [
            ("A,0,2010", 2),
            ("A,1000,1", 2),
            ("S,1,100,0,X,1", 2),
            ("W,0", 2),
            ("R,1000,2010", 2),
            ("C,1,0,2010", 2),
            ("P,1,1,B,2010", 3),
            ("P,1,1,,1", 3),
            ("S,1,1,0,P,1", 3),
            ("T,G,P1,1", 3),
            ("T,R,B,9999", 3),
            ("S,1,1,0.9,D,0", 4),
            ("S,1,1,1,B,2000", 5),
            ("S,1,1,1,D,0", 5),
            ("S,1,1,1,D,1899", 5),
            ("S,1,1,1,D,2200", 5),
            ("A,1,2007", 5),
            ("A,1,2200", 5),
            ("R,1,2007", 5),
            ("C,1,1,2200", 5),
            ("P,1,1,D,2007", 5),
        ];
        for (line, number) in lines {
            assert_eq!(refused(line), number, "{line}");
        }
        assert_eq!(refused(&format!("A,{},2010", "9".repeat(500))), 2);
        assert_eq!(refused("A,0,2010,x"), 1);
        assert_eq!(refused("S,0,1,1,D,2O10"), 1);
    }

    #[test]
    fn lines_up_to_1024_bytes_pass() {
        let of_length = |bytes: usize| format!("A,{},2010", "9".repeat(bytes - 7));
        assert_eq!(refused(&of_length(1024)), 2);
        assert_eq!(refused(&(of_length(1024) + "\n")), 2);
        assert_eq!(refused(&of_length(1025)), 1);
    }
}
