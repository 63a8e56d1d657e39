//! Which statements are read: each condition of document 01 at its edge. Their form is tried further in statement_forms.

use crate::common::{answer, both_calls, calls};
use crate::sub_areas::statement_of;
use carbon_twin::call::CallOfThree;
use carbon_twin::header::size;
use carbon_twin::holding::{Area, Holding, Residue, Sub, Trees};
use carbon_twin::ranges::{MOST_AREAS, MOST_SUBS, RECEIVED_BY_A_RETURN, STOCK_OF_A_SUB};
use carbon_twin::{forest::Forest, statement};

/// Whether the statement is read, by every call alike. What is read is written back, with the area that is opened.
pub fn is_read(text: &str) -> bool {
    let read = statement::read(text.as_bytes());
    for (name, call) in calls() {
        let answer = answer(call, text.as_bytes(), &[], b"A,900,2199");
        let expected = match &read {
            Err(_) => Err(11),
            Ok(holding) if holding.areas.len() == MOST_AREAS => Err(24),
            Ok(holding) => Ok(with_one_more(text, holding.areas.len()).into_bytes()),
        };
        assert_eq!(answer, expected, "{name}: {text}");
    }
    read.is_ok()
}

fn with_one_more(text: &str, areas: usize) -> String {
    let rest = text.split_once('\n').unwrap().1;
    format!("H,{}\n{rest}A,900,2199,2199,0,0,0,0,0,0,0\n", areas + 1)
}

pub fn area(fields: &str) -> String {
    format!("H,1\nA,{fields}\n")
}

pub fn sub(latest: u64, fields: &str) -> String {
    format!("H,1\nA,7,2010,2010,{latest},0,0,0,0,0,1\nS,{fields}\n")
}

#[test]
fn forms() {
    assert!(is_read("H,0\n"));
    for text in
        ["", "H,0", "H,0\n\n", "H,00\n", "H,+0\n", "H,1\n", "h,0\n", "H,0\nA", "H,0,\n", "H\n", "H,17\n", "\nH,0\n"]
    {
        assert!(!is_read(text), "{text:?}");
    }
}

#[test]
fn areas() {
    let read = [
        "7,2010,2010,0,0,0,0,0,0,0",
        "1,2008,2008,2199,0,0,0,0,0,0",
        "999,2199,2200,0,1,1,0,3000000000,3000000000,0",
        "7,2010,2012,2008,0,2,0,6000000000,0,0",
        "7,2010,2010,0,1,0,0,0,0,0",
        "7,2008,2200,0,0,192,0,0,0,0",
    ];
    for fields in read {
        assert!(is_read(&area(fields)), "{fields}");
    }
    let refused = [
        "0,2010,2010,0,0,0,0,0,0,0",
        "1000,2010,2010,0,0,0,0,0,0,0",
        "7,2007,2007,0,0,0,0,0,0,0",
        "7,2200,2200,0,0,0,0,0,0,0",
        "7,2010,2009,0,0,0,0,0,0,0",
        "7,2010,2201,0,0,1,0,0,0,0",
        "7,2010,2011,0,0,0,0,0,0,0",
        "7,2010,2010,0,0,1,0,0,0,0",
        "7,2010,2011,0,0,2,0,0,0,0",
        "7,2010,2010,2007,0,0,0,0,0,0",
        "7,2010,2010,2200,0,0,0,0,0,0",
        "7,2010,2010,0,2,0,0,0,0,0",
        "7,2010,2010,0,0,0,1,0,0,0",
        "7,2010,2010,0,0,0,0,1,0,0",
        "7,2010,2011,0,0,1,0,3000000001,0,0",
        "7,2010,2011,0,0,1,0,5,6,0",
        "7,2010,2011,0,1,1,0,5,4,0",
        "7,2010,2010,0,0,0,0,0,0,1",
        "7,2010,2010,0,0,0,0,0,0,49",
    ];
    for fields in refused {
        assert!(!is_read(&area(fields)), "{fields}");
    }
}

#[test]
fn subs() {
    let read = [
        (0, "1,10,B,0,B,0,0"),
        (0, "99,100000,D,2010,B,0,0"),
        (2012, "1,10,P9,2012,P1,299,2010"),
        (2012, "1,10,N,1900,H,0,2012"),
        (2008, "1,10,S,2010,B,0,0"),
    ];
    for (latest, fields) in read {
        assert!(is_read(&sub(latest, fields)), "{latest}: {fields}");
    }
    let refused = [
        (0, "0,10,B,0,B,0,0"),
        (0, "100,10,B,0,B,0,0"),
        (0, "1,9,B,0,B,0,0"),
        (0, "1,100001,B,0,B,0,0"),
        (0, "1,10,B,2010,B,0,0"),
        (0, "1,10,D,0,B,0,0"),
        (0, "1,10,D,1899,B,0,0"),
        (0, "1,10,D,2011,B,0,0"),
        (2012, "1,10,D,2013,B,0,0"),
        (2012, "1,10,B,0,B,1,0"),
        (2012, "1,10,B,0,B,0,2010"),
        (2012, "1,10,B,0,D,300,2010"),
        (2012, "1,10,B,0,D,5,2009"),
        (2012, "1,10,B,0,D,5,2013"),
        (0, "1,10,B,0,D,5,2010"),
        (2012, "1,10,B,0,P,5,2010"),
        (0, "1,10,P,2010,B,0,0"),
        (0, "1,10,,2010,B,0,0"),
    ];
    for (latest, fields) in refused {
        assert!(!is_read(&sub(latest, fields)), "{latest}: {fields}");
    }
}

#[test]
fn numbers_are_distinct_and_their_order_is_free() {
    let fields = "2010,2010,0,0,0,0,0,0,0";
    assert!(is_read(&format!("H,2\nA,9,{fields}\nA,7,{fields}\n")));
    assert!(!is_read(&format!("H,2\nA,7,{fields}\nA,7,{fields}\n")));
    let head = "H,1\nA,7,2010,2010,0,0,0,0,0,0,2\n";
    assert!(is_read(&format!("{head}S,2,10,B,0,B,0,0\nS,1,10,B,0,B,0,0\n")));
    assert!(!is_read(&format!("{head}S,1,10,B,0,B,0,0\nS,1,10,B,0,B,0,0\n")));
}

#[test]
fn stock_grows_with_the_subs() {
    let of = |stock: u64, subs: usize| statement_of(subs).replacen(",0,0,0,0,0,0,", &format!(",0,0,0,{stock},0,0,"), 1);
    for subs in [1, 2, 16, 17, MOST_SUBS] {
        let most = 60_000_000_000 * subs as u64;
        assert!(is_read(&of(most, subs)), "{subs}");
        assert!(!is_read(&of(most + 1, subs)), "{subs}");
    }
    assert!(!is_read(&of(u64::MAX, 1)));
}

/// "Received may reach 3×10^9 for each return."
#[test]
fn received_grows_with_the_returns() {
    let of = |returns: u64, received: u64| area(&format!("7,2008,{},0,0,{returns},0,{received},0,0", 2008 + returns));
    for returns in [0, 1, 2, 191, 192] {
        let most = 3_000_000_000 * returns;
        assert!(is_read(&of(returns, most)), "{returns}");
        assert!(!is_read(&of(returns, most + 1)), "{returns}");
    }
}

/// Every field has its most digits.
fn largest() -> Holding {
    let radiata = Forest::Radiata { region: 9 };
    let sub = |number: usize| Sub {
        number: number as u64,
        tenths: 100_000,
        trees: Some(Trees { forest: radiata, planted: 2199 }),
        residue: Some(Residue { forest: radiata, age: 299, year: 2199 }),
    };
    let area = |number: usize| Area {
        number: number as u64,
        opening: 2008,
        open_year: 2200,
        latest_year: 2199,
        withdrawn: true,
        returns: 192,
        stock: STOCK_OF_A_SUB * MOST_SUBS as u64,
        received: 192 * RECEIVED_BY_A_RETURN,
        surrendered: 192 * RECEIVED_BY_A_RETURN,
        subs: (100 - MOST_SUBS..100).map(sub).collect(),
    };
    Holding { areas: (1000 - MOST_AREAS..1000).map(area).collect() }
}

/// The largest holding with an area that has one year left to file, and half its units.
fn with_a_year_left(stock: u64) -> Vec<u8> {
    let mut holding = largest();
    let last = holding.areas.last_mut().expect("areas stand");
    let received = 191 * RECEIVED_BY_A_RETURN;
    *last = Area { withdrawn: false, open_year: 2199, returns: 191, stock, received, ..last.clone() };
    last.surrendered = received / 2;
    statement::write(&holding)
}

const LONGEST: usize = 25_701;

/// The header's CARBON_STATEMENT_BYTES are 7152 more.
#[test]
fn the_longest_statement_has_25701_bytes() {
    let written = statement::write(&largest());
    assert_eq!(written.len(), LONGEST);
    assert_eq!(size("CARBON_STATEMENT_BYTES"), LONGEST + 7_152);
    assert!(is_read(&String::from_utf8(written.clone()).unwrap()));
    assert_eq!(statement::read(&written), Ok(largest()));
    for (name, calls) in both_calls() {
        let unchanged = answer(calls.import, &written, &[], b"area,sub,hectares,type,planted\r\n");
        assert_eq!(unchanged.as_ref(), Ok(&written), "{name}");
    }
}

/// Participants' cells of radiata, in tenths of a tonne for each hectare at any age: of stock, and of residue.
fn cells_of_radiata(stock: u16, residue: u16) -> Vec<u8> {
    let lengths = [1, 0, 0, 0, 0, 1, 0, 0, 0, 0];
    lengths.into_iter().chain([stock, residue]).flat_map(u16::to_le_bytes).collect()
}

/// The line that ends a call's output on the area with a year left, and the length of all.
fn reported(call: CallOfThree, stock: u64, table: &[u8], line: &str) -> (String, usize) {
    let out = answer(call, &with_a_year_left(stock), table, line.as_bytes()).expect("it is taken");
    let text = String::from_utf8(out).expect("answers are text");
    (text.lines().last().expect("a report").to_string(), text.len())
}

/// The reports of the greatest rise and fall of stock, and what most is written: the statement of most digits, and an R
/// line of 54 bytes. The header has 32916 bytes, a statement's bound and 63 bytes of an R line, and CARBON_OUT_BYTES.
#[test]
fn the_longest_answers() {
    let full = STOCK_OF_A_SUB * MOST_SUBS as u64;
    let most = cells_of_radiata(30_000, 30_000);
    let (noughts, standing) = (cells_of_radiata(0, 0), cells_of_radiata(30_000, 0));
    for (name, call) in calls() {
        let file = |stock, table| reported(call, stock, table, "R,999,2199");
        let (rise, bytes) = file(0, &most);
        assert_eq!(rise, "R,999,2199,2199,2736000000,2736000000,0,289236000000", "{name}");
        assert_eq!(bytes, LONGEST + rise.len() + 1, "{name}");
        let (fall, _) = file(full, &noughts);
        assert_eq!(fall, "R,999,2199,2199,-2880000000,0,2880000000,283620000000", "{name}");
        let (halved, bytes) = file(full, &standing);
        assert_eq!(halved, "R,999,2199,2199,-1440000000,0,1440000000,285060000000", "{name}");
        assert_eq!(bytes, LONGEST + 54, "{name}");
        assert!(bytes <= size("CARBON_STATEMENT_BYTES") + 63 && bytes <= size("CARBON_OUT_BYTES"), "{name}");
        let withdrawn = reported(call, full, &most, "W,999");
        assert_eq!(withdrawn, ("W,999,286500000000".to_string(), LONGEST + 19), "{name}");
    }
}
