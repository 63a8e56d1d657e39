//! The examples of document 01 and of the guide's section 6, as a book and as calls.

use crate::common::{both_calls, calls, Recorder};
use carbon_twin::listing;

const PRINTED_BOOK: &str = "T,G,D,0,1,4.5,10,20
T,R,D,0,0.5,2,5,8
A,7,2010
S,7,1,10.04,D,2008
R,7,2010
C,7,1,2011
P,7,1,D,2011
R,7,2012
R,7,2013
C,7,2,2014
W,7
";

const PRINTED_LISTING: &str = "R,7,2010,2010,55,55,0,55
R,7,2011,2012,-15,0,15,40
R,7,2013,2013,50,50,0,90
X,10,28
W,7,90
F,105,105,0
E,10,1
";

fn book(text: &[u8]) -> String {
    String::from_utf8(listing::book(text)).expect("a listing is text")
}

#[test]
fn the_printed_book() {
    assert_eq!(book(PRINTED_BOOK.as_bytes()), PRINTED_LISTING);
    assert_eq!(book(PRINTED_BOOK.trim_end().as_bytes()), PRINTED_LISTING);
}

#[test]
fn the_printed_book_by_calls() {
    for (name, calls) in both_calls() {
        let mut recorder = Recorder::new(calls.line);
        let refused: Vec<(usize, i64)> = (1..)
            .zip(PRINTED_BOOK.lines())
            .filter_map(|(number, line)| recorder.enter(line).err().map(|refusal| (number, refusal)))
            .collect();
        assert_eq!(refused, [(10, 28)], "{name}");
        let reported: String = PRINTED_LISTING
            .lines()
            .filter(|line| line.starts_with(['R', 'W']))
            .map(|line| format!("{line}\n"))
            .collect();
        assert_eq!(recorder.told, reported, "{name}");
        assert_eq!(
            String::from_utf8_lossy(&recorder.statement),
            "H,1\nA,7,2010,2014,2011,1,3,135000,105,105,1\nS,1,100,D,2011,D,3,2011\n",
            "{name}"
        );
        let mut foot = [0; 12];
        assert_eq!((calls.foot)(&recorder.statement, &mut foot), 12, "{name}");
        assert_eq!(&foot, b"F,105,105,0\n", "{name}");
    }
}

#[test]
fn hardwoods_that_shrink_before_any_return() {
    for (name, call) in calls() {
        let mut recorder = Recorder::new(call);
        recorder.enter_all("T,G,H,100,70,120\nA,1,2010\nS,1,1,1,H,2010\nR,1,2010\nR,1,2011");
        assert_eq!(recorder.told, "R,1,2010,2010,-30,0,0,0\nR,1,2011,2011,50,50,0,50\n", "{name}");
    }
}

/// With a cell of as many tonnes as years, the stock of a hectare tells the age.
#[test]
fn ages_16_and_21() {
    let cells: Vec<String> = (0..=30).map(|age| age.to_string()).collect();
    for (name, call) in calls() {
        let mut recorder = Recorder::new(call);
        recorder.enter_all(&format!("T,G,P,{}\nA,1,2008\nS,1,1,1,P1,1992", cells.join(",")));
        assert_eq!(recorder.stock(), 16_000, "{name}");
        recorder.enter_all("R,1,2012");
        assert_eq!(recorder.stock(), 21_000, "{name}");
    }
}

#[test]
fn hectares_in_entries() {
    for (name, call) in calls() {
        let mut recorder = Recorder::new(call);
        recorder.enter_all("A,1,2010\nS,1,1,45.83,B,0\nS,1,2,45.85,B,0\nS,1,3,1.04,B,0");
        assert_eq!(recorder.enter("S,1,4,0.99,B,0"), Err(4), "{name}");
        assert_eq!(recorder.enter("S,1,4,10000.01,B,0"), Err(4), "{name}");
        let subs = "S,1,458,B,0,B,0,0\nS,2,459,B,0,B,0,0\nS,3,10,B,0,B,0,0\n";
        assert!(String::from_utf8_lossy(&recorder.statement).ends_with(subs), "{name}");
    }
}

/// The guide, section 6: 45.83 ha of Northland radiata of 1996, wholly felled in 2014.
#[test]
fn the_guides_felled_stand() {
    for (name, call) in calls() {
        let mut recorder = Recorder::new(call);
        recorder.enter_all("A,1,2008\nS,1,1,45.83,P1,1996");
        assert_eq!(recorder.stock(), 11_404_200, "{name}");
        recorder.enter_all("R,1,2012");
        assert_eq!(recorder.stock(), 19_923_000, "{name}");
        recorder.enter_all("C,1,1,2014\nP,1,1,H,2014\nR,1,2017");
        assert_eq!(recorder.stock(), 7_795_160, "{name}");
        assert_eq!(recorder.told, "R,1,2008,2012,8519,8519,0,8519\nR,1,2013,2017,-12128,0,8519,0\n", "{name}");
    }
}

/// The guide, section 6: the same land, of which 21 ha are felled.
#[test]
fn the_guides_partly_felled_stand() {
    for (name, call) in calls() {
        let mut recorder = Recorder::new(call);
        recorder.enter_all("A,1,2008\nS,1,1,24.83,P1,1996\nS,1,2,21.0,P1,1996\nR,1,2012");
        recorder.enter_all("C,1,2,2014\nP,1,2,H,2014\nR,1,2017");
        assert_eq!(recorder.stock(), 18_950_200, "{name}");
        assert!(recorder.told.ends_with("R,1,2013,2017,-973,0,973,7546\n"), "{name}: {}", recorder.told);
    }
}

#[test]
fn ends_of_a_book() {
    assert_eq!(book(b""), "F,0,0,0\nE,0,0\n");
    assert_eq!(book(b"\n"), "X,1,1\nF,0,0,0\nE,0,1\n");
    assert_eq!(book(b"A,1,2010\n\nW,1"), "X,2,1\nW,1,0\nF,0,0,0\nE,2,1\n");
    let longest = "x\n".repeat(32_768);
    assert!(book(longest.as_bytes()).ends_with("X,32768,1\nF,0,0,0\nE,0,32768\n"));
    assert_eq!(book((longest + "\n").as_bytes()), "X,0,1\nE,0,1\n");
}
