//! The calls that are measured: what is held, and the line or the sheet that comes; or the foot, or a book's export.

use carbon_twin::forest::Forest;
use carbon_twin::listing::Account;
use carbon_twin::ranges::{MOST_AREAS, MOST_SUBS};
use carbon_twin::refusal::Refusal;
use carbon_twin::statement;

pub struct Row {
    pub name: String,
    pub statement: Vec<u8>,
    pub asked: Asked,
    /// The refusal that is due, where the call is not taken.
    pub refusal: Option<Refusal>,
}

pub enum Asked {
    Line(&'static str),
    Foot,
    /// The sheet.
    Import(Vec<u8>),
    /// The book.
    Export(Vec<u8>),
}

impl Row {
    fn taken(name: String, statement: Vec<u8>, asked: Asked) -> Row {
        Row { name, statement, asked, refusal: None }
    }
}

pub fn rows() -> Vec<Row> {
    let mut rows = Vec::new();
    let mut add = |held: &str, statement: Vec<u8>, lines: &[&'static str]| {
        for line in lines {
            rows.push(Row::taken(format!("call, {held}, {line}"), statement.clone(), Asked::Line(line)));
        }
    };
    add("empty holding", held(0, 0), &["A,1,2008", "T,G,D,0,1,4.5,10,20"]);
    add("one area of four sub-areas", held(1, 4), &["C,1,1,2012", "R,1,2012"]);
    add("four areas of four sub-areas", held(4, 4), &["R,4,2012"]);
    add("sixteen areas of sixteen sub-areas", held(16, 16), &["C,16,16,2012", "R,16,2012", "W,1"]);
    add("sixteen areas of forty-eight sub-areas", held(16, 48), &["C,16,48,2012", "R,16,2012", "W,1"]);
    rows.push(Row::taken("foot, sixteen areas of sixteen sub-areas".into(), held(16, 16), Asked::Foot));
    rows.push(Row::taken("foot, sixteen areas of forty-eight sub-areas".into(), held(16, 48), Asked::Foot));
    rows.extend(imports());
    rows.extend(TAKEN_ROWS.map(export));
    rows
}

/// Rows that sixteen areas take: sixteen for each of them, and as many as they may have.
const TAKEN_ROWS: [usize; 2] = [256, MOST_AREAS * MOST_SUBS];
const LONG_SHEET: usize = 1_024;

/// Sheets onto areas without sub-areas.
fn imports() -> Vec<Row> {
    let bare = after(opened().lines());
    let import = |name: String, rows: usize| Row::taken(name, bare.clone(), Asked::Import(sheet(rows)));
    let taken = TAKEN_ROWS.map(|rows| import(format!("import, {rows} rows onto sixteen areas"), rows));
    let refused_at = MOST_AREAS * MOST_SUBS + 1;
    let long = import(format!("import, {LONG_SHEET} rows, refused at row {refused_at}"), LONG_SHEET);
    let refused = Row { refusal: Some(Refusal::SubsFull), ..long };
    taken.into_iter().chain([refused]).collect()
}

/// Of the book that enters so many rows.
fn export(rows: usize) -> Row {
    let book: String = opened() + &mapped(rows).map(|fields| format!("S,{fields}\n")).collect::<String>();
    let name = format!("export, {} lines, {rows} of them rows", book.lines().count());
    Row::taken(name, Vec::new(), Asked::Export(book.into_bytes()))
}

fn opened() -> String {
    (1..=MOST_AREAS).map(|area| format!("A,{area},2008\n")).collect()
}

fn sheet(rows: usize) -> Vec<u8> {
    let rows: String = mapped(rows).map(|fields| fields + "\r\n").collect();
    format!("area,sub,hectares,type,planted\r\n{rows}").into_bytes()
}

/// The fields of so many sub-areas, going round the areas.
fn mapped(rows: usize) -> impl Iterator<Item = String> {
    (0..rows).map(|row| added(1 + row % MOST_AREAS, 1 + row / MOST_AREAS))
}

/// The statement of so many areas of so many sub-areas each.
fn held(areas: usize, subs: usize) -> Vec<u8> {
    let lines: Vec<String> = (1..=areas).flat_map(|area| history(area, subs)).collect();
    after(lines.iter().map(String::as_str))
}

fn after<'a>(lines: impl Iterator<Item = &'a str>) -> Vec<u8> {
    let mut account = Account::default();
    for line in lines {
        account.enter(line.as_bytes()).expect("the lines of a history are taken");
    }
    statement::write(&account.holding)
}

/// An area's lines: it opens, its sub-areas are added, a return is filed, and then of every four sub-areas one is
/// cleared, and another cleared and planted.
fn history(area: usize, subs: usize) -> Vec<String> {
    let mut lines = vec![format!("A,{area},2008")];
    lines.extend((1..=subs).map(|sub| format!("S,{}", added(area, sub))));
    lines.push(format!("R,{area},2010"));
    for sub in (1..=subs).filter(|sub| matches!(sub % 4, 2 | 3)) {
        lines.push(format!("C,{area},{sub},2011"));
        if sub % 4 == 3 {
            lines.push(format!("P,{area},{sub},{},2011", forest(area + 1, sub)));
        }
    }
    lines
}

/// The fields of a sub-area.
fn added(area: usize, sub: usize) -> String {
    let hectares = format!("{}.{}", 37 * area + 11 * sub, 1000 + 83 * sub);
    let planted = 1960 + (7 * area + 3 * sub) % 48;
    format!("{area},{sub},{hectares},{},{planted}", forest(area, sub))
}

/// Every forest type in turn.
fn forest(area: usize, sub: usize) -> &'static str {
    Forest::ALL[(area + sub) % Forest::ALL.len()].code()
}
