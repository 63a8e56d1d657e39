//! The default tables: Schedule 6 (post-1989) and Schedule 4 (pre-1990), read from the sheet of the repository.

use crate::forest::Forest;
use std::sync::OnceLock;

const SHEET: &str = include_str!("../../../data/schedules-2017.csv");

#[derive(Debug, Default)]
pub struct Column {
    pub first_age: usize,
    pub cells: Vec<u16>,
}

impl Column {
    /// Beyond the last age, the last cell; below the first listed age, 0.
    pub fn at(&self, age: u64) -> u64 {
        look_up(self.first_age as u64, &self.cells, age)
    }
}

pub fn look_up(first_age: u64, cells: &[u16], age: u64) -> u64 {
    let Some(last) = cells.len().checked_sub(1) else {
        return 0;
    };
    match age.checked_sub(first_age) {
        Some(index) => u64::from(cells[last.min(index as usize)]),
        None => 0,
    }
}

#[derive(Debug, Default)]
pub struct Schedules {
    four: [Column; 13],
    six_stock: [Column; 13],
    six_residue: [Column; 13],
}

impl Schedules {
    pub fn pre_1990(&self, forest: Forest) -> &Column {
        &self.four[forest.place()]
    }

    pub fn stock(&self, forest: Forest) -> &Column {
        &self.six_stock[forest.place()]
    }

    pub fn residue(&self, forest: Forest) -> &Column {
        &self.six_residue[forest.place()]
    }
}

pub fn schedules() -> &'static Schedules {
    static READ: OnceLock<Schedules> = OnceLock::new();
    READ.get_or_init(read_sheet)
}

fn read_sheet() -> Schedules {
    let mut schedules = Schedules::default();
    for line in SHEET.lines() {
        let fields: Vec<&str> = line.split(',').collect();
        let [schedule, kind, forest, first_age, cells @ ..] = fields.as_slice() else {
            panic!("a column of the sheet has no cells: {line}");
        };
        let table = match (*schedule, *kind) {
            ("4", "G") => &mut schedules.four,
            ("6", "G") => &mut schedules.six_stock,
            ("6", "R") => &mut schedules.six_residue,
            _ => panic!("no such table in the sheet: {schedule}, {kind}"),
        };
        let forest = Forest::of_code(forest.as_bytes()).expect("the sheet names a forest type");
        table[forest.place()] = Column {
            first_age: first_age.parse().expect("the sheet gives the first age"),
            cells: cells.iter().map(|cell| tenths_of_a_tonne(cell)).collect(),
        };
    }
    schedules
}

fn tenths_of_a_tonne(cell: &str) -> u16 {
    let tonnes: f64 = cell.parse().expect("the sheet's cells are numbers");
    (tonnes * 10.0).round() as u16
}

#[cfg(test)]
mod tests {
    use super::*;

    const NORTHLAND: Forest = Forest::Radiata { region: 1 };

    #[test]
    fn every_column_is_there_and_no_cell_is_over_the_ceiling() {
        let schedules = schedules();
        let tables = [&schedules.four, &schedules.six_stock, &schedules.six_residue];
        let columns = tables.into_iter().flatten();
        assert!(columns.clone().all(|column| !column.cells.is_empty()));
        assert!(columns.clone().flat_map(|column| &column.cells).all(|&cell| cell <= 30_000));
        assert_eq!(columns.map(|column| column.cells.len()).sum::<usize>(), 1848);
    }

    #[test]
    fn look_ups_of_the_guide() {
        assert_eq!(schedules().stock(NORTHLAND).at(12), 2490);
        assert_eq!(schedules().stock(NORTHLAND).at(17), 4350);
        assert_eq!(schedules().residue(NORTHLAND).at(18), 2270);
        assert_eq!(schedules().stock(Forest::Hardwoods).at(4), 340);
        assert_eq!(schedules().pre_1990(NORTHLAND).at(40), 10_900);
    }

    #[test]
    fn ends_of_a_column() {
        assert_eq!(schedules().stock(NORTHLAND).at(0), 0);
        assert_eq!(schedules().stock(NORTHLAND).at(1), 5);
        assert_eq!(schedules().residue(NORTHLAND).at(0), 0);
        assert_eq!(schedules().residue(NORTHLAND).at(1), 5);
        assert_eq!(schedules().pre_1990(NORTHLAND).at(8), 0);
        assert_eq!(schedules().pre_1990(NORTHLAND).at(9), 2550);
        assert_eq!(schedules().stock(NORTHLAND).at(50), 13_130);
        assert_eq!(schedules().stock(NORTHLAND).at(299), 13_130);
        assert_eq!(look_up(0, &[], 3), 0);
    }
}
