//! A participant's table: ten columns (stock of P, D, S, H, N, then residue in that order), and the look-up that falls
//! back to the default column where the participant's has no cells.

use crate::forest::Forest;
use crate::ranges::{COLUMNS, MOST_CELLS, MOST_TENTHS_OF_A_CELL};
use crate::refusal::{refuse_if, Refusal};
use crate::schedules::{look_up, schedules};

#[derive(Debug, Default, Clone, PartialEq, Eq)]
pub struct Table {
    /// Where each column ends among the cells.
    ends: [usize; COLUMNS],
    /// The columns joined.
    cells: Vec<u16>,
}

pub const RESIDUE: usize = COLUMNS / 2;

impl Table {
    /// The table of the lent bytes, two to a number, low byte first. No bytes are no table.
    pub fn from_bytes(bytes: &[u8]) -> Result<Table, Refusal> {
        let (numbers, odd) = bytes.as_chunks::<2>();
        refuse_if(!odd.is_empty(), Refusal::Table)?;
        if numbers.is_empty() {
            return Ok(Table::default());
        }
        let (lengths, cells) = numbers.split_at_checked(COLUMNS).ok_or(Refusal::Table)?;
        let mut ends = [0; COLUMNS];
        let mut end = 0;
        for (column, &length) in ends.iter_mut().zip(lengths) {
            let length = usize::from(u16::from_le_bytes(length));
            refuse_if(length > MOST_CELLS, Refusal::Table)?;
            end += length;
            *column = end;
        }
        let cells: Vec<u16> = cells.iter().map(|&cell| u16::from_le_bytes(cell)).collect();
        refuse_if(cells.len() != end || !cells.iter().all(in_range), Refusal::Table)?;
        Ok(Table { ends, cells })
    }

    pub fn to_bytes(&self) -> Vec<u8> {
        let mut bytes = Vec::with_capacity(2 * (COLUMNS + self.cells.len()));
        for column in 0..COLUMNS {
            let length = self.column(column).len() as u16;
            bytes.extend_from_slice(&length.to_le_bytes());
        }
        for cell in &self.cells {
            bytes.extend_from_slice(&cell.to_le_bytes());
        }
        bytes
    }

    /// Takes the cells of a T entry, unless its column or a later one already has cells.
    pub fn extend(&mut self, column: usize, cells: &[u16]) -> Result<(), Refusal> {
        refuse_if(self.start(column) < self.cells.len(), Refusal::Table)?;
        self.cells.extend_from_slice(cells);
        self.ends[column..].fill(self.cells.len());
        Ok(())
    }

    fn start(&self, column: usize) -> usize {
        column.checked_sub(1).map_or(0, |before| self.ends[before])
    }

    fn column(&self, column: usize) -> &[u16] {
        &self.cells[self.start(column)..self.ends[column]]
    }

    pub fn stock_cell(&self, forest: Forest, age: u64) -> u64 {
        match self.column(forest.group()) {
            [] => schedules().stock(forest).at(age),
            own => look_up(0, own, age),
        }
    }

    pub fn residue_cell(&self, forest: Forest, age: u64) -> u64 {
        match self.column(RESIDUE + forest.group()) {
            [] => schedules().residue(forest).at(age),
            own => look_up(0, own, age),
        }
    }
}

fn in_range(cell: &u16) -> bool {
    u64::from(*cell) <= MOST_TENTHS_OF_A_CELL
}

#[cfg(test)]
mod tests {
    use super::*;

    fn bytes(numbers: &[u16]) -> Vec<u8> {
        numbers.iter().flat_map(|number| number.to_le_bytes()).collect()
    }

    fn with_lengths(lengths: [u16; 10], cells: &[u16]) -> Vec<u8> {
        bytes(&[&lengths, cells].concat())
    }

    #[test]
    fn tables_that_are_taken() {
        assert_eq!(Table::from_bytes(&[]), Ok(Table::default()));
        assert_eq!(Table::from_bytes(&bytes(&[0; 10])), Ok(Table::default()));
        let full = with_lengths([101; 10], &[30_000; 1010]);
        assert_eq!(Table::from_bytes(&full).unwrap().to_bytes(), full);
    }

    #[test]
    fn tables_that_are_refused() {
        let refused = [
            vec![0],
            bytes(&[0; 9]),
            bytes(&[0; 11]),
            with_lengths([102, 0, 0, 0, 0, 0, 0, 0, 0, 0], &[1; 102]),
            with_lengths([1, 0, 0, 0, 0, 0, 0, 0, 0, 0], &[30_001]),
            with_lengths([1, 0, 0, 0, 0, 0, 0, 0, 0, 0], &[]),
            with_lengths([1, 0, 0, 0, 0, 0, 0, 0, 0, 0], &[1, 2]),
            [bytes(&[0; 10]), vec![0]].concat(),
        ];
        for table in refused {
            assert_eq!(Table::from_bytes(&table), Err(Refusal::Table), "{table:?}");
        }
    }

    #[test]
    fn columns_come_in_order() {
        let mut table = Table::default();
        assert_eq!(table.extend(3, &[5]), Ok(()));
        assert_eq!(table.extend(3, &[6]), Err(Refusal::Table));
        assert_eq!(table.extend(1, &[6]), Err(Refusal::Table));
        assert_eq!(table.extend(9, &[7, 8]), Ok(()));
        assert_eq!(table.to_bytes(), with_lengths([0, 0, 0, 1, 0, 0, 0, 0, 0, 2], &[5, 7, 8]));
    }

    #[test]
    fn the_column_consulted() {
        let mut table = Table::default();
        let radiata = Forest::Radiata { region: 4 };
        assert_eq!(table.stock_cell(radiata, 1), 6);
        assert_eq!(table.residue_cell(radiata, 0), 0);
        table.extend(0, &[11, 12]).unwrap();
        table.extend(RESIDUE, &[13]).unwrap();
        assert_eq!(table.stock_cell(radiata, 1), 12);
        assert_eq!(table.stock_cell(Forest::Radiata { region: 9 }, 300), 12);
        assert_eq!(table.residue_cell(radiata, 0), 13);
        assert_eq!(table.stock_cell(Forest::DouglasFir, 3), 4);
    }
}
