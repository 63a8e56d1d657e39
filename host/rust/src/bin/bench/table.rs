//! The table of docs/PERFORMANCE.md.

use crate::pair::Pair;
use std::fmt;

pub struct Measured {
    pub name: String,
    pub cost: Pair<f64>,
}

pub struct Table {
    pub unit: &'static str,
    pub rows: Vec<Measured>,
}

impl fmt::Display for Table {
    fn fmt(&self, f: &mut fmt::Formatter<'_>) -> fmt::Result {
        let unit = self.unit;
        writeln!(f, "| what | engine, {unit} | twin, {unit} | engine / twin |")?;
        writeln!(f, "|---|---:|---:|---:|")?;
        for Measured { name, cost: Pair { engine, twin } } in &self.rows {
            writeln!(f, "| {name} | {} | {} | {:.2} |", grouped(*engine), grouped(*twin), engine / twin)?;
        }
        Ok(())
    }
}

/// A whole number with commas between its thousands.
fn grouped(number: f64) -> String {
    let digits = format!("{number:.0}");
    let mut text = String::new();
    for (place, digit) in digits.chars().enumerate() {
        if place > 0 && (digits.len() - place) % 3 == 0 {
            text.push(',');
        }
        text.push(digit);
    }
    text
}

#[cfg(test)]
mod tests {
    use super::*;

    #[test]
    fn thousands_are_apart() {
        for (number, text) in [(0.4, "0"), (999.0, "999"), (1000.0, "1,000"), (1_234_567.8, "1,234,568")] {
            assert_eq!(grouped(number), text);
        }
    }
}
