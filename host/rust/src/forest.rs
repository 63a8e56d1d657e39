//! Forest types. Only radiata carries a region.

#[derive(Debug, Clone, Copy, PartialEq, Eq)]
pub enum Forest {
    Radiata { region: u8 },
    DouglasFir,
    Softwoods,
    Hardwoods,
    Indigenous,
}

pub const BARE: &str = "B";

const CODES: [&str; 13] = ["P1", "P2", "P3", "P4", "P5", "P6", "P7", "P8", "P9", "D", "S", "H", "N"];

impl Forest {
    pub const ALL: [Forest; 13] = [
        Forest::Radiata { region: 1 },
        Forest::Radiata { region: 2 },
        Forest::Radiata { region: 3 },
        Forest::Radiata { region: 4 },
        Forest::Radiata { region: 5 },
        Forest::Radiata { region: 6 },
        Forest::Radiata { region: 7 },
        Forest::Radiata { region: 8 },
        Forest::Radiata { region: 9 },
        Forest::DouglasFir,
        Forest::Softwoods,
        Forest::Hardwoods,
        Forest::Indigenous,
    ];

    pub fn code(self) -> &'static str {
        CODES[self.place()]
    }

    /// The forest type of a code; bare land has none.
    pub fn of_code(code: &[u8]) -> Option<Forest> {
        match code {
            [b'P', region @ b'1'..=b'9'] => Some(Forest::Radiata { region: region - b'0' }),
            b"D" => Some(Forest::DouglasFir),
            b"S" => Some(Forest::Softwoods),
            b"H" => Some(Forest::Hardwoods),
            b"N" => Some(Forest::Indigenous),
            _ => None,
        }
    }

    /// The place among a participant's five columns of a kind: P, D, S, H, N.
    pub fn group(self) -> usize {
        match self {
            Forest::Radiata { .. } => 0,
            Forest::DouglasFir => 1,
            Forest::Softwoods => 2,
            Forest::Hardwoods => 3,
            Forest::Indigenous => 4,
        }
    }

    pub fn place(self) -> usize {
        match self {
            Forest::Radiata { region } => usize::from(region) - 1,
            other => 8 + other.group(),
        }
    }
}

#[cfg(test)]
mod tests {
    use super::*;

    #[test]
    fn every_type_is_found_by_its_code_and_stands_at_its_place() {
        for (place, forest) in Forest::ALL.into_iter().enumerate() {
            assert_eq!(Forest::of_code(forest.code().as_bytes()), Some(forest));
            assert_eq!(forest.place(), place);
        }
        for code in ["", "P", "P0", "P10", "B", "d", "D "] {
            assert_eq!(Forest::of_code(code.as_bytes()), None);
        }
    }
}
