//! What is turned back, by the numbers of documents 01 and 02.

#[derive(Debug, Clone, Copy, PartialEq, Eq, PartialOrd, Ord)]
#[repr(u8)]
pub enum Refusal {
    Form = 1,
    Number = 2,
    Type = 3,
    Hectares = 4,
    Year = 5,
    Table = 6,
    TreeList = 7,
    Room = 8,
    ParcelList = 9,
    NoTreesOfNineYears = 10,
    Statement = 11,
    AreaUsed = 21,
    AreaUnknown = 22,
    AreaWithdrawn = 23,
    AreasFull = 24,
    SubUsed = 25,
    SubsFull = 26,
    AreaHasFiled = 27,
    SubUnknown = 28,
    ClearingBareLand = 29,
    PlantingUnderTrees = 30,
    YearTooEarly = 31,
    PlantedAfterOpening = 32,
    TableAfterArea = 33,
    SheetForm = 41,
    SheetRow = 42,
}

impl Refusal {
    pub fn number(self) -> u8 {
        self as u8
    }
}

/// `Err(refusal)` where the condition applies.
pub fn refuse_if(applies: bool, refusal: Refusal) -> Result<(), Refusal> {
    if applies {
        Err(refusal)
    } else {
        Ok(())
    }
}
