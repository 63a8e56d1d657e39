//! Pre-1990 land: what is emitted where parcels are deforested.

use crate::forest::Forest;
use crate::ranges::{ENTRY_YEARS, PLANTING_YEARS, TEN_THOUSANDTHS};
use crate::refusal::{refuse_if, Refusal};
use crate::schedules::schedules;
use crate::units::{kilograms_of, tenths_of};

#[derive(Debug, Clone, Copy)]
pub struct Clearing {
    /// None is bare land, which no clearing has.
    pub forest: Option<Forest>,
    pub planted: u64,
    pub cleared: u64,
}

#[derive(Debug, Clone)]
pub struct Parcel {
    pub ten_thousandths: u64,
    pub own: Clearing,
    pub earlier: Vec<Clearing>,
}

const MOST_PARCELS: usize = 64;
const MOST_EARLIER: usize = 4;
const NINE_YEARS: u64 = 9;

/// In tonnes, half up.
pub fn emissions(parcels: &[Parcel]) -> Result<u64, Refusal> {
    judge(parcels)?;
    let mut kilograms = 0;
    for parcel in parcels {
        let (forest, age) = parcel.counting().ok_or(Refusal::NoTreesOfNineYears)?;
        let cell = schedules().pre_1990(forest).at(age);
        kilograms += kilograms_of(tenths_of(parcel.ten_thousandths), cell);
    }
    Ok((kilograms + 500) / 1000)
}

fn judge(parcels: &[Parcel]) -> Result<(), Refusal> {
    let any = |fault: fn(&Parcel) -> bool| parcels.iter().any(fault);
    refuse_if(any(|parcel| parcel.clearings().any(|c| c.forest.is_none())), Refusal::Type)?;
    let small_or_large = |parcel: &Parcel| !TEN_THOUSANDTHS.contains(&parcel.ten_thousandths);
    refuse_if(any(small_or_large), Refusal::Hectares)?;
    refuse_if(any(Parcel::out_of_years), Refusal::Year)?;
    let too_many_or_none = parcels.is_empty() || parcels.len() > MOST_PARCELS;
    refuse_if(too_many_or_none || any(Parcel::out_of_order), Refusal::ParcelList)
}

impl Clearing {
    fn age(&self) -> u64 {
        self.cleared - self.planted
    }
}

impl Parcel {
    fn clearings(&self) -> impl Iterator<Item = &Clearing> {
        std::iter::once(&self.own).chain(&self.earlier)
    }

    fn out_of_years(&self) -> bool {
        let mut earlier = self.earlier.iter();
        !ENTRY_YEARS.contains(&self.own.cleared)
            || earlier.any(|clearing| !PLANTING_YEARS.contains(&clearing.cleared))
            || self.clearings().any(|clearing| !PLANTING_YEARS.contains(&clearing.planted))
    }

    fn out_of_order(&self) -> bool {
        self.earlier.len() > MOST_EARLIER
            || self.clearings().any(|clearing| clearing.cleared < clearing.planted)
            || self.earlier.iter().any(|clearing| clearing.cleared > self.own.cleared)
    }

    /// The type and age of the trees that count, unless none are of nine years.
    fn counting(&self) -> Option<(Forest, u64)> {
        let mut counting = &self.own;
        if self.own.age() < NINE_YEARS {
            for clearing in &self.earlier {
                let in_window = self.own.cleared - clearing.cleared <= NINE_YEARS;
                let older = (clearing.age(), clearing.cleared) > (counting.age(), counting.cleared);
                if in_window && older {
                    counting = clearing;
                }
            }
        }
        let forest = counting.forest?;
        (counting.age() >= NINE_YEARS).then_some((forest, counting.age()))
    }
}
