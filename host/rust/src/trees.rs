//! The tree groups of one hectare: its type and age.

use crate::forest::Forest;
use crate::refusal::{refuse_if, Refusal};
use std::collections::BTreeMap;

#[derive(Debug, Clone, Copy)]
pub struct Group {
    pub species: u16,
    /// None is bare land, which no group has.
    pub forest: Option<Forest>,
    pub age: u64,
    /// In square centimetres.
    pub basal_area: u64,
}

const MOST_GROUPS: usize = 64;
const OLDEST: u64 = 300;
const MOST_BASAL_AREA: u64 = 1_000_000;

#[derive(Debug, Clone, Copy, PartialEq, Eq)]
pub struct Hectare {
    pub forest: Forest,
    pub age: u64,
}

pub fn hectare(groups: &[Group]) -> Result<Hectare, Refusal> {
    refuse_if(groups.iter().any(|group| group.forest.is_none()), Refusal::Type)?;
    refuse_if(groups.len() > MOST_GROUPS || !groups.iter().all(in_range), Refusal::TreeList)?;
    let mut species: BTreeMap<u16, (Forest, u64)> = BTreeMap::new();
    for group in groups {
        let forest = group.forest.ok_or(Refusal::Type)?;
        let (known, total) = species.entry(group.species).or_insert((forest, 0));
        refuse_if(*known != forest, Refusal::TreeList)?;
        *total += group.basal_area;
    }
    let forest = predominant(&species).ok_or(Refusal::TreeList)?;
    let of_the_type: Vec<&Group> = groups.iter().filter(|group| group.forest == Some(forest)).collect();
    let age = match forest {
        Forest::Indigenous => greatest_age(&of_the_type),
        _ => mean_age(&of_the_type),
    };
    Ok(Hectare { forest, age })
}

fn in_range(group: &Group) -> bool {
    group.age <= OLDEST && (1..=MOST_BASAL_AREA).contains(&group.basal_area)
}

/// The type of the species of greatest total basal area, the lower number on a tie.
fn predominant(species: &BTreeMap<u16, (Forest, u64)>) -> Option<Forest> {
    let mut greatest: Option<(Forest, u64)> = None;
    for &(forest, total) in species.values() {
        if greatest.is_none_or(|(_, most)| total > most) {
            greatest = Some((forest, total));
        }
    }
    greatest.map(|(forest, _)| forest)
}

/// Regrowth is dated by its oldest stem.
fn greatest_age(groups: &[&Group]) -> u64 {
    groups.iter().map(|group| group.age).max().unwrap_or(0)
}

/// Weighted by basal area, rounded half up.
fn mean_age(groups: &[&Group]) -> u64 {
    let (mut weighted, mut total) = (0, 0);
    for group in groups {
        weighted += group.age * group.basal_area;
        total += group.basal_area;
    }
    (2 * weighted + total) / (2 * total)
}
