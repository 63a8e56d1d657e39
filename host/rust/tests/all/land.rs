//! The tree groups of a hectare, and parcels of pre-1990 land.

use carbon_twin::forest::Forest;
use carbon_twin::parcels::{emissions, Clearing, Parcel};
use carbon_twin::refusal::Refusal;
use carbon_twin::trees::{hectare, Group, Hectare};

const NORTHLAND: Forest = Forest::Radiata { region: 1 };

fn group(species: u16, forest: Forest, age: u64, basal_area: u64) -> Group {
    Group { species, forest: Some(forest), age, basal_area }
}

#[test]
fn ages_of_document_01() {
    let radiata = [group(1, NORTHLAND, 30, 70), group(1, NORTHLAND, 15, 30)];
    assert_eq!(hectare(&radiata), Ok(Hectare { forest: NORTHLAND, age: 26 }));
    let hardwoods = Forest::Hardwoods;
    let eucalypts = [group(1, hardwoods, 30, 60), group(2, hardwoods, 25, 30), group(3, Forest::Indigenous, 4, 10)];
    assert_eq!(hectare(&eucalypts), Ok(Hectare { forest: hardwoods, age: 28 }));
    let softwoods = [group(1, Forest::Softwoods, 30, 60), group(2, Forest::Softwoods, 15, 40)];
    assert_eq!(hectare(&softwoods), Ok(Hectare { forest: Forest::Softwoods, age: 24 }));
}

#[test]
fn the_predominant_species_is_summed_and_the_lower_on_a_tie() {
    let tie = [group(9, Forest::DouglasFir, 10, 50), group(4, Forest::Indigenous, 20, 50)];
    assert_eq!(hectare(&tie).unwrap().forest, Forest::Indigenous);
    let summed = [
        group(1, Forest::DouglasFir, 10, 50),
        group(2, Forest::Hardwoods, 20, 30),
        group(2, Forest::Hardwoods, 30, 30),
    ];
    assert_eq!(hectare(&summed), Ok(Hectare { forest: Forest::Hardwoods, age: 25 }));
    let regions = [group(1, NORTHLAND, 10, 60), group(2, Forest::Radiata { region: 2 }, 40, 50)];
    assert_eq!(hectare(&regions), Ok(Hectare { forest: NORTHLAND, age: 10 }));
}

/// Document 02, item 1, and the regenerated forest of the guide, section 4.5.
#[test]
fn indigenous_hectares_by_their_oldest_stem() {
    let indigenous = |species, age, basal_area| group(species, Forest::Indigenous, age, basal_area);
    let age_of = |groups: &[Group]| {
        let found = hectare(groups).unwrap();
        assert_eq!(found.forest, Forest::Indigenous);
        found.age
    };
    assert_eq!(age_of(&[indigenous(1, 12, 300), indigenous(1, 40, 100), indigenous(1, 25, 200)]), 40);
    assert_eq!(age_of(&[indigenous(1, 20, 500), indigenous(1, 25, 100), indigenous(2, 45, 50)]), 45);
    assert_eq!(age_of(&[indigenous(1, 15, 500), indigenous(1, 30, 100), group(2, NORTHLAND, 60, 50)]), 30);
    assert_eq!(age_of(&[indigenous(1, 0, 1)]), 0);
    assert_eq!(age_of(&[indigenous(1, 1, 1_000_000), indigenous(2, 300, 1)]), 300);
    for year in [2008, 2013] {
        let seedlings = [2007, 2004, 2001].map(|regenerated| indigenous(1, year - regenerated, 100));
        assert_eq!(age_of(&seedlings), year - 2001);
    }
}

#[test]
fn other_hectares_by_their_mean() {
    for forest in [NORTHLAND, Forest::DouglasFir, Forest::Softwoods, Forest::Hardwoods] {
        let mixed = [group(1, forest, 12, 300), group(1, forest, 40, 100), group(2, forest, 25, 200)];
        assert_eq!(hectare(&mixed), Ok(Hectare { forest, age: 21 }));
    }
    let beside_kanuka = [
        group(1, Forest::Hardwoods, 12, 300),
        group(2, Forest::Hardwoods, 9, 100),
        group(3, Forest::Indigenous, 90, 50),
    ];
    assert_eq!(hectare(&beside_kanuka), Ok(Hectare { forest: Forest::Hardwoods, age: 11 }));
}

#[test]
fn tree_lists_that_are_refused() {
    let one = group(1, NORTHLAND, 300, 1_000_000);
    assert!(hectare(&[one]).is_ok());
    assert!(hectare(&[one; 64]).is_ok());
    let refused: [&[Group]; 6] = [
        &[],
        &[one; 65],
        &[group(1, NORTHLAND, 301, 1)],
        &[group(1, NORTHLAND, 1, 0)],
        &[group(1, NORTHLAND, 1, 1_000_001)],
        &[one, group(1, Forest::Radiata { region: 2 }, 1, 1)],
    ];
    for groups in refused {
        assert_eq!(hectare(groups), Err(Refusal::TreeList));
    }
    let bare = Group { forest: None, ..one };
    assert_eq!(hectare(&[&[one; 64][..], &[bare]].concat()), Err(Refusal::Type));
}

fn clearing(forest: Forest, planted: u64, cleared: u64) -> Clearing {
    Clearing { forest: Some(forest), planted, cleared }
}

fn parcel(ten_thousandths: u64, forest: Forest, planted: u64, cleared: u64) -> Parcel {
    Parcel { ten_thousandths, own: clearing(forest, planted, cleared), earlier: Vec::new() }
}

/// The guide, section 5: 117 253 tonnes.
#[test]
fn the_guides_deforestation() {
    let parcels = [
        parcel(1_001_300, NORTHLAND, 1980, 2008),
        parcel(555_200, Forest::DouglasFir, 1980, 2008),
        parcel(300_400, Forest::Hardwoods, 1997, 2008),
    ];
    assert_eq!(emissions(&parcels), Ok(117_253));
}

/// A hectare of radiata at 9 is 255 t, at 10 265 t; of Douglas fir at 9 131 t, at 10 135 t.
#[test]
fn trees_that_count() {
    let own = parcel(10_000, NORTHLAND, 2002, 2010);
    let with = |earlier: &[Clearing]| emissions(&[Parcel { earlier: earlier.to_vec(), ..own.clone() }]);
    assert_eq!(with(&[]), Err(Refusal::NoTreesOfNineYears));
    assert_eq!(with(&[clearing(Forest::DouglasFir, 1992, 2001)]), Ok(131));
    assert_eq!(with(&[clearing(Forest::DouglasFir, 1990, 2000)]), Err(Refusal::NoTreesOfNineYears));
    assert_eq!(with(&[clearing(NORTHLAND, 1992, 2001), clearing(Forest::DouglasFir, 1991, 2001)]), Ok(135));
    let first_listed = [clearing(NORTHLAND, 1992, 2001), clearing(Forest::DouglasFir, 1992, 2001)];
    assert_eq!(with(&first_listed), Ok(255));
    let later_cleared = [clearing(NORTHLAND, 1992, 2001), clearing(Forest::DouglasFir, 1993, 2002)];
    assert_eq!(with(&later_cleared), Ok(131));
    let nine_itself = Parcel { own: clearing(NORTHLAND, 2001, 2010), ..own.clone() };
    let old = clearing(Forest::DouglasFir, 1950, 2010);
    assert_eq!(emissions(&[Parcel { earlier: vec![old], ..nine_itself }]), Ok(255));
}

#[test]
fn parcels_that_are_refused() {
    let good = parcel(10_000, NORTHLAND, 1900, 2008);
    let earlier = |clearings: &[Clearing]| Parcel { earlier: clearings.to_vec(), ..good.clone() };
    let bare = Clearing { forest: None, planted: 1900, cleared: 1901 };
    let early = clearing(NORTHLAND, 1990, 2000);
    let cases = [
        (Parcel { own: Clearing { forest: None, ..good.own }, ..good.clone() }, Refusal::Type),
        (earlier(&[bare]), Refusal::Type),
        (Parcel { ten_thousandths: 9_999, ..good.clone() }, Refusal::Hectares),
        (Parcel { ten_thousandths: 100_000_001, ..good.clone() }, Refusal::Hectares),
        (parcel(10_000, NORTHLAND, 1900, 2007), Refusal::Year),
        (parcel(10_000, NORTHLAND, 1899, 2008), Refusal::Year),
        (earlier(&[clearing(NORTHLAND, 1900, 2200)]), Refusal::Year),
        (parcel(10_000, NORTHLAND, 2009, 2008), Refusal::ParcelList),
        (earlier(&[clearing(NORTHLAND, 1990, 2009)]), Refusal::ParcelList),
        (earlier(&[clearing(NORTHLAND, 1990, 1989)]), Refusal::ParcelList),
        (earlier(&[early; 5]), Refusal::ParcelList),
    ];
    for (parcel, refusal) in cases {
        assert_eq!(emissions(&[parcel]), Err(refusal));
    }
    assert!(emissions(&[earlier(&[early; 4])]).is_ok());
    assert!(emissions(&vec![good.clone(); 64]).is_ok());
    assert_eq!(emissions(&[]), Err(Refusal::ParcelList));
    assert_eq!(emissions(&vec![good; 65]), Err(Refusal::ParcelList));
}
