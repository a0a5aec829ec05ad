//! Whether two records are tied at a racking, and why: paper 01's extents and ties, 02's W1.

use crate::machine::*;
use crate::rewrite::{extent, Extent, TIED};

/// Values of an answer's `by`: the first reason that holds.
pub const NOT_TIED: u8 = 0;
pub const BY_RACK: u8 = 1;
pub const BY_CARRIER: u8 = 2;
pub const BY_EXTENTS: u8 = 3;

/// The answer: the carrier of reason 2, the half columns and layers of reason 3. A field without
/// meaning is 0.
#[repr(C)]
#[derive(Clone, Copy, PartialEq, Eq, Debug, Default)]
pub struct Tied {
    pub left: i32,
    pub right: i32,
    pub number: u8,
    pub by: u8,
    pub carrier: u8,
    pub low: u8,
    pub high: u8,
}

/// 15 for a racking out of range, then 3, 4 or 5 of the first record, then of the second, else the
/// tie of the two. One yarn twice is for the run to refuse.
pub fn tie(racking: i8, first: &[u8], second: &[u8]) -> Tied {
    let racking = i32::from(racking);
    if !(-MAX_RACKING..=MAX_RACKING).contains(&racking) {
        return refused(FOUL_STATE);
    }
    match (read_record(first), read_record(second)) {
        (Err(number), _) | (_, Err(number)) => refused(number),
        (Ok((first, _)), Ok((second, _))) => reason(&first, &second, racking),
    }
}

fn refused(number: u8) -> Tied {
    Tied {
        number,
        ..Tied::default()
    }
}

fn tied_by(by: u8) -> Tied {
    Tied {
        number: TIED,
        by,
        ..Tied::default()
    }
}

/// "Two records are tied if either is a rack, if they name one carrier, or if their extents meet"
/// (01); "sharing either carrier ties" (02, W1). A rack alone has no extent.
fn reason(first: &Record, second: &Record, racking: i32) -> Tied {
    let (Some(one), Some(two)) = (extent(first, racking), extent(second, racking)) else {
        return tied_by(BY_RACK);
    };
    if let Some(carrier) = carriers_of_both(first, second).next() {
        return Tied {
            carrier,
            ..tied_by(BY_CARRIER)
        };
    }
    let common: Vec<Cell> = cells(&one).filter(|cell| covers(&two, cell)).collect();
    around(&common).unwrap_or_default()
}

// Carriers.

fn names(record: &Record, carrier: u8) -> bool {
    record
        .carrier_moves()
        .any(|m| m.carrier + 1 == usize::from(carrier))
}

/// The carriers that both records name, upward.
pub fn carriers_of_both<'a>(
    first: &'a Record,
    second: &'a Record,
) -> impl Iterator<Item = u8> + 'a {
    (1..=CARRIERS as u8).filter(|&carrier| names(first, carrier) && names(second, carrier))
}

// Extents, cell by cell.

/// A half column and a layer.
type Cell = (i32, i32);

fn cells(extent: &Extent) -> impl Iterator<Item = Cell> + '_ {
    let column = |half| extent.layers.clone().map(move |layer| (half, layer));
    extent.halves.clone().flat_map(column)
}

fn covers(extent: &Extent, (half, layer): &Cell) -> bool {
    extent.halves.contains(half) && extent.layers.contains(layer)
}

/// The tie by common cells, if there is one: they fill what lies between the outermost of them.
fn around(common: &[Cell]) -> Option<Tied> {
    let halves = || common.iter().map(|cell| cell.0);
    let layers = || common.iter().map(|cell| cell.1);
    let (left, right) = (halves().min()?, halves().max()?);
    let (low, high) = (layers().min()?, layers().max()?);
    let count = (right - left + 1) * (high - low + 1);
    assert!(count as usize == common.len());
    Some(Tied {
        left,
        right,
        low: low as u8,
        high: high as u8,
        ..tied_by(BY_EXTENTS)
    })
}
