//! Classes of pairs of records and of lent areas, and the ones that the rewriter's calls must reach.

use crate::coverage::{class, KIND_COUNT};
use crate::machine::*;
use crate::rewrite::*;
use crate::swaps::{actors, lone_record};

/// Columns the second of a pair is right of the first, -2 to 2, as an index.
const DISTANCES: usize = 5;
/// Layers overlap, share just one, are neighbours, or are further apart.
const LAYER_CLASSES: usize = 4;
/// Kinds from drop on, on two beds.
const PLACED_KINDS: usize = 2 * (KIND_COUNT - DROP as usize);
pub const PAIR_CLASSES: usize = PLACED_KINDS * PLACED_KINDS * DISTANCES * LAYER_CLASSES;

/// Areas against what is needed: short, one short, just enough, one more, more.
pub const AREAS: [&str; 5] = ["short", "one short", "just enough", "one more", "more"];

/// How far apart the layers are: 0 if just one is shared, less if more are.
fn gap(first: &Extent, second: &Extent) -> i32 {
    let (a, b) = (&first.layers, &second.layers);
    (b.start() - a.end()).max(a.start() - b.end())
}

fn placed_kind(record: &Record) -> Option<usize> {
    let kind = usize::from(record.kind() - DROP);
    Some(2 * kind + record.first_needle()?.bed as usize)
}

/// The class of two records that name no carrier together, if their columns are near.
pub fn pair_class(first: &Record, second: &Record, racking: i32) -> Option<usize> {
    let (a, b) = (extent(first, racking)?, extent(second, racking)?);
    let column = |record: &Record| Some(record.first_needle()?.column(racking));
    let distance = column(second)? - column(first)? + 2;
    if name_one_carrier(first, second) || !(0..DISTANCES as i32).contains(&distance) {
        return None;
    }
    Some(class(&[
        (placed_kind(first)?, PLACED_KINDS),
        (placed_kind(second)?, PLACED_KINDS),
        (distance as usize, DISTANCES),
        ((gap(&a, &b) + 1).clamp(0, 3) as usize, LAYER_CLASSES),
    ]))
}

pub fn area_class(lent: usize, needed: usize) -> usize {
    match lent {
        _ if lent + 1 == needed => 1,
        _ if lent < needed => 0,
        _ => 2 + (lent - needed).min(2),
    }
}

/// Whether another racking would tie a pair that has no rack.
pub fn otherwise(order: &Order, position: usize, racking: i32) -> Option<bool> {
    let (first, second) = order.pair(position);
    first.first_needle().and(second.first_needle())?;
    Some(tied(first, second, racking))
}

/// The classes of all pairs, each with what it must have been answered: 0 swapped, 1 tied.
pub fn wanted_classes() -> Vec<(usize, usize)> {
    let mut wanted = vec![None; PAIR_CLASSES];
    for first in actors() {
        for second in actors() {
            for distance in -2..=2 {
                let (a, b) = (lone_record(first, 100), lone_record(second, 100 + distance));
                if let Some(class) = pair_class(&a, &b, 0) {
                    wanted[class] = Some(usize::from(tied(&a, &b, 0)));
                }
            }
        }
    }
    let found = wanted.into_iter().enumerate();
    found
        .filter_map(|(class, outcome)| Some((class, outcome?)))
        .collect()
}

/// Whether neighbours of two kinds in a valid program can be tied. In, out and miss meet no drop,
/// and each other only with one carrier: in just behind out, out and miss behind in or miss.
pub fn can_tie(first: u8, second: u8) -> bool {
    let passes = |kind| (IN..=MISS).contains(&kind);
    match (passes(first), passes(second)) {
        (true, true) => (first == OUT) == (second == IN),
        (true, false) => second != DROP,
        (false, true) => first != DROP,
        (false, false) => true,
    }
}
