//! The house order of 02's W3 by plain selection, and the call that writes it.

use crate::machine::*;
use crate::rewrite::*;

/// What was last found of a remaining record: nothing yet, that it is free, or the position of an
/// earlier one that it is tied to.
#[derive(Clone, Copy)]
enum Found {
    Nothing,
    Free,
    TiedTo(usize),
}

/// A record that is not yet taken, and its position in the program.
struct Remaining<'a> {
    position: usize,
    part: Part<'a>,
    found: Found,
}

/// Whether a record is one of "those not tied to an earlier remaining one" (02, W3). A free one stays
/// free, and one found tied is looked at again only when the other was taken.
fn is_free(remaining: &mut [Remaining], at: usize, racking: i32) -> bool {
    let (earlier, [this, ..]) = remaining.split_at_mut(at) else {
        return false;
    };
    let remains = |position| {
        let place = earlier.binary_search_by_key(&position, |other| other.position);
        place.is_ok()
    };
    match this.found {
        Found::Free => return true,
        Found::TiedTo(other) if remains(other) => return false,
        _ => (),
    }
    let is_tied = |other: &&Remaining| tied(&other.part.record, &this.part.record, racking);
    let other = earlier.iter().rev().find(is_tied);
    this.found = other.map_or(Found::Free, |other| Found::TiedTo(other.position));
    other.is_none()
}

/// "always take next the record whose bytes come first (unsigned, byte by byte, a shorter prefix
/// first) among those not tied to an earlier remaining one" (02, W3). Slices of bytes compare so;
/// no record begins another, since its kind fixes its length. The earliest one is free.
fn next(remaining: &mut [Remaining], racking: i32) -> usize {
    let mut next = 0;
    for at in 1..remaining.len() {
        let first = remaining[at].part.bytes < remaining[next].part.bytes;
        if first && is_free(remaining, at, racking) {
            next = at;
        }
    }
    next
}

/// The positions of a stretch's records in the order in which they are taken.
fn taken(order: &Order, mut remaining: Vec<Remaining>) -> Vec<usize> {
    let mut taken = Vec::new();
    while let Some(earliest) = remaining.first() {
        let racking = order.racking(earliest.position);
        let next = next(&mut remaining, racking);
        taken.push(remaining.remove(next).position);
    }
    taken
}

/// For each place in the house order, the position in the program of the record there. Records are
/// taken "between racks" (02, W3), so a rack keeps its position.
pub fn house_positions(order: &Order) -> Vec<usize> {
    let mut positions = Vec::new();
    let mut stretch = Vec::new();
    for (position, &part) in order.parts.iter().enumerate() {
        if let Record::Rack(_) = part.record {
            positions.extend(taken(order, std::mem::take(&mut stretch)));
            positions.push(position);
        } else {
            stretch.push(Remaining {
                position,
                part,
                found: Found::Nothing,
            });
        }
    }
    positions.extend(taken(order, stretch));
    positions
}

/// "The answer, the refusals and what output and work then hold are the rewriter's, with this order
/// in place of swaps" (02, W3). For a valid program `watch` gets its order and the positions.
pub fn order_watched(
    limit: u8,
    program: &[u8],
    output: &mut [u8],
    work: &mut [u16],
    mut watch: impl FnMut(&Order, &[usize]),
) -> Answer {
    let answer = rewrite_at(limit, program, &[], output, work);
    if answer.number == DONE {
        let mut order = Order::of(program);
        let positions = house_positions(&order);
        watch(&order, &positions);
        order.parts = positions.iter().map(|&at| order.parts[at]).collect();
        order.write(output, work);
    }
    answer
}

pub fn order_at(limit: u8, program: &[u8], output: &mut [u8], work: &mut [u16]) -> Answer {
    order_watched(limit, program, output, work, |_, _| {})
}
