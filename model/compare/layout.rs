//! The lent state and the answers as C lays them out: bytes there and back, where two states differ.

use crate::machine::*;
use crate::raw_state::*;
use crate::tie::Tied;
use std::mem::{align_of, offset_of, size_of};

pub const CARRIER_BYTES: usize = 8;
pub const STATE_BYTES: usize = 582;
const LIMIT_AT: usize = 501;
const CARRIERS_AT: usize = 502;

// The layout that the header asserts.
const _: () = assert!(size_of::<RawCarrier>() == CARRIER_BYTES);
const _: () = assert!(align_of::<RawCarrier>() == 2);
const _: () = assert!(offset_of!(RawCarrier, active) == 0);
const _: () = assert!(offset_of!(RawCarrier, side) == 1);
const _: () = assert!(offset_of!(RawCarrier, slot) == 2);
const _: () = assert!(offset_of!(RawCarrier, bed) == 4);
const _: () = assert!(offset_of!(RawCarrier, needle) == 6);
const _: () = assert!(size_of::<RawState>() == STATE_BYTES);
const _: () = assert!(align_of::<RawState>() == 2);
const _: () = assert!(offset_of!(RawState, racking) == 0);
const _: () = assert!(offset_of!(RawState, loops) == 1);
const _: () = assert!(offset_of!(RawState, loops) + HOOKS == LIMIT_AT);
const _: () = assert!(offset_of!(RawState, limit) == LIMIT_AT);
const _: () = assert!(offset_of!(RawState, carriers) == CARRIERS_AT);
// No byte is without a value.
const _: () = assert!(LIMIT_AT + 1 == CARRIERS_AT);
const _: () = assert!(CARRIERS_AT + CARRIERS * CARRIER_BYTES == STATE_BYTES);
const _: () = assert!(size_of::<Served>() == 2 * size_of::<usize>());
const _: () = assert!(offset_of!(Served, number) == 0);
const _: () = assert!(offset_of!(Served, length) == size_of::<usize>());
const _: () = assert!(size_of::<Stepped>() == 2 * size_of::<usize>());
const _: () = assert!(offset_of!(Stepped, number) == 0);
const _: () = assert!(offset_of!(Stepped, complete) == 1);
const _: () = assert!(offset_of!(Stepped, looked) == 2);
const _: () = assert!(offset_of!(Stepped, length) == size_of::<usize>());
const _: () = assert!(size_of::<Tied>() == 16);
const _: () = assert!(align_of::<Tied>() == 4);
const _: () = assert!(offset_of!(Tied, left) == 0);
const _: () = assert!(offset_of!(Tied, right) == 4);
const _: () = assert!(offset_of!(Tied, number) == 8);
const _: () = assert!(offset_of!(Tied, by) == 9);
const _: () = assert!(offset_of!(Tied, carrier) == 10);
const _: () = assert!(offset_of!(Tied, low) == 11);
const _: () = assert!(offset_of!(Tied, high) == 12);

// Bytes.

pub fn carrier_bytes(carrier: &RawCarrier) -> [u8; CARRIER_BYTES] {
    let slot = carrier.slot.to_ne_bytes();
    let bed = carrier.bed.to_ne_bytes();
    let needle = carrier.needle.to_ne_bytes();
    [
        carrier.active,
        carrier.side,
        slot[0],
        slot[1],
        bed[0],
        bed[1],
        needle[0],
        needle[1],
    ]
}

pub fn carrier_of(bytes: &[u8]) -> RawCarrier {
    RawCarrier {
        active: bytes[0],
        side: bytes[1],
        slot: i16::from_ne_bytes([bytes[2], bytes[3]]),
        bed: u16::from_ne_bytes([bytes[4], bytes[5]]),
        needle: u16::from_ne_bytes([bytes[6], bytes[7]]),
    }
}

pub fn state_bytes(state: &RawState) -> [u8; STATE_BYTES] {
    let mut bytes = [0; STATE_BYTES];
    bytes[0] = state.racking as u8;
    bytes[1..LIMIT_AT].copy_from_slice(&state.loops);
    bytes[LIMIT_AT] = state.limit;
    let entries = bytes[CARRIERS_AT..].chunks_exact_mut(CARRIER_BYTES);
    for (entry, carrier) in entries.zip(&state.carriers) {
        entry.copy_from_slice(&carrier_bytes(carrier));
    }
    bytes
}

/// The state of its bytes, each of which it shows.
pub fn state_of(bytes: &[u8]) -> RawState {
    let mut state = RawState::empty(bytes[LIMIT_AT]);
    state.racking = bytes[0] as i8;
    state.loops.copy_from_slice(&bytes[1..LIMIT_AT]);
    let entries = bytes[CARRIERS_AT..].chunks_exact(CARRIER_BYTES);
    for (carrier, entry) in state.carriers.iter_mut().zip(entries) {
        *carrier = carrier_of(entry);
    }
    state
}

/// The name of the first field in which two states differ, with both values.
pub fn state_difference(first: &RawState, second: &RawState) -> Option<String> {
    if first.racking != second.racking {
        return Some(format!("racking {} and {}", first.racking, second.racking));
    }
    for hook in (0..HOOKS).filter(|&hook| first.loops[hook] != second.loops[hook]) {
        let (bed, number) = (["f", "b"][hook / NEEDLES], hook % NEEDLES);
        let (one, two) = (first.loops[hook], second.loops[hook]);
        return Some(format!("loops on {bed}.{number}, {one} and {two}"));
    }
    if first.limit != second.limit {
        return Some(format!("limit {} and {}", first.limit, second.limit));
    }
    for (place, (one, two)) in first.carriers.iter().zip(&second.carriers).enumerate() {
        if one != two {
            return Some(format!("carrier {}, {one:?} and {two:?}", place + 1));
        }
    }
    None
}
