//! Bytes for the panel's step: records near a state's carriers, broken ones, bytes behind them.

use crate::draft::*;
use crate::generate::{candidate, plated_stitch, CrowdedColumns};
use crate::machine::*;
use crate::panel_states::Field;
use crate::raw_state::*;
use crate::stretched::stretching;

/// Few columns about the slot of an active carrier, or anywhere.
fn crowd(random: &mut Random, state: &State) -> CrowdedColumns {
    let mut crowd = CrowdedColumns::new(random);
    let slots: Vec<i32> = state.carriers.iter().flatten().map(|p| p.slot).collect();
    if !slots.is_empty() && random.percent(80) {
        crowd.first = random.pick(&slots) - random.between(0, 3);
        crowd.last = crowd.first + random.between(0, 4);
    }
    if random.percent(50) {
        crowd.carriers = (0..CARRIERS).collect();
    }
    crowd
}

/// A plated stitch from where an active carrier is parked, if another stands there.
fn plated_at_slot(random: &mut Random, state: &State) -> Option<Record> {
    let (carrier, direction) = (random.below(CARRIERS), random.direction());
    let column = state.carriers[carrier]?.slot - entry_slot(0, direction);
    let needle = any_needle_at(random, state, column)?;
    let record = plated_stitch(random, state, carrier_move(direction, needle, carrier));
    record.plated().map(|_| record)
}

/// A whole record, accepted or refused, at times an accepted one of a kind chosen before.
fn whole(random: &mut Random, state: &State) -> Vec<u8> {
    if random.percent(15) {
        if let Some(record) = plated_at_slot(random, state) {
            return bytes_of(&record);
        }
    }
    let crowd = crowd(random, state);
    let kind = random.known_kind();
    let any = random.percent(60);
    let chosen = |record: &Record| record.kind() == kind && refusal(state, record).is_none();
    let fits = |record: &Record| any || chosen(record);
    let found = (0..40).find_map(|_| candidate(random, state, &crowd).filter(fits));
    bytes_of(&found.unwrap_or(Record::Rack(random.racking())))
}

/// A whole record that is refused with 16, 17 or a number from 6 to 11, if one is found.
pub fn refused(random: &mut Random, state: &State) -> Option<Vec<u8>> {
    if random.percent(15) {
        return stretching(random, state).map(|rack| bytes_of(&rack));
    }
    let crowd = crowd(random, state);
    let wanted = random.pick(&[
        None,
        None,
        Some(FLOAT_TOO_LONG),
        Some(HOOK_FULL),
        Some(YARN_TWICE),
    ]);
    let fits = |record: &Record| match (refusal(state, record), wanted) {
        (given, Some(_)) => given == wanted,
        (given, None) => given.is_some(),
    };
    let found = (0..30).find_map(|_| candidate(random, state, &crowd).filter(fits));
    found.map(|record| bytes_of(&record))
}

/// The length of a record by its kind; 1 for an unknown one.
pub fn record_length(kind: u8) -> usize {
    1 + body_length(kind).unwrap_or(0)
}

/// A record cut short, at times to nothing.
pub fn cut(random: &mut Random, record: &[u8]) -> Vec<u8> {
    let length = record.len().min(record_length(record[0]));
    record[..random.below(length)].to_vec()
}

/// A record with one byte behind the kind changed, mostly out of range.
pub fn with_field(random: &mut Random, record: &[u8]) -> Vec<u8> {
    let mut changed = record[..record.len().min(record_length(record[0]))].to_vec();
    if changed.len() > 1 {
        let place = 1 + random.below(changed.len() - 1);
        changed[place] = random.pick(&[0, 2, 9, 11, 0xf7, 0xfa, 0x80, 0xff]);
    }
    changed
}

pub fn unknown(random: &mut Random) -> Vec<u8> {
    let mut bytes = vec![random.unknown_kind()];
    add_bytes(random, &mut bytes);
    bytes
}

/// Bytes for a step on a state in range: whole records, broken ones, none.
pub fn any_bytes(random: &mut Random, state: &State) -> Vec<u8> {
    let record = whole(random, state);
    let mut bytes = match random.below(20) {
        0 => return cut(random, &record),
        1 => unknown(random),
        2 => with_field(random, &record),
        3 => (0..random.below(9)).map(|_| random.byte()).collect(),
        4..=8 => refused(random, state).unwrap_or(record),
        _ => record,
    };
    if random.percent(40) {
        add_bytes(random, &mut bytes);
    }
    bytes
}

fn drop_at(hook: usize) -> Vec<u8> {
    vec![DROP, (hook / NEEDLES) as u8, (hook % NEEDLES) as u8]
}

/// A record that works on the changed field, and would often put it right.
pub fn touching(random: &mut Random, field: Field, state: &RawState) -> Vec<u8> {
    match field {
        Field::Racking => vec![RACK, random.racking() as u8],
        Field::Loops(hook) => drop_at(hook),
        Field::Limit => {
            let over = |hook: &usize| state.loops[*hook] > state.limit;
            drop_at((0..HOOKS).find(over).unwrap_or(0))
        }
        Field::Active(k) | Field::Side(k) | Field::Slot(k) | Field::Bed(k) | Field::Needle(k) => {
            let direction = random.below(2) as u8;
            let slot = i32::from(state.carriers[k].slot);
            let needle = (slot - random.between(0, 1)).clamp(0, 249) as u8;
            let kind = random.between(IN.into(), (*KINDS.end()).into()) as u8;
            let mut bytes = vec![kind, direction, 0, needle, k as u8 + 1, needle];
            if kind >= PLATED_TUCK {
                let place = random.pick(&[4, 5]);
                bytes[5] = k as u8 + 1;
                bytes[place] = 1 + random.below(CARRIERS) as u8;
            }
            bytes
        }
    }
}
