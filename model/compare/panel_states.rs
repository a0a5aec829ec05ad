//! Lent states for the panel's services: random ones in range, and values at and past their limits.

use crate::draft::Random;
use crate::generate::whole_program;
use crate::layout::*;
use crate::machine::*;
use crate::raw_state::*;

// Random states in range.

#[derive(Clone, Copy)]
pub enum Status {
    Inactive,
    Unattached,
    Attached,
}

pub const STATUSES: [Status; 3] = [Status::Inactive, Status::Unattached, Status::Attached];

/// Loops up to a limit.
fn any_loops(random: &mut Random, limit: u8) -> [u8; HOOKS] {
    let all: Vec<u8> = (0..=limit).collect();
    let choices: [&[u8]; 5] = [
        &[0],
        &[limit],
        &[0, 1, limit - 1, limit],
        &[0, 0, 0, 0, 0, 0, 0, 0, 0, 0, 1, limit.min(2)],
        &all,
    ];
    let counts = random.pick(&choices);
    let mut loops = [0; HOOKS];
    if counts.len() == 1 {
        loops.fill(counts[0]);
    } else {
        loops.fill_with(|| random.pick(counts));
    }
    loops
}

fn any_slot(random: &mut Random) -> i16 {
    match random.below(5) {
        0 => random.pick(&[-8, -7, 0, 249, 250, 257, 258]),
        1 => 0,
        _ => random.between(LEAST_SLOT.into(), MOST_SLOT.into()) as i16,
    }
}

/// A needle at an end of its bed, about 20 columns from the slot or less, or anywhere.
fn any_needle(random: &mut Random, slot: i16) -> u16 {
    match random.below(5) {
        0 => random.pick(&[0, 249]),
        1 => 0,
        2 | 3 => (i32::from(slot) + random.between(-22, 22)).clamp(0, 249) as u16,
        _ => random.below(NEEDLES) as u16,
    }
}

pub fn any_carrier(random: &mut Random, status: Status) -> RawCarrier {
    let mut carrier = RawCarrier::default();
    if !matches!(status, Status::Inactive) {
        carrier.active = 1;
        carrier.slot = any_slot(random);
    }
    if matches!(status, Status::Attached) {
        carrier.side = random.pick(&[1, 2]);
        carrier.bed = random.pick(&[0, 1]);
        carrier.needle = any_needle(random, carrier.slot);
    }
    carrier
}

/// Any state in range.
pub fn random_state(random: &mut Random) -> RawState {
    let mut state = RawState::empty(random.limit());
    state.racking = random.racking() as i8;
    state.loops = any_loops(random, state.limit);
    for carrier in &mut state.carriers {
        let status = random.pick(&STATUSES);
        *carrier = any_carrier(random, status);
    }
    if random.percent(50) {
        gather(random, &mut state);
    }
    state
}

/// Parks some active carriers at the slot of one of them, attached anew, so that two can stitch
/// together.
fn gather(random: &mut Random, state: &mut RawState) {
    let active = state.carriers.iter_mut().filter(|c| c.active == 1);
    let mut slot = None;
    for carrier in active {
        if random.percent(60) {
            carrier.slot = *slot.get_or_insert(carrier.slot);
        }
        if carrier.side > 0 {
            carrier.needle = any_needle(random, carrier.slot);
        }
    }
}

/// A state that a run at a limit ends in.
pub fn reached_state(random: &mut Random, limit: u8) -> RawState {
    RawState::of(&run_at(limit, &whole_program(random, limit)).state)
}

/// A state in range: reached by a run, random, or empty.
pub fn sound_state(random: &mut Random) -> RawState {
    let limit = random.limit();
    match random.below(10) {
        0..=3 => reached_state(random, limit),
        4 => RawState::empty(limit),
        _ => random_state(random),
    }
}

/// The state with another limit in range, to which it is emptied where it holds more.
pub fn fitted(state: &RawState, limit: u8) -> RawState {
    let mut state = state.clone();
    state.limit = limit;
    for count in &mut state.loops {
        *count = (*count).min(limit);
    }
    state
}

// One value of a state changed.

/// A field of a state; those of a carrier come with the carrier's index.
#[derive(Clone, Copy)]
pub enum Field {
    Racking,
    Limit,
    Loops(usize),
    Active(usize),
    Side(usize),
    Slot(usize),
    Bed(usize),
    Needle(usize),
}

pub const CARRIER_FIELDS: [fn(usize) -> Field; 5] = [
    Field::Active,
    Field::Side,
    Field::Slot,
    Field::Bed,
    Field::Needle,
];

impl Field {
    /// The values just in range and just out of it, those that a narrower number would mistake, the
    /// least and the most; of the limit, all; of loops, every value on some hook.
    pub fn values(self) -> Vec<i32> {
        match self {
            Field::Racking => (-128..=127).collect(),
            Field::Limit => (0..=255).collect(),
            Field::Loops(hook) => vec![8, 9, 10 + (hook % 245) as i32, 255],
            Field::Active(_) => vec![0, 1, 2, 3, 127, 128, 254, 255],
            Field::Side(_) => vec![0, 1, 2, 3, 4, 127, 128, 129, 255],
            Field::Slot(_) => vec![
                -32_768, -32_767, -300, -257, -256, -255, -248, -10, -9, -8, -7, -1, 0, 1, 255,
                256, 257, 258, 259, 260, 264, 511, 512, 32_512, 32_767,
            ],
            Field::Bed(_) => vec![0, 1, 2, 3, 255, 256, 257, 32_768, 32_769, 65_535],
            Field::Needle(_) => vec![
                0, 1, 248, 249, 250, 251, 255, 256, 257, 499, 500, 505, 506, 32_768, 65_280, 65_535,
            ],
        }
    }

    pub fn set(self, state: &mut RawState, value: i32) {
        match self {
            Field::Racking => state.racking = value as i8,
            Field::Limit => state.limit = value as u8,
            Field::Loops(hook) => state.loops[hook] = value as u8,
            Field::Active(k) => state.carriers[k].active = value as u8,
            Field::Side(k) => state.carriers[k].side = value as u8,
            Field::Slot(k) => state.carriers[k].slot = value as i16,
            Field::Bed(k) => state.carriers[k].bed = value as u16,
            Field::Needle(k) => state.carriers[k].needle = value as u16,
        }
    }
}

/// A field to change; for a carrier's field, what the carrier is before, and for loops, the limit.
#[derive(Clone, Copy)]
pub struct Change {
    pub field: Field,
    pub value: i32,
    pub before: Option<(usize, Status)>,
    pub limit: Option<u8>,
}

fn changes_of(field: Field, before: Option<(usize, Status)>) -> impl Iterator<Item = Change> {
    field.values().into_iter().map(move |value| Change {
        field,
        value,
        before,
        limit: None,
    })
}

/// A hook's loops at a limit and one over it, and at limit 8 every value of the field.
fn loop_changes(hook: usize, limit: u8) -> impl Iterator<Item = Change> {
    let field = Field::Loops(hook);
    let change = move |limit, value| Change {
        field,
        value,
        before: None,
        limit: Some(limit),
    };
    let edges = [0, 1].map(|more| change(limit, i32::from(limit) + more));
    let values = field.values().into_iter();
    edges
        .into_iter()
        .chain(values.map(move |value| change(HOOK_LIMIT, value)))
}

/// Every value of every field, with every status of a carrier; in eight turns, every limit at each
/// hook.
pub fn every_change(turn: usize) -> Vec<Change> {
    let mut changes: Vec<Change> = changes_of(Field::Racking, None).collect();
    changes.extend(changes_of(Field::Limit, None));
    for hook in 0..HOOKS {
        let limit = 1 + (hook + turn) % usize::from(HOOK_LIMIT);
        changes.extend(loop_changes(hook, limit as u8));
    }
    for carrier in 0..CARRIERS {
        for status in STATUSES {
            for field in CARRIER_FIELDS {
                changes.extend(changes_of(field(carrier), Some((carrier, status))));
            }
        }
    }
    changes
}

impl Change {
    /// Gives the state its limit or the carrier its status; the state stays in range.
    pub fn prepare(&self, random: &mut Random, state: &mut RawState) {
        if let Some(limit) = self.limit {
            *state = fitted(state, limit);
        }
        let Some((carrier, status)) = self.before else {
            return;
        };
        let entry = &mut state.carriers[carrier];
        *entry = any_carrier(random, status);
        if random.percent(25) {
            (entry.slot, entry.bed, entry.needle) = (0, 0, 0);
        }
    }
}

// Several values changed, and random bytes.

fn any_field(random: &mut Random) -> Field {
    match random.below(9) {
        0 => Field::Racking,
        8 => Field::Limit,
        1 => Field::Loops(random.below(HOOKS)),
        _ => random.pick(&CARRIER_FIELDS)(random.below(CARRIERS)),
    }
}

/// Sets two to five fields to values from their lists.
pub fn change_several(random: &mut Random, state: &mut RawState) {
    for _ in 0..2 + random.below(4) {
        let field = any_field(random);
        let value = random.pick(&field.values());
        field.set(state, value);
    }
}

/// Sets each field of a carrier to a value from its list.
pub fn change_carrier(random: &mut Random, state: &mut RawState) {
    let carrier = random.below(CARRIERS);
    for field in CARRIER_FIELDS {
        let value = random.pick(&field(carrier).values());
        field(carrier).set(state, value);
    }
}

/// A state of random bytes, at times only in the carriers or only of small ones.
pub fn random_bytes(random: &mut Random) -> RawState {
    let bound = random.pick(&[2, 3, 9, 256, 256]);
    let mut bytes = [0; STATE_BYTES];
    bytes.fill_with(|| random.below(bound) as u8);
    let mut state = state_of(&bytes);
    if random.percent(30) {
        state.racking = random.racking() as i8;
        state.limit = random.limit();
        state.loops = any_loops(random, state.limit);
    }
    state
}
