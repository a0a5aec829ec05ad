//! Programs and lent states in which a rack carries yarn off: about 20, nearer, several carriers.

use crate::draft::*;
use crate::generate::*;
use crate::machine::*;
use crate::panel_states::{any_carrier, random_state, Status};
use crate::raw_state::*;

/// Yarn that a rack shall leave, mostly at the border and mostly grown; with a sign for the side
/// that it ends on.
fn any_offset(random: &mut Random, [before, after]: [i32; 2]) -> i32 {
    let length = match random.below(10) {
        0..=3 => 20,
        4..=6 => 21,
        7 => random.pick(&[19, 22]),
        8 => random.between(1, 19),
        _ => random.between(21, 60),
    };
    let way = if after < before { -1 } else { 1 };
    length * way * random.pick(&[1, 1, -1])
}

fn any_racking(random: &mut Random) -> i32 {
    random.between(-MAX_RACKING, MAX_RACKING)
}

/// A racking and another, at times the same.
fn two_rackings(random: &mut Random) -> [i32; 2] {
    let before = any_racking(random);
    if random.percent(5) {
        return [before, before];
    }
    [before, any_racking(random)]
}

// Programs.

/// Carriers attached to a needle, mostly a back one, at times moved to the other bed; gives one.
fn attached_carrier(random: &mut Random, draft: &mut Draft) -> Option<usize> {
    let bed = random.pick(&[Bed::Back, Bed::Back, Bed::Back, Bed::Front]);
    let number = match random.below(5) {
        0 => random.pick(&[0, 249]),
        _ => random.below(NEEDLES),
    };
    let needle = Needle { bed, number };
    let carrier = attach(random, draft, needle)?;
    if random.percent(15) {
        draft.add(&Record::Xfer(needle, opposite(&draft.state, needle)?))?;
    }
    Some(carrier)
}

/// Carriers attached to up to three needles, each led off so that a rack leaves yarn at the border.
fn led_draft(random: &mut Random, limit: u8) -> Option<(Draft, Record)> {
    let mut draft = Draft::new(limit);
    draft.add(&Record::Rack(random.racking()))?;
    let mut carriers = Vec::new();
    for _ in 0..random.pick(&[1, 1, 1, 2, 3]) {
        carriers.push(attached_carrier(random, &mut draft)?);
    }
    let rackings = two_rackings(random);
    let [before, after] = rackings;
    draft.add(&Record::Rack(before))?;
    for carrier in carriers {
        let attachment = draft.state.carriers[carrier]?.attachment?;
        let slot = attachment.slot(after) - any_offset(random, rackings);
        miss_to(random, &mut draft, carrier, slot)?;
    }
    Some((draft, Record::Rack(after)))
}

/// A carrier led from an end of the back bed to the other end of the front bed, about 256 columns.
fn wide_draft(random: &mut Random, limit: u8) -> Option<(Draft, Record)> {
    let mut draft = Draft::new(limit);
    let right = random.percent(50);
    let way = if right { -1 } else { 1 };
    let before = way * random.between(6, MAX_RACKING);
    draft.add(&Record::Rack(before))?;
    let (bed, number) = (Bed::Back, if right { 0 } else { NEEDLES - 1 });
    let carrier = attach(random, &mut draft, Needle { bed, number })?;
    let slot = random.between(0, 2);
    let slot = if right { NEEDLES as i32 - slot } else { slot };
    miss_to(random, &mut draft, carrier, slot)?;
    let after = before + random.between(-3, 3);
    Some((draft, Record::Rack(after.clamp(-MAX_RACKING, MAX_RACKING))))
}

/// A valid draft and a rack after it, accepted or refused.
pub fn stretch_case(random: &mut Random, limit: u8) -> (Draft, Record) {
    loop {
        let case = match random.below(50) {
            0 => wide_draft(random, limit),
            _ => led_draft(random, limit),
        };
        if let Some(case) = case {
            return case;
        }
    }
}

/// Adds a few drops, which may change places before a rack and behind it.
pub fn add_drops(random: &mut Random, draft: &mut Draft) {
    for _ in 0..random.below(5) {
        let (bed, number) = (random.bed(), random.below(NEEDLES));
        draft.add(&Record::Drop(Needle { bed, number }));
    }
}

/// The rack, one to the current value, one out of range that would carry further, and any; behind
/// an accepted one, any again.
pub fn stretched_racks(random: &mut Random, limit: u8, check: Check) {
    let (mut draft, rack) = stretch_case(random, limit);
    let bytes = bytes_of(&rack);
    check(&draft.with(&bytes));
    let further = random.pick(&[9, 10, 16, -9, -10, -16]) as i8 as u8;
    let others = [
        draft.state.racking as u8,
        further,
        any_racking(random) as u8,
    ];
    for racking in others {
        check(&draft.with(&[RACK, racking]));
    }
    if random.below(LATE_EVERY) == 0 {
        late(random, draft.clone(), &bytes, check);
    }
    if draft.add(&rack).is_some() {
        add_drops(random, &mut draft);
        check(&draft.with(&bytes_of(&Record::Rack(any_racking(random)))));
    }
}

/// One in so many racks is also tried at the end of the longest program.
const LATE_EVERY: usize = 100;

/// The rack as the last record of 32,768 bytes, and of 32,769.
fn late(random: &mut Random, mut draft: Draft, rack: &[u8], check: Check) {
    let keep = Record::Rack(draft.state.racking);
    let length = PROGRAM_LIMIT - rack.len();
    while draft.bytes.len() + 1 < length {
        let left = length - draft.bytes.len();
        let (bed, number) = (random.bed(), random.below(NEEDLES));
        let record = match left {
            2 | 4 => keep,
            _ => Record::Drop(Needle { bed, number }),
        };
        draft.add(&record);
    }
    check(&draft.with(rack));
    check(&draft.with(&[&bytes_of(&keep), rack].concat()));
}

// Lent states.

/// A carrier whose yarn a rack to a racking leaves so long; none if its slot is out of range.
fn aimed(random: &mut Random, after: i32, offset: i32) -> Option<RawCarrier> {
    let mut carrier = any_carrier(random, Status::Attached);
    carrier.bed = random.pick(&[1, 1, 1, 0]);
    carrier.needle = random.below(NEEDLES) as u16;
    let carried = if carrier.bed == 1 { after } else { 0 };
    let side = i32::from(carrier.side == 2);
    let slot = i32::from(carrier.needle) + carried + side - offset;
    carrier.slot = i16::try_from(slot).ok()?;
    (!carrier.foul()).then_some(carrier)
}

/// A carrier besides an aimed one: mostly inactive, unattached, or with little yarn.
fn beside(random: &mut Random, rackings: [i32; 2]) -> Option<RawCarrier> {
    match random.below(10) {
        0..=3 => Some(RawCarrier::default()),
        4..=5 => Some(any_carrier(random, Status::Unattached)),
        6 => {
            let offset = any_offset(random, rackings);
            aimed(random, rackings[1], offset)
        }
        _ => {
            let offset = random.between(-4, 4);
            aimed(random, rackings[1], offset)
        }
    }
}

/// A state in range, and a racking to which a rack leaves some yarn at the border, at times where a
/// narrow number would wrap.
pub fn stretch_state(random: &mut Random) -> (RawState, i32) {
    let mut state = random_state(random);
    let rackings = two_rackings(random);
    let [before, after] = rackings;
    state.racking = before as i8;
    for carrier in &mut state.carriers {
        *carrier = beside(random, rackings).unwrap_or_default();
    }
    let main = random.below(CARRIERS);
    let offset = match random.below(20) {
        0 => random.between(254, 266) * random.pick(&[-1, 1]),
        _ => any_offset(random, rackings),
    };
    let found = (0..60).find_map(|_| aimed(random, after, offset));
    state.carriers[main] = found.unwrap_or_default();
    (state, after)
}

/// A rack that stretches a yarn in a state, if there is one.
pub fn stretching(random: &mut Random, state: &State) -> Option<Record> {
    let first = random.below(17) as i32;
    let mut racks = (0..17).map(|more| Record::Rack((first + more) % 17 - MAX_RACKING));
    racks.find(|rack| refusal(state, rack) == Some(STRETCHED))
}
