//! The groups of steps about the empty state: rows, one value off, programs to it, emptied states.

use crate::complete_coverage::EMPTY_REFUSALS;
use crate::draft::*;
use crate::fail;
use crate::generate::{candidate, reverse, CrowdedColumns};
use crate::limit_coverage::{is_bad, BAD_LIMITS};
use crate::machine::*;
use crate::panel::step_first;
use crate::panel_calls::Panel;
use crate::panel_coverage::Source;
use crate::panel_groups::step_all;
use crate::panel_pieces::{step_pieces, walk_pieces};
use crate::panel_records::{cut, unknown};
use crate::panel_states::*;
use crate::raw_state::*;
use crate::walk::walk;

pub fn compare(panel: &mut Panel, seed: u64) {
    let mut random = Random::new(seed ^ 0x5734);
    pieces(panel);
    for limit in LIMITS {
        one_value(&mut random, panel, limit);
        one_carrier(&mut random, panel, limit);
        one_thing_programs(&mut random, panel, limit);
        programs(&mut random, panel, limit);
    }
    bad_limits(&mut random, panel);
    emptied(&mut random, panel);
}

// Rows.

fn pieces(panel: &mut Panel) {
    for piece in walk_pieces() {
        if walk(&piece.state) != piece.walk {
            differs(piece.name);
        }
    }
    for piece in step_pieces() {
        let mut state = piece.state.clone();
        if step_first(&mut state, &piece.bytes) != piece.answer {
            differs(piece.name);
        }
        let mut state = piece.state;
        panel.lend_state(&state);
        panel.step(Source::Made, &mut state, &piece.bytes, piece.name);
    }
}

fn differs(name: &str) -> ! {
    fail(&format!("the model differs from the paper on piece {name}"))
}

// Records.

fn needle_of(hook: usize) -> Needle {
    let bed = [Bed::Front, Bed::Back][hook / NEEDLES];
    let number = hook % NEEDLES;
    Needle { bed, number }
}

fn any_hook(random: &mut Random) -> Needle {
    needle_of(random.below(HOOKS))
}

/// An out from where a carrier is parked, if a needle is there.
fn out_of(random: &mut Random, state: &State, carrier: usize, slot: i32) -> Option<Record> {
    let direction = random.direction();
    let column = slot - exit_slot(0, direction);
    let needle = any_needle_at(random, state, column)?;
    Some(Record::Out(carrier_move(direction, needle, carrier)))
}

/// Accepted records each of which takes away one thing in which a state is not the empty one.
fn takings(random: &mut Random, state: &State) -> Vec<Record> {
    let loaded = (0..HOOKS).map(needle_of);
    let loaded = loaded.filter(|&needle| state.loops(needle) > 0);
    let mut takings: Vec<Record> = loaded.map(Record::Drop).collect();
    for (carrier, parked) in state.carriers.iter().enumerate() {
        let out = parked.and_then(|parked| {
            let mut outs = (0..8).map(|_| out_of(random, state, carrier, parked.slot));
            outs.find_map(|out| out)
        });
        takings.extend(out);
    }
    if state.racking != 0 && refusal(state, &Record::Rack(0)).is_none() {
        takings.push(Record::Rack(0));
    }
    takings
}

/// An accepted record that leaves a complete state complete, and mostly every other as it is.
fn kept(random: &mut Random, state: &State) -> Record {
    let needle = any_hook(random);
    let empty = state.loops(needle) == 0;
    match (random.below(3), opposite(state, needle)) {
        (0, _) if empty => Record::Drop(needle),
        (1, Some(second)) if empty => Record::Xfer(needle, second),
        _ => Record::Rack(state.racking),
    }
}

/// An accepted record that leaves no complete state.
fn leaving(random: &mut Random, state: &State) -> Record {
    let carrier = random.below(CARRIERS);
    if state.carriers[carrier].is_none() && random.percent(50) {
        let needle = any_hook(random);
        return Record::In(carrier_move(random.direction(), needle, carrier));
    }
    let racking = random.between(1, MAX_RACKING);
    Record::Rack(racking * random.pick(&[-1, 1]))
}

/// A record that names an inactive carrier, and is no in.
fn not_in(random: &mut Random, carrier: u8) -> Vec<u8> {
    let kind = random.between(OUT.into(), PLATED_KNIT.into()) as u8;
    let (direction, bed) = (random.below(2) as u8, random.below(2) as u8);
    let needle = random.below(NEEDLES) as u8;
    let mut bytes = vec![kind, direction, bed, needle, carrier];
    match kind {
        SPLIT => bytes.push(needle),
        PLATED_TUCK | PLATED_KNIT => bytes.push(1 + carrier % CARRIERS as u8),
        _ => (),
    }
    bytes
}

/// Bytes that a state with an inactive carrier refuses with one of the numbers that the empty state
/// can give.
fn refused_with(random: &mut Random, state: &State, number: u8) -> Vec<u8> {
    let inactive: Vec<usize> = (0..CARRIERS)
        .filter(|&k| state.carriers[k].is_none())
        .collect();
    let carrier = random.pick(&inactive) as u8 + 1;
    let needle = random.below(NEEDLES - 1) as u8;
    match number {
        UNKNOWN_KIND => unknown(random),
        CUT_SHORT => {
            let whole = not_in(random, carrier);
            cut(random, &whole)
        }
        FIELD_RANGE => random
            .pick(&[[RACK, 9, 0], [DROP, 2, 0], [DROP, 0, 250]])
            .to_vec(),
        YARN_TWICE => {
            let kind = random.pick(&[PLATED_TUCK, PLATED_KNIT]);
            vec![kind, 1, 0, needle, carrier, carrier]
        }
        NOT_IN => not_in(random, carrier),
        _ => {
            let other = i32::from(needle) - state.racking;
            let second = if other == 0 { 1 } else { 0 };
            vec![XFER, 0, needle, second]
        }
    }
}

fn any_refused(random: &mut Random, state: &State) -> Vec<u8> {
    let number = random.pick(&EMPTY_REFUSALS);
    refused_with(random, state, number)
}

// States that differ from the empty one in little.

/// Steps of a state in range: refused, and with nothing changed; then, with all taken away, again;
/// and one away from the empty state.
fn about(random: &mut Random, panel: &mut Panel, mut state: RawState, from: &str) {
    panel.lend_state(&state);
    let mut step = |state: &mut RawState, bytes: &[u8]| {
        panel.step(Source::Made, state, bytes, from);
    };
    let mut now = state.state();
    step(&mut state, &any_refused(random, &now));
    step(&mut state, &bytes_of(&kept(random, &now)));
    for taking in takings(random, &now) {
        step(&mut state, &bytes_of(&taking));
        now = state.state();
        step(&mut state, &any_refused(random, &now));
        step(&mut state, &bytes_of(&kept(random, &now)));
    }
    step(&mut state, &bytes_of(&leaving(random, &now)));
}

/// Steps of a foul state: a record that would be done on the empty one, and a refused one.
fn foul(random: &mut Random, panel: &mut Panel, mut state: RawState, from: &str) {
    panel.lend_state(&state);
    let empty = State::empty(HOOK_LIMIT);
    let bytes = [bytes_of(&kept(random, &empty)), any_refused(random, &empty)];
    for bytes in bytes {
        panel.step(Source::Made, &mut state, &bytes, from);
    }
}

fn either(random: &mut Random, panel: &mut Panel, state: RawState, from: &str) {
    if state.foul() {
        foul(random, panel, state, from);
    } else {
        about(random, panel, state, from);
    }
}

/// The values of a field at a limit; of loops, all up to the limit too, and one over it.
fn values_at(field: Field, limit: u8) -> Vec<i32> {
    let mut values = field.values();
    if let Field::Loops(_) = field {
        values.extend(1..=i32::from(limit) + 1);
    }
    values
}

/// The empty state with each value of each field.
fn one_value(random: &mut Random, panel: &mut Panel, limit: u8) {
    let mut fields = vec![Field::Racking, Field::Limit];
    fields.extend((0..HOOKS).map(Field::Loops));
    for field in CARRIER_FIELDS {
        fields.extend((0..CARRIERS).map(field));
    }
    for field in fields {
        for value in values_at(field, limit) {
            let mut state = RawState::empty(limit);
            field.set(&mut state, value);
            either(random, panel, state, "empty but for one value");
        }
    }
}

const CARRIER_STATES: usize = 10;

/// The empty state with one carrier in.
fn one_carrier(random: &mut Random, panel: &mut Panel, limit: u8) {
    for carrier in 0..CARRIERS {
        for status in [Status::Unattached, Status::Attached] {
            for _ in 0..CARRIER_STATES {
                let mut state = RawState::empty(limit);
                state.carriers[carrier] = any_carrier(random, status);
                about(random, panel, state, "empty but for one carrier");
            }
        }
    }
}

/// The empty state with a limit out of range, before each number that it could give.
fn bad_limits(random: &mut Random, panel: &mut Panel) {
    for limit in (0..=255).filter(|&limit| is_bad(limit)) {
        foul(random, panel, RawState::empty(limit), "bad limit");
    }
    let empty = State::empty(HOOK_LIMIT);
    for (limit, number) in BAD_LIMITS
        .into_iter()
        .flat_map(|limit| EMPTY_REFUSALS.map(|number| (limit, number)))
    {
        let mut state = RawState::empty(limit);
        let bytes = refused_with(random, &empty, number);
        panel.lend_state(&state);
        panel.step(Source::Made, &mut state, &bytes, "bad limit");
    }
}

// Programs.

/// Tucks on a hook, the carrier out, and the loops dropped.
fn hook_program(limit: u8, hook: usize) -> Vec<u8> {
    let (needle, carrier) = (needle_of(hook), hook % CARRIERS);
    let there = |direction| carrier_move(direction, needle, carrier);
    let mut direction = Direction::Right;
    let mut records = vec![Record::In(there(direction))];
    for _ in 0..=hook % usize::from(limit) {
        records.push(Record::Tuck(there(direction)));
        direction = reverse(direction);
    }
    records.push(Record::Out(there(reverse(direction))));
    records.push(Record::Drop(needle));
    records.iter().flat_map(bytes_of).collect()
}

/// Programs that come to a state that differs from the empty one in one thing, and back: each hook
/// at one limit, each carrier and each racking at all.
fn one_thing_programs(random: &mut Random, panel: &mut Panel, limit: u8) {
    let hooks = usize::from(limit) - 1..HOOKS;
    for hook in hooks.step_by(usize::from(HOOK_LIMIT)) {
        let program = hook_program(limit, hook);
        step_all(random, panel, limit, &program, "one hook and back");
    }
    for carrier in 0..CARRIERS {
        let there = |direction, needle| carrier_move(direction, needle, carrier);
        let (direction, needle) = (random.direction(), any_hook(random));
        let records = [
            Record::In(there(direction, needle)),
            Record::Out(there(reverse(direction), needle)),
        ];
        let program = records.iter().flat_map(bytes_of).collect::<Vec<u8>>();
        step_all(random, panel, limit, &program, "one carrier and back");
    }
    for racking in -MAX_RACKING..=MAX_RACKING {
        let program = [RACK, racking as u8, RACK, 0];
        step_all(random, panel, limit, &program, "one rack and back");
    }
}

const PROGRAMS: usize = 250;

/// Programs that leave the empty state by a few records and come back, several times; many end with
/// bytes that are refused there, by each number in turn.
fn programs(random: &mut Random, panel: &mut Panel, limit: u8) {
    for turn in 0..PROGRAMS {
        let mut draft = Draft::new(limit);
        for _ in 0..1 + random.below(4) {
            there_and_back(random, &mut draft);
        }
        let mut program = draft.bytes;
        if draft.state.complete() && random.percent(70) {
            let number = EMPTY_REFUSALS[turn % EMPTY_REFUSALS.len()];
            program.extend(refused_with(random, &draft.state, number));
        }
        step_all(random, panel, limit, &program, "there and back");
    }
}

/// Adds a few records, then some that take away what came, in any order, and some that keep it so.
fn there_and_back(random: &mut Random, draft: &mut Draft) {
    let crowd = CrowdedColumns::new(random);
    for _ in 0..1 + random.below(12) {
        if let Some(record) = candidate(random, &draft.state, &crowd) {
            draft.add(&record);
        }
    }
    loop {
        let takings = takings(random, &draft.state);
        if takings.is_empty() {
            break;
        }
        draft.add(&random.pick(&takings));
    }
    for _ in 0..random.below(3) {
        let record = kept(random, &draft.state);
        draft.add(&record);
    }
}

// Any states in range, emptied.

const EMPTIED_STATES: usize = 60;

/// Takes away one thing of a state after the other, in any order. Carriers stand where there is a
/// front needle beside them.
fn emptied(random: &mut Random, panel: &mut Panel) {
    for _ in 0..EMPTIED_STATES {
        let mut state = random_state(random);
        for carrier in &mut state.carriers {
            carrier.slot = carrier.slot.clamp(0, NEEDLES as i16);
        }
        panel.lend_state(&state);
        loop {
            let mut takings = takings(random, &state.state());
            if takings.is_empty() {
                break;
            }
            let taking = takings.swap_remove(random.below(takings.len()));
            panel.step(Source::Made, &mut state, &bytes_of(&taking), "emptied");
        }
        if state != RawState::empty(state.limit) {
            fail("a state is not emptied");
        }
    }
}
