//! The groups of panel calls: programs record by record, foul, random and stretched states, lists.

use crate::complete_groups;
use crate::draft::{add_bytes, Draft, Random};
use crate::generate::{self, add_racks_and_drops};
use crate::limit_coverage::{is_bad, BAD_LIMITS, CALL_LIMITS};
use crate::machine::*;
use crate::panel::step_first;
use crate::panel_calls::Panel;
use crate::panel_coverage::{Event, Service, Source, MOST_COUNT};
use crate::panel_records::*;
use crate::panel_states::*;
use crate::plated::plated_program;
use crate::raw_state::*;
use crate::stretched::stretch_state;
use crate::{fail, library_run, report_difference};

/// Sweeps over every value of every field.
const SWEEPS: usize = 40;

pub fn compare(panel: &mut Panel, seed: u64) {
    let mut random = Random::new(seed.rotate_left(32));
    programs(&mut random, panel);
    wide_slices(&mut random, panel);
    for turn in 0..SWEEPS {
        sweep(&mut random, panel, turn);
    }
    other_limits(&mut random, panel);
    random_states(&mut random, panel);
    several_values(&mut random, panel);
    stretched_states(&mut random, panel);
    lists(&mut random, panel);
    complete_groups::compare(panel, seed);
}

/// Any length of list, mostly ten or a little more.
fn any_count(random: &mut Random) -> usize {
    let least = random.pick(&[0, CARRIERS]);
    least + random.below(MOST_COUNT + 1 - least)
}

// Programs, record by record.

/// Rounds of the generator's groups; in each, one program in so many of `LONG` bytes or more is stepped.
const PROGRAM_ROUNDS: usize = 4;
const LONG: usize = 32_000;
const LONG_EVERY: usize = 4;

/// At each limit but 8, one in so many of a round's calls.
const LIMIT_SHARE: usize = 3;

/// Programs that end with a plated stitch, at limit 8 and at each other limit.
const PLATED_PROGRAMS: [usize; 2] = [6_000, 300];

fn programs(random: &mut Random, panel: &mut Panel) {
    let mut own = Random::new(random.below(usize::MAX) as u64);
    for piece in crate::pieces::pieces() {
        for limit in LIMITS {
            step_all(&mut own, panel, limit, &piece.program, piece.name);
        }
    }
    let mut over = Draft::new(HOOK_LIMIT);
    add_racks_and_drops(random, &mut over, PROGRAM_LIMIT + 2);
    step_all(&mut own, panel, HOOK_LIMIT, &over.bytes, "over the limit");
    for limit in LIMITS {
        let most = limit == HOOK_LIMIT;
        for _ in 0..PLATED_PROGRAMS[usize::from(!most)] {
            let program = plated_program(random, limit);
            step_all(&mut own, panel, limit, &program, "plated programs");
        }
        let (rounds, share) = if most {
            (PROGRAM_ROUNDS, 1)
        } else {
            (1, LIMIT_SHARE)
        };
        for _ in 0..rounds {
            program_round(random, &mut own, panel, limit, share);
        }
    }
}

/// Steps through one in so many of a round's programs, made at a limit.
fn program_round(
    random: &mut Random,
    own: &mut Random,
    panel: &mut Panel,
    limit: u8,
    share: usize,
) {
    for (name, calls, generate) in generate::GROUPS {
        for _ in 0..calls.div_ceil(share) {
            generate(random, limit, &mut |program| {
                if program.len() < LONG || own.below(LONG_EVERY) == 0 {
                    step_all(own, panel, limit, program, name);
                }
            });
        }
    }
}

/// Steps one lent state through a program from the empty one at a limit; the end must be the
/// library's run's and the model's.
pub fn step_all(random: &mut Random, panel: &mut Panel, limit: u8, program: &[u8], from: &str) {
    let mut state = RawState::empty(limit);
    panel.lend_state(&state);
    panel.lend_program(program);
    let (mut number, mut place, mut complete) = (DONE, 0, 1);
    while number == DONE && place < program.len() {
        let refused = random.percent(15) && step_refused(random, panel, &mut state, program, place);
        if random.percent(3) {
            let count = any_count(random);
            panel.list(Source::Reached, &state, count, from);
        }
        let stepped = step_next(random, panel, &mut state, program, place, from);
        (number, complete) = (stepped.number, stepped.complete);
        place += stepped.length;
        panel
            .coverage
            .note(Event::WentOn, refused && number == DONE);
    }
    let end = run_records(limit, program, |_, _, _| {});
    let place = if number == DONE { 0 } else { place };
    let ended = (end.number, end.place, u8::from(end.complete()));
    if ended != (number, place, complete) || RawState::of(&end.state) != state {
        fail("the model's step differs from its run");
    }
    stepped_to_end(panel, limit, program, (number, place));
    let count = any_count(random);
    panel.list(Source::Reached, &state, count, from);
}

/// Compares the end of a program's steps with the library's run.
fn stepped_to_end(panel: &mut Panel, limit: u8, program: &[u8], (number, place): (u8, usize)) {
    let over = program.len() > PROGRAM_LIMIT;
    panel
        .coverage
        .note(Event::OverLimit, over && number == DONE);
    let expected = if over {
        packed(TOO_LONG, 0)
    } else {
        packed(number, place)
    };
    let given = library_run(limit, program);
    if given != expected {
        report_difference(limit, program, expected, given, "steps of the program");
    }
    if !panel.program_stands(program) {
        fail("the library's step writes to a program or around it");
    }
}

/// One step by the record at a place: the rest in place, or a copy of the record alone, with some
/// of what follows, or with other bytes behind it.
fn step_next(
    random: &mut Random,
    panel: &mut Panel,
    state: &mut RawState,
    program: &[u8],
    place: usize,
    from: &str,
) -> Stepped {
    let rest = &program[place..];
    let needed = record_length(rest[0]);
    let mut bytes = rest[..needed.min(rest.len())].to_vec();
    match random.below(4) {
        0 => return panel.step_program(state, program, place, from),
        1 => (),
        2 => bytes = rest[..rest.len().min(needed + random.below(9))].to_vec(),
        _ if rest.len() < needed => (),
        _ => add_bytes(random, &mut bytes),
    }
    panel.step(Source::Reached, state, &bytes, from)
}

/// A refused step between two of a program's records; gives whether there was one.
fn step_refused(
    random: &mut Random,
    panel: &mut Panel,
    state: &mut RawState,
    program: &[u8],
    place: usize,
) -> bool {
    let (now, rest) = (state.state(), &program[place..]);
    let bytes = match random.below(8) {
        0 => Some(Vec::new()),
        1 => Some(cut(random, rest)),
        2 => Some(with_field(random, rest)),
        3 => Some(unknown(random)),
        _ => refused(random, &now),
    };
    let Some(bytes) = bytes.filter(|bytes| look(&now, bytes).is_err()) else {
        return false;
    };
    panel.step(Source::Reached, state, &bytes, "refused in between");
    true
}

const WIDE_CALLS: usize = 200;

/// Slices at whose lengths a narrower number would wrap, and the lists like them.
fn wide_slices(random: &mut Random, panel: &mut Panel) {
    for _ in 0..WIDE_CALLS {
        let mut state = sound_state(random);
        let mut bytes = any_bytes(random, &state.state());
        let filler = random.byte();
        let length = random.pick(&[256, 512, 65_536, 131_072]) + random.below(5);
        bytes.resize(length, filler);
        panel.lend_state(&state);
        panel.step(Source::Made, &mut state, &bytes, "wide slices");
        let count = random.pick(&[255, 256, 4_096]) + random.below(CARRIERS);
        panel.list(Source::Made, &state, count, "wide lists");
        let count = 65_536 + random.below(CARRIERS);
        panel.wide_list(Source::Made, &state, count, "widest lists");
    }
}

// Every value of every field.

/// So many changes in turn are made to one state.
const BASE_EVERY: usize = 20;

/// Each change made alone to a state in range, then a step and a list.
fn sweep(random: &mut Random, panel: &mut Panel, turn: usize) {
    let mut base = sound_state(random);
    for (place, change) in every_change(turn).into_iter().enumerate() {
        if place % BASE_EVERY == 0 {
            base = sound_state(random);
        }
        let mut sound = base.clone();
        change.prepare(random, &mut sound);
        let mut state = sound.clone();
        change.field.set(&mut state, change.value);
        let touches = random.percent(25);
        let bytes = if touches {
            touching(random, change.field, &state)
        } else {
            any_bytes(random, &sound.state())
        };
        let foul = state.foul();
        made(random, panel, &sound, state, &bytes, "one value changed");
        panel.coverage.change(Service::Step, &change, foul);
        panel.coverage.change(Service::List, &change, foul);
        panel.coverage.note(Event::FoulTouched, touches && foul);
    }
}

/// A list and a step of a state made from one in range, at times another list then.
fn made(
    random: &mut Random,
    panel: &mut Panel,
    sound: &RawState,
    mut state: RawState,
    bytes: &[u8],
    from: &str,
) {
    if state.foul() {
        let number = look(&sound.state(), bytes).map_or_else(|number| number, |_| DONE);
        panel.coverage.foul_over(&state, number);
    }
    let count = any_count(random);
    panel.lend_state(&state);
    panel.list(Source::Made, &state, count, from);
    panel.step(Source::Made, &mut state, bytes, from);
    if random.percent(25) {
        panel.list(Source::Made, &state, count, from);
    }
}

// A reached state at other limits than the one it was reached at.

/// States of each limit, and those lent at each limit that must come before every number.
const LIMIT_STATES: usize = 150;
const BAD_LIMIT_STATES: usize = 600;

fn other_limits(random: &mut Random, panel: &mut Panel) {
    for limit in LIMITS {
        for _ in 0..LIMIT_STATES {
            let state = reached_state(random, limit);
            for other in CALL_LIMITS {
                at_other_limit(random, panel, &state, other);
            }
        }
    }
    for limit in BAD_LIMITS {
        for _ in 0..BAD_LIMIT_STATES {
            let state = sound_state(random);
            at_other_limit(random, panel, &state, limit);
        }
    }
}

/// A state in range with its limit byte changed, then a list and a step.
fn at_other_limit(random: &mut Random, panel: &mut Panel, sound: &RawState, limit: u8) {
    let mut state = sound.clone();
    state.limit = limit;
    let held = state.loops.iter().max().copied().unwrap_or(0);
    let bytes = if state.foul() {
        any_bytes(random, &sound.state())
    } else {
        any_bytes(random, &state.state())
    };
    let mut stepped = state.clone();
    let accepted = step_first(&mut stepped, &bytes).number == DONE;
    let fullest = stepped.loops.iter().max().copied().unwrap_or(0);
    let (down, up) = (limit < sound.limit, limit > sound.limit);
    let events = [
        (Event::LimitUnder, !is_bad(limit) && limit < held),
        (Event::LimitDown, accepted && down && limit == held),
        (Event::LimitUp, accepted && up),
        (Event::LimitFuller, accepted && up && fullest > sound.limit),
    ];
    for (event, happened) in events {
        panel.coverage.note(event, happened);
    }
    made(random, panel, sound, state, &bytes, "another limit");
}

// Random states, several values changed, random bytes.

const RANDOM_STATES: usize = 16_000;
const STEPS_EACH: usize = 4;

/// States in range, each stepped a few times.
fn random_states(random: &mut Random, panel: &mut Panel) {
    for _ in 0..RANDOM_STATES {
        let mut state = random_state(random);
        panel.lend_state(&state);
        for _ in 0..STEPS_EACH {
            let bytes = any_bytes(random, &state.state());
            panel.step(Source::Made, &mut state, &bytes, "random states");
        }
    }
}

const SEVERAL_STATES: usize = 20_000;

fn several_values(random: &mut Random, panel: &mut Panel) {
    for _ in 0..SEVERAL_STATES {
        let sound = sound_state(random);
        let mut state = sound.clone();
        match random.below(3) {
            0 => change_several(random, &mut state),
            1 => change_carrier(random, &mut state),
            _ => state = random_bytes(random),
        }
        let bytes = any_bytes(random, &sound.state());
        panel.coverage.note(Event::FoulSeveral, state.foul());
        made(
            random,
            panel,
            &sound,
            state,
            &bytes,
            "several values changed",
        );
    }
}

// Racks that carry yarn off.

const STRETCHED_STATES: usize = 16_000;

/// One in so many is also lent with a value changed, mostly out of range.
const SPOILED_EVERY: usize = 4;

/// A state with yarn about the border, and a rack that leaves it so; then to the current value, and
/// back.
fn stretched_states(random: &mut Random, panel: &mut Panel) {
    for turn in 0..STRETCHED_STATES {
        let (sound, after) = stretch_state(random);
        let rack = |racking: i32| [RACK, racking as u8];
        if turn % SPOILED_EVERY == 0 {
            let mut state = sound.clone();
            change_several(random, &mut state);
            made(random, panel, &sound, state, &rack(after), "spoiled");
        }
        let mut state = sound;
        let before = i32::from(state.racking);
        panel.lend_state(&state);
        for racking in [before, after, after, before] {
            panel.step(Source::Made, &mut state, &rack(racking), "stretched");
        }
    }
}

// Lists.

const LISTED_STATES: usize = 4_000;

/// Every length of list, for states that are reached, random, or foul by one value.
fn lists(random: &mut Random, panel: &mut Panel) {
    let changes = every_change(0);
    for _ in 0..LISTED_STATES {
        let (source, state) = match random.below(3) {
            0 => {
                let limit = random.limit();
                (Source::Reached, reached_state(random, limit))
            }
            1 => (Source::Made, random_state(random)),
            _ => {
                let mut state = sound_state(random);
                let change = random.pick(&changes);
                change.prepare(random, &mut state);
                change.field.set(&mut state, change.value);
                (Source::Made, state)
            }
        };
        panel.lend_state(&state);
        for count in 0..=MOST_COUNT {
            panel.list(source, &state, count, "lists");
        }
    }
}
