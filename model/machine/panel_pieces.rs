//! Rows for 02's W4: complete and the hooks looked at in the step's answer, and the hooks' walk, as
//! its words give them.

use crate::machine::*;
use crate::raw_state::*;
use crate::stretch_pieces::stretch_step_pieces;
use crate::walk::Walk;

/// A lent state, the bytes of a step, and its answer.
pub struct StepPiece {
    pub name: &'static str,
    pub state: RawState,
    pub bytes: Vec<u8>,
    pub answer: Stepped,
}

/// A row on a state that stays as it is if the number is not 0; complete, and hooks looked at for it.
pub(crate) fn row(
    name: &'static str,
    state: RawState,
    bytes: &[u8],
    number: u8,
    (complete, looked): (u8, u16),
) -> StepPiece {
    let length = if number == DONE { bytes.len() } else { 0 };
    StepPiece {
        name,
        state,
        bytes: bytes.to_vec(),
        answer: Stepped {
            number,
            complete,
            looked,
            length,
        },
    }
}

pub fn step_pieces() -> Vec<StepPiece> {
    let mut pieces = Vec::new();
    for limit in LIMITS {
        pieces.extend(from_empty(limit));
        pieces.extend(back_to_empty(limit));
        pieces.extend(one_left(limit));
        pieces.extend(one_kept(limit));
        pieces.extend(looked(limit));
    }
    pieces.extend(foul_pieces());
    pieces.extend(stretch_step_pieces());
    pieces
}

const RACK_TO_0: [u8; 2] = [RACK, 0];
const DROP_LAST: [u8; 3] = [DROP, 1, 249];
const OUT_3: [u8; 5] = [OUT, 1, 0, 10, 3];

/// Complete, after all 500 hooks.
const EMPTY: (u8, u16) = (1, 500);

/// On the empty state: every number that it can give, and each kind with which it can stay empty.
fn from_empty(limit: u8) -> Vec<StepPiece> {
    let row =
        |name, bytes: &[u8], number, told| row(name, RawState::empty(limit), bytes, number, told);
    let twice = [PLATED_KNIT, 1, 0, 10, 3, 3];
    let apart = [XFER, 0, 8, 10];
    vec![
        row("W4, empty, no byte", &[], CUT_SHORT, EMPTY),
        row("W4, empty, cut", &[DROP, 0], CUT_SHORT, EMPTY),
        row("W4, empty, kind 00", &[0], UNKNOWN_KIND, EMPTY),
        row("W4, empty, f.250", &[DROP, 0, 250], FIELD_RANGE, EMPTY),
        row("W4, empty, one yarn twice", &twice, YARN_TWICE, EMPTY),
        row("W4, empty, out", &OUT_3, NOT_IN, EMPTY),
        row("W4, empty, not opposite", &apart, NOT_OPPOSITE, EMPTY),
        row("W4, empty, rack to 0", &RACK_TO_0, DONE, EMPTY),
        row("W4, empty, drop", &DROP_LAST, DONE, EMPTY),
        row("W4, empty, xfer of none", &[XFER, 1, 10, 10], DONE, EMPTY),
        row("W4, empty, rack", &[RACK, 0xff], DONE, (0, 0)),
        row("W4, empty, in", &[IN, 1, 0, 10, 3], DONE, (0, 500)),
    ]
}

/// Carrier 3 just right of f.10, attached there or not.
fn parked(mut state: RawState, attached: bool) -> RawState {
    let side = if attached { 2 } else { 0 };
    let needle = if attached { 10 } else { 0 };
    state.carriers[2] = RawCarrier {
        active: 1,
        side,
        slot: 11,
        bed: 0,
        needle,
    };
    state
}

fn racked(mut state: RawState, racking: i8) -> RawState {
    state.racking = racking;
    state
}

/// Loops on a hook.
fn held(mut state: RawState, hook: usize, loops: u8) -> RawState {
    state.loops[hook] = loops;
    state
}

const LAST_HOOK: usize = HOOKS - 1;

/// Steps that take away the one thing in which a state is not the empty one.
fn back_to_empty(limit: u8) -> Vec<StepPiece> {
    let empty = || RawState::empty(limit);
    let to_0 = |name, racking| row(name, racked(empty(), racking), &RACK_TO_0, DONE, EMPTY);
    let drop = |name, hook, loops, record: &[u8]| {
        let state = held(empty(), hook, loops);
        row(name, state, record, DONE, EMPTY)
    };
    let out = |name, attached| row(name, parked(empty(), attached), &OUT_3, DONE, EMPTY);
    vec![
        to_0("W4, 8 to 0", 8),
        to_0("W4, -8 to 0", -8),
        drop("W4, last loop, f.0", 0, 1, &[DROP, 0, 0]),
        drop("W4, last loops, b.249", LAST_HOOK, limit, &DROP_LAST),
        out("W4, last carrier", false),
        out("W4, last carrier, attached", true),
    ]
}

/// Steps that take away one thing and leave another.
fn one_left(limit: u8) -> Vec<StepPiece> {
    let loops = || held(RawState::empty(limit), LAST_HOOK, limit);
    let two_hooks = held(loops(), 0, 1);
    let racked_loop = || racked(loops(), 1);
    let parked_loop = || parked(loops(), true);
    let racked_carrier = || racked(parked(RawState::empty(limit), false), 1);
    let row = |name, state, bytes: &[u8], looked| row(name, state, bytes, DONE, (0, looked));
    vec![
        row("W4, rack, a loop", racked_loop(), &RACK_TO_0, 500),
        row("W4, rack, a carrier", racked_carrier(), &RACK_TO_0, 500),
        row("W4, drop, a loop", two_hooks, &[DROP, 0, 0], 500),
        row("W4, drop, racking", racked_loop(), &DROP_LAST, 0),
        row("W4, drop, a carrier", parked_loop(), &DROP_LAST, 500),
        row("W4, out, a loop", parked_loop(), &OUT_3, 500),
        row("W4, out, racking", racked_carrier(), &OUT_3, 0),
    ]
}

/// Steps of a state with one thing that take nothing away, done or refused.
fn one_kept(limit: u8) -> Vec<StepPiece> {
    let last = || held(RawState::empty(limit), LAST_HOOK, 1);
    let first = held(RawState::empty(limit), 0, limit);
    let carrier = parked(RawState::empty(limit), false);
    let racking = || racked(RawState::empty(limit), 1);
    let again = [IN, 1, 0, 10, 3];
    let row =
        |name, state, bytes: &[u8], number, looked| row(name, state, bytes, number, (0, looked));
    vec![
        row("W4, xfer", last(), &[XFER, 1, 249, 249], DONE, 250),
        row("W4, rack to 1 at 1", racking(), &[RACK, 1], DONE, 0),
        row("W4, last loop, kind 00", last(), &[0], UNKNOWN_KIND, 500),
        row("W4, first loop, no byte", first, &[], CUT_SHORT, 1),
        row("W4, in again", carrier, &again, ALREADY_IN, 500),
        row("W4, racking, 09", racking(), &[RACK, 9], FIELD_RANGE, 0),
    ]
}

/// Hooks looked at, of the state that the step leaves: up to the first loop, none at a racking.
fn looked(limit: u8) -> Vec<StepPiece> {
    let at = |hook| held(RawState::empty(limit), hook, limit);
    let two = |first, second| held(at(first), second, 1);
    let racked_at = |hook| racked(at(hook), -8);
    let (xfer, no_needle) = ([XFER, 1, 0, 0], [DROP, 0, 250]);
    let row =
        |name, state, bytes: &[u8], number, looked| row(name, state, bytes, number, (0, looked));
    vec![
        row("W4, drop f.1, f.0 left", two(0, 1), &[DROP, 0, 1], DONE, 1),
        row("W4, drop f.0, f.1 left", two(0, 1), &[DROP, 0, 0], DONE, 2),
        row("W4, xfer b.0 to f.0", at(250), &xfer, DONE, 1),
        row("W4, xfer f.0 to b.0", at(0), &[XFER, 0, 0, 0], DONE, 251),
        row("W4, to 0, f.0", racked_at(0), &RACK_TO_0, DONE, 1),
        row("W4, to 0, f.249", racked_at(249), &RACK_TO_0, DONE, 250),
        row("W4, to 1, f.0", at(0), &[RACK, 1], DONE, 0),
        row("W4, racking, drop", racked_at(0), &DROP_LAST, DONE, 0),
        row("W4, b.0, f.250", at(250), &no_needle, FIELD_RANGE, 251),
        row("W4, last, cut", at(LAST_HOOK), &[DROP, 0], CUT_SHORT, 500),
        row("W4, f.0, rack 9", at(0), &[RACK, 9], FIELD_RANGE, 1),
        row("W4, racking, cut", racked_at(0), &[RACK], CUT_SHORT, 0),
        row("W4, not opposite", racked_at(250), &xfer, NOT_OPPOSITE, 0),
        row("W4, hook full", two(250, 0), &xfer, HOOK_FULL, 1),
    ]
}

/// Number 15 on states that are empty but for a value or two: no complete state and no hook looked at,
/// whatever the record.
fn foul_pieces() -> Vec<StepPiece> {
    let mut pieces = Vec::new();
    for limit in [0, 9, 255] {
        let foul =
            |name, bytes: &[u8]| row(name, RawState::empty(limit), bytes, FOUL_STATE, (0, 0));
        pieces.push(foul("W4, bad limit, rack to 0", &RACK_TO_0));
        pieces.push(foul("W4, bad limit, no byte", &[]));
    }
    let empty = || RawState::empty(HOOK_LIMIT);
    let mut slot = empty();
    slot.carriers[9].slot = 1;
    let mut side = empty();
    side.carriers[0].side = 1;
    let foul = |name, state, bytes: &[u8]| row(name, state, bytes, FOUL_STATE, (0, 0));
    pieces.extend([
        foul("W4, racking 9", racked(empty(), 9), &RACK_TO_0),
        foul("W4, nine loops", held(empty(), LAST_HOOK, 9), &DROP_LAST),
        foul("W4, nine loops, f.0", held(empty(), 0, 9), &[DROP, 0, 0]),
        foul("W4, racking 9, f.0", racked(held(empty(), 0, 1), 9), &[]),
        foul("W4, inactive at slot 1", slot, &RACK_TO_0),
        foul("W4, inactive and attached", side, &[0]),
    ]);
    pieces
}

// The walk.

/// Loops on hooks, and the walk's answer.
pub struct WalkPiece {
    pub name: &'static str,
    pub state: State,
    pub walk: Walk,
}

/// A walk that finds a loop, or none if there is no hook.
fn walked(name: &'static str, hooks: &[(Bed, usize, u8)], looked_at: usize) -> WalkPiece {
    let mut state = State::empty(HOOK_LIMIT);
    for &(bed, number, loops) in hooks {
        match bed {
            Bed::Front => state.front_loops[number] = loops,
            Bed::Back => state.back_loops[number] = loops,
        }
    }
    let none = hooks.is_empty();
    let walk = Walk { none, looked_at };
    WalkPiece { name, state, walk }
}

/// One loop's place, the first of several, and what has no part in it.
pub fn walk_pieces() -> Vec<WalkPiece> {
    use Bed::{Back, Front};
    let mut others = walked("W4, racking and a carrier", &[], 500);
    others.state.racking = -8;
    others.state.carriers[0] = Some(Parked {
        slot: 0,
        attachment: None,
    });
    vec![
        walked("W4, no loop", &[], 500),
        others,
        walked("W4, f.0", &[(Front, 0, 1)], 1),
        walked("W4, f.1", &[(Front, 1, 8)], 2),
        walked("W4, f.248", &[(Front, 248, 1)], 249),
        walked("W4, f.249", &[(Front, 249, 1)], 250),
        walked("W4, b.0", &[(Back, 0, 1)], 251),
        walked("W4, b.1", &[(Back, 1, 1)], 252),
        walked("W4, b.248", &[(Back, 248, 1)], 499),
        walked("W4, b.249", &[(Back, 249, 8)], 500),
        walked("W4, both ends", &[(Front, 0, 1), (Back, 249, 1)], 1),
        walked("W4, front first", &[(Back, 2, 1), (Front, 3, 1)], 4),
        walked("W4, front's end", &[(Back, 0, 8), (Front, 249, 1)], 250),
        walked("W4, upward", &[(Front, 9, 8), (Front, 8, 1)], 9),
        walked("W4, upward, back", &[(Back, 9, 8), (Back, 8, 1)], 259),
    ]
}
