//! The panel's services of papers 01 and 02: one record's step on a lent state, the carrier list.

use crate::machine::*;
use crate::raw_state::*;
use crate::rewrite::NO_BENCH;
use crate::walk::looked_for_complete;

/// Number 15, or what the run gives for the first record; only 0 changes the state. Complete is
/// "for the state it leaves and that state's limit (no after 15)" (02, W4): after any other refusal
/// this is the state as it was. After 15 no hook is looked at.
pub fn step_first(lent: &mut RawState, bytes: &[u8]) -> Stepped {
    if lent.foul() {
        return Stepped {
            number: FOUL_STATE,
            complete: 0,
            looked: 0,
            length: 0,
        };
    }
    let mut state = lent.state();
    match look(&state, bytes) {
        Err(number) => stepped(number, &state, 0),
        Ok((record, length)) => {
            apply(&mut state, &record);
            *lent = RawState::of(&state);
            stepped(DONE, &state, length)
        }
    }
}

/// The answer of a step that leaves this state.
fn stepped(number: u8, left: &State, length: usize) -> Stepped {
    Stepped {
        number,
        complete: u8::from(left.complete()),
        looked: looked_for_complete(left) as u16,
        length,
    }
}

/// The first ten entries become carriers 1 to 10.
pub fn list_carriers(lent: &RawState, list: &mut [RawCarrier]) -> Served {
    if lent.foul() {
        return not_listed(FOUL_STATE);
    }
    if list.len() < CARRIERS {
        return not_listed(NO_BENCH);
    }
    list[..CARRIERS].copy_from_slice(&lent.carriers);
    Served {
        number: DONE,
        length: CARRIERS,
    }
}

fn not_listed(number: u8) -> Served {
    Served { number, length: 0 }
}
