//! The walk over a state's hooks of 02's W4: whether there is no loop, how many hooks it looked at.

use crate::machine::*;

#[derive(Clone, Copy, PartialEq, Eq, Debug)]
pub struct Walk {
    pub none: bool,
    pub looked_at: usize,
}

/// "the walk (front first, upward) should end at the first loop found and also answer how many
/// hooks it looked at, that one included, all if there is none" (02, W4).
pub fn walk(state: &State) -> Walk {
    let mut looked_at = 0;
    for bed in [Bed::Front, Bed::Back] {
        for number in 0..NEEDLES {
            looked_at += 1;
            if state.loops(Needle { bed, number }) > 0 {
                let none = false;
                return Walk { none, looked_at };
            }
        }
    }
    let none = true;
    Walk { none, looked_at }
}

/// The hooks looked at for complete. A racking that is not 0 settles it without a walk, and none is
/// looked at then (the C header's words: 02 does not speak of that).
pub fn looked_for_complete(state: &State) -> usize {
    match state.racking {
        0 => walk(state).looked_at,
        _ => 0,
    }
}

/// Complete as the walk and paper 01 tell it: "The empty state has racking 0, no loops and no
/// active carrier".
pub fn complete_by_walk(state: &State) -> bool {
    let no_carrier = state.carriers.iter().all(Option::is_none);
    state.racking == 0 && walk(state).none && no_carrier
}
