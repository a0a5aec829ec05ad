//! The machine state as it is lent, with any values: the model's state there and back, number 15.

use crate::machine::*;

pub const HOOKS: usize = 2 * NEEDLES;
pub const LEAST_SLOT: i16 = -8;
pub const MOST_SLOT: i16 = 258;

/// Values of a carrier's `side`.
const UNATTACHED: u8 = 0;
const LEFT: u8 = 1;
const RIGHT: u8 = 2;

#[repr(C)]
#[derive(Clone, Copy, PartialEq, Eq, Debug, Default)]
pub struct RawCarrier {
    pub active: u8,
    pub side: u8,
    pub slot: i16,
    pub bed: u16,
    pub needle: u16,
}

/// Hooks f.0 to f.249, then b.0 to b.249; the hook limit; carrier k at k - 1.
#[repr(C)]
#[derive(Clone, PartialEq, Eq, Debug)]
pub struct RawState {
    pub racking: i8,
    pub loops: [u8; HOOKS],
    pub limit: u8,
    pub carriers: [RawCarrier; CARRIERS],
}

/// The answer of the carrier list.
#[repr(C)]
#[derive(Clone, Copy, PartialEq, Eq, Debug)]
pub struct Served {
    pub number: u8,
    pub length: usize,
}

/// The answer of the step: "The one-record step now gives it too" (02, W4), complete as 1 or 0, and
/// the hooks that its walk looked at.
#[repr(C)]
#[derive(Clone, Copy, PartialEq, Eq, Debug)]
pub struct Stepped {
    pub number: u8,
    pub complete: u8,
    pub looked: u16,
    pub length: usize,
}

// The model's state there and back.

impl RawCarrier {
    fn of(carrier: Option<Parked>) -> RawCarrier {
        let Some(parked) = carrier else {
            return RawCarrier::default();
        };
        let mut raw = RawCarrier {
            active: 1,
            slot: parked.slot as i16,
            ..RawCarrier::default()
        };
        if let Some(attachment) = parked.attachment {
            raw.side = match attachment.side {
                Direction::Left => LEFT,
                Direction::Right => RIGHT,
            };
            raw.bed = u16::from(attachment.needle.bed == Bed::Back);
            raw.needle = attachment.needle.number as u16;
        }
        raw
    }

    /// The carrier of an entry that is not foul.
    fn carrier(&self) -> Option<Parked> {
        let bed = if self.bed == 0 { Bed::Front } else { Bed::Back };
        let number = usize::from(self.needle);
        let attachment = |side| Attachment {
            needle: Needle { bed, number },
            side,
        };
        (self.active == 1).then(|| Parked {
            slot: self.slot.into(),
            attachment: match self.side {
                LEFT => Some(attachment(Direction::Left)),
                RIGHT => Some(attachment(Direction::Right)),
                _ => None,
            },
        })
    }
}

impl RawState {
    pub fn empty(limit: u8) -> RawState {
        RawState {
            racking: 0,
            loops: [0; HOOKS],
            limit,
            carriers: [RawCarrier::default(); CARRIERS],
        }
    }

    pub fn of(state: &State) -> RawState {
        let mut raw = RawState::empty(state.limit);
        raw.racking = state.racking as i8;
        raw.loops[..NEEDLES].copy_from_slice(&state.front_loops);
        raw.loops[NEEDLES..].copy_from_slice(&state.back_loops);
        raw.carriers = state.carriers.map(RawCarrier::of);
        raw
    }

    /// The model's state, of one that is not foul.
    pub fn state(&self) -> State {
        let mut state = State::empty(self.limit);
        state.racking = self.racking.into();
        state.front_loops.copy_from_slice(&self.loops[..NEEDLES]);
        state.back_loops.copy_from_slice(&self.loops[NEEDLES..]);
        state.carriers = self.carriers.map(|carrier| carrier.carrier());
        state
    }
}

// Number 15.

impl RawCarrier {
    pub fn foul(&self) -> bool {
        let slot = (LEAST_SLOT..=MOST_SLOT).contains(&self.slot);
        let no_needle = self.bed == 0 && self.needle == 0;
        let needle = self.bed <= 1 && usize::from(self.needle) < NEEDLES;
        let sound = match (self.active, self.side) {
            (0, UNATTACHED) => self.slot == 0 && no_needle,
            (1, UNATTACHED) => slot && no_needle,
            (1, LEFT | RIGHT) => slot && needle,
            _ => false,
        };
        !sound
    }
}

impl RawState {
    /// "A lent state with a limit out of range, or more loops than its limit, is 15" (02, W2).
    pub fn foul(&self) -> bool {
        i32::from(self.racking).abs() > MAX_RACKING
            || !LIMITS.contains(&self.limit)
            || self.loops.iter().any(|&count| count > self.limit)
            || self.carriers.iter().any(RawCarrier::foul)
    }
}
