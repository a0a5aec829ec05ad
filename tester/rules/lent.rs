//! A machine state as it is lent, with any values, in the bytes that the C header lays out; the machine's own there and back.

use crate::state::*;

pub const HOOKS: usize = 2 * NEEDLES;
pub const CARRIER_BYTES: usize = 8;
pub const STATE_BYTES: usize = 2 + HOOKS + CARRIERS * CARRIER_BYTES;

/// `side`: 0 unattached, 1 left, 2 right.
#[derive(Clone, Copy, PartialEq, Eq, Debug, Default)]
pub struct LentCarrier {
    pub active: u8,
    pub side: u8,
    pub slot: i16,
    pub bed: u16,
    pub needle: u16,
}

/// Hooks f.0 to f.249, then b.0 to b.249; carrier k at k - 1.
#[derive(Clone, PartialEq, Eq, Debug)]
pub struct LentState {
    pub racking: i8,
    pub loops: [u8; HOOKS],
    pub limit: u8,
    pub carriers: [LentCarrier; CARRIERS],
}

impl LentCarrier {
    fn of(carrier: Option<Parked>) -> LentCarrier {
        let Some(parked) = carrier else {
            return LentCarrier::default();
        };
        let unattached = LentCarrier { active: 1, slot: parked.slot as i16, ..LentCarrier::default() };
        parked.attachment.map_or(unattached, |attachment| LentCarrier {
            side: if attachment.side == Left { 1 } else { 2 },
            bed: attachment.needle.bed as u16,
            needle: attachment.needle.number as u16,
            ..unattached
        })
    }

    /// The carrier of an entry that is not foul.
    fn carrier(&self) -> Option<Parked> {
        let needle = Needle { bed: if self.bed == 0 { Front } else { Back }, number: self.needle.into() };
        let side = if self.side == 1 { Left } else { Right };
        let attachment = (self.side != 0).then_some(Attachment { needle, side });
        (self.active == 1).then_some(Parked { slot: self.slot.into(), attachment })
    }

    pub fn bytes(&self) -> [u8; CARRIER_BYTES] {
        let [slot, bed, needle] = [self.slot as u16, self.bed, self.needle].map(u16::to_le_bytes);
        [self.active, self.side, slot[0], slot[1], bed[0], bed[1], needle[0], needle[1]]
    }

    pub fn from_bytes(bytes: &[u8]) -> LentCarrier {
        let word = |at| u16::from_le_bytes([bytes[at], bytes[at + 1]]);
        LentCarrier { active: bytes[0], side: bytes[1], slot: word(2) as i16, bed: word(4), needle: word(6) }
    }
}

impl LentState {
    pub fn of(state: &State) -> LentState {
        let mut loops = [0; HOOKS];
        loops[..NEEDLES].copy_from_slice(&state.loops[0]);
        loops[NEEDLES..].copy_from_slice(&state.loops[1]);
        let carriers = state.carriers.map(LentCarrier::of);
        LentState { racking: state.racking as i8, loops, limit: state.limit, carriers }
    }

    /// The machine's state, of one that is not foul.
    pub fn state(&self) -> State {
        let mut state = State::empty(self.limit);
        state.racking = self.racking.into();
        state.loops[0].copy_from_slice(&self.loops[..NEEDLES]);
        state.loops[1].copy_from_slice(&self.loops[NEEDLES..]);
        state.carriers = self.carriers.map(|carrier| carrier.carrier());
        state
    }

    pub fn bytes(&self) -> Vec<u8> {
        let mut bytes = vec![self.racking as u8];
        bytes.extend(self.loops);
        bytes.push(self.limit);
        bytes.extend(self.carriers.iter().flat_map(LentCarrier::bytes));
        bytes
    }

    pub fn from_bytes(bytes: &[u8]) -> LentState {
        let mut state = LentState::of(&State::empty(bytes[1 + HOOKS]));
        state.racking = bytes[0] as i8;
        state.loops.copy_from_slice(&bytes[1..1 + HOOKS]);
        let entries = bytes[2 + HOOKS..].chunks_exact(CARRIER_BYTES);
        for (carrier, entry) in state.carriers.iter_mut().zip(entries) {
            *carrier = LentCarrier::from_bytes(entry);
        }
        state
    }
}
