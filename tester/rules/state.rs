//! Words of the papers as types: numbers, kinds, needles, carriers, the machine state, a record that was read.

pub const DONE: u8 = 0;
pub const TOO_LONG: u8 = 1;
pub const NO_BENCH: u8 = 2;
pub const STRANGE: u8 = 3;
pub const CUT_SHORT: u8 = 4;
pub const FIELD: u8 = 5;
pub const ALREADY_IN: u8 = 6;
pub const NOT_IN: u8 = 7;
pub const ELSEWHERE: u8 = 8;
pub const FLOAT: u8 = 9;
pub const NOT_OPPOSITE: u8 = 10;
pub const HOOK_FULL: u8 = 11;
pub const NO_PAIR: u8 = 12;
pub const TIED: u8 = 13;
pub const TORN_LOG: u8 = 14;
pub const FOUL_STATE: u8 = 15;
pub const ONE_YARN_TWICE: u8 = 16;
pub const STRETCHED: u8 = 17;
/// One more than the last number.
pub const NUMBERS: usize = 18;

pub const RACK: u8 = 0x01;
pub const DROP: u8 = 0x02;
pub const XFER: u8 = 0x03;
pub const IN: u8 = 0x04;
pub const OUT: u8 = 0x05;
pub const MISS: u8 = 0x06;
pub const TUCK: u8 = 0x07;
pub const KNIT: u8 = 0x08;
pub const SPLIT: u8 = 0x09;
pub const PLATED_TUCK: u8 = 0x0a;
pub const PLATED_KNIT: u8 = 0x0b;
/// One more than the last kind.
pub const KINDS: usize = 12;

pub const NEEDLES: usize = 250;
pub const CARRIERS: usize = 10;

/// One of two, each the other's other.
macro_rules! either {
    ($(#[$doc:meta])* $name:ident: $first:ident, $second:ident) => {
        $(#[$doc])*
        #[derive(Clone, Copy, PartialEq, Eq, Debug)]
        pub enum $name {
            $first,
            $second,
        }
        pub use $name::{$first, $second};

        impl $name {
            pub fn other(self) -> $name {
                if self == $first { $second } else { $first }
            }
        }
    };
}

either!(Bed: Front, Back);
either!(
    /// A direction, and a side of a needle.
    Way: Left, Right
);

#[derive(Clone, Copy, PartialEq, Eq, Debug)]
pub struct Needle {
    pub bed: Bed,
    pub number: usize,
}

#[derive(Clone, Copy, PartialEq, Eq, Debug)]
pub struct Attachment {
    pub needle: Needle,
    pub side: Way,
}

/// An active carrier.
#[derive(Clone, Copy, PartialEq, Eq, Debug)]
pub struct Parked {
    pub slot: i32,
    pub attachment: Option<Attachment>,
}

/// Loops by bed and needle; carrier k at k - 1, None if inactive.
#[derive(Clone, PartialEq, Eq, Debug)]
pub struct State {
    pub racking: i32,
    pub loops: [[u8; NEEDLES]; 2],
    pub limit: u8,
    pub carriers: [Option<Parked>; CARRIERS],
}

impl State {
    /// "The empty state has racking 0, no loops and no active carrier" (01), and "the limit given" (02, W2).
    pub fn empty(limit: u8) -> State {
        State { racking: 0, loops: [[0; NEEDLES]; 2], limit, carriers: [None; CARRIERS] }
    }

    pub fn loops(&self, needle: Needle) -> u8 {
        self.loops[needle.bed as usize][needle.number]
    }

    pub fn set_loops(&mut self, needle: Needle, count: u8) {
        self.loops[needle.bed as usize][needle.number] = count;
    }

    /// A carrier by its number.
    pub fn carrier(&mut self, carrier: usize) -> &mut Option<Parked> {
        &mut self.carriers[carrier - 1]
    }

    pub fn parked(&self, carrier: usize) -> Option<Parked> {
        self.carriers[carrier - 1]
    }
}

/// A record that was read; a field that its kind has not means nothing.
#[derive(Clone, Copy, PartialEq, Eq, Debug)]
pub struct Record {
    pub kind: u8,
    pub racking: i32,
    pub direction: Way,
    pub needle: Needle,
    pub opposite: Needle,
    pub named: [usize; 2],
    pub count: usize,
}

impl Record {
    pub fn of(kind: u8) -> Record {
        let needle = Needle { bed: Front, number: 0 };
        Record { kind, racking: 0, direction: Left, needle, opposite: needle, named: [0; 2], count: 0 }
    }

    pub fn name(&mut self, carrier: usize) {
        self.named[self.count] = carrier;
        self.count += 1;
    }

    /// The carriers that it names, in its order.
    pub fn carriers(&self) -> &[usize] {
        &self.named[..self.count]
    }

    pub fn is(&self, kinds: &[u8]) -> bool {
        kinds.contains(&self.kind)
    }
}

/// Half columns and layers, each from the first to the second.
#[derive(Clone, Copy, PartialEq, Eq, Debug)]
pub struct Extent {
    pub halves: (i32, i32),
    pub layers: (i32, i32),
}

/// A record of a program, its bytes, and the racking in force before it.
#[derive(Clone, Copy, Debug)]
pub struct Part<'a> {
    pub record: Record,
    pub bytes: &'a [u8],
    pub racking: i32,
}

/// What ties two records; a field without meaning is 0. `by`: 1 a rack, 2 a carrier, 3 extents.
#[derive(Clone, Copy, PartialEq, Eq, Debug, Default)]
pub struct Tie {
    pub number: u8,
    pub by: u8,
    pub carrier: usize,
    pub halves: (i32, i32),
    pub layers: (i32, i32),
}
