//! For the generator: random choices, records as bytes, and a valid program in the making.

use crate::machine::*;

// Random choices.

/// splitmix64.
pub struct Random(u64);

impl Random {
    pub fn new(seed: u64) -> Random {
        Random(seed)
    }

    fn next(&mut self) -> u64 {
        self.0 = self.0.wrapping_add(0x9e37_79b9_7f4a_7c15);
        let mut z = self.0;
        z = (z ^ (z >> 30)).wrapping_mul(0xbf58_476d_1ce4_e5b9);
        z = (z ^ (z >> 27)).wrapping_mul(0x94d0_49bb_1331_11eb);
        z ^ (z >> 31)
    }

    pub fn below(&mut self, bound: usize) -> usize {
        (self.next() % bound as u64) as usize
    }

    /// A value from low to high, both included.
    pub fn between(&mut self, low: i32, high: i32) -> i32 {
        low + self.below((high - low + 1) as usize) as i32
    }

    pub fn percent(&mut self, chance: usize) -> bool {
        self.below(100) < chance
    }

    pub fn pick<T: Copy>(&mut self, values: &[T]) -> T {
        values[self.below(values.len())]
    }

    pub fn shuffle<T>(&mut self, values: &mut [T]) {
        for place in (1..values.len()).rev() {
            values.swap(place, self.below(place + 1));
        }
    }

    pub fn byte(&mut self) -> u8 {
        self.next() as u8
    }

    pub fn racking(&mut self) -> i32 {
        match self.below(5) {
            0 => -MAX_RACKING,
            1 => MAX_RACKING,
            2 => 0,
            _ => self.between(-MAX_RACKING, MAX_RACKING),
        }
    }

    pub fn direction(&mut self) -> Direction {
        self.pick(&[Direction::Left, Direction::Right])
    }

    pub fn bed(&mut self) -> Bed {
        self.pick(&[Bed::Front, Bed::Back])
    }

    /// A hook limit in range, often the most.
    pub fn limit(&mut self) -> u8 {
        match self.below(10) {
            0..=2 => HOOK_LIMIT,
            _ => 1 + self.below(HOOK_LIMIT.into()) as u8,
        }
    }

    pub fn known_kind(&mut self) -> u8 {
        self.between((*KINDS.start()).into(), (*KINDS.end()).into()) as u8
    }

    pub fn unknown_kind(&mut self) -> u8 {
        match self.below(4) {
            0 => self.pick(&[0x00, 0x0c, 0x0d, 0x10, 0x22, 0x40, 0x7f, 0x80, 0xff]),
            1 => 0,
            _ => self.between(12, 255) as u8,
        }
    }
}

/// Up to seven bytes more, many of them kinds.
pub fn add_bytes(random: &mut Random, bytes: &mut Vec<u8>) {
    for _ in 0..random.below(8) {
        let byte = random.byte();
        bytes.push(if random.percent(50) { byte % 14 } else { byte });
    }
}

// Records, and their bytes.

pub fn carrier_move(direction: Direction, needle: Needle, carrier: usize) -> CarrierMove {
    CarrierMove {
        direction,
        needle,
        carrier,
    }
}

fn bed_byte(bed: Bed) -> u8 {
    u8::from(bed == Bed::Back)
}

fn move_bytes(kind: u8, m: CarrierMove) -> Vec<u8> {
    let direction = u8::from(m.direction == Direction::Right);
    vec![
        kind,
        direction,
        bed_byte(m.needle.bed),
        m.needle.number as u8,
        m.carrier as u8 + 1,
    ]
}

fn plated_bytes(kind: u8, p: PlatedMove) -> Vec<u8> {
    let mut bytes = move_bytes(kind, p.first);
    bytes.push(p.second_carrier as u8 + 1);
    bytes
}

pub fn bytes_of(record: &Record) -> Vec<u8> {
    match *record {
        Record::Rack(racking) => vec![RACK, racking as i8 as u8],
        Record::Drop(needle) => vec![DROP, bed_byte(needle.bed), needle.number as u8],
        Record::Xfer(first, second) => {
            vec![
                XFER,
                bed_byte(first.bed),
                first.number as u8,
                second.number as u8,
            ]
        }
        Record::In(m) => move_bytes(IN, m),
        Record::Out(m) => move_bytes(OUT, m),
        Record::Miss(m) => move_bytes(MISS, m),
        Record::Tuck(m) => move_bytes(TUCK, m),
        Record::Knit(m) => move_bytes(KNIT, m),
        Record::Split(m, second) => {
            let mut bytes = move_bytes(SPLIT, m);
            bytes.push(second.number as u8);
            bytes
        }
        Record::PlatedTuck(p) => plated_bytes(PLATED_TUCK, p),
        Record::PlatedKnit(p) => plated_bytes(PLATED_KNIT, p),
    }
}

// A valid program in the making and the state it ends in.

#[derive(Clone)]
pub struct Draft {
    pub bytes: Vec<u8>,
    pub state: State,
}

impl Draft {
    pub fn new(limit: u8) -> Draft {
        Draft {
            bytes: Vec::new(),
            state: State::empty(limit),
        }
    }

    /// Adds the record if it is not refused.
    pub fn add(&mut self, record: &Record) -> Option<()> {
        step(&mut self.state, record).ok()?;
        self.bytes.extend(bytes_of(record));
        Some(())
    }

    /// The program with further bytes behind it.
    pub fn with(&self, bytes: &[u8]) -> Vec<u8> {
        [self.bytes.as_slice(), bytes].concat()
    }

    pub fn inactive_carrier(&self, random: &mut Random) -> Option<usize> {
        self.carrier_where(random, |k| self.state.carriers[k].is_none())
    }

    /// An inactive carrier other than one.
    pub fn inactive_carrier_but(&self, random: &mut Random, other: usize) -> Option<usize> {
        self.carrier_where(random, |k| k != other && self.state.carriers[k].is_none())
    }

    pub fn attached_carrier(&self, random: &mut Random) -> Option<usize> {
        let attached = |k: usize| self.state.carriers[k].is_some_and(|p| p.attachment.is_some());
        self.carrier_where(random, attached)
    }

    fn carrier_where(&self, random: &mut Random, fits: impl Fn(usize) -> bool) -> Option<usize> {
        let found: Vec<usize> = (0..CARRIERS).filter(|&k| fits(k)).collect();
        (!found.is_empty()).then(|| random.pick(&found))
    }
}

pub fn needle_at(state: &State, bed: Bed, column: i32) -> Option<Needle> {
    let number = match bed {
        Bed::Front => column,
        Bed::Back => column - state.racking,
    };
    let number = usize::try_from(number).ok().filter(|&n| n < NEEDLES)?;
    Some(Needle { bed, number })
}

pub fn any_needle_at(random: &mut Random, state: &State, column: i32) -> Option<Needle> {
    let bed = random.bed();
    needle_at(state, bed, column).or_else(|| needle_at(state, bed.other(), column))
}

pub fn opposite(state: &State, needle: Needle) -> Option<Needle> {
    needle_at(state, needle.bed.other(), state.column(needle))
}

/// Mostly the needle opposite, now and then a neighbour of it or any on the other bed.
pub fn about_opposite(random: &mut Random, state: &State, needle: Needle) -> Needle {
    let bed = needle.bed.other();
    let near = state.column(needle) + random.between(-3, 3);
    let found = match random.below(10) {
        0 => None,
        1 => needle_at(state, bed, near),
        2 => Some(Needle {
            bed,
            number: needle.number,
        }),
        _ => opposite(state, needle),
    };
    found.unwrap_or(Needle {
        bed,
        number: random.below(NEEDLES),
    })
}
