//! The rewriter of papers 01 and 02: extents, ties, the log's swaps, what it leaves in its loans.

use crate::machine::*;
use std::ops::RangeInclusive;

pub const NO_BENCH: u8 = 2;
pub const NO_PAIR: u8 = 12;
pub const TIED: u8 = 13;
pub const TORN_LOG: u8 = 14;

pub const LOG_LIMIT: usize = 32_768;
pub const SWAP: u8 = 0x40;
pub const SWAP_LENGTH: usize = 3;

const FRONT_LAYER: i32 = 0;
const BACK_LAYER: i32 = 11;

/// Whether a call with this number writes output and work area.
pub fn is_written(number: u8) -> bool {
    matches!(number, DONE | NO_PAIR | TIED | TORN_LOG)
}

// Extents and ties.

/// Half columns and layers.
pub struct Extent {
    pub halves: RangeInclusive<i32>,
    pub layers: RangeInclusive<i32>,
}

fn share(first: &RangeInclusive<i32>, second: &RangeInclusive<i32>) -> bool {
    first.clone().any(|value| second.contains(&value))
}

impl Extent {
    fn meets(&self, other: &Extent) -> bool {
        share(&self.halves, &other.halves) && share(&self.layers, &other.layers)
    }
}

/// Carrier k has layer k.
fn carrier_layer(m: CarrierMove) -> i32 {
    m.carrier as i32 + 1
}

fn layers(record: &Record) -> Option<RangeInclusive<i32>> {
    Some(match *record {
        Record::Rack(_) => return None,
        Record::Drop(needle) => match needle.bed {
            Bed::Front => FRONT_LAYER..=FRONT_LAYER,
            Bed::Back => BACK_LAYER..=BACK_LAYER,
        },
        Record::Xfer(..) | Record::Split(..) => FRONT_LAYER..=BACK_LAYER,
        Record::In(m) | Record::Out(m) | Record::Miss(m) => carrier_layer(m)..=carrier_layer(m),
        Record::Tuck(m) | Record::Knit(m) => stitch_layers(m.needle.bed, &[carrier_layer(m)]),
        Record::PlatedTuck(p) | Record::PlatedKnit(p) => {
            let carriers = [carrier_layer(p.first), carrier_layer(p.second())];
            stitch_layers(p.first.needle.bed, &carriers)
        }
    })
}

/// From the bed's layer over the layers of all carriers.
fn stitch_layers(bed: Bed, carriers: &[i32]) -> RangeInclusive<i32> {
    let carriers = carriers.iter().copied();
    match bed {
        Bed::Front => FRONT_LAYER..=carriers.fold(FRONT_LAYER, i32::max),
        Bed::Back => carriers.fold(BACK_LAYER, i32::min)..=BACK_LAYER,
    }
}

/// The extent at a racking; a rack has none.
pub fn extent(record: &Record, racking: i32) -> Option<Extent> {
    let z = record.first_needle()?.column(racking);
    let halves = match record {
        Record::Drop(_) | Record::Xfer(..) => 2 * z..=2 * z,
        _ => 2 * z - 1..=2 * z + 1,
    };
    Some(Extent {
        halves,
        layers: layers(record)?,
    })
}

pub fn name_one_carrier(first: &Record, second: &Record) -> bool {
    let names = |m: CarrierMove| {
        second
            .carrier_moves()
            .any(|other| other.carrier == m.carrier)
    };
    first.carrier_moves().any(names)
}

/// Whether extents alone tie two records; a rack has no extent and is tied to all.
pub fn extents_meet(first: &Record, second: &Record, racking: i32) -> bool {
    match (extent(first, racking), extent(second, racking)) {
        (Some(a), Some(b)) => a.meets(&b),
        _ => true,
    }
}

pub fn tied(first: &Record, second: &Record, racking: i32) -> bool {
    name_one_carrier(first, second) || extents_meet(first, second, racking)
}

// The records of a program in their present order.

#[derive(Clone, Copy)]
pub struct Part<'a> {
    pub record: Record,
    pub bytes: &'a [u8],
}

pub struct Order<'a> {
    pub parts: Vec<Part<'a>>,
    rackings: Vec<i32>,
}

impl<'a> Order<'a> {
    /// The order of a valid program. A rack keeps its position, so the rackings hold after swaps.
    pub fn of(program: &'a [u8]) -> Order<'a> {
        let mut order = Order {
            parts: Vec::new(),
            rackings: Vec::new(),
        };
        let (mut bytes, mut racking) = (program, 0);
        while let Ok((record, length)) = read_record(bytes) {
            let (own, rest) = bytes.split_at(length);
            order.parts.push(Part { record, bytes: own });
            order.rackings.push(racking);
            if let Record::Rack(new) = record {
                racking = new;
            }
            bytes = rest;
        }
        order
    }

    /// The racking in force at a position.
    pub fn racking(&self, position: usize) -> i32 {
        self.rackings[position]
    }

    pub fn is_pair(&self, position: usize) -> bool {
        position + 1 < self.parts.len()
    }

    pub fn pair(&self, position: usize) -> (&Record, &Record) {
        (
            &self.parts[position].record,
            &self.parts[position + 1].record,
        )
    }

    pub fn tied(&self, position: usize) -> bool {
        let (first, second) = self.pair(position);
        tied(first, second, self.racking(position))
    }

    pub fn swap(&mut self, position: usize) {
        self.parts.swap(position, position + 1);
    }

    /// The position that the first log record swaps, or 14, 12 or 13.
    fn look(&self, log: &[u8]) -> Result<usize, u8> {
        let [SWAP, high, low, ..] = *log else {
            return Err(TORN_LOG);
        };
        let position = usize::from(high) * 256 + usize::from(low);
        if !self.is_pair(position) {
            return Err(NO_PAIR);
        }
        if self.tied(position) {
            return Err(TIED);
        }
        Ok(position)
    }

    /// Makes the log's swaps up to a refused one: number and place. Before each log record `watch`
    /// gets the order, the log from that record on and the record's number.
    fn follow(&mut self, log: &[u8], mut watch: impl FnMut(&Order, &[u8], u8)) -> (u8, usize) {
        for (index, record) in log.chunks(SWAP_LENGTH).enumerate() {
            let place = SWAP_LENGTH * index;
            match self.look(record) {
                Ok(position) => {
                    watch(self, &log[place..], DONE);
                    self.swap(position);
                }
                Err(number) => {
                    watch(self, &log[place..], number);
                    return (number, place);
                }
            }
        }
        (DONE, 0)
    }

    pub(crate) fn write(&self, output: &mut [u8], work: &mut [u16]) {
        let mut start = 0;
        for (index, part) in self.parts.iter().enumerate() {
            let end = start + part.bytes.len();
            output[start..end].copy_from_slice(part.bytes);
            work[index] = start as u16;
            start = end;
        }
    }
}

// The call.

pub fn rewrite_watched(
    limit: u8,
    program: &[u8],
    log: &[u8],
    output: &mut [u8],
    work: &mut [u16],
    watch: impl FnMut(&Order, &[u8], u8),
) -> Answer {
    if !LIMITS.contains(&limit) {
        return Answer::bad_limit();
    }
    if program.len() > PROGRAM_LIMIT || log.len() > LOG_LIMIT {
        return Answer::not_run(limit, TOO_LONG);
    }
    if output.len() < program.len() || work.len() < program.len() / 2 {
        return Answer::not_run(limit, NO_BENCH);
    }
    let answer = run_at(limit, program);
    if answer.number != DONE {
        return answer;
    }
    let mut order = Order::of(program);
    let (number, place) = order.follow(log, watch);
    order.write(output, work);
    Answer {
        number,
        place,
        state: answer.state,
    }
}

pub fn rewrite_at(
    limit: u8,
    program: &[u8],
    log: &[u8],
    output: &mut [u8],
    work: &mut [u16],
) -> Answer {
    rewrite_watched(limit, program, log, output, work, |_, _, _| {})
}
