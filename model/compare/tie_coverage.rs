//! What the compared ties came to: numbers, reasons, kinds, carriers, extents, faults, loans.

use crate::by_number;
use crate::coverage::{events, KIND_COUNT, KIND_NAMES, NUMBERS};
use crate::machine::*;
use crate::plated_coverage::{never, print_classes, Classes};
use crate::rewrite::*;
use crate::tie::*;
use crate::tie_calls::Pair;
use std::ops::RangeInclusive;

// Each is counted by the side it is true of, of columns by the side on the back bed.
events! {
    RackInForce: "a rack to the racking in force",
    RackBehind: "a rack, and behind it the other's carrier where a stitch has its own",
    CarrierBehind: "not tied, the other's carrier just behind a record",
    SplitNeedle: "not tied, a split's second needle of the number of the other's carrier",
    OtherNeedle: "not tied, the second needle of an xfer or split over the other's column",
    NotOpposite: "tied by extents, an xfer or split whose needles are not opposite",
    NumbersEqual: "not tied at equal needle numbers for the columns alone",
    ShiftTied: "tied by extents, and not at racking 0",
    ShiftApart: "not tied, and tied at racking 0",
    SignTied: "tied by extents, and not at the racking of other sign",
    SignApart: "not tied, and tied at the racking of other sign",
    Kind0: "kind 0",
    Kind12: "kind 12",
    Kind255: "kind 255",
    Wide: "a record with 65536 bytes or more behind it",
    FaultGuarded: "a faulty record before a guard page",
    Null: "no byte at a null pointer",
    Overlapping: "tied within one program, this record before the other",
    OnePlace: "a record with itself, at one place",
}

const BY: [&str; 4] = ["not tied", "rack", "carrier", "extents"];
const SIDES: [&str; 2] = ["first", "second"];
const RACKINGS: [&str; 3] = ["below -8", "in range", "over 8"];
const FAULTS: [&str; 4] = ["sound", "strange", "cut short", "with a bad field"];
/// How a record names a carrier: as its only one, or as which of a plated stitch's.
const NAMED: [&str; 4] = ["alone", "first", "second", "twice"];
const APART: [&str; 3] = ["in common", "next", "apart"];
/// Where the half columns in common lie, seen from the first record.
const PLACES: [&str; 4] = ["its column", "three", "right of it", "left of it"];
const ENDS: [&str; 4] = ["-17 to -15", "513 to 515", "0 alone", "-1 alone"];
const LAYERS: usize = 12;

type BySide<T> = [T; 2];

pub struct TieCoverage {
    pub numbers: [u64; NUMBERS],
    pub by: [u64; 4],
    pub swaps: [u64; 4],
    pub read_only: [u64; NUMBERS],
    pub guarded: BySide<[u64; 4]>,
    pub behind: BySide<[u64; 4]>,
    kinds: [[[u64; 4]; KIND_COUNT]; KIND_COUNT],
    rackings: [u64; 256],
    shifts: [[u64; 4]; 17],
    faults: [[[u64; 4]; 4]; 3],
    fields: BySide<[[u64; 6]; KIND_COUNT]>,
    cuts: BySide<[[u64; 6]; KIND_COUNT]>,
    carriers: [u64; CARRIERS],
    named: [[u64; 4]; 4],
    several: [[u64; 2]; 2],
    twice: BySide<[u64; 4]>,
    carrier_halves: [u64; 3],
    apart: [[u64; 3]; 3],
    rectangles: [[u64; LAYERS]; LAYERS],
    places: [[u64; LAYERS + 1]; 4],
    two_halves: u64,
    ends: [u64; 4],
    events: [BySide<u64>; EVENTS.len()],
}

/// 0, or what is against the record at the front of the bytes.
fn fault(bytes: &[u8]) -> usize {
    match read_record(bytes) {
        Ok(_) => 0,
        Err(number) => usize::from(number - UNKNOWN_KIND) + 1,
    }
}

/// In common, apart by at most so many, or further.
fn apart(first: &RangeInclusive<i32>, second: &RangeInclusive<i32>, next: i32) -> usize {
    let gap = (second.start() - first.end()).max(first.start() - second.end());
    usize::from(gap > 0) + usize::from(gap > next)
}

fn named(record: &Record, carrier: u8) -> usize {
    let index = usize::from(carrier) - 1;
    match record.plated().map(|p| [p.first.carrier, p.second_carrier]) {
        None => 0,
        Some([first, second]) if first == second => 3,
        Some([first, _]) => 1 + usize::from(first != index),
    }
}

/// Two records read whole, and the lengths of each.
struct Sound<'a> {
    pair: &'a Pair<'a>,
    racking: i32,
    records: [Record; 2],
    lengths: [usize; 2],
}

impl Sound<'_> {
    fn column(&self, side: usize) -> Option<i32> {
        let needle = self.records[side].first_needle()?;
        Some(needle.column(self.racking))
    }

    /// A byte of a side, of the record or behind it, that names a carrier of the other side.
    fn names_other(&self, side: usize, place: usize) -> bool {
        let byte = self.pair.sides[side].get(place).copied();
        let mut moves = self.records[1 - side].carrier_moves();
        moves.any(|m| byte == Some(m.carrier as u8 + 1))
    }

    /// The one side on the back bed, if there is one.
    fn back_side(&self) -> Option<usize> {
        let back = |record: &Record| Some(record.first_needle()?.bed == Bed::Back);
        match (back(&self.records[0])?, back(&self.records[1])?) {
            (true, false) => Some(0),
            (false, true) => Some(1),
            _ => None,
        }
    }

    fn tied_at(&self, racking: i32) -> bool {
        tied(&self.records[0], &self.records[1], racking)
    }
}

// Counting.

impl TieCoverage {
    pub fn new() -> TieCoverage {
        TieCoverage {
            numbers: [0; NUMBERS],
            by: [0; 4],
            swaps: [0; 4],
            read_only: [0; NUMBERS],
            guarded: [[0; 4]; 2],
            behind: [[0; 4]; 2],
            kinds: [[[0; 4]; KIND_COUNT]; KIND_COUNT],
            rackings: [0; 256],
            shifts: [[0; 4]; 17],
            faults: [[[0; 4]; 4]; 3],
            fields: [[[0; 6]; KIND_COUNT]; 2],
            cuts: [[[0; 6]; KIND_COUNT]; 2],
            carriers: [0; CARRIERS],
            named: [[0; 4]; 4],
            several: [[0; 2]; 2],
            twice: [[0; 4]; 2],
            carrier_halves: [0; 3],
            apart: [[0; 3]; 3],
            rectangles: [[0; LAYERS]; LAYERS],
            places: [[0; LAYERS + 1]; 4],
            two_halves: 0,
            ends: [0; 4],
            events: [[0; 2]; EVENTS.len()],
        }
    }

    pub fn note(&mut self, event: Event, side: usize, happened: bool) {
        self.events[event as usize][side] += u64::from(happened);
    }

    /// Counts a pair and the model's answer.
    pub fn pair(&mut self, pair: &Pair, answer: &Tied) {
        self.numbers[usize::from(answer.number)] += 1;
        self.rackings[usize::from(pair.racking as u8)] += 1;
        let racking = i32::from(pair.racking);
        let class = usize::from(racking >= -MAX_RACKING) + usize::from(racking > MAX_RACKING);
        let [one, two] = pair.sides.map(fault);
        self.faults[class][one][two] += 1;
        if answer.number == FOUL_STATE {
            return;
        }
        match (read_record(pair.sides[0]), read_record(pair.sides[1])) {
            (Err(number), _) => self.refused(0, pair.sides[0], number),
            (_, Err(number)) => self.refused(1, pair.sides[1], number),
            (Ok((first, one)), Ok((second, two))) => {
                let sound = Sound {
                    pair,
                    racking,
                    records: [first, second],
                    lengths: [one, two],
                };
                self.sound(&sound, answer);
            }
        }
    }

    fn refused(&mut self, side: usize, bytes: &[u8], number: u8) {
        let kind = bytes.first().copied();
        match (number, kind) {
            (UNKNOWN_KIND, _) => {
                self.note(Event::Kind0, side, kind == Some(0));
                self.note(Event::Kind12, side, kind == Some(12));
                self.note(Event::Kind255, side, kind == Some(255));
            }
            (FIELD_RANGE, Some(kind)) => {
                if let Some(place) = lone_fault(bytes) {
                    self.fields[side][usize::from(kind)][place] += 1;
                }
            }
            _ => self.cuts[side][usize::from(kind.unwrap_or(0))][bytes.len()] += 1,
        }
    }

    fn sound(&mut self, sound: &Sound, answer: &Tied) {
        let by = usize::from(answer.by);
        self.by[by] += 1;
        self.shifts[(sound.racking + MAX_RACKING) as usize][by] += 1;
        let [first, second] = [0, 1].map(|side| usize::from(sound.records[side].kind()));
        self.kinds[first][second][by] += 1;
        for side in 0..2 {
            let record = &sound.records[side];
            let twice = record
                .plated()
                .is_some_and(|p| p.first.carrier == p.second_carrier);
            self.twice[side][by] += u64::from(twice);
            let wide = sound.pair.sides[side].len() >= sound.lengths[side] + 65_536;
            self.note(Event::Wide, side, wide);
            self.bytes(sound, side, answer.by);
            self.needles(sound, side, answer.by);
        }
        match answer.by {
            BY_CARRIER => self.carrier(sound, answer.carrier),
            BY_EXTENTS => self.extents(sound, answer),
            NOT_TIED => self.not_tied(sound),
            _ => (),
        }
        if let Some(side) = sound.back_side() {
            self.columns(sound, side, answer.by);
        }
    }

    /// Bytes that would tie if they were taken for a carrier.
    fn bytes(&mut self, sound: &Sound, side: usize, by: u8) {
        let (record, length) = (&sound.records[side], sound.lengths[side]);
        if let Record::Rack(racking) = *record {
            self.note(Event::RackInForce, side, racking == sound.racking);
            self.note(Event::RackBehind, side, sound.names_other(side, 4));
        } else if by == NOT_TIED {
            let place = length.max(4);
            let behind = length < 6 && sound.names_other(side, place);
            self.note(Event::CarrierBehind, side, behind);
            let split = matches!(record, Record::Split(..));
            let needle = split && sound.names_other(side, 5);
            self.note(Event::SplitNeedle, side, needle);
        }
    }

    /// The second needle of an xfer or split, which has no part in an extent.
    fn needles(&mut self, sound: &Sound, side: usize, by: u8) {
        let Some((first, second)) = sound.records[side].transfer() else {
            return;
        };
        let [own, opposite] = [first, second].map(|needle| needle.column(sound.racking));
        let apart = own != opposite;
        self.note(Event::NotOpposite, side, apart && by == BY_EXTENTS);
        let over = sound.column(1 - side) == Some(opposite);
        self.note(Event::OtherNeedle, side, over && by == NOT_TIED);
    }

    fn carrier(&mut self, sound: &Sound, carrier: u8) {
        let [first, second] = &sound.records;
        self.carriers[usize::from(carrier) - 1] += 1;
        let [one, two] = [first, second].map(|record| named(record, carrier));
        self.named[one][two] += 1;
        if carriers_of_both(first, second).count() > 1 {
            self.several[one - 1][two - 1] += 1;
        }
        let [Some(one), Some(two)] = [first, second].map(|r| extent(r, sound.racking)) else {
            return;
        };
        self.carrier_halves[apart(&one.halves, &two.halves, 2)] += 1;
    }

    fn extents(&mut self, sound: &Sound, answer: &Tied) {
        let (low, high) = (usize::from(answer.low), usize::from(answer.high));
        self.rectangles[low][high] += 1;
        let columns = sound.column(0).zip(sound.column(1));
        let place = match (answer.right - answer.left, columns) {
            (0, Some((first, second))) if first == second => 0,
            (0, Some((first, second))) => 2 + usize::from(second < first),
            (2, _) => 1,
            _ => {
                self.two_halves += 1;
                return;
            }
        };
        self.places[place][high - low + 1] += 1;
        let end = match (answer.left, answer.right) {
            (-17, -15) => 0,
            (513, 515) => 1,
            (0, 0) => 2,
            (-1, -1) => 3,
            _ => return,
        };
        self.ends[end] += 1;
    }

    fn not_tied(&mut self, sound: &Sound) {
        let [Some(one), Some(two)] = sound.records.map(|r| extent(&r, sound.racking)) else {
            return;
        };
        let halves = apart(&one.halves, &two.halves, 2);
        self.apart[halves][apart(&one.layers, &two.layers, 1)] += 1;
    }

    /// Two records on different beds, which another racking may tie or part.
    fn columns(&mut self, sound: &Sound, side: usize, by: u8) {
        let extents = by == BY_EXTENTS;
        let [zero, other] = [0, -sound.racking].map(|racking| sound.tied_at(racking));
        self.note(Event::ShiftTied, side, extents && !zero);
        self.note(Event::SignTied, side, extents && !other);
        if by != NOT_TIED {
            return;
        }
        self.note(Event::ShiftApart, side, zero);
        self.note(Event::SignApart, side, other);
        let number = |record: &Record| record.first_needle().map(|needle| needle.number);
        let equal = number(&sound.records[0]) == number(&sound.records[1]);
        self.note(Event::NumbersEqual, side, equal && zero);
    }
}

/// The place of the one byte that is out of range, if it is one. Every field may be 1.
fn lone_fault(bytes: &[u8]) -> Option<usize> {
    (1..bytes.len().min(6)).find(|&place| {
        let mut mended = bytes.to_vec();
        mended[place] = 1;
        read_record(&mended).is_ok()
    })
}

// What is missing, and the summary.

/// Whether two kinds can be tied, or not be, for a reason. In, out and miss meet no drop, and each
/// other only with one carrier.
fn can_be(first: u8, second: u8, by: u8) -> bool {
    let rack = first == RACK || second == RACK;
    let passes = |kind| (IN..=MISS).contains(&kind);
    let drops = |kind| kind == DROP || passes(kind);
    match by {
        BY_RACK => rack,
        _ if rack => false,
        BY_CARRIER => first >= IN && second >= IN,
        BY_EXTENTS => !(passes(first) && drops(second) || drops(first) && passes(second)),
        _ => true,
    }
}

/// Every two kinds and reason, whether they can be, and the name.
fn kind_classes() -> impl Iterator<Item = ([usize; 3], bool, String)> {
    let pairs = KINDS.flat_map(|first| KINDS.map(move |second| (first, second)));
    let reasons = |(first, second)| (NOT_TIED..=BY_EXTENTS).map(move |by| (first, second, by));
    pairs.flat_map(reasons).map(|(first, second, by)| {
        let at = [first, second, by].map(usize::from);
        let (one, two) = (KIND_NAMES[at[0]], KIND_NAMES[at[1]]);
        let name = format!("{one} and {two}: {}", BY[at[2]]);
        (at, can_be(first, second, by), name)
    })
}

fn table<const N: usize>(of: &str, names: [&str; N], counts: [u64; N]) -> Classes {
    let classes = names.iter().zip(counts);
    classes
        .map(|(name, count)| (format!("{of} {name}"), count))
        .collect()
}

impl TieCoverage {
    /// The names of counts that are zero and should not be.
    pub fn missing(&self) -> Vec<String> {
        never("tie", self.classes())
    }

    /// The names of counts that are not zero, of what cannot occur: columns are whole, so two
    /// extents have one half column in common, or three.
    pub fn impossible(&self) -> Vec<String> {
        let mut impossible = Vec::new();
        for (at, possible, name) in kind_classes() {
            if !possible && self.kinds[at[0]][at[1]][at[2]] > 0 {
                impossible.push(format!("tie: {name}"));
            }
        }
        if self.two_halves > 0 {
            impossible.push("tie: two half columns in common".to_string());
        }
        impossible
    }

    fn classes(&self) -> Classes {
        let mut classes = self.answer_classes();
        classes.extend(self.carrier_classes());
        classes.extend(self.extent_classes());
        classes.extend(self.fault_classes());
        classes.extend(self.loan_classes());
        for (name, counts) in EVENTS.iter().zip(self.events) {
            classes.extend(table(&format!("{name}:"), SIDES, counts));
        }
        classes
    }

    fn answer_classes(&self) -> Classes {
        let mut classes = Vec::new();
        for (at, _, name) in kind_classes().filter(|class| class.1) {
            classes.push((name, self.kinds[at[0]][at[1]][at[2]]));
        }
        for (racking, count) in self.rackings.into_iter().enumerate() {
            classes.push((format!("racking {}", racking as u8 as i8), count));
        }
        for (racking, counts) in (-MAX_RACKING..).zip(self.shifts) {
            classes.extend(table(&format!("at racking {racking}"), BY, counts));
        }
        classes.extend(table("swaps of a program,", BY, self.swaps));
        classes
    }

    fn carrier_classes(&self) -> Classes {
        let mut classes = Vec::new();
        for (carrier, count) in (1..).zip(self.carriers) {
            classes.push((format!("least carrier {carrier}"), count));
        }
        for (first, counts) in NAMED.iter().zip(self.named) {
            let of = format!("a carrier named {first} and");
            classes.extend(table(&of, NAMED, counts));
        }
        for (first, counts) in SIDES.iter().zip(self.several) {
            let of = format!("of two carriers the least {first} and");
            classes.extend(table(&of, SIDES, counts));
        }
        for (side, counts) in SIDES.iter().zip(self.twice) {
            classes.extend(table(&format!("{side} with one yarn twice:"), BY, counts));
        }
        classes.extend(table(
            "one carrier, half columns",
            APART,
            self.carrier_halves,
        ));
        classes
    }

    fn extent_classes(&self) -> Classes {
        let mut classes = Vec::new();
        for (low, counts) in self.rectangles.iter().enumerate() {
            for (high, &count) in counts.iter().enumerate().skip(low) {
                classes.push((format!("layers {low} to {high}"), count));
            }
        }
        for (place, counts) in PLACES.iter().zip(self.places) {
            for (layers, count) in counts.into_iter().enumerate().skip(1) {
                classes.push((format!("half columns: {place}; {layers} layers"), count));
            }
        }
        classes.extend(table("half columns", ENDS, self.ends));
        for (halves, counts) in self.apart.iter().enumerate() {
            for (layers, &count) in counts.iter().enumerate().filter(|at| halves + at.0 > 0) {
                let (halves, layers) = (APART[halves], APART[layers]);
                let name = format!("not tied, half columns {halves}, layers {layers}");
                classes.push((name, count));
            }
        }
        classes
    }

    fn fault_classes(&self) -> Classes {
        let mut classes = Vec::new();
        for (racking, faults) in RACKINGS.iter().zip(self.faults) {
            for (first, counts) in FAULTS.iter().zip(faults) {
                let of = format!("racking {racking}, first {first}, second");
                classes.extend(table(&of, FAULTS, counts));
            }
        }
        for (side, name) in SIDES.iter().enumerate() {
            classes.push((format!("{name} without a byte"), self.cuts[side][0][0]));
            for kind in KINDS {
                let at = usize::from(kind);
                let of = format!("{name} a {}", KIND_NAMES[at]);
                for place in 1..=body_length(kind).unwrap_or(0) {
                    let (cut, field) = (self.cuts[side][at][place], self.fields[side][at][place]);
                    classes.push((format!("{of} cut to {place} bytes"), cut));
                    classes.push((format!("{of} with byte {place} alone out of range"), field));
                }
            }
        }
        classes
    }

    fn loan_classes(&self) -> Classes {
        let mut classes = Vec::new();
        for (side, name) in SIDES.iter().enumerate() {
            let guarded = format!("{name} ends at a guard page:");
            classes.extend(table(&guarded, BY, self.guarded[side]));
            let behind = format!("bytes behind the {name}:");
            classes.extend(table(&behind, BY, self.behind[side]));
        }
        for number in [DONE, UNKNOWN_KIND, CUT_SHORT, FIELD_RANGE, TIED, FOUL_STATE] {
            let count = self.read_only[usize::from(number)];
            classes.push((format!("number {number} in read-only memory"), count));
        }
        classes
    }

    pub fn print(&self) {
        print_by("tie", self.by);
        print_by("tie: swaps get 13 exactly if tied", self.swaps);
        println!(
            "tie: {} calls on read-only memory; {}",
            self.read_only.iter().sum::<u64>(),
            by_number(&self.read_only)
        );
        print_classes("tie", self.classes());
    }
}

fn print_by(of: &str, counts: [u64; 4]) {
    let cells: Vec<String> = table("", BY, counts)
        .iter()
        .map(|(name, count)| format!("{}: {count}", name.trim()))
        .collect();
    println!("{of}; {}", cells.join(", "));
}
