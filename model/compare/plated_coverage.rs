//! What came of plated stitches in a call: numbers, how both carriers stand, loops, fields, ties.

use crate::by_number;
use crate::coverage::{KIND_NAMES, NUMBERS};
use crate::machine::*;
use crate::rewrite::extent;

/// Plated tuck and plated knit, with the numbers that a record of the kind can get.
const PLATED_KINDS: [(u8, &[u8]); 2] = [
    (PLATED_TUCK, &[0, 4, 5, 7, 8, 9, 11, 16]),
    (PLATED_KNIT, &[0, 4, 5, 7, 8, 9, 16]),
];

/// What is against a carrier before a stitch: the lowest number that holds for it.
const STANDINGS: [&str; 4] = ["not in", "elsewhere", "too far", "ready"];

/// Which of the two carriers something is true of.
const WHICH: [&str; 3] = ["first", "second", "both"];

/// Carriers just out of their range.
const BAD_CARRIERS: [u8; 2] = [0, 11];

/// One kind's counts.
#[derive(Clone, Copy)]
struct Counts {
    numbers: [u64; NUMBERS],
    standings: [[u64; 4]; 4],
    twice: [u64; 4],
    floats: [[u64; 2]; 2],
    onto: [u64; 9],
    carriers: [[u64; CARRIERS]; CARRIERS],
    bad_carriers: [[u64; 3]; 2],
    cuts: [u64; 6],
}

pub struct PlatedCoverage {
    kinds: [Counts; 2],
}

fn standing(state: &State, m: CarrierMove) -> usize {
    let against = [
        carrier_not_in(state, m),
        carrier_elsewhere(state, m, entry_slot),
        carrier_too_far(state, m),
    ];
    let lowest = against.iter().position(|&holds| holds);
    lowest.unwrap_or(against.len())
}

fn which(first: bool, second: bool) -> Option<usize> {
    match (first, second) {
        (true, false) => Some(0),
        (false, true) => Some(1),
        (true, true) => Some(2),
        _ => None,
    }
}

// Counting.

impl PlatedCoverage {
    pub fn new() -> PlatedCoverage {
        let none = Counts {
            numbers: [0; NUMBERS],
            standings: [[0; 4]; 4],
            twice: [0; 4],
            floats: [[0; 2]; 2],
            onto: [0; 9],
            carriers: [[0; CARRIERS]; CARRIERS],
            bad_carriers: [[0; 3]; 2],
            cuts: [0; 6],
        };
        PlatedCoverage { kinds: [none; 2] }
    }

    /// Counts a record that a call came to, if it is a plated stitch.
    pub fn record(&mut self, state: &State, bytes: &[u8], number: u8) {
        let kind = PLATED_KINDS
            .iter()
            .position(|(kind, _)| bytes.first() == Some(kind));
        let Some(kind) = kind else {
            return;
        };
        let counts = &mut self.kinds[kind];
        counts.numbers[usize::from(number)] += 1;
        match (number, read_record(bytes)) {
            (CUT_SHORT, _) => counts.cuts[bytes.len()] += 1,
            (FIELD_RANGE, _) => counts.field(bytes),
            (_, Ok((Record::PlatedTuck(p) | Record::PlatedKnit(p), _))) => {
                counts.whole(state, p, number);
            }
            _ => (),
        }
    }
}

impl Counts {
    /// Counts carriers out of range where every other field is in range.
    fn field(&mut self, bytes: &[u8]) {
        let mut mended = bytes.to_vec();
        for (value, counts) in BAD_CARRIERS.iter().zip(&mut self.bad_carriers) {
            let bad = which(bytes[4] == *value, bytes[5] == *value);
            mended.copy_from_slice(bytes);
            for place in (4..6).filter(|&place| bytes[place] == *value) {
                mended[place] = 1;
            }
            if let (Some(which), Ok(_)) = (bad, read_record(&mended)) {
                counts[which] += 1;
            }
        }
    }

    fn whole(&mut self, state: &State, p: PlatedMove, number: u8) {
        let moves = [p.first, p.second()];
        let [first, second] = moves.map(|m| standing(state, m));
        if number == YARN_TWICE {
            self.twice[first] += 1;
            return;
        }
        self.standings[first][second] += 1;
        for (which, m) in moves.into_iter().enumerate() {
            let columns = float_columns(state, m);
            self.floats[which][0] += u64::from(number == DONE && columns == Some(20));
            self.floats[which][1] += u64::from(number == FLOAT_TOO_LONG && columns == Some(21));
        }
        if matches!(number, DONE | HOOK_FULL) {
            self.onto[usize::from(state.loops(p.first.needle))] += 1;
        }
        if number == DONE {
            self.carriers[p.first.carrier][p.second_carrier] += 1;
        }
    }
}

// What is missing, and the summary.

impl PlatedCoverage {
    /// The names of counts that are zero and should not be.
    pub fn missing(&self, call: &str) -> Vec<String> {
        let mut missing = Vec::new();
        for ((kind, numbers), counts) in PLATED_KINDS.iter().zip(&self.kinds) {
            let name = KIND_NAMES[usize::from(*kind)];
            for number in numbers
                .iter()
                .filter(|&&n| counts.numbers[usize::from(n)] == 0)
            {
                missing.push(format!("{call}: {name} with number {number}"));
            }
            missing.extend(never(&format!("{call}: {name}"), counts.classes()));
        }
        missing
    }

    pub fn print(&self, call: &str) {
        for ((kind, _), counts) in PLATED_KINDS.iter().zip(&self.kinds) {
            let name = KIND_NAMES[usize::from(*kind)];
            println!("{call}: {name}; {}", by_number(&counts.numbers));
            print_classes(&format!("{call}: {name}"), counts.classes());
        }
    }
}

/// Names of classes with their counts.
pub type Classes = Vec<(String, u64)>;

pub fn never(of: &str, classes: Classes) -> Vec<String> {
    let zero = classes.into_iter().filter(|(_, count)| *count == 0);
    zero.map(|(class, _)| format!("{of}, {class}")).collect()
}

pub fn print_classes(of: &str, classes: Classes) {
    let least = classes.iter().map(|(_, count)| *count).min();
    let (all, least) = (classes.len(), least.unwrap_or(0));
    println!("{of}; {all} classes, least {least}");
}

impl Counts {
    fn classes(&self) -> Classes {
        let mut classes = Vec::new();
        for (first, counts) in STANDINGS.iter().zip(self.standings) {
            for (second, count) in STANDINGS.iter().zip(counts) {
                classes.push((format!("first {first} and second {second}"), count));
            }
        }
        for (standing, count) in STANDINGS.iter().zip(self.twice) {
            classes.push((format!("one yarn twice, {standing}"), count));
        }
        for (which, [just, over]) in WHICH.iter().zip(self.floats) {
            classes.push((format!("{which} carrier at 20 columns"), just));
            classes.push((format!("{which} carrier at 21 columns"), over));
        }
        for (loops, count) in self.onto.into_iter().enumerate() {
            classes.push((format!("onto {loops} loops"), count));
        }
        for (value, counts) in BAD_CARRIERS.iter().zip(self.bad_carriers) {
            for (which, count) in WHICH.iter().zip(counts) {
                classes.push((format!("carrier {value}: {which}"), count));
            }
        }
        for length in 1..self.cuts.len() {
            classes.push((format!("cut to {length} bytes"), self.cuts[length]));
        }
        for (first, counts) in self.carriers.iter().enumerate() {
            for (second, &count) in counts.iter().enumerate().filter(|at| at.0 != first) {
                let (first, second) = (first + 1, second + 1);
                classes.push((format!("carriers {first} and {second} accepted"), count));
            }
        }
        classes
    }
}

// Ties of a plated stitch with its neighbour.

/// By kind and by the plated record's place in the pair.
type ByPlace<T> = [[T; 2]; 2];

pub struct PlatedTies {
    shared: ByPlace<[u64; 3]>,
    edges: ByPlace<[[[u64; 2]; 2]; 2]>,
}

const PLACES: [&str; 2] = ["before", "behind"];
const BEDS: [&str; 2] = ["front", "back"];
const EDGES: [&str; 2] = [
    "tied with a layer between the carriers",
    "swapped with the layer next to them",
];

/// Where the other record's layers begin or end, seen from the plated stitch's: 0 between its
/// carriers, 1 just behind them.
fn edge(p: PlatedMove, other: &Record, racking: i32) -> Option<usize> {
    let layers = extent(other, racking)?.layers;
    let [first, second] = [p.first, p.second()].map(|m| m.carrier as i32 + 1);
    let (low, high) = (first.min(second), first.max(second));
    let (layer, next) = match p.first.needle.bed {
        Bed::Front => (*layers.start(), high + 1),
        Bed::Back => (*layers.end(), low - 1),
    };
    match layer {
        _ if low < layer && layer < high => Some(0),
        _ if layer == next => Some(1),
        _ => None,
    }
}

impl PlatedTies {
    pub fn new() -> PlatedTies {
        PlatedTies {
            shared: Default::default(),
            edges: Default::default(),
        }
    }

    pub fn pair(&mut self, first: &Record, second: &Record, racking: i32, tied: bool) {
        for (place, (record, other)) in [(first, second), (second, first)].into_iter().enumerate() {
            let Some(p) = record.plated() else {
                continue;
            };
            let kind = usize::from(record.kind() - PLATED_TUCK);
            let names = |carrier| other.carrier_moves().any(|m| m.carrier == carrier);
            if let Some(which) = which(names(p.first.carrier), names(p.second_carrier)) {
                self.shared[kind][place][which] += u64::from(tied);
                continue;
            }
            let column = other.first_needle().map(|needle| needle.column(racking));
            if column != Some(p.first.needle.column(racking)) {
                continue;
            }
            if let Some(edge) = edge(p, other, racking).filter(|&edge| tied == (edge == 0)) {
                let greater = usize::from(p.first.carrier < p.second_carrier);
                self.edges[kind][place][p.first.needle.bed as usize][greater][edge] += 1;
            }
        }
    }

    fn classes(&self) -> Classes {
        let mut classes = Vec::new();
        for (kind, place) in [(0, 0), (0, 1), (1, 0), (1, 1)] {
            let name = KIND_NAMES[usize::from(PLATED_KINDS[kind].0)];
            let name = format!("{name} {}", PLACES[place]);
            for (which, count) in WHICH.iter().zip(self.shared[kind][place]) {
                classes.push((format!("{name} a record that names {which}"), count));
            }
            for (bed, counts) in BEDS.iter().zip(self.edges[kind][place]) {
                for (greater, counts) in WHICH.iter().zip(counts) {
                    for (edge, count) in EDGES.iter().zip(counts) {
                        let name = format!("{name} another on the {bed}");
                        classes.push((format!("{name}, {greater} carrier greater: {edge}"), count));
                    }
                }
            }
        }
        classes
    }

    /// The names of counts that are zero and should not be.
    pub fn missing(&self) -> Vec<String> {
        never("rewriter", self.classes())
    }

    pub fn print(&self) {
        print_classes("rewriter: pairs with a plated stitch", self.classes());
    }
}
