//! What house orders made of records: moved or not, which kinds passed, what held the others.

use crate::coverage::{events, KIND_COUNT, KIND_NAMES};
use crate::machine::*;
use crate::rewrite::*;
use std::ops::Range;

events! {
    SignedPassed: "passed by a needle number where signed bytes would not pass",
    SignedStayed: "free to pass, and signed bytes would",
    NeedlePassed: "passed by the bytes, at a greater needle number",
    ColumnPassed: "passed by the bytes, at a greater column",
    EqualMoved: "two equal records of a stretch, the later moved forward",
    CarrierHeld: "held by one carrier alone",
    InHeld: "held: an in behind the out of its carrier, extents apart",
    SecondHeld: "held with a plated stitch whose second carrier alone both name",
    RackHolds: "held by a rack alone",
    NumbersPassed: "passed where needle numbers taken as columns would tie",
    NumbersHeld: "held where needle numbers taken as columns would not tie",
    BeforePassed: "passed where the racking before the stretch would tie",
    BeforeHeld: "held where the racking before the stretch would not tie",
    BehindPassed: "passed where the racking behind the stretch would tie",
    BehindHeld: "held where the racking behind the stretch would not tie",
    NoDescents: "changed, though no two neighbours could be swapped into the order of their bytes",
    OwnOrder: "a house order already, though records could be swapped",
    Reversed: "a stretch of 8 records or more turned about",
    ThreeStretches: "three stretches or more changed",
    Far: "moved forward by 64 records or more",
    Farther: "moved forward by 1000 records or more",
    FarFirst: "comes first from 1000 records behind or more",
}

/// Whether a record came earlier, at its own position, or later.
const MOVES: [&str; 3] = ["moved forward", "stayed", "moved back"];

/// What became of two records of a stretch, the second of which stands behind in the program: it
/// passed, its bytes first or though they are not; or its bytes are first and it did not pass, being
/// tied, or tied through others between, or not so but behind a record that is taken later.
const ENDS: [&str; 5] = [
    "passed by its bytes",
    "passed while the first waits",
    "held by a tie",
    "held through others",
    "waits",
];
const BY_BYTES: usize = 0;
const FIRST_WAITS: usize = 1;
const HELD: usize = 2;
const HELD_THROUGH: usize = 3;
const WAITS: usize = 4;

pub struct OrderMoves {
    moves: [[u64; 3]; KIND_COUNT],
    pairs: [[[u64; ENDS.len()]; KIND_COUNT]; KIND_COUNT],
    passed_chained: u64,
    events: [u64; EVENTS.len()],
}

/// Longer stretches are not looked at pair by pair.
const PAIRED: usize = 64;

/// A program in its own order, and the place of each of its records in the house order.
struct Ordered<'a> {
    order: &'a Order<'a>,
    places: Vec<usize>,
}

impl Ordered<'_> {
    fn record(&self, position: usize) -> &Record {
        &self.order.parts[position].record
    }

    fn bytes(&self, position: usize) -> &[u8] {
        self.order.parts[position].bytes
    }

    fn tied(&self, first: usize, second: usize, racking: i32) -> bool {
        tied(self.record(first), self.record(second), racking)
    }

    fn column(&self, position: usize) -> i32 {
        let needle = self.record(position).first_needle();
        let racking = self.order.racking(position);
        needle.map_or(0, |needle| needle.column(racking))
    }

    fn number(&self, position: usize) -> usize {
        let needle = self.record(position).first_needle();
        needle.map_or(0, |needle| needle.number)
    }

    fn changed(&self, stretch: &Range<usize>) -> bool {
        stretch.clone().any(|at| self.places[at] != at)
    }

    /// For each record of a stretch, those before it that are tied to it, at once or through others.
    fn chains(&self, stretch: &Range<usize>) -> Vec<u64> {
        let mut chains: Vec<u64> = Vec::new();
        for second in stretch.clone() {
            let mut chain = 0;
            for first in stretch.start..second {
                if self.tied(first, second, self.order.racking(second)) {
                    let at = first - stretch.start;
                    chain |= chains[at] | 1 << at;
                }
            }
            chains.push(chain);
        }
        chains
    }
}

/// The stretches between racks that have records.
fn stretches(order: &Order) -> Vec<Range<usize>> {
    let mut stretches = Vec::new();
    let mut start = 0;
    for stretch in order.parts.split(|p| matches!(p.record, Record::Rack(_))) {
        if !stretch.is_empty() {
            stretches.push(start..start + stretch.len());
        }
        start += stretch.len() + 1;
    }
    stretches
}

/// Bytes as a signed comparison takes them.
fn signed(bytes: &[u8]) -> Vec<i8> {
    bytes.iter().map(|&byte| byte as i8).collect()
}

/// Whether two records name one carrier, which is the second of a plated one.
fn second_named(first: &Record, second: &Record) -> bool {
    let names = |record: &Record, carrier| record.carrier_moves().any(|m| m.carrier == carrier);
    let by_second = |one: &Record, other: &Record| {
        let plated = one.plated();
        plated.is_some_and(|p| names(other, p.second_carrier) && !names(other, p.first.carrier))
    };
    by_second(first, second) || by_second(second, first)
}

// Counting.

impl OrderMoves {
    pub fn new() -> OrderMoves {
        OrderMoves {
            moves: [[0; 3]; KIND_COUNT],
            pairs: [[[0; ENDS.len()]; KIND_COUNT]; KIND_COUNT],
            passed_chained: 0,
            events: [0; EVENTS.len()],
        }
    }

    fn note(&mut self, event: Event, happened: bool) {
        self.events[event as usize] += u64::from(happened);
    }

    /// Counts a valid program and the positions of its records in the house order.
    pub fn order(&mut self, order: &Order, positions: &[usize]) {
        let mut places = vec![0; positions.len()];
        for (place, &position) in positions.iter().enumerate() {
            places[position] = place;
        }
        let ordered = Ordered { order, places };
        self.records(&ordered);
        let stretches = stretches(order);
        for stretch in &stretches {
            if stretch.len() <= PAIRED {
                self.stretch(&ordered, stretch);
            }
        }
        let changed = stretches.iter().filter(|stretch| ordered.changed(stretch));
        self.note(Event::ThreeStretches, changed.count() >= 3);
        self.neighbours(&ordered);
        self.racks(&ordered, positions);
    }

    fn records(&mut self, ordered: &Ordered) {
        for (position, &place) in ordered.places.iter().enumerate() {
            let kind = usize::from(ordered.record(position).kind());
            let way = 1 + usize::from(place > position) - usize::from(place < position);
            self.moves[kind][way] += 1;
            self.note(Event::Far, place + 64 <= position);
            self.note(Event::Farther, place + 1000 <= position);
            self.note(Event::FarFirst, place == 0 && position >= 1000);
        }
    }

    /// Whether the program looks ordered to one who compares neighbours only.
    fn neighbours(&mut self, ordered: &Ordered) {
        let order = ordered.order;
        let pairs = 1..order.parts.len();
        let free: Vec<usize> = pairs.filter(|&second| !order.tied(second - 1)).collect();
        let mut descents = free
            .iter()
            .filter(|&&second| ordered.bytes(second) < ordered.bytes(second - 1));
        let none = descents.next().is_none();
        let changed = ordered.changed(&(0..order.parts.len()));
        self.note(Event::NoDescents, none && changed);
        self.note(Event::OwnOrder, !free.is_empty() && !changed);
    }

    /// Counts racks whose neighbours would pass if the rack were not there.
    fn racks(&mut self, ordered: &Ordered, positions: &[usize]) {
        for around in positions.windows(3) {
            let [first, rack, second] = [around[0], around[1], around[2]];
            let Record::Rack(racking) = *ordered.record(rack) else {
                continue;
            };
            let rackings = [ordered.order.racking(rack), racking];
            let free = !rackings.iter().any(|&r| ordered.tied(first, second, r));
            let descent = ordered.bytes(second) < ordered.bytes(first);
            self.note(Event::RackHolds, free && descent);
        }
    }

    fn stretch(&mut self, ordered: &Ordered, stretch: &Range<usize>) {
        let chains = ordered.chains(stretch);
        let mut passed = 0;
        for second in stretch.clone() {
            for first in stretch.start..second {
                let chained = chains[second - stretch.start] >> (first - stretch.start) & 1 == 1;
                let passes = ordered.places[second] < ordered.places[first];
                passed += usize::from(passes);
                self.passed_chained += u64::from(passes && chained);
                self.pair(ordered, first, second, chained);
            }
        }
        let pairs = stretch.len() * (stretch.len() - 1) / 2;
        self.note(Event::Reversed, stretch.len() >= 8 && passed == pairs);
    }

    fn pair(&mut self, ordered: &Ordered, first: usize, second: usize, chained: bool) {
        let passes = ordered.places[second] < ordered.places[first];
        let (a, b) = (ordered.bytes(first), ordered.bytes(second));
        if a == b {
            self.note(Event::EqualMoved, ordered.places[second] < second);
            return;
        }
        if a < b && !passes {
            let turned = signed(b) < signed(a);
            self.note(Event::SignedStayed, turned && !chained);
            return;
        }
        let tied = ordered.tied(first, second, ordered.order.racking(second));
        let end = match (passes, b < a) {
            (true, true) => BY_BYTES,
            (true, false) => FIRST_WAITS,
            _ if tied => HELD,
            _ if chained => HELD_THROUGH,
            _ => WAITS,
        };
        self.pairs[usize::from(a[0])][usize::from(b[0])][end] += 1;
        match end {
            BY_BYTES => self.by_bytes(ordered, first, second),
            HELD => self.held(ordered, first, second),
            _ => (),
        }
    }

    fn by_bytes(&mut self, ordered: &Ordered, first: usize, second: usize) {
        let signed = [first, second].map(|at| signed(ordered.bytes(at)));
        self.note(Event::SignedPassed, signed[0] < signed[1]);
        let numbers = [first, second].map(|at| ordered.number(at));
        self.note(Event::NeedlePassed, numbers[0] < numbers[1]);
        let columns = [first, second].map(|at| ordered.column(at));
        self.note(Event::ColumnPassed, columns[0] < columns[1]);
        self.racking(ordered, first, second, false);
    }

    fn held(&mut self, ordered: &Ordered, first: usize, second: usize) {
        let (one, other) = (ordered.record(first), ordered.record(second));
        let carrier = !extents_meet(one, other, ordered.order.racking(second));
        let entering = matches!((one, other), (Record::Out(_), Record::In(_)));
        self.note(Event::CarrierHeld, carrier);
        self.note(Event::InHeld, carrier && entering);
        self.note(Event::SecondHeld, second_named(one, other));
        self.racking(ordered, first, second, true);
    }

    /// Counts pairs that another racking would answer otherwise.
    fn racking(&mut self, ordered: &Ordered, first: usize, second: usize, held: bool) {
        let parts = &ordered.order.parts;
        let is_rack = |&at: &usize| matches!(parts[at].record, Record::Rack(_));
        let otherwise = |racking| ordered.tied(first, second, racking) != held;
        let which = |passed, kept| if held { kept } else { passed };
        let numbers = which(Event::NumbersPassed, Event::NumbersHeld);
        self.note(numbers, otherwise(0));
        if let Some(rack) = (first.saturating_sub(PAIRED)..first).rev().find(is_rack) {
            let before = which(Event::BeforePassed, Event::BeforeHeld);
            self.note(before, otherwise(ordered.order.racking(rack)));
        }
        if let Some(rack) = (second..parts.len().min(second + PAIRED)).find(is_rack) {
            if let Record::Rack(racking) = parts[rack].record {
                let behind = which(Event::BehindPassed, Event::BehindHeld);
                self.note(behind, otherwise(racking));
            }
        }
    }
}

// What can occur, what is missing, and the summary.

/// Whether two unequal records of these kinds, in one stretch, can come to an end. Kinds are
/// compared before all else; in, out and miss lie on no layer of a drop, and tied drops are equal.
fn can_end(first: u8, second: u8, end: usize) -> bool {
    let meets_no_drop = |kind| matches!(kind, DROP | IN..=MISS);
    let never_tied =
        (first == DROP && meets_no_drop(second)) || (second == DROP && meets_no_drop(first));
    match end {
        _ if first == RACK || second == RACK => false,
        FIRST_WAITS => first <= second,
        HELD => second <= first && !never_tied,
        _ => second <= first,
    }
}

/// What can be counted: its name, whether it can occur, and its count.
type Class = (String, bool, u64);

impl OrderMoves {
    fn classes(&self) -> Vec<Class> {
        let mut classes = Vec::new();
        for kind in KINDS {
            let at = usize::from(kind);
            for (way, &count) in MOVES.iter().zip(&self.moves[at]) {
                let can = kind != RACK || *way == "stayed";
                classes.push((format!("{} {way}", KIND_NAMES[at]), can, count));
            }
        }
        for first in KINDS {
            for second in KINDS {
                let (a, b) = (usize::from(first), usize::from(second));
                for (end, name) in ENDS.iter().enumerate() {
                    let name = format!("{} then {}: {name}", KIND_NAMES[a], KIND_NAMES[b]);
                    let can = can_end(first, second, end);
                    classes.push((name, can, self.pairs[a][b][end]));
                }
            }
        }
        for (name, count) in EVENTS.iter().zip(self.events) {
            classes.push((name.to_string(), true, count));
        }
        let name = "a record passed one that ties lead from";
        classes.push((name.to_string(), false, self.passed_chained));
        classes
    }

    fn named(&self, wanted: impl Fn(&Class) -> bool) -> Vec<String> {
        let classes = self.classes().into_iter().filter(wanted);
        classes.map(|class| format!("order: {}", class.0)).collect()
    }

    /// The names of counts that are zero and should not be.
    pub fn missing(&self) -> Vec<String> {
        self.named(|(_, can, count)| *can && *count == 0)
    }

    /// The names of counts that are not zero, of what cannot occur.
    pub fn impossible(&self) -> Vec<String> {
        self.named(|(_, can, count)| !can && *count > 0)
    }

    pub fn print(&self) {
        for (way, name) in MOVES.iter().enumerate() {
            let all: u64 = self.moves.iter().map(|counts| counts[way]).sum();
            println!("order: {all} records {name}");
        }
        for (end, name) in ENDS.iter().enumerate() {
            let all: u64 = self.pairs.as_flattened().iter().map(|ends| ends[end]).sum();
            println!("order: {all} pairs, the second {name}");
        }
        let classes = self.classes().into_iter().filter(|class| class.1);
        let least = classes.clone().map(|class| class.2).min().unwrap_or(0);
        println!("order: {} classes of moves, least {least}", classes.count());
        for (name, count) in EVENTS.iter().zip(self.events) {
            println!("{count:>9}  {name}");
        }
    }
}
