//! What complete was before and after the compared steps, what it hung on, where the walk ended.

use crate::by_number;
use crate::coverage::{KIND_COUNT, KIND_NAMES, NUMBERS};
use crate::limit_coverage::{is_bad, Class, BAD_LIMITS};
use crate::machine::*;
use crate::panel_coverage::{Source, FIELD_NAMES, SOURCES};
use crate::raw_state::*;
use std::ops::Range;

/// The numbers that a complete state can be refused with: it has no carrier in and no loop.
pub const EMPTY_REFUSALS: [u8; 6] = [
    UNKNOWN_KIND,
    CUT_SHORT,
    FIELD_RANGE,
    YARN_TWICE,
    NOT_IN,
    NOT_OPPOSITE,
];

/// Things in which a state can differ from the empty one: a hook, a carrier, or a racking from -8
/// to 8 but 0.
const RACKINGS: usize = 17;
const THINGS: usize = HOOKS + CARRIERS + RACKINGS;

/// Where the walk over a state's hooks ends: at a hook, or it finds no loop, or the racking is not 0
/// and it is not made.
const NO_LOOP: usize = HOOKS;
const RACKED: usize = HOOKS + 1;
const WALKS: usize = HOOKS + 2;

/// What a step comes to, for its walk; after 15 none is made, and where it would end is counted.
const OUTCOMES: [&str; 3] = ["done", "refused", "15"];

/// Counts by source and limit; limit l has index l.
type Sources<T> = [[T; 9]; 2];

/// `done` is by kind, by complete before and by complete then; `refused` by number and complete.
/// `left` and `taken` are by the one thing in which a state differs from the empty one: after a
/// step, and before one that leaves a complete state. `walks` are by outcome and end.
pub struct CompleteCoverage {
    done: Sources<[[[u64; 2]; 2]; KIND_COUNT]>,
    refused: Sources<[[u64; 2]; NUMBERS]>,
    left: [[u64; THINGS]; 2],
    taken: [[u64; THINGS]; 2],
    foul: FoulCoverage,
    walks: [[u64; WALKS]; 3],
}

/// Number 15 on states that are empty but for one value; `over` is by the limit and by the number
/// that the empty state would give.
struct FoulCoverage {
    rackings: [u64; 256],
    limits: [u64; 256],
    hooks: [u64; HOOKS],
    fields: [[u64; 5]; CARRIERS],
    over: Box<[[u64; NUMBERS]; 256]>,
}

// One thing, one value.

fn loaded(state: &RawState) -> usize {
    state.loops.iter().filter(|&&count| count > 0).count()
}

fn first_loaded(state: &RawState) -> Option<usize> {
    state.loops.iter().position(|&count| count > 0)
}

fn walk_end(state: &RawState) -> usize {
    match state.racking {
        0 => first_loaded(state).unwrap_or(NO_LOOP),
        _ => RACKED,
    }
}

fn walk_name(end: usize) -> String {
    match end {
        NO_LOOP => "no loop".to_string(),
        RACKED => "racking not 0".to_string(),
        hook => format!("first loop on hook {hook}"),
    }
}

/// The one thing in which a state in range differs from the empty one.
fn only_thing(state: &RawState) -> Option<usize> {
    let active = state.carriers.iter().filter(|c| c.active == 1).count();
    match (loaded(state), active, state.racking) {
        (1, 0, 0) => first_loaded(state),
        (0, 1, 0) => {
            let carrier = state.carriers.iter().position(|c| c.active == 1);
            carrier.map(|carrier| HOOKS + carrier)
        }
        (0, 0, racking) if racking != 0 => {
            let place = i32::from(racking) + MAX_RACKING;
            Some(HOOKS + CARRIERS + place as usize)
        }
        _ => None,
    }
}

fn thing_name(thing: usize) -> String {
    if thing < HOOKS {
        return format!("hook {thing}");
    }
    let thing = thing - HOOKS;
    if thing < CARRIERS {
        return format!("carrier {}", thing + 1);
    }
    let place = (thing - CARRIERS) as i32;
    format!("racking {}", place - MAX_RACKING)
}

/// Whether a thing is one: racking 0 is none.
fn is_thing(thing: usize) -> bool {
    thing != HOOKS + CARRIERS + MAX_RACKING as usize
}

fn field_values(carrier: &RawCarrier) -> [bool; 5] {
    [
        carrier.active > 0,
        carrier.side > 0,
        carrier.slot != 0,
        carrier.bed > 0,
        carrier.needle > 0,
    ]
}

// Counting.

impl FoulCoverage {
    fn new() -> FoulCoverage {
        FoulCoverage {
            rackings: [0; 256],
            limits: [0; 256],
            hooks: [0; HOOKS],
            fields: [[0; 5]; CARRIERS],
            over: Box::new([[0; NUMBERS]; 256]),
        }
    }

    /// Counts a foul state if it is empty but for one value.
    fn state(&mut self, state: &RawState, bytes: &[u8]) {
        let fields = state.carriers.each_ref().map(field_values);
        let of_carriers = fields.as_flattened().iter().filter(|&&set| set).count();
        let (racked, bad) = (state.racking != 0, is_bad(state.limit));
        let values = usize::from(racked) + usize::from(bad) + loaded(state) + of_carriers;
        if values != 1 {
            return;
        }
        if racked {
            self.rackings[usize::from(state.racking as u8)] += 1;
        } else if bad {
            self.limit(state.limit, bytes);
        } else if let Some(hook) = first_loaded(state) {
            self.hooks[hook] += 1;
        }
        for (counts, set) in self.fields.iter_mut().zip(fields) {
            for (count, set) in counts.iter_mut().zip(set) {
                *count += u64::from(set);
            }
        }
    }

    fn limit(&mut self, limit: u8, bytes: &[u8]) {
        let looked_at = look(&State::empty(HOOK_LIMIT), bytes);
        let number = looked_at.map_or_else(|number| number, |_| DONE);
        self.limits[usize::from(limit)] += 1;
        self.over[usize::from(limit)][usize::from(number)] += 1;
    }
}

impl CompleteCoverage {
    pub fn new() -> CompleteCoverage {
        CompleteCoverage {
            done: [[[[[0; 2]; 2]; KIND_COUNT]; 9]; 2],
            refused: [[[[0; 2]; NUMBERS]; 9]; 2],
            left: [[0; THINGS]; 2],
            taken: [[0; THINGS]; 2],
            foul: FoulCoverage::new(),
            walks: [[0; WALKS]; 3],
        }
    }

    pub fn step(&mut self, source: Source, states: [&RawState; 2], bytes: &[u8], given: Stepped) {
        let [before, after] = states;
        let outcome = match given.number {
            DONE => 0,
            FOUL_STATE => 2,
            _ => 1,
        };
        self.walks[outcome][walk_end(after)] += 1;
        if given.number == FOUL_STATE {
            self.foul.state(before, bytes);
            return;
        }
        let (at, limit) = (source as usize, usize::from(after.limit));
        let complete = usize::from(given.complete);
        if given.number == DONE {
            let was = usize::from(*before == RawState::empty(before.limit));
            self.done[at][limit][usize::from(bytes[0])][was][complete] += 1;
        } else {
            self.refused[at][limit][usize::from(given.number)][complete] += 1;
        }
        if let Some(thing) = only_thing(after) {
            self.left[at][thing] += 1;
        }
        if let Some(thing) = only_thing(before).filter(|_| given.complete == 1) {
            self.taken[at][thing] += 1;
        }
    }
}

// What can occur.

/// Whether an accepted record of a kind can find and leave a state that is complete or not. Miss
/// and stitches need a carrier that is in and stays in; an xfer keeps the loops, an in adds one
/// carrier.
fn can_be_done(limit: u8, kind: u8, was: bool, is: bool) -> bool {
    match (was, is) {
        (true, true) => matches!(kind, RACK | DROP | XFER),
        (true, false) => matches!(kind, RACK | IN),
        (false, true) => matches!(kind, RACK | DROP | OUT),
        (false, false) => limit > 1 || kind < PLATED_TUCK,
    }
}

/// Whether a record can be refused with a number on a state that is complete or not.
fn can_be_refused(number: u8, complete: bool) -> bool {
    match number {
        UNKNOWN_KIND | CUT_SHORT | FIELD_RANGE => true,
        _ if complete => EMPTY_REFUSALS.contains(&number),
        _ => is_of_record(number),
    }
}

const COMPLETE: [&str; 2] = ["not complete", "complete"];
const SIDES: [(usize, usize); 4] = [(0, 0), (0, 1), (1, 0), (1, 1)];

impl CompleteCoverage {
    fn step_classes(&self) -> Vec<Class> {
        let mut classes = Vec::new();
        for (at, source) in SOURCES.iter().enumerate() {
            for limit in LIMITS {
                let name = format!("{source} at limit {limit}");
                let done = &self.done[at][usize::from(limit)];
                for (kind, (was, is)) in KINDS.flat_map(|kind| SIDES.map(|side| (kind, side))) {
                    let count = done[usize::from(kind)][was][is];
                    let can = can_be_done(limit, kind, was == 1, is == 1);
                    let kind = KIND_NAMES[usize::from(kind)];
                    let (was, is) = (COMPLETE[was], COMPLETE[is]);
                    classes.push((format!("{name}, {kind}, {was} to {is}"), can, count));
                }
                let refused = self.refused[at][usize::from(limit)];
                for (number, counts) in refused.iter().enumerate() {
                    for (is, &count) in counts.iter().enumerate() {
                        let can = can_be_refused(number as u8, is == 1);
                        let is = COMPLETE[is];
                        classes.push((format!("{name}, {is} with {number}"), can, count));
                    }
                }
            }
        }
        classes
    }

    fn thing_classes(&self) -> Vec<Class> {
        let mut classes = Vec::new();
        for (at, source) in SOURCES.iter().enumerate() {
            for thing in 0..THINGS {
                let (name, can) = (thing_name(thing), is_thing(thing));
                let (left, taken) = (self.left[at][thing], self.taken[at][thing]);
                classes.push((format!("{source}, {name} alone is left"), can, left));
                classes.push((format!("{source}, {name} alone is taken away"), can, taken));
            }
        }
        for (outcome, counts) in OUTCOMES.iter().zip(&self.walks) {
            for (end, &count) in counts.iter().enumerate() {
                classes.push((format!("{outcome}, {}", walk_name(end)), true, count));
            }
        }
        classes
    }

    fn classes(&self) -> Vec<Class> {
        let mut classes = self.step_classes();
        classes.extend(self.thing_classes());
        classes.extend(self.foul.classes());
        classes
    }

    fn named(&self, wanted: impl Fn(&Class) -> bool) -> Vec<String> {
        let classes = self.classes().into_iter().filter(wanted);
        classes
            .map(|class| format!("complete: {}", class.0))
            .collect()
    }

    /// The names of counts that are zero and should not be.
    pub fn missing(&self) -> Vec<String> {
        self.named(|(_, can, count)| *can && *count == 0)
    }

    /// The names of counts that are not zero, of what cannot occur.
    pub fn impossible(&self) -> Vec<String> {
        self.named(|(_, can, count)| !can && *count > 0)
    }
}

impl FoulCoverage {
    /// Every racking and limit out of range, every hook and every field of a carrier.
    fn classes(&self) -> Vec<Class> {
        let mut classes = Vec::new();
        for value in 0..=255 {
            let (limit, racking) = (usize::from(value), i32::from(value as i8));
            let foul = racking.abs() > MAX_RACKING;
            classes.push((
                format!("15 by racking {racking} alone"),
                foul,
                self.rackings[limit],
            ));
            let foul = is_bad(value);
            classes.push((
                format!("15 by limit {limit} alone"),
                foul,
                self.limits[limit],
            ));
        }
        for (hook, &count) in self.hooks.iter().enumerate() {
            classes.push((format!("15 by hook {hook} alone"), true, count));
        }
        for (carrier, counts) in self.fields.iter().enumerate() {
            for (field, &count) in FIELD_NAMES.iter().zip(counts) {
                let carrier = carrier + 1;
                classes.push((
                    format!("15 by carrier {carrier}'s {field} alone"),
                    true,
                    count,
                ));
            }
        }
        for limit in BAD_LIMITS {
            for number in [DONE].into_iter().chain(EMPTY_REFUSALS) {
                let count = self.over[usize::from(limit)][usize::from(number)];
                let name = format!("15 by limit {limit} alone, before {number}");
                classes.push((name, true, count));
            }
        }
        classes
    }

    fn all(&self) -> u64 {
        let values = [&self.rackings, &self.limits].map(|counts| counts.iter().sum::<u64>());
        let fields: u64 = self.fields.as_flattened().iter().sum();
        values.iter().sum::<u64>() + self.hooks.iter().sum::<u64>() + fields
    }
}

// The summary.

impl CompleteCoverage {
    /// Steps of a source that leave a complete state, by number.
    fn complete(&self, source: usize) -> [u64; NUMBERS] {
        let mut numbers = [0; NUMBERS];
        for limit in LIMITS.map(usize::from) {
            let done = self.done[source][limit].iter();
            numbers[0] += done.map(|sides| sides[0][1] + sides[1][1]).sum::<u64>();
            for (sum, counts) in numbers.iter_mut().zip(self.refused[source][limit]) {
                *sum += counts[1];
            }
        }
        numbers
    }

    pub fn print(&self) {
        let [reached, made] = [self.complete(0), self.complete(1)];
        let mut numbers = reached;
        for (sum, count) in numbers.iter_mut().zip(made) {
            *sum += count;
        }
        let (all, reached): (u64, u64) = (numbers.iter().sum(), reached.iter().sum());
        let cells = by_number(&numbers);
        println!("complete: after {all} steps, {reached} of them on reached states; {cells}");
        print_things("not complete for one thing alone", &self.left);
        print_things("the one thing taken away", &self.taken);
        println!(
            "complete: 15 on {} states that are empty but for one value, {} of them for the limit",
            self.foul.all(),
            self.foul.limits.iter().sum::<u64>()
        );
        self.print_walks();
        let classes = self.classes().into_iter().filter(|class| class.1);
        let least = classes.clone().map(|class| class.2).min().unwrap_or(0);
        println!("complete; {} classes, least {least}", classes.count());
    }

    fn print_walks(&self) {
        for (outcome, counts) in OUTCOMES.iter().zip(&self.walks) {
            let [first, last] = [counts[0], counts[HOOKS - 1]];
            let [none, racked] = [counts[NO_LOOP], counts[RACKED]];
            println!(
                "looked: {} steps agree, {outcome}; first hook {first}, last hook {last}, no loop {none}, racking not 0 {racked}",
                counts.iter().sum::<u64>()
            );
        }
    }
}

/// Steps by hooks, carriers and rackings.
fn print_things(name: &str, counts: &[[u64; THINGS]; 2]) {
    let sum = |things: Range<usize>| -> u64 {
        let of_source = counts.iter().map(|counts| &counts[things.clone()]);
        of_source.flatten().sum()
    };
    println!(
        "complete: {name}; hook {}, carrier {}, racking {}",
        sum(0..HOOKS),
        sum(HOOKS..HOOKS + CARRIERS),
        sum(HOOKS + CARRIERS..THINGS)
    );
}
