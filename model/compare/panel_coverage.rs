//! What the compared panel calls came to: numbers, kinds, changed values, slices, lengths of lists.

use crate::by_number;
use crate::complete_coverage::CompleteCoverage;
use crate::coverage::{events, KIND_COUNT, KIND_NAMES, NUMBERS};
use crate::limit_coverage::{is_bad, LimitCoverage, LIST, STEP};
use crate::machine::*;
use crate::panel_states::{Change, Field};
use crate::plated_coverage::PlatedCoverage;
use crate::raw_state::*;
use crate::rewrite::NO_BENCH;
use crate::stretch_coverage::StretchCoverage;

events! {
    StepNull: "step of no bytes at a null pointer",
    StepGuarded: "accepted step of just the record before a guard page",
    StepFollowed: "accepted step with other bytes behind the record",
    StepWide: "accepted step of a slice of 256 bytes or more",
    StepWidest: "accepted step of a slice of 65536 bytes or more",
    StepReadOnly: "accepted step of bytes in read-only memory",
    StateGuarded: "state lent before a guard page",
    StateMarked: "state lent before marks",
    WentOn: "record accepted just after a refused one",
    OverLimit: "program over the limit stepped to its end",
    LeftmostSlot: "step that parks at slot -8",
    RightmostSlot: "step that parks at slot 258",
    FullHook: "step that leaves 8 loops on a hook",
    EmptyAgain: "step that leaves the empty state",
    FoulTouched: "foul state and a record that works on its foul field",
    FoulSeveral: "foul state by several values or by random bytes",
    LimitUnder: "reached state with its limit lowered under what it holds",
    LimitDown: "accepted step of a reached state with its limit lowered to what it holds",
    LimitUp: "accepted step of a reached state with its limit raised",
    LimitFuller: "accepted step that fills a hook over the limit before it was raised",
    ListReadOnly: "list of ten or more of a state in read-only memory",
    ListGuarded: "list of ten before a guard page",
    ListNull: "list of none at a null pointer",
    ListWide: "list of 256 entries or more",
    ListWidest: "list of 65536 entries or more",
}

/// Where a call's state comes from: a program's records stepped so far, or made for the call.
#[derive(Clone, Copy)]
pub enum Source {
    Reached,
    Made,
}

pub const SOURCES: [&str; 2] = ["reached state", "made state"];

#[derive(Clone, Copy)]
pub enum Service {
    Step,
    List,
}

const SERVICES: [&str; 2] = ["step", "list"];

/// The longest list of which every length is wanted.
pub const MOST_COUNT: usize = 12;

// The least counts.
const LEAST_STEPS: u64 = 100_000;
const LEAST_LISTS: u64 = 100_000;
const LEAST_NUMBER: u64 = 300;
const LEAST_KIND: u64 = 1_000;
const LEAST_CARRIER: u64 = 50;
const LEAST_HOOK: u64 = 5;
const LEAST_CHANGE: u64 = 10;
const LEAST_COUNT: u64 = 4_000;

/// Calls with a changed value that is still in range, and with one that is foul.
type InAndOut = [u64; 2];

/// A service's changed values; of carriers by index, status and field. `edges` are hooks by the
/// limit, at it and one over it.
struct Changes {
    rackings: [u64; 256],
    limits: [u64; 256],
    hooks: [InAndOut; HOOKS],
    edges: Box<[[InAndOut; HOOKS]; 9]>,
    carriers: [[[InAndOut; 5]; 3]; CARRIERS],
}

pub struct PanelCoverage {
    steps: [[u64; NUMBERS]; 2],
    lists: [[u64; NUMBERS]; 2],
    kinds: [[u64; KIND_COUNT]; 2],
    carriers: [[u64; CARRIERS]; KIND_COUNT],
    hooks: [u64; HOOKS],
    foul_over: [u64; NUMBERS],
    locked: [[u64; NUMBERS]; 2],
    plated: PlatedCoverage,
    stretch: StretchCoverage,
    limits: [LimitCoverage; 2],
    pub complete: CompleteCoverage,
    changes: [Changes; 2],
    counts: [[u64; NUMBERS]; MOST_COUNT + 1],
    events: [u64; EVENTS.len()],
}

// Counting.

impl PanelCoverage {
    pub fn new() -> PanelCoverage {
        PanelCoverage {
            steps: [[0; NUMBERS]; 2],
            lists: [[0; NUMBERS]; 2],
            kinds: [[0; KIND_COUNT]; 2],
            carriers: [[0; CARRIERS]; KIND_COUNT],
            hooks: [0; HOOKS],
            foul_over: [0; NUMBERS],
            locked: [[0; NUMBERS]; 2],
            plated: PlatedCoverage::new(),
            stretch: StretchCoverage::new(),
            limits: [LimitCoverage::new(STEP), LimitCoverage::new(LIST)],
            complete: CompleteCoverage::new(),
            changes: [0; 2].map(|_| Changes {
                rackings: [0; 256],
                limits: [0; 256],
                hooks: [[0; 2]; HOOKS],
                edges: Box::new([[[0; 2]; HOOKS]; 9]),
                carriers: [[[[0; 2]; 5]; 3]; CARRIERS],
            }),
            counts: [[0; NUMBERS]; MOST_COUNT + 1],
            events: [0; EVENTS.len()],
        }
    }

    pub fn note(&mut self, event: Event, happened: bool) {
        self.events[event as usize] += u64::from(happened);
    }

    pub fn step(&mut self, source: Source, states: [&RawState; 2], bytes: &[u8], given: Stepped) {
        self.steps[source as usize][usize::from(given.number)] += 1;
        self.limit(Service::Step, states[0], given.number);
        self.complete.step(source, states, bytes, given);
        if given.number != FOUL_STATE {
            let before = states[0].state();
            self.limits[0].record(&before, bytes, given.number);
            self.stretch.record(&before, bytes, given.number);
            if before.limit == HOOK_LIMIT {
                self.plated.record(&before, bytes, given.number);
            }
        }
        if given.number == DONE {
            self.kinds[source as usize][usize::from(bytes[0])] += 1;
            self.accepted(states, &bytes[..given.length]);
            self.note(Event::StepFollowed, bytes.len() > given.length);
            self.note(Event::StepWide, bytes.len() >= 256);
            self.note(Event::StepWidest, bytes.len() >= 65_536);
        }
    }

    fn accepted(&mut self, [before, after]: [&RawState; 2], record: &[u8]) {
        if before.loops != after.loops {
            for hook in (0..HOOKS).filter(|&hook| before.loops[hook] != after.loops[hook]) {
                self.hooks[hook] += 1;
                self.note(Event::FullHook, after.loops[hook] == HOOK_LIMIT);
            }
        }
        let kind = record[0];
        let record = read_record(record).map(|(record, _)| record);
        for m in record.iter().flat_map(Record::carrier_moves) {
            self.carriers[usize::from(kind)][m.carrier] += 1;
            let (slot, active) = (after.carriers[m.carrier].slot, kind != OUT);
            self.note(Event::LeftmostSlot, active && slot == LEAST_SLOT);
            self.note(Event::RightmostSlot, active && slot == MOST_SLOT);
            self.note(
                Event::EmptyAgain,
                !active && *after == RawState::empty(after.limit),
            );
        }
    }

    fn limit(&mut self, service: Service, state: &RawState, number: u8) {
        if !is_bad(state.limit) {
            self.limits[service as usize].call(state.limit, number);
        }
    }

    /// Counts a foul state by what the step would give without the foul values.
    pub fn foul_over(&mut self, state: &RawState, number: u8) {
        self.foul_over[usize::from(number)] += 1;
        if is_bad(state.limit) {
            self.limits[0].bad(state.limit, number);
        }
    }

    /// Counts a refused call with its loan in read-only memory: a store would have ended the program.
    pub fn locked(&mut self, service: Service, number: u8) {
        self.locked[service as usize][usize::from(number)] += 1;
    }

    pub fn list(&mut self, source: Source, state: &RawState, count: usize, number: u8) {
        self.limit(Service::List, state, number);
        if is_bad(state.limit) {
            let otherwise = if count < CARRIERS { NO_BENCH } else { DONE };
            self.limits[1].bad(state.limit, otherwise);
        }
        self.lists[source as usize][usize::from(number)] += 1;
        if count <= MOST_COUNT {
            self.counts[count][usize::from(number)] += 1;
        }
        self.note(Event::ListWide, count >= 256);
        self.note(Event::ListWidest, count >= 65_536);
    }

    pub fn change(&mut self, service: Service, change: &Change, foul: bool) {
        let changes = &mut self.changes[service as usize];
        let outcome = usize::from(foul);
        let field = match change.field {
            Field::Racking => {
                changes.rackings[usize::from(change.value as i8 as u8)] += 1;
                return;
            }
            Field::Limit => {
                changes.limits[change.value as usize] += 1;
                return;
            }
            Field::Loops(hook) => {
                changes.hooks[hook][outcome] += 1;
                let limit = change.limit.unwrap_or(HOOK_LIMIT);
                if change.value <= i32::from(limit) + 1 {
                    changes.edges[usize::from(limit)][hook][outcome] += 1;
                }
                return;
            }
            Field::Active(_) => 0,
            Field::Side(_) => 1,
            Field::Slot(_) => 2,
            Field::Bed(_) => 3,
            Field::Needle(_) => 4,
        };
        if let Some((carrier, status)) = change.before {
            changes.carriers[carrier][status as usize][field][outcome] += 1;
        }
    }
}

// What is missing.

pub const FIELD_NAMES: [&str; 5] = ["active", "side", "slot", "bed", "needle"];
const STATUS_NAMES: [&str; 3] = ["inactive", "unattached", "attached"];
const OUTCOMES: [&str; 2] = ["in range", "foul"];

/// The numbers that a step can give; on a reached state all but 15.
fn step_numbers() -> impl Iterator<Item = u8> {
    [DONE, FOUL_STATE]
        .into_iter()
        .chain(UNKNOWN_KIND..=FIELD_RANGE)
        .chain(RECORD_NUMBERS)
}

fn want(missing: &mut Vec<String>, count: u64, least: u64, name: impl FnOnce() -> String) {
    if count < least {
        missing.push(format!("panel: {}, {least} times ({count})", name()));
    }
}

impl PanelCoverage {
    /// The names of counts that are too low.
    pub fn missing(&self) -> Vec<String> {
        let mut missing = Vec::new();
        self.missing_numbers(&mut missing);
        self.missing_kinds(&mut missing);
        self.missing_lists(&mut missing);
        for (service, changes) in SERVICES.iter().zip(&self.changes) {
            missing_changes(&mut missing, service, changes);
        }
        for (name, count) in EVENTS.iter().zip(self.events) {
            want(&mut missing, count, 1, || name.to_string());
        }
        missing.extend(self.plated.missing("step"));
        missing.extend(self.stretch.missing("step"));
        missing.extend(self.limits.iter().flat_map(LimitCoverage::missing));
        missing.extend(self.complete.missing());
        missing
    }

    /// The names of counts that are not zero, of what cannot occur.
    pub fn impossible(&self) -> Vec<String> {
        let limits = self.limits.iter().flat_map(LimitCoverage::impossible);
        let stretch = self.stretch.impossible("step");
        limits
            .chain(self.complete.impossible())
            .chain(stretch)
            .collect()
    }

    fn missing_numbers(&self, missing: &mut Vec<String>) {
        for (source, numbers) in SOURCES.iter().zip(self.steps) {
            let all = numbers.iter().sum();
            want(missing, all, LEAST_STEPS, || format!("step of a {source}"));
        }
        for number in step_numbers() {
            let at = usize::from(number);
            if number != FOUL_STATE {
                want(missing, self.steps[0][at], LEAST_NUMBER, || {
                    format!("step of a reached state with {number}")
                });
                want(missing, self.foul_over[at], LEAST_NUMBER, || {
                    format!("step of a foul state that would give {number}")
                });
            }
            want(missing, self.steps[1][at], LEAST_NUMBER, || {
                format!("step of a made state with {number}")
            });
            if number != DONE {
                want(missing, self.locked[0][at], LEAST_NUMBER, || {
                    format!("step of a state in read-only memory with {number}")
                });
            }
        }
    }

    fn missing_kinds(&self, missing: &mut Vec<String>) {
        for kind in KINDS.map(usize::from) {
            let name = KIND_NAMES[kind];
            for (source, kinds) in SOURCES.iter().zip(self.kinds) {
                want(missing, kinds[kind], LEAST_KIND, || {
                    format!("{name} accepted on a {source}")
                });
            }
            for carrier in (0..CARRIERS).filter(|_| kind >= usize::from(IN)) {
                want(missing, self.carriers[kind][carrier], LEAST_CARRIER, || {
                    format!("{name} with carrier {} accepted", carrier + 1)
                });
            }
        }
        for (hook, &count) in self.hooks.iter().enumerate() {
            want(missing, count, LEAST_HOOK, || {
                format!("step that changes hook {hook}")
            });
        }
    }

    fn missing_lists(&self, missing: &mut Vec<String>) {
        let all = self.lists.as_flattened().iter().sum();
        want(missing, all, LEAST_LISTS, || "list".to_string());
        for number in [NO_BENCH, FOUL_STATE] {
            let count = self.locked[1][usize::from(number)];
            want(missing, count, LEAST_NUMBER, || {
                format!("list in read-only memory with {number}")
            });
        }
        for (source, numbers) in SOURCES.iter().zip(self.lists) {
            for number in [DONE, NO_BENCH] {
                want(missing, numbers[usize::from(number)], LEAST_NUMBER, || {
                    format!("list of a {source} with {number}")
                });
            }
        }
        for (count, numbers) in self.counts.iter().enumerate() {
            let sound = if count < CARRIERS { NO_BENCH } else { DONE };
            for number in [sound, FOUL_STATE] {
                want(missing, numbers[usize::from(number)], LEAST_COUNT, || {
                    format!("list of {count} with {number}")
                });
            }
        }
    }
}

fn missing_changes(missing: &mut Vec<String>, service: &str, changes: &Changes) {
    for (racking, &count) in changes.rackings.iter().enumerate() {
        want(missing, count, LEAST_CHANGE, || {
            format!("{service} with racking {}", racking as u8 as i8)
        });
    }
    for (limit, &count) in changes.limits.iter().enumerate() {
        want(missing, count, LEAST_CHANGE, || {
            format!("{service} with limit {limit}")
        });
    }
    missing_edges(missing, service, changes);
    for outcome in 0..2 {
        for (hook, counts) in changes.hooks.iter().enumerate() {
            want(missing, counts[outcome], LEAST_CHANGE, || {
                format!("{service}, hook {hook} {}", OUTCOMES[outcome])
            });
        }
        for (carrier, statuses) in changes.carriers.iter().enumerate() {
            for (status, fields) in STATUS_NAMES.iter().zip(statuses) {
                for (field, counts) in FIELD_NAMES.iter().zip(fields) {
                    want(missing, counts[outcome], LEAST_CHANGE, || {
                        let (carrier, outcome) = (carrier + 1, OUTCOMES[outcome]);
                        format!("{service}, {status} carrier {carrier}, {field} {outcome}")
                    });
                }
            }
        }
    }
}

fn missing_edges(missing: &mut Vec<String>, service: &str, changes: &Changes) {
    for limit in LIMITS {
        for (hook, counts) in changes.edges[usize::from(limit)].iter().enumerate() {
            for (outcome, &count) in ["at", "one over"].iter().zip(counts) {
                want(missing, count, 1, || {
                    format!("{service}, hook {hook} {outcome} limit {limit}")
                });
            }
        }
    }
}

// The summary.

fn numbers(rows: &[[u64; NUMBERS]]) -> (u64, String) {
    let sums: Vec<u64> = (0..NUMBERS)
        .map(|at| rows.iter().map(|row| row[at]).sum())
        .collect();
    (sums.iter().sum(), by_number(&sums))
}

impl PanelCoverage {
    pub fn print(&self) {
        let (steps, cells) = numbers(&self.steps);
        let reached: u64 = self.steps[0].iter().sum();
        println!("panel: {steps} steps agree, {reached} of them on reached states; {cells}");
        self.complete.print();
        self.plated.print("step");
        self.stretch.print("step");
        self.limits.iter().for_each(LimitCoverage::print);
        let (lists, cells) = numbers(&self.lists);
        println!("panel: {lists} carrier lists agree; {cells}");
        for (service, counts) in SERVICES.iter().zip(self.locked) {
            let (calls, cells) = numbers(&[counts]);
            println!(
                "panel: {calls} refused {service}s store nothing in read-only memory; {cells}"
            );
        }
    }
}
