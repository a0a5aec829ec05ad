//! What came at each hook limit: numbers by kind, loops at it and over it, 15 by bad limits.

use crate::by_number;
use crate::coverage::{KIND_COUNT, KIND_NAMES, KIND_NUMBERS, NUMBERS};
use crate::machine::*;
use crate::rewrite::{NO_BENCH, NO_PAIR, TIED, TORN_LOG};

/// Limits that calls are made at: all in range, those next to them, and the greatest byte.
pub const CALL_LIMITS: [u8; 11] = [0, 1, 2, 3, 4, 5, 6, 7, 8, 9, 255];

/// Limits out of range that must come before every number; of the others, each must come.
pub const BAD_LIMITS: [u8; 3] = [0, 9, 255];

pub fn is_bad(limit: u8) -> bool {
    !LIMITS.contains(&limit)
}

/// A kind of call, with the numbers that it can give at a limit in range.
pub struct Calls {
    name: &'static str,
    pub numbers: &'static [u8],
}

pub const RUN: Calls = Calls {
    name: "run",
    numbers: &[0, 1, 3, 4, 5, 16, 17, 6, 7, 8, 9, 10, 11],
};
pub const REWRITER: Calls = Calls {
    name: "rewriter",
    numbers: &[0, 1, 2, 3, 4, 5, 16, 17, 6, 7, 8, 9, 10, 11, 14, 12, 13],
};
pub const ORDER: Calls = Calls {
    name: "order",
    numbers: &[0, 1, 2, 3, 4, 5, 16, 17, 6, 7, 8, 9, 10, 11],
};
pub const STEP: Calls = Calls {
    name: "step",
    numbers: &[0, 15, 3, 4, 5, 16, 17, 6, 7, 8, 9, 10, 11],
};
pub const LIST: Calls = Calls {
    name: "list",
    numbers: &[0, 15, 2],
};

impl Calls {
    fn look_at_records(&self) -> bool {
        self.numbers.contains(&UNKNOWN_KIND)
    }
}

/// By kind: records with each number; accepted ones whose loops are just the limit, and refused ones
/// one over it; accepted ones about a hook at the limit that gets no loop more.
#[derive(Clone, Copy)]
struct Counts {
    calls: [u64; NUMBERS],
    kinds: [[u64; NUMBERS]; KIND_COUNT],
    just: [u64; KIND_COUNT],
    over: [u64; KIND_COUNT],
    full: [u64; KIND_COUNT],
}

const NONE: Counts = Counts {
    calls: [0; NUMBERS],
    kinds: [[0; NUMBERS]; KIND_COUNT],
    just: [0; KIND_COUNT],
    over: [0; KIND_COUNT],
    full: [0; KIND_COUNT],
};

/// Limit l has index l; `bad` is by limit and by the number that a limit in range gives.
pub struct LimitCoverage {
    of: Calls,
    limits: Box<[Counts; 9]>,
    bad: Box<[[u64; NUMBERS]; 256]>,
}

// Counting.

/// The hook that a record names as its last and adds no loop to.
fn hook_kept(state: &State, record: &Record) -> Option<Needle> {
    match *record {
        Record::Knit(m) => Some(m.needle),
        Record::PlatedKnit(p) => Some(p.first.needle),
        _ => {
            let (first, second) = record.transfer()?;
            (state.loops(first) == 0).then_some(second)
        }
    }
}

impl Counts {
    fn accepted(&mut self, state: &State, record: &Record) {
        let kind = usize::from(record.kind());
        if let Some(kept) = hook_kept(state, record) {
            self.full[kind] += u64::from(state.loops(kept) == state.limit);
            if record.transfer().is_some() {
                return;
            }
        }
        let just = loops_measured(state, record) == Some(state.limit);
        self.just[kind] += u64::from(just);
    }

    fn hook_full(&mut self, state: &State, record: &Record) {
        let over = loops_measured(state, record) == Some(state.limit + 1);
        self.over[usize::from(record.kind())] += u64::from(over);
    }
}

impl LimitCoverage {
    pub fn new(of: Calls) -> LimitCoverage {
        LimitCoverage {
            of,
            limits: Box::new([NONE; 9]),
            bad: Box::new([[0; NUMBERS]; 256]),
        }
    }

    /// Runs the model on a program at a limit and counts what it comes to.
    pub fn run(&mut self, limit: u8, program: &[u8]) -> Answer {
        let answer = run_watched(limit, program, |state, bytes, number| {
            self.record(state, bytes, number);
        });
        self.call(limit, answer.number);
        answer
    }

    /// Counts a call at a limit in range.
    pub fn call(&mut self, limit: u8, number: u8) {
        if let Some(counts) = self.limits.get_mut(usize::from(limit)) {
            counts.calls[usize::from(number)] += 1;
        }
    }

    /// Counts a call at a bad limit by the number that it would have at one in range.
    pub fn bad(&mut self, limit: u8, otherwise: u8) {
        self.bad[usize::from(limit)][usize::from(otherwise)] += 1;
    }

    /// Counts a record that a call came to.
    pub fn record(&mut self, state: &State, bytes: &[u8], number: u8) {
        let Some(&kind) = bytes.first().filter(|kind| KINDS.contains(kind)) else {
            return;
        };
        let counts = &mut self.limits[usize::from(state.limit)];
        counts.kinds[usize::from(kind)][usize::from(number)] += 1;
        let looked_at = matches!(kind, XFER | TUCK..=PLATED_KNIT);
        if !looked_at || !matches!(number, DONE | HOOK_FULL) {
            return;
        }
        match (number, read_record(bytes)) {
            (DONE, Ok((record, _))) => counts.accepted(state, &record),
            (_, Ok((record, _))) => counts.hook_full(state, &record),
            _ => (),
        }
    }
}

// What can occur.

/// Whether a record of a kind can get a number at a limit. Two loops of a plated stitch never fit a
/// limit of 1, and those of a plated knit fit every other.
fn can_get(limit: u8, kind: u8, number: u8) -> bool {
    match (kind, number) {
        (PLATED_TUCK | PLATED_KNIT, DONE) => limit > 1,
        (PLATED_KNIT, HOOK_FULL) => limit == 1,
        (_, DONE | CUT_SHORT | FIELD_RANGE) => true,
        _ => {
            let mut rows = KIND_NUMBERS.iter().filter(|row| row.0 == kind);
            rows.any(|row| row.1.contains(&number))
        }
    }
}

/// Whether a kind's loops that are measured against a limit can be so many.
fn can_measure(limit: u8, kind: u8, loops: u8) -> bool {
    match kind {
        TUCK => (1..=limit + 1).contains(&loops),
        PLATED_TUCK => (2..=limit + 2).contains(&loops),
        PLATED_KNIT => loops == 2,
        XFER | SPLIT => loops <= 2 * limit,
        _ => false,
    }
}

/// Whether a record of a kind can be accepted about a hook at the limit that gets no loop more.
fn can_keep(limit: u8, kind: u8) -> bool {
    matches!(kind, KNIT | XFER | SPLIT) || (kind == PLATED_KNIT && limit > 1)
}

/// What can be counted: its name, whether it can occur, and its count.
pub type Class = (String, bool, u64);

impl Counts {
    fn classes(&self, of: &Calls, limit: u8) -> Vec<Class> {
        let mut classes = Vec::new();
        for number in 0..NUMBERS as u8 {
            let count = self.calls[usize::from(number)];
            let can = of.numbers.contains(&number);
            classes.push((format!("number {number}"), can, count));
        }
        for kind in KINDS.filter(|_| of.look_at_records()) {
            self.kind_classes(limit, kind, &mut classes);
        }
        classes
    }

    fn kind_classes(&self, limit: u8, kind: u8, classes: &mut Vec<Class>) {
        let at = usize::from(kind);
        let name = KIND_NAMES[at];
        for number in 0..NUMBERS as u8 {
            let count = self.kinds[at][usize::from(number)];
            let can = can_get(limit, kind, number);
            classes.push((format!("{name} with {number}"), can, count));
        }
        let rows = [
            (
                "that makes just the limit",
                can_measure(limit, kind, limit),
                self.just[at],
            ),
            (
                "refused one over the limit",
                can_measure(limit, kind, limit + 1),
                self.over[at],
            ),
            (
                "about a hook kept at the limit",
                can_keep(limit, kind),
                self.full[at],
            ),
        ];
        for (row, can, count) in rows {
            classes.push((format!("{name} {row}"), can, count));
        }
    }
}

impl LimitCoverage {
    fn bad_classes(&self) -> Vec<Class> {
        let mut classes = Vec::new();
        let own = |number: &u8| self.of.numbers.contains(number) && *number != FOUL_STATE;
        for limit in BAD_LIMITS {
            for number in (0..NUMBERS as u8).filter(own) {
                let count = self.bad[usize::from(limit)][usize::from(number)];
                classes.push((format!("limit {limit} before {number}"), true, count));
            }
        }
        for limit in 0..=255 {
            let count = self.bad[usize::from(limit)].iter().sum();
            classes.push((format!("bad limit {limit}"), is_bad(limit), count));
        }
        classes
    }

    fn classes(&self) -> Vec<Class> {
        let mut classes = self.bad_classes();
        for limit in LIMITS {
            let own = self.limits[usize::from(limit)].classes(&self.of, limit);
            let at = |(name, can, count)| (format!("limit {limit}, {name}"), can, count);
            classes.extend(own.into_iter().map(at));
        }
        classes
    }

    fn named(&self, wanted: impl Fn(&Class) -> bool) -> Vec<String> {
        let classes = self.classes().into_iter().filter(wanted);
        let name = |class: Class| format!("{}: {}", self.of.name, class.0);
        classes.map(name).collect()
    }

    /// The names of counts that are zero and should not be.
    pub fn missing(&self) -> Vec<String> {
        self.named(|(_, can, count)| *can && *count == 0)
    }

    /// The names of counts that are not zero, of what cannot occur.
    pub fn impossible(&self) -> Vec<String> {
        self.named(|(_, can, count)| !can && *count > 0)
    }
}

// The summary.

impl LimitCoverage {
    pub fn print(&self) {
        let name = self.of.name;
        for limit in LIMITS {
            let counts = &self.limits[usize::from(limit)];
            println!("{name} at limit {limit}; {}", by_number(&counts.calls));
            let full = |kind: &usize| counts.kinds[*kind][usize::from(HOOK_FULL)];
            let kinds = (0..KIND_COUNT).filter(|kind| full(kind) > 0);
            let cells: Vec<String> = kinds
                .map(|kind| format!("{} {}", KIND_NAMES[kind], full(&kind)))
                .collect();
            if self.of.look_at_records() {
                println!("{name} at limit {limit}; 11 by {}", cells.join(", "));
            }
        }
        let classes = self.classes().into_iter().filter(|class| class.1);
        let least = classes.clone().map(|class| class.2).min().unwrap_or(0);
        let bad: u64 = self.bad.as_flattened().iter().sum();
        println!(
            "{name}; {} classes by limits, least {least}",
            classes.count()
        );
        println!("{name}; {bad} calls at bad limits get 15 before all else");
    }
}

// A program at two limits, and calls of a list at limits other than the starting one.

/// Programs valid at a limit and compared at a greater one.
pub struct Raised {
    programs: [[u64; 9]; 9],
}

impl Raised {
    pub fn new() -> Raised {
        Raised {
            programs: [[0; 9]; 9],
        }
    }

    pub fn valid(&mut self, lower: u8, greater: u8) {
        self.programs[usize::from(lower)][usize::from(greater)] += 1;
    }

    fn classes(&self) -> Vec<(String, u64)> {
        let mut classes = Vec::new();
        for lower in 1..9 {
            for greater in lower + 1..9 {
                let count = self.programs[lower][greater];
                classes.push((format!("valid at limits {lower} and {greater}"), count));
            }
        }
        classes
    }

    pub fn missing(&self) -> Vec<String> {
        let zero = self.classes().into_iter().filter(|class| class.1 == 0);
        zero.map(|(class, _)| class).collect()
    }

    pub fn print(&self) {
        let all: u64 = self.classes().iter().map(|class| class.1).sum();
        println!("{all} programs valid at a limit have the same end at a greater one");
    }
}

/// How a call at another limit ends: refused by the run, at a lower or greater limit written, 15.
const ENDS: [&str; 4] = [
    "hook full",
    "written at a lower limit",
    "written at a greater one",
    "bad",
];

/// Calls of lists at other limits than the starting one, by that one and by their end.
pub struct OtherLimits {
    calls: [[u64; 4]; 9],
}

impl OtherLimits {
    pub fn new() -> OtherLimits {
        OtherLimits { calls: [[0; 4]; 9] }
    }

    /// Counts a call at another limit on a program valid at the starting one. Gives whether it can
    /// end so.
    pub fn call(&mut self, start: u8, limit: u8, number: u8) -> bool {
        let end = match number {
            FOUL_STATE => 3,
            HOOK_FULL => 0,
            DONE | NO_PAIR | TIED | TORN_LOG => 1 + usize::from(limit > start),
            _ => return matches!(number, TOO_LONG | NO_BENCH),
        };
        self.calls[usize::from(start)][end] += 1;
        match end {
            0 => limit < start,
            3 => is_bad(limit),
            _ => !is_bad(limit),
        }
    }

    pub fn missing(&self) -> Vec<String> {
        let mut missing = Vec::new();
        for start in LIMITS {
            let can = [start > 1, start > 1, start < HOOK_LIMIT, true];
            for (end, _) in can.iter().enumerate().filter(|end| *end.1) {
                if self.calls[usize::from(start)][end] == 0 {
                    let end = ENDS[end];
                    missing.push(format!("list from limit {start}, call at another: {end}"));
                }
            }
        }
        missing
    }

    pub fn print(&self) {
        for (end, name) in ENDS.iter().enumerate() {
            let all: u64 = self.calls.iter().map(|calls| calls[end]).sum();
            println!("lists: {all} calls at another limit than the starting one: {name}");
        }
    }
}
