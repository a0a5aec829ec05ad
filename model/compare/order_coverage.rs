//! What the compared calls for the house order came to: numbers, limits, areas, lengths, moves.

use crate::coverage::{events, NUMBERS};
use crate::limit_coverage::{is_bad, LimitCoverage, ORDER};
use crate::machine::*;
use crate::order::order_watched;
use crate::order_calls::OrderCall;
use crate::order_moves::OrderMoves;
use crate::plated_coverage::PlatedCoverage;
use crate::rewrite::{rewrite_at, Order, NO_BENCH};
use crate::stretch_coverage::StretchCoverage;
use crate::swap_classes::{area_class, AREAS};

events! {
    EmptyProgram: "done with an empty program",
    FullProgram: "changed at 32768 bytes",
    FullWork: "done with 16384 records",
    FullFives: "changed with 6553 records of 5 bytes",
    FullDrops: "changed with 10000 records or more in one stretch",
    OddLength: "done at an odd length with half its bytes rounded down of work",
    WorkAllWritten: "done with a record's start in each work entry",
    WideOutput: "done with an output of 65536 bytes or more",
    WideWork: "done with 65536 work entries or more",
    ProgramOver: "too long by a program of 32769 bytes, otherwise valid",
    FarOver: "too long by 65536 bytes or more",
    TooLongNoBench: "too long while there is no bench",
    NoBenchRefused: "no bench while the program is refused",
    NoBenchStretched: "no bench while a rack is stretched",
    StrainedOrdered: "changed with a rack that leaves yarn of 20 or more",
    SameAfterSwaps: "same house order after swaps that change the program",
    OtherAfterTied: "another house order after two tied neighbours changed places",
    Twice: "ordered twice, the first time with a change",
    OtherLimit: "valid at two limits, with one house order",
    ReachedSeveral: "several programs that swaps lead between",
    ReachedApart: "programs of the same records that no swaps lead between",
}

/// The program, output and work, in this order.
pub const LOANS: [&str; 3] = ["program", "output", "work"];

pub struct OrderCoverage {
    pub numbers: [u64; NUMBERS],
    pub locked: [u64; NUMBERS],
    pub limits: LimitCoverage,
    pub stretch: StretchCoverage,
    pub plated: PlatedCoverage,
    pub moves: OrderMoves,
    areas: [[u64; 5]; 5],
    guarded: [u64; 3],
    null: [u64; 3],
    events: [u64; EVENTS.len()],
}

// Counting.

impl OrderCoverage {
    pub fn new() -> OrderCoverage {
        OrderCoverage {
            numbers: [0; NUMBERS],
            locked: [0; NUMBERS],
            limits: LimitCoverage::new(ORDER),
            stretch: StretchCoverage::new(),
            plated: PlatedCoverage::new(),
            moves: OrderMoves::new(),
            areas: [[0; 5]; 5],
            guarded: [0; 3],
            null: [0; 3],
            events: [0; EVENTS.len()],
        }
    }

    /// Makes the model's call and counts what it comes to.
    pub fn order(&mut self, call: &OrderCall, output: &mut [u8], work: &mut [u16]) -> Answer {
        let (limit, program) = (call.limit, call.program);
        let answer = order_watched(limit, program, output, work, |order, positions| {
            self.moves.order(order, positions);
            self.done(call, order, positions);
        });
        self.numbers[usize::from(answer.number)] += 1;
        if is_bad(limit) {
            self.bad_limit(call);
            return answer;
        }
        self.limits.call(limit, answer.number);
        self.areas[area_class(call.output, program.len())]
            [area_class(call.work, program.len() / 2)] += 1;
        match answer.number {
            TOO_LONG => self.too_long(call),
            NO_BENCH => {
                let otherwise = run_at(limit, program).number;
                self.note(Event::NoBenchRefused, otherwise != DONE);
                self.note(Event::NoBenchStretched, otherwise == STRETCHED);
            }
            _ => self.records(limit, program),
        }
        answer
    }

    /// Counts a call at a limit out of range by what it would come to at 8.
    fn bad_limit(&mut self, call: &OrderCall) {
        let (mut output, mut work) = (vec![0; call.output], vec![0; call.work]);
        let answer = rewrite_at(HOOK_LIMIT, call.program, &[], &mut output, &mut work);
        self.limits.bad(call.limit, answer.number);
    }

    fn records(&mut self, limit: u8, program: &[u8]) {
        run_watched(limit, program, |state, bytes, number| {
            self.limits.record(state, bytes, number);
            self.stretch.record(state, bytes, number);
            if limit == HOOK_LIMIT {
                self.plated.record(state, bytes, number);
            }
        });
    }

    /// Counts a refused call with output and work in read-only memory: a store would have ended the
    /// program.
    pub fn locked(&mut self, number: u8) {
        self.locked[usize::from(number)] += 1;
    }

    /// A loan that ends at a guard page with nothing behind it, or a null pointer.
    pub fn loan(&mut self, loan: usize, guarded: bool, null: bool) {
        self.guarded[loan] += u64::from(guarded);
        self.null[loan] += u64::from(null);
    }

    pub fn note(&mut self, event: Event, happened: bool) {
        self.events[event as usize] += u64::from(happened);
    }

    fn done(&mut self, call: &OrderCall, order: &Order, positions: &[usize]) {
        let (length, records) = (call.program.len(), positions.len());
        let changed = positions.iter().enumerate().any(|(at, &from)| at != from);
        let just = call.work == length / 2;
        self.note(Event::EmptyProgram, length == 0);
        self.note(Event::FullProgram, changed && length == PROGRAM_LIMIT);
        self.note(Event::FullWork, records == PROGRAM_LIMIT / 2);
        self.note(Event::OddLength, length % 2 == 1 && just);
        self.note(Event::WorkAllWritten, records > 0 && records == call.work);
        self.note(Event::WideOutput, call.output >= 65_536);
        self.note(Event::WideWork, call.work >= 65_536);
        if changed && length == PROGRAM_LIMIT {
            let parts = &order.parts;
            let fives = parts.iter().filter(|part| part.bytes.len() == 5).count();
            self.note(Event::FullFives, fives == PROGRAM_LIMIT / 5);
            let stretches = parts.split(|part| matches!(part.record, Record::Rack(_)));
            let longest = stretches.map(|stretch| stretch.len()).max();
            self.note(Event::FullDrops, longest >= Some(10_000));
        }
    }

    fn too_long(&mut self, call: &OrderCall) {
        let length = call.program.len();
        let valid = || run_records(call.limit, call.program, |_, _, _| {}).number == DONE;
        self.note(Event::ProgramOver, length == PROGRAM_LIMIT + 1 && valid());
        self.note(Event::FarOver, length >= 65_536);
        let short = call.output < length || call.work < length / 2;
        self.note(Event::TooLongNoBench, short);
    }
}

// What is missing.

impl OrderCoverage {
    /// The names of counts that are zero and should not be.
    pub fn missing(&self) -> Vec<String> {
        let mut missing = Vec::new();
        for &number in ORDER.numbers.iter().chain(&[FOUL_STATE]) {
            if self.numbers[usize::from(number)] == 0 {
                missing.push(format!("order number {number}"));
            }
            if number != DONE && self.locked[usize::from(number)] == 0 {
                missing.push(format!("order number {number} in read-only memory"));
            }
        }
        for (name, _) in EVENTS.iter().zip(self.events).filter(|e| e.1 == 0) {
            missing.push(format!("order: {name}"));
        }
        self.missing_areas(&mut missing);
        missing.extend(self.limits.missing());
        missing.extend(self.stretch.missing("order"));
        missing.extend(self.plated.missing("order"));
        missing.extend(self.moves.missing());
        missing
    }

    fn missing_areas(&self, missing: &mut Vec<String>) {
        for (output, counts) in AREAS.iter().zip(self.areas) {
            for (work, _) in AREAS.iter().zip(counts).filter(|e| e.1 == 0) {
                missing.push(format!("order: output {output}, work {work}"));
            }
        }
        for (name, _) in LOANS.iter().zip(self.guarded).filter(|e| e.1 == 0) {
            missing.push(format!("order: {name} before a guard page"));
        }
        for (name, _) in LOANS.iter().zip(self.null).filter(|e| e.1 == 0) {
            missing.push(format!("order: {name} null"));
        }
    }

    /// The names of counts that are not zero, of what cannot occur.
    pub fn impossible(&self) -> Vec<String> {
        let mut impossible = self.limits.impossible();
        impossible.extend(self.stretch.impossible("order"));
        impossible.extend(self.moves.impossible());
        impossible
    }

    pub fn print(&self) {
        self.limits.print();
        self.stretch.print("order");
        self.plated.print("order");
        self.moves.print();
        for (name, count) in EVENTS.iter().zip(self.events) {
            println!("{count:>9}  {name}");
        }
    }
}
