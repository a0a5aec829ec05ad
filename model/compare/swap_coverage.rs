//! What the compared rewriter calls came to: numbers, pairs of kinds, extents, racks, logs, areas.

use crate::calls::Call;
use crate::coverage::{events, KIND_COUNT, KIND_NAMES, NUMBERS};
use crate::lend::place_in;
use crate::limit_coverage::{is_bad, LimitCoverage, REWRITER};
use crate::machine::*;
use crate::plated_coverage::{PlatedCoverage, PlatedTies};
use crate::rewrite::*;
use crate::stretch_coverage::StretchCoverage;
use crate::swap_classes::*;

events! {
    CarrierAlone: "tied by one carrier alone",
    EqualDrops: "tied: two equal drops",
    NumbersApart: "tied on different beds at equal columns, needle numbers apart",
    NumbersEqual: "swapped on different beds at apart columns, needle numbers equal",
    NegativeColumn: "swapped with a column below 0",
    HighColumn: "swapped with a column over 249",
    EdgeToEdge: "swapped at columns 256 or more apart",
    LastPair: "swapped with the last record, lengths unequal",
    MovedOnward: "swapped at a position next to the one before",
    SwappedBack: "swapped at the position of the swap before",
    RackBehindSwapped: "swapped where the rack behind the pair would tie",
    RackBehindTied: "tied where the rack behind the pair would not tie",
    RackFarSwapped: "swapped where the racking before one over 64 records back would tie",
    RackFarTied: "tied where the racking before one over 64 records back would not tie",
    RackLateSwapped: "swapped at position 8192 or more where the racking before would tie",
    RackLateTied: "tied at position 8192 or more where the racking before would not tie",
    NoPairLast: "no pair at the last record",
    NoPairBehind: "no pair just behind the last record",
    NoPairFar: "no pair at position 65535",
    NoPairEmpty: "no pair in an empty program",
    NoPairOne: "no pair in a program of one record",
    NoPairLastRack: "no pair at a last record that is a rack",
    TornOne: "torn log, one byte left",
    TornTwo: "torn log, two bytes left",
    TornKind: "torn log by its kind",
    TornNoPair: "torn log while there is no pair",
    TornTied: "torn log while the pair is tied",
    TornUntied: "torn log by its kind at a pair that may swap",
    LateNumber: "12 to 14 after 100 swaps or more",
    GoodBehind: "12 to 14 with a swap that could be made behind",
    LongLog: "300 swaps or more in one log, done",
    LongestLog: "10922 swaps in one log, done",
    LogLimit: "torn log at 32766 of 32768 bytes",
    LogOver: "too long by a log of 32769 bytes alone",
    ProgramOver: "too long by a program of 32769 bytes alone",
    FarOver: "too long by 65536 bytes or more",
    TooLongNoBench: "too long while there is no bench",
    TooLongRefused: "too long by the log while the program is refused",
    NoBenchRefused: "no bench while the program is refused",
    NoBenchTorn: "no bench while the log is torn",
    NoBenchStretched: "no bench while a rack is stretched",
    RefusedTorn: "3 to 11, 16 or 17 while the log is torn",
    StretchedTorn: "17 while the log is torn",
    StretchedNoPair: "17 while the log has no pair",
    StrainedSwapped: "swaps kept valid a program with a rack that leaves yarn of 20 or more",
    FullProgram: "swaps made in a program of 32768 bytes",
    FullWork: "done with 16384 records",
    FullFives: "swaps made in a program of 6553 records of 5 bytes",
    EmptyLog: "done with an empty log and records",
    EmptyProgram: "done with an empty program",
    OddLength: "done at an odd length with half its bytes rounded down of work",
    WorkAllWritten: "done with a record's start in each work entry",
    WideOutput: "done with an output of 65536 bytes or more",
    WideWork: "done with 65536 work entries or more",
    SharedBytes: "swaps made by a log that lies in the program's own bytes",
}

/// Last racks before a pair, by their position's remainder by 64.
const RACK_PLACES: [usize; 5] = [62, 63, 0, 1, 2];

/// The program, log, output and work, in this order.
pub const LOANS: [&str; 4] = ["program", "log", "output", "work"];

pub struct SwapCoverage {
    pub numbers: [u64; NUMBERS],
    pub swapped: u64,
    pub plated: PlatedCoverage,
    pub plated_ties: PlatedTies,
    pub limits: LimitCoverage,
    pub stretch: StretchCoverage,
    kinds: [[[u64; 2]; KIND_COUNT]; KIND_COUNT],
    lengths: [[u64; 7]; 7],
    classes: Vec<[u64; 2]>,
    racks: [[[u64; 2]; 3]; 5],
    areas: [[u64; 5]; 5],
    guarded: [u64; 4],
    null: [u64; 4],
    pub locked: [u64; NUMBERS],
    events: [u64; EVENTS.len()],
}

fn torn(log: &[u8]) -> bool {
    log.len() % SWAP_LENGTH != 0 || log.chunks(SWAP_LENGTH).any(|record| record[0] != SWAP)
}

// Counting.

/// Swaps made so far in a log, and the position of the last one.
#[derive(Default)]
struct Progress {
    made: usize,
    last: Option<usize>,
}

impl SwapCoverage {
    pub fn new() -> SwapCoverage {
        SwapCoverage {
            numbers: [0; NUMBERS],
            swapped: 0,
            plated: PlatedCoverage::new(),
            plated_ties: PlatedTies::new(),
            limits: LimitCoverage::new(REWRITER),
            stretch: StretchCoverage::new(),
            kinds: [[[0; 2]; KIND_COUNT]; KIND_COUNT],
            lengths: [[0; 7]; 7],
            classes: vec![[0; 2]; PAIR_CLASSES],
            racks: [[[0; 2]; 3]; 5],
            areas: [[0; 5]; 5],
            guarded: [0; 4],
            null: [0; 4],
            locked: [0; NUMBERS],
            events: [0; EVENTS.len()],
        }
    }

    /// Runs the model's rewriter and counts what it comes to.
    pub fn rewrite(&mut self, call: &Call, output: &mut [u8], work: &mut [u16]) -> Answer {
        let (limit, program, log) = (call.limit, call.program, call.log);
        let mut progress = Progress::default();
        let answer = rewrite_watched(limit, program, log, output, work, |order, log, number| {
            self.log_record(order, log, number, &mut progress);
        });
        self.numbers[usize::from(answer.number)] += 1;
        if is_bad(limit) {
            self.bad_limit(call);
            return answer;
        }
        self.limits.call(limit, answer.number);
        self.areas[area_class(output.len(), program.len())]
            [area_class(work.len(), program.len() / 2)] += 1;
        if is_written(answer.number) {
            self.written(program, log, answer.number, progress.made);
        } else {
            self.refused(call, answer.number);
        }
        if answer.number == DONE {
            self.done(program, output.len(), work.len());
        }
        if !matches!(answer.number, TOO_LONG | NO_BENCH) {
            run_watched(limit, program, |state, bytes, number| {
                self.limits.record(state, bytes, number);
                self.stretch.record(state, bytes, number);
                if limit == HOOK_LIMIT {
                    self.plated.record(state, bytes, number);
                }
            });
        }
        if answer.number == TOO_LONG {
            let short = output.len() < program.len() || work.len() < program.len() / 2;
            self.note(Event::TooLongNoBench, short);
        }
        answer
    }

    /// Counts a call at a limit out of range by what it would come to at 8.
    fn bad_limit(&mut self, call: &Call) {
        let (mut output, mut work) = (vec![0; call.output], vec![0; call.work]);
        let answer = rewrite_at(HOOK_LIMIT, call.program, call.log, &mut output, &mut work);
        self.limits.bad(call.limit, answer.number);
    }

    /// Counts a refused call with output and work in read-only memory: a store would have ended the
    /// program.
    pub fn locked(&mut self, number: u8) {
        self.locked[usize::from(number)] += 1;
    }

    /// A loan that ends at a guard page with nothing behind it, or a null pointer.
    pub fn loan(&mut self, loan: usize, guarded: bool, null: bool) {
        self.guarded[loan] += u64::from(guarded);
        self.null[loan] += u64::from(null);
    }

    pub fn note(&mut self, event: Event, happened: bool) {
        self.events[event as usize] += u64::from(happened);
    }

    fn log_record(&mut self, order: &Order, log: &[u8], number: u8, progress: &mut Progress) {
        let position =
            (log.len() >= SWAP_LENGTH).then(|| usize::from(u16::from_be_bytes([log[1], log[2]])));
        match (number, position) {
            (DONE | TIED, Some(position)) => self.pair(order, position, number == TIED),
            (NO_PAIR, Some(position)) => self.no_pair(order, position),
            _ => self.torn(order, log, position),
        }
        if let (DONE, Some(position)) = (number, position) {
            let last = progress.last;
            self.note(Event::SwappedBack, last == Some(position));
            self.note(Event::MovedOnward, last.is_some_and(|l| l + 1 == position));
            progress.last = Some(position);
            progress.made += 1;
            self.swapped += 1;
            return;
        }
        self.note(Event::LateNumber, progress.made >= 100);
        if let Some(&[SWAP, high, low]) = log.get(SWAP_LENGTH..2 * SWAP_LENGTH) {
            let behind = usize::from(u16::from_be_bytes([high, low]));
            let good = order.is_pair(behind) && !order.tied(behind);
            self.note(Event::GoodBehind, good);
        }
    }

    fn pair(&mut self, order: &Order, position: usize, tied: bool) {
        let (first, second) = order.pair(position);
        let racking = order.racking(position);
        let outcome = usize::from(tied);
        let kinds = [first, second].map(|record| usize::from(record.kind()));
        self.kinds[kinds[0]][kinds[1]][outcome] += 1;
        if let Some(class) = pair_class(first, second, racking) {
            self.classes[class][outcome] += 1;
        }
        self.plated_ties.pair(first, second, racking, tied);
        let alone = tied && !extents_meet(first, second, racking);
        self.note(Event::CarrierAlone, alone);
        let drops = matches!(first, Record::Drop(_)) && first == second;
        self.note(Event::EqualDrops, tied && drops);
        self.columns(first, second, racking, tied);
        self.rack_before(order, position, tied);
        self.rack_behind(order, position, tied);
        if !tied {
            let [a, b] = [0, 1].map(|next| order.parts[position + next].bytes.len());
            self.lengths[a][b] += 1;
            self.note(Event::LastPair, a != b && position + 2 == order.parts.len());
        }
    }

    fn columns(&mut self, first: &Record, second: &Record, racking: i32, tied: bool) {
        let (Some(a), Some(b)) = (first.first_needle(), second.first_needle()) else {
            return;
        };
        let (low, high) = (a.column(racking), b.column(racking));
        let (low, high) = (low.min(high), low.max(high));
        let beds_apart = a.bed != b.bed && !name_one_carrier(first, second);
        let numbers_apart = a.number.abs_diff(b.number) > 2;
        self.note(
            Event::NumbersApart,
            tied && beds_apart && low == high && numbers_apart,
        );
        self.note(
            Event::NumbersEqual,
            !tied && beds_apart && high - low > 2 && a.number == b.number,
        );
        self.note(Event::NegativeColumn, !tied && low < 0);
        self.note(Event::HighColumn, !tied && high >= NEEDLES as i32);
        self.note(Event::EdgeToEdge, !tied && high - low >= 256);
    }

    /// Counts a pair whose tie the last rack before it decides.
    fn rack_before(&mut self, order: &Order, position: usize, tied: bool) {
        const FAR: usize = 200;
        let is_rack = |&at: &usize| matches!(order.parts[at].record, Record::Rack(_));
        let near = position.saturating_sub(FAR)..position;
        let Some(rack) = near.rev().find(is_rack) else {
            return;
        };
        if otherwise(order, position, order.racking(rack)) != Some(!tied) {
            return;
        }
        self.note(Event::RackFarSwapped, !tied && position > rack + 64);
        self.note(Event::RackFarTied, tied && position > rack + 64);
        self.note(Event::RackLateSwapped, !tied && position >= 8_192);
        self.note(Event::RackLateTied, tied && position >= 8_192);
        let place = RACK_PLACES.iter().position(|&place| place == rack % 64);
        if let Some(place) = place.filter(|_| rack > RACK_PLACES[4]) {
            self.racks[place][(position - rack).min(3) - 1][usize::from(tied)] += 1;
        }
    }

    /// Counts a pair that a rack just behind it would answer otherwise.
    fn rack_behind(&mut self, order: &Order, position: usize, tied: bool) {
        let Some(Record::Rack(racking)) = order.parts.get(position + 2).map(|part| part.record)
        else {
            return;
        };
        let other = otherwise(order, position, racking) == Some(!tied);
        self.note(Event::RackBehindSwapped, other && !tied);
        self.note(Event::RackBehindTied, other && tied);
    }

    fn no_pair(&mut self, order: &Order, position: usize) {
        let count = order.parts.len();
        self.note(Event::NoPairLast, count > 1 && position + 1 == count);
        self.note(Event::NoPairBehind, count > 1 && position == count);
        self.note(Event::NoPairFar, position == 65_535);
        self.note(Event::NoPairEmpty, count == 0);
        self.note(Event::NoPairOne, count == 1 && position == 0);
        let last = order.parts.last().map(|part| part.record);
        let rack = matches!(last, Some(Record::Rack(_)));
        self.note(Event::NoPairLastRack, rack && position + 1 == count);
    }

    fn torn(&mut self, order: &Order, log: &[u8], position: Option<usize>) {
        self.note(Event::TornOne, log.len() == 1);
        self.note(Event::TornTwo, log.len() == 2);
        let Some(position) = position else {
            return;
        };
        self.note(Event::TornKind, true);
        let pair = order.is_pair(position);
        self.note(Event::TornNoPair, !pair);
        self.note(Event::TornTied, pair && order.tied(position));
        self.note(Event::TornUntied, pair && !order.tied(position));
    }

    fn written(&mut self, program: &[u8], log: &[u8], number: u8, made: usize) {
        let done = number == DONE;
        self.note(Event::LongLog, done && made >= 300);
        self.note(Event::LongestLog, done && made == LOG_LIMIT / SWAP_LENGTH);
        let full_log = log.len() == LOG_LIMIT && made == LOG_LIMIT / SWAP_LENGTH;
        self.note(Event::LogLimit, full_log && number == TORN_LOG);
        let shared = place_in(program, log).is_some();
        self.note(Event::SharedBytes, shared && made > 0);
        let full = program.len() == PROGRAM_LIMIT && made > 0;
        self.note(Event::FullProgram, full);
        self.note(
            Event::EmptyLog,
            done && log.is_empty() && !program.is_empty(),
        );
        self.note(Event::EmptyProgram, done && program.is_empty());
        if full {
            let parts = Order::of(program).parts;
            let fives = parts.iter().filter(|part| part.bytes.len() == 5).count();
            self.note(Event::FullFives, fives == PROGRAM_LIMIT / 5);
        }
    }

    fn done(&mut self, program: &[u8], output: usize, work: usize) {
        let half = program.len() / 2;
        let odd = program.len() % 2 == 1;
        self.note(Event::OddLength, odd && work == half);
        self.note(Event::WideOutput, output >= 65_536);
        self.note(Event::WideWork, work >= 65_536);
        if !program.is_empty() && work == half {
            let records = Order::of(program).parts.len();
            self.note(Event::WorkAllWritten, records == work);
            self.note(Event::FullWork, records == PROGRAM_LIMIT / 2);
        }
    }

    fn refused(&mut self, call: &Call, number: u8) {
        let (program, log) = (call.program, call.log);
        let over_program = program.len() > PROGRAM_LIMIT;
        let over_log = log.len() > LOG_LIMIT;
        let otherwise = run_at(call.limit, program).number;
        let faulty = !over_program && otherwise != DONE;
        match number {
            TOO_LONG => {
                let just = |length: usize| length == 32_769;
                self.note(Event::ProgramOver, just(program.len()) && !over_log);
                self.note(Event::LogOver, just(log.len()) && !over_program);
                self.note(Event::FarOver, program.len().max(log.len()) >= 65_536);
                self.note(Event::TooLongRefused, faulty);
            }
            NO_BENCH => {
                self.note(Event::NoBenchRefused, faulty);
                self.note(Event::NoBenchStretched, otherwise == STRETCHED);
                self.note(Event::NoBenchTorn, torn(log));
            }
            _ => {
                let stretched = number == STRETCHED;
                self.note(Event::RefusedTorn, torn(log));
                self.note(Event::StretchedTorn, stretched && torn(log));
                let far = log.starts_with(&[SWAP, 0xff, 0xff]);
                self.note(Event::StretchedNoPair, stretched && far);
            }
        }
    }
}

// What is missing.

const OUTCOMES: [&str; 2] = ["swapped", "tied"];

impl SwapCoverage {
    /// The names of counts that are zero and should not be.
    pub fn missing(&self) -> Vec<String> {
        let mut missing = Vec::new();
        for number in DONE..=STRETCHED {
            if self.numbers[usize::from(number)] == 0 {
                missing.push(format!("rewriter number {number}"));
            }
            if !is_written(number) && self.locked[usize::from(number)] == 0 {
                missing.push(format!("rewriter number {number} in read-only memory"));
            }
        }
        for (name, _) in EVENTS.iter().zip(self.events).filter(|e| e.1 == 0) {
            missing.push(format!("rewriter: {name}"));
        }
        for (class, outcome) in wanted_classes() {
            if self.classes[class][outcome] == 0 {
                missing.push(format!("pair class {class} {}", OUTCOMES[outcome]));
            }
        }
        self.missing_kinds(&mut missing);
        self.missing_racks(&mut missing);
        self.missing_areas(&mut missing);
        missing.extend(self.plated.missing("rewriter"));
        missing.extend(self.plated_ties.missing());
        missing.extend(self.limits.missing());
        missing.extend(self.stretch.missing("rewriter"));
        missing
    }

    /// The names of counts that are not zero, of what cannot occur.
    pub fn impossible(&self) -> Vec<String> {
        let mut impossible = self.limits.impossible();
        impossible.extend(self.stretch.impossible("rewriter"));
        impossible
    }

    fn missing_kinds(&self, missing: &mut Vec<String>) {
        for first in KINDS {
            for second in KINDS {
                let (a, b) = (usize::from(first), usize::from(second));
                let possible = [first != RACK && second != RACK, can_tie(first, second)];
                for outcome in (0..2).filter(|&outcome| possible[outcome]) {
                    if self.kinds[a][b][outcome] == 0 {
                        let names = (KIND_NAMES[a], KIND_NAMES[b]);
                        let outcome = OUTCOMES[outcome];
                        missing.push(format!("{} then {} {outcome}", names.0, names.1));
                    }
                }
            }
        }
        for (a, b) in (3..7).flat_map(|a| (3..7).map(move |b| (a, b))) {
            if self.lengths[a][b] == 0 {
                missing.push(format!("swap of {a} bytes and {b}"));
            }
        }
    }

    fn missing_racks(&self, missing: &mut Vec<String>) {
        for (place, distances) in RACK_PLACES.iter().zip(self.racks) {
            for (distance, counts) in distances.iter().enumerate() {
                for (outcome, _) in OUTCOMES.iter().zip(counts).filter(|e| *e.1 == 0) {
                    let distance = distance + 1;
                    missing.push(format!(
                        "{outcome} at {distance} after a rack at {place} by 64 that decides"
                    ));
                }
            }
        }
    }

    fn missing_areas(&self, missing: &mut Vec<String>) {
        for (output, counts) in AREAS.iter().zip(self.areas) {
            for (work, _) in AREAS.iter().zip(counts).filter(|e| e.1 == 0) {
                missing.push(format!("output {output}, work {work}"));
            }
        }
        for (name, _) in LOANS.iter().zip(self.guarded).filter(|e| e.1 == 0) {
            missing.push(format!("{name} before a guard page"));
        }
        for (name, _) in LOANS.iter().zip(self.null).filter(|e| e.1 == 0) {
            missing.push(format!("{name} null"));
        }
    }
}
