//! The generator: scenes, each a walk and calls of every entry on what it made.

use crate::call::*;
use crate::claims;
use crate::walk::Walk;
use rules::calls::parts;
use rules::lent::*;
use rules::rules::Rules;
use rules::state::*;

/// What a caller does with a call: it gives what the call must answer and leave.
pub type Emit<'e> = dyn FnMut(&Call) -> Outcome + 'e;

pub struct Scenes<'a> {
    walk: Walk<'a>,
    scenes: u64,
    /// Programs of which the claims were held.
    pub held: u64,
    /// States on the way, each with the record that came next.
    met: Vec<(State, Vec<u8>)>,
}

/// One in so many scenes has a program near the greatest length, one in so many a sheet.
const LONG_EVERY: u64 = 601;
const SHEET_EVERY: u64 = 23;
/// The claims are held of one in so many.
const CLAIMS_EVERY: u64 = 8;

impl<'a> Scenes<'a> {
    pub fn new(rules: &'a Rules, seed: u64) -> Scenes<'a> {
        Scenes { walk: Walk::new(rules, seed), scenes: 0, held: 0, met: vec![] }
    }

    fn below(&mut self, n: usize) -> usize {
        self.walk.random.below(n)
    }

    fn percent(&mut self, p: usize) -> bool {
        self.walk.random.percent(p)
    }

    /// One scene: a program that is valid at a limit, then calls on it and around it.
    pub fn play(&mut self, emit: &mut Emit) {
        self.scenes += 1;
        let limit = if self.percent(40) { 8 } else { 1 + self.below(8) as u8 };
        let long = self.scenes % LONG_EVERY == 0;
        let program = match self.scenes {
            scene if scene % LONG_EVERY == 0 => self.long_program(limit),
            scene if scene % SHEET_EVERY == 0 => self.sheet(limit),
            _ => self.program(limit),
        };
        self.runs(limit, &program, emit);
        let swapped = self.rewrites(limit, &program, emit);
        self.orders(limit, &program, &swapped, emit);
        if self.scenes % CLAIMS_EVERY == 0 && program.len() < 500 {
            self.held += 1;
            let held = claims::hold(self.walk.rules, limit, &program, &swapped);
            held.unwrap_or_else(|claim| panic!("{claim}: limit {limit}, {program:?} and {swapped:?}"));
        }
        if !long {
            self.ties(&program, emit);
            self.steps(emit);
            self.strange_steps(limit, emit);
        }
    }

    // ---- Programs

    /// How many records: mostly few, at times near 64 and 128.
    fn records(&mut self) -> usize {
        match self.below(20) {
            0 => self.below(3),
            1 => 62 + self.below(5),
            2 => 126 + self.below(5),
            3..=10 => 3 + self.below(12),
            _ => 10 + self.below(40),
        }
    }

    fn program(&mut self, limit: u8) -> Vec<u8> {
        self.walk.begin(limit);
        self.met.clear();
        let mut program = vec![];
        for _ in 0..self.records() {
            let before = self.percent(10).then(|| self.walk.state.clone());
            let Some(bytes) = self.walk.made() else { break };
            program.extend(&bytes);
            self.met.extend(before.map(|state| (state, bytes)));
        }
        program
    }

    /// Drops and xfers of empty hooks at few columns, on both beds, with few racks between, at times where a 64th record begins: which
    /// are tied goes by the racking.
    fn sheet(&mut self, limit: u8) -> Vec<u8> {
        self.walk.begin(limit);
        self.walk.stay_near();
        self.met.clear();
        let mut program = vec![];
        let often = self.percent(50);
        for at in 0..120 + self.below(150) {
            let rack = at == 0 || (often && (self.below(100) == 0 || at % 64 == 63));
            let kind = if rack { RACK } else { self.walk.random.pick(&[DROP, XFER]) };
            let made = self.walk.made_of(kind).unwrap_or(vec![RACK, self.walk.state.racking as u8]);
            program.extend(made);
        }
        program
    }

    /// Near 32,768 bytes, or just as many: short walks between racks, or racks alone; then a few drops and xfers.
    fn long_program(&mut self, limit: u8) -> Vec<u8> {
        self.walk.begin(limit);
        self.walk.stay_near();
        let length = 32_768 - self.walk.random.pick(&[0, 0, 1, 2, 3]);
        let walks = self.percent(60);
        let mut program = vec![];
        while program.len() + 160 < length {
            program.extend([RACK, self.walk.state.racking as u8]);
            for _ in 0..if walks { 1 + self.below(12) } else { 0 } {
                program.extend(self.walk.made().unwrap_or_default());
            }
        }
        while program.len() + 8 < length {
            let kind = self.walk.random.pick(&[DROP, XFER, RACK]);
            program.extend(self.walk.made_of(kind).unwrap_or(vec![RACK, self.walk.state.racking as u8]));
        }
        program.extend(if (length - program.len()) % 2 == 1 { &[DROP, 0, 3][..] } else { &[] });
        while program.len() < length {
            program.extend([RACK, self.walk.state.racking as u8]);
        }
        program
    }

    /// The program, or its front, with something behind it that is mostly refused: what was turned away there, or something spoiled.
    fn refused(&mut self, program: &[u8]) -> Vec<u8> {
        let mut bytes = program.to_vec();
        let rare = [STRETCHED, ONE_YARN_TWICE, FLOAT, HOOK_FULL].map(|number| self.walk.turned_away[usize::from(number)].clone());
        let all = if self.percent(50) { rare.to_vec() } else { self.walk.turned_away.clone() };
        let mut turned: Vec<(usize, Vec<u8>)> = all.into_iter().flatten().filter(|(made, _)| *made <= program.len()).collect();
        if !turned.is_empty() && self.percent(70) {
            let (made, record) = turned.swap_remove(self.below(turned.len()));
            bytes.truncate(made);
            bytes.extend(record);
        } else {
            let record = self.walk.record();
            bytes.extend(if self.percent(30) { record } else { self.walk.spoiled(record) });
        }
        if self.percent(40) {
            bytes.extend(self.walk.any_record());
        }
        bytes
    }

    fn bad_limit(&mut self, limit: u8) -> u8 {
        match self.below(30) {
            0 => 0,
            1 => 9,
            2 => self.walk.random.pick(&[16, 128, 255]),
            3..=8 => 1 + self.below(8) as u8,
            _ => limit,
        }
    }

    fn runs(&mut self, limit: u8, program: &[u8], emit: &mut Emit) {
        let refused = self.refused(program);
        for bytes in [program, &refused] {
            let at = self.bad_limit(limit);
            emit(&Call::new(Entry::RunAt, at, vec![Loan::bytes(bytes)]));
        }
        let mut any = Loan::bytes(if self.percent(50) { program } else { &refused });
        if self.percent(2) {
            any.widen(self.below(3));
        } else if self.scenes % 97 == 0 {
            any.bytes.resize(32_768 + self.below(3), 2);
        } else if self.scenes % 197 == 0 {
            any.bytes.resize(65_536 + self.below(3), 2);
        }
        let entry = self.walk.random.pick(&[Entry::Run, Entry::RunAt]);
        emit(&Call::new(entry, limit, vec![any]));
    }

    // ---- Logs and lists of rewriter calls

    fn position(at: usize) -> [u8; 3] {
        [0x40, (at >> 8) as u8, at as u8]
    }

    /// Swaps that mostly may be made, one record's way along its neighbours now and then; at times a fault, and something behind it.
    fn log(&mut self, program: &[u8]) -> Vec<u8> {
        let rules = self.walk.rules;
        let mut parts = parts(rules, program);
        let (count, mut log) = (parts.len(), vec![]);
        let mut along = None;
        for _ in 0..self.below(14) {
            if count < 2 {
                break;
            }
            let anywhere = if self.percent(40) { count - 1 - self.below(count.min(30)).max(1) } else { self.below(count - 1) };
            let at = along.filter(|&at| at + 1 < count).unwrap_or(anywhere);
            let free = rules.log_number(&parts, &Self::position(at)) == DONE;
            if free || self.percent(12) {
                log.extend(Self::position(at));
            }
            if free {
                rules.swap(&mut parts, at);
                along = self.percent(60).then_some(at + 1);
            } else {
                along = None;
            }
        }
        match self.below(10) {
            0 => log.extend(Self::position(count.saturating_sub(self.below(3)))),
            1 => log.extend(Self::position(self.walk.random.pick(&[255, 256, 32_767, 32_768, 65_535]))),
            2 => log.extend([self.walk.random.pick(&[0, 0x3f, 0x41, 0x42, 0xff]), 0, self.below(count + 1) as u8]),
            3 => log.extend(&Self::position(self.below(count + 1))[..1 + self.below(2)]),
            _ => (),
        }
        if self.percent(20) {
            log.extend(Self::position(self.below(count + 1)));
        }
        log
    }

    /// An output or a work area of so many entries, more, or too few; painted.
    fn area(&mut self, unit: usize, wanted: usize) -> Loan {
        let count = match self.below(24) {
            0 => wanted.saturating_sub(1),
            1 => self.below(wanted + 1),
            2..=7 => wanted + self.below(9),
            _ => wanted,
        };
        let (salt, odd) = (self.below(256), self.below(128) * 2 + 1);
        let mut loan = Loan::of(unit, (0..count * unit).map(|at| (at * odd + salt) as u8 | 0x80).collect());
        if count >= wanted && self.percent(1) {
            loan.widen(self.below(3));
        }
        loan
    }

    /// A list of calls, each on the program as the last one left it, at any limit: the program that it ends in.
    fn rewrites(&mut self, limit: u8, program: &[u8], emit: &mut Emit) -> Vec<u8> {
        let mut now = program.to_vec();
        for _ in 0..1 + self.below(4) {
            let mut log = Loan::bytes(&self.log(&now));
            if self.scenes % 100 == 7 && log.bytes.len() >= 3 {
                // one swap there and back again and again
                log.bytes.truncate(3);
                log.bytes = log.bytes.repeat(10_923)[..32_766 + self.below(4)].to_vec();
            }
            let other = self.percent(20);
            let bytes = if other { self.refused(&now) } else { now.clone() };
            let mut lent = Loan::bytes(&bytes);
            let at = self.bad_limit(limit);
            let (output, work) = (self.area(1, bytes.len()), self.area(2, bytes.len() / 2));
            if self.percent(1) {
                [&mut lent, &mut log][self.below(2)].widen(self.below(3));
            }
            let entry = if at == 8 { self.walk.random.pick(&[Entry::Rewrite, Entry::RewriteAt]) } else { Entry::RewriteAt };
            let mut call = Call::new(entry, at, vec![lent, log, output, work]);
            if self.percent(2) && call.loans[0].beyond == 0 && call.loans[1].beyond == 0 {
                let place = self.below(bytes.len() + 1);
                call.loans[1].bytes = bytes[place..].to_vec();
                call.inside = Some(place);
            }
            let outcome = emit(&call);
            if call.writes(outcome.number) && !other {
                now = outcome.left[0][..now.len()].to_vec();
            }
        }
        now
    }

    fn orders(&mut self, limit: u8, program: &[u8], swapped: &[u8], emit: &mut Emit) {
        let refused = self.refused(program);
        for bytes in [program, swapped, &refused].into_iter().skip(usize::from(self.percent(30))) {
            let at = self.bad_limit(limit);
            let mut lent = Loan::bytes(bytes);
            let (output, work) = (self.area(1, bytes.len()), self.area(2, bytes.len() / 2));
            if self.percent(1) {
                lent.widen(self.below(3));
            }
            let entry = if at == 8 { self.walk.random.pick(&[Entry::Order, Entry::OrderAt]) } else { Entry::OrderAt };
            emit(&Call::new(entry, at, vec![lent, output, work]));
        }
    }

    // ---- Pairs of records

    fn ties(&mut self, program: &[u8], emit: &mut Emit) {
        let parts = parts(self.walk.rules, program);
        for _ in 0..10 {
            let racking = if self.percent(4) { self.walk.random.pick(&[-128, -9, 9, 127]) } else { self.walk.random.from(-8, 8) };
            self.walk.state.racking = racking;
            let (mut first, mut second) = self.pair();
            if self.percent(10) {
                first = self.walk.spoiled(first);
            }
            if self.percent(10) {
                second = self.walk.spoiled(second);
            }
            if self.percent(20) {
                first.extend(self.walk.any_record());
            }
            self.emit_tie(racking as i8, Loan::bytes(&first), Loan::bytes(&second), None, emit);
        }
        if parts.len() > 1 {
            let at = self.below(parts.len() - 1);
            let start: usize = parts[..at].iter().map(|part| part.bytes.len()).sum();
            let size = parts[at].bytes.len();
            let racking = parts[at].racking as i8;
            let (first, second) = (Loan::bytes(&program[start..]), Loan::bytes(&program[start + size..]));
            self.emit_tie(racking, first, second, Some(size), emit);
        }
    }

    /// Two records near one column, often with the same carriers or ones beside them.
    fn pair(&mut self) -> (Vec<u8>, Vec<u8>) {
        let kind = if self.percent(96) { 2 + self.below(10) } else { 1 } as u8;
        let (any_kind, column) = (1 + self.below(11) as u8, self.walk.column());
        let first = self.walk.record_near(any_kind, column);
        let near = column + self.walk.random.pick(&[-2, -1, -1, 0, 0, 1, 1, 2]);
        let mut second = self.walk.record_near(kind, near);
        if first.len() >= 5 && second.len() >= 5 && self.percent(50) {
            let carrier = i32::from(first[4]) + self.walk.random.pick(&[-1, 0, 1]);
            second[4] = carrier.clamp(1, 10) as u8;
        }
        if self.percent(50) { (first, second) } else { (second, first) }
    }

    fn emit_tie(&mut self, racking: i8, mut first: Loan, mut second: Loan, inside: Option<usize>, emit: &mut Emit) {
        if inside.is_none() && self.percent(1) {
            [&mut first, &mut second][self.below(2)].widen(self.below(3));
        }
        let mut call = Call::new(Entry::Tie, 0, vec![first, second]);
        (call.racking, call.inside) = (racking, inside);
        emit(&call);
    }

    // ---- States

    /// A step from a state, and a list of its carriers.
    fn step(&mut self, state: LentState, bytes: &[u8], emit: &mut Emit) {
        let mut lent = Loan::bytes(bytes);
        if self.percent(1) {
            lent.widen(self.below(3));
        }
        emit(&Call::new(Entry::Step, 0, vec![Loan::of(2, state.bytes()), lent]));
        if self.percent(20) {
            let mut list = self.area(CARRIER_BYTES, 10);
            list.unit = CARRIER_BYTES;
            emit(&Call::new(Entry::Carriers, 0, vec![Loan::of(2, state.bytes()), list]));
        }
    }

    /// Steps on the way of the program, and with one thing changed.
    fn steps(&mut self, emit: &mut Emit) {
        for (state, bytes) in std::mem::take(&mut self.met).into_iter().take(4) {
            self.walk.state = state.clone();
            let other = self.walk.record();
            let spoiled = if self.percent(50) { self.walk.spoiled(bytes.clone()) } else { self.walk.spoiled(other.clone()) };
            for bytes in [bytes, other, spoiled] {
                self.step(LentState::of(&state), &bytes, emit);
            }
        }
    }

    /// Steps from states that no program comes to, from lone ones and from foul ones.
    fn strange_steps(&mut self, limit: u8, emit: &mut Emit) {
        for _ in 0..3 {
            self.walk.begin(limit);
            self.walk.stray();
            for _ in 0..3 {
                let bytes = self.walk.record();
                let bytes = if self.percent(15) { self.walk.spoiled(bytes) } else { bytes };
                self.step(LentState::of(&self.walk.state), &bytes, emit);
            }
        }
        let bytes = self.walk.record();
        let foul = self.walk.fouled(LentState::of(&self.walk.state));
        self.step(foul, &bytes, emit);
        self.walk.begin(limit);
        let bytes = self.walk.lone();
        let lent = LentState::of(&self.walk.state);
        self.step(lent.clone(), &bytes, emit);
        let foul = self.walk.fouled(lent);
        self.step(foul, &bytes, emit);
    }
}
