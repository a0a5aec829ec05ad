//! One panel call through its C entry, compared with the model in every field and entry.

use crate::draft::Random;
use crate::layout::*;
use crate::lend::{behind, Lent};
use crate::machine::*;
use crate::panel::{list_carriers, step_first};
use crate::panel_coverage::{Event, PanelCoverage, Service, Source};
use crate::raw_state::*;
use crate::walk::{complete_by_walk, walk};
use crate::{fail, show};
use std::fmt::Debug;

extern "C" {
    fn knitout_step(state: *mut RawState, bytes: *const u8, length: usize) -> Stepped;
    fn knitout_carriers(state: *const RawState, list: *mut RawCarrier, count: usize) -> Served;
}

/// One in so many lists is of a state in read-only memory, and of steps of bytes there.
const READ_ONLY_EVERY: usize = 64;

/// One in so many refused calls is lent read-only memory for what a call that is done writes.
const REFUSED_READ_ONLY_EVERY: usize = 4;

pub struct Panel {
    pub coverage: PanelCoverage,
    random: Random,
    state: Lent,
    bytes: Lent,
    program: Lent,
    list: Lent,
}

/// What a compared call was made on and what it answered, for a report.
struct Call<'a, A> {
    service: &'a str,
    from: &'a str,
    before: &'a RawState,
    bytes: &'a [u8],
    expected: A,
    given: A,
}

impl Panel {
    pub fn new(seed: u64) -> Panel {
        Panel {
            coverage: PanelCoverage::new(),
            random: Random::new(!seed),
            state: Lent::new(),
            bytes: Lent::new(),
            program: Lent::new(),
            list: Lent::new(),
        }
    }

    pub fn lend_state(&mut self, state: &RawState) {
        let behind = behind(&mut self.random);
        self.state.lend(&state_bytes(state), behind);
        self.coverage.note(Event::StateGuarded, behind == 0);
        self.coverage.note(Event::StateMarked, behind > 0);
    }

    pub fn lend_program(&mut self, program: &[u8]) {
        self.program.lend(program, 0);
    }

    /// Whether the lent program is as it was.
    pub fn program_stands(&self, program: &[u8]) -> bool {
        self.program.bytes() == program && self.program.marks_stand()
    }

    // The step.

    /// Steps the lent state by the lent program's rest from a place on. `state` is what the lent
    /// state holds, and becomes what it must hold then.
    pub fn step_program(
        &mut self,
        state: &mut RawState,
        program: &[u8],
        place: usize,
        from: &str,
    ) -> Stepped {
        // SAFETY: the place is in the lent program or just behind it.
        let at = unsafe { self.program.at().add(place) };
        self.step_at(Source::Reached, state, &program[place..], at, from)
    }

    /// Steps the lent state by a copy of the bytes; none are often lent as a null pointer.
    pub fn step(
        &mut self,
        source: Source,
        state: &mut RawState,
        bytes: &[u8],
        from: &str,
    ) -> Stepped {
        let behind = behind(&mut self.random);
        let odd = usize::from(behind > 0 && self.random.percent(50));
        let lent = self.bytes.lend(bytes, behind - odd);
        let null = bytes.is_empty() && self.random.percent(50);
        let at = if null { std::ptr::null_mut() } else { lent };
        let stepped = self.step_at(source, state, bytes, at, from);
        let just = stepped.number == DONE && stepped.length == bytes.len();
        self.coverage.note(Event::StepGuarded, just && behind == 0);
        self.coverage.note(Event::StepNull, null);
        if self.bytes.bytes() != bytes || !self.bytes.marks_stand() {
            show("bytes", bytes);
            fail("the library's step writes to its bytes or around them");
        }
        stepped
    }

    fn step_at(
        &mut self,
        source: Source,
        state: &mut RawState,
        bytes: &[u8],
        at: *const u8,
        from: &str,
    ) -> Stepped {
        let before = state.clone();
        let expected = step_first(state, bytes);
        let given = self.given_step(at, bytes.len(), expected.number);
        let call = Call {
            service: "step",
            from,
            before: &before,
            bytes,
            expected,
            given,
        };
        self.compare_state(&call, state);
        self.coverage
            .step(source, [&before, state], bytes, expected);
        if expected.number != FOUL_STATE {
            walk_agrees(state, expected);
        }
        expected
    }

    /// The library's answer to a step that must give a number.
    fn given_step(&mut self, at: *const u8, length: usize, number: u8) -> Stepped {
        let accepted = number == DONE;
        let lent = self.state.at().cast::<RawState>();
        // SAFETY: the state is readable, writable if the step must be done, and ends an even number
        // of bytes before a page's end; the bytes are readable for their length.
        let make = || unsafe { knitout_step(lent, at, length) };
        let read_only = self.random.below(READ_ONLY_EVERY) == 0;
        let locked = !accepted && self.random.below(REFUSED_READ_ONLY_EVERY) == 0;
        let given = match (read_only, locked) {
            (_, true) => self.state.read_only(make),
            (true, _) => self.bytes.read_only(|| self.program.read_only(make)),
            _ => make(),
        };
        self.coverage
            .note(Event::StepReadOnly, read_only && accepted);
        if locked {
            self.coverage.locked(Service::Step, number);
        }
        given
    }

    /// Compares the answer, and every byte of the lent state with what it must hold.
    fn compare_state<A: PartialEq + Debug>(&self, call: &Call<A>, wanted: &RawState) {
        if call.given != call.expected {
            differ(call, "the answer");
        }
        let found = state_of(self.state.bytes());
        if let Some(what) = state_difference(wanted, &found) {
            differ(call, &what);
        }
        if !self.state.marks_stand() {
            differ(call, "bytes around the state");
        }
    }

    // The list.

    /// Lists the carriers of the lent state, which holds `state`, into so many random entries.
    pub fn list(&mut self, source: Source, state: &RawState, count: usize, from: &str) {
        let mut contents = vec![0; count * CARRIER_BYTES];
        contents.fill_with(|| self.random.byte());
        let behind = behind(&mut self.random);
        let lent = self.list.lend(&contents, behind);
        let null = count == 0 && self.random.percent(50);
        let at = if null { std::ptr::null_mut() } else { lent };
        let mut entries: Vec<RawCarrier> = contents
            .chunks_exact(CARRIER_BYTES)
            .map(carrier_of)
            .collect();
        let call = self.list_at(state, &mut entries, at.cast(), true, from);
        let wanted: Vec<u8> = entries.iter().flat_map(carrier_bytes).collect();
        if let Some(what) = list_difference(&wanted, self.list.bytes()) {
            differ(&call, &what);
        }
        if !self.list.marks_stand() {
            differ(&call, "bytes around the list");
        }
        let number = call.expected.number;
        self.coverage.list(source, state, count, number);
        self.coverage.note(Event::ListNull, null);
        self.coverage
            .note(Event::ListGuarded, count == CARRIERS && behind == 0);
    }

    /// Lists into memory that has no guard page behind it, for counts over any that can be lent.
    pub fn wide_list(&mut self, source: Source, state: &RawState, count: usize, from: &str) {
        let filler = carrier_of(&[0; CARRIER_BYTES].map(|_| self.random.byte()));
        let mut wanted = vec![filler; count];
        let mut found = vec![filler; count];
        let call = self.list_at(state, &mut wanted, found.as_mut_ptr(), false, from);
        if let Some(entry) = (0..count).find(|&entry| wanted[entry] != found[entry]) {
            differ(&call, &format!("entry {entry} of the list"));
        }
        let number = call.expected.number;
        self.coverage.list(source, state, count, number);
    }

    /// Makes both calls and compares all but the lists' contents. `guarded`: the list is in lent
    /// memory before a guard page.
    fn list_at<'a>(
        &mut self,
        state: &'a RawState,
        entries: &mut [RawCarrier],
        at: *mut RawCarrier,
        guarded: bool,
        from: &'a str,
    ) -> Call<'a, Served> {
        let expected = list_carriers(state, entries);
        let accepted = expected.number == DONE;
        let lent = self.state.at().cast::<RawState>();
        // SAFETY: the state is readable; the list is writable for the count if the call must be
        // done, or the count is 0.
        let make = || unsafe { knitout_carriers(lent, at, entries.len()) };
        let read_only = self.random.below(READ_ONLY_EVERY) == 0;
        let locked = guarded && !accepted && self.random.below(REFUSED_READ_ONLY_EVERY) == 0;
        let given = match (read_only, locked) {
            (_, true) => self.list.read_only(make),
            (true, _) => self.state.read_only(make),
            _ => make(),
        };
        self.coverage
            .note(Event::ListReadOnly, read_only && accepted);
        if locked {
            self.coverage.locked(Service::List, expected.number);
        }
        let call = Call {
            service: "list",
            from,
            before: state,
            bytes: &[],
            expected,
            given,
        };
        self.compare_state(&call, state);
        call
    }
}

/// The model's walk on the state that a step leaves must end at the first loop, and tell with racking
/// and carriers what complete is; at racking 0 its hooks are those looked at.
fn walk_agrees(left: &RawState, told: Stepped) {
    let state = left.state();
    let walk = walk(&state);
    let first = left.loops.iter().position(|&count| count > 0);
    let ends = match first {
        Some(hook) => !walk.none && walk.looked_at == hook + 1,
        None => walk.none && walk.looked_at == HOOKS,
    };
    let looked = usize::from(left.racking == 0) * walk.looked_at;
    let as_told = (u8::from(complete_by_walk(&state)), looked as u16);
    if !ends || as_told != (told.complete, told.looked) {
        show("state", &state_bytes(left));
        fail("the model's walk differs from the hooks, from complete or from looked");
    }
}

fn list_difference(wanted: &[u8], found: &[u8]) -> Option<String> {
    let at = (0..wanted.len()).find(|&at| wanted[at] != found[at])?;
    let entry = at / CARRIER_BYTES;
    let of = |bytes: &[u8]| carrier_of(&bytes[entry * CARRIER_BYTES..]);
    Some(format!(
        "entry {entry} of the list, {:?} and {:?}",
        of(wanted),
        of(found)
    ))
}

/// What differs is told with the model's value first.
fn differ<A: Debug>(call: &Call<A>, what: &str) -> ! {
    println!("panel's {}, {}: {what}", call.service, call.from);
    println!("model: {:?}", call.expected);
    println!("library: {:?}", call.given);
    show("state before", &state_bytes(call.before));
    show("bytes", call.bytes);
    fail("a panel service of the library differs from the model")
}
