//! The calls, made of the rules: run, rewriter, house order, tie, one-record step, carrier list.

use crate::lent::*;
use crate::rules::Rules;
use crate::state::*;

/// A run's answer: for 3 to 11, 16 and 17 the state "precedes the refused record", for 1, 2 and 15 it is empty, at limit 8 for 15.
pub struct Answer {
    pub number: u8,
    pub place: usize,
    pub state: State,
}

/// What a step answers.
#[derive(Clone, Copy, PartialEq, Eq, Debug)]
pub struct Stepped {
    pub number: u8,
    pub complete: bool,
    pub looked: usize,
    pub length: usize,
}

/// Areas that a rewriter or an order is lent beside its program: what it is to write, and how long they are.
pub struct Bench<'a> {
    pub output: &'a mut [u8],
    pub work: &'a mut [u16],
    pub output_length: usize,
    pub work_count: usize,
}

/// "Every run starts" from the empty state; the records in turn.
pub fn run_records(rules: &Rules, limit: u8, program: &[u8]) -> Answer {
    let mut state = State::empty(limit);
    let mut start = 0;
    while start < program.len() {
        let number = match rules.read(&program[start..]) {
            Err(number) => number,
            Ok((record, size)) => match rules.refusal(&state, &record) {
                DONE => {
                    rules.apply(&mut state, &record);
                    start += size;
                    continue;
                }
                number => number,
            },
        };
        return Answer { number, place: rules.place(number, start), state };
    }
    Answer { number: DONE, place: 0, state }
}

fn unrun(rules: &Rules, limit: u8, number: u8) -> Answer {
    let limit = if number == FOUL_STATE { 8 } else { limit };
    Answer { number, place: rules.place(number, 0), state: State::empty(limit) }
}

/// A program by its bytes, and by its length, which may be greater.
pub fn run_at(rules: &Rules, limit: u8, program: &[u8], length: usize) -> Answer {
    match rules.refused_loan(limit, length, 0, usize::MAX, usize::MAX) {
        DONE => run_records(rules, limit, program),
        number => unrun(rules, limit, number),
    }
}

/// The records of a program that was run, each with the racking in force before it.
pub fn parts<'a>(rules: &Rules, program: &'a [u8]) -> Vec<Part<'a>> {
    let mut parts = Vec::new();
    let (mut start, mut racking) = (0, 0);
    while let Ok((record, size)) = rules.read(&program[start..]) {
        let end = program.len().min(start + size);
        parts.push(Part { record, bytes: &program[start..end], racking });
        racking = rules.in_force(racking, &record);
        start = end;
    }
    parts
}

/// "copies it to the front of the output, writes each record's start into the front of the work area".
fn write(parts: &[Part], bench: &mut Bench) {
    let mut start = 0;
    for (i, part) in parts.iter().enumerate() {
        bench.output[start..start + part.bytes.len()].copy_from_slice(part.bytes);
        bench.work[i] = start as u16;
        start += part.bytes.len();
    }
}

/// "then makes the swaps in order": the number and place with which the log ends.
fn follow(rules: &Rules, parts: &mut [Part], log: &[u8]) -> (u8, usize) {
    for (i, bytes) in log.chunks(3).enumerate() {
        match rules.log_number(parts, bytes) {
            DONE => rules.swap(parts, rules.log_record(bytes).unwrap_or(0)),
            number => return (number, rules.place(number, 3 * i)),
        }
    }
    (DONE, 0)
}

pub fn rewrite_at(rules: &Rules, limit: u8, program: (&[u8], usize), log: (&[u8], usize), bench: &mut Bench) -> Answer {
    let refused = rules.refused_loan(limit, program.1, log.1, bench.output_length, bench.work_count);
    if refused != DONE {
        return unrun(rules, limit, refused);
    }
    let run = run_records(rules, limit, program.0);
    if run.number != DONE {
        return run;
    }
    let mut parts = parts(rules, program.0);
    let (number, place) = follow(rules, &mut parts, log.0);
    if rules.writes(number) {
        write(&parts, bench);
    }
    Answer { number, place, state: run.state }
}

/// "The answer, the refusals and what output and work then hold are the rewriter's, with this order in place of swaps" (02, W3).
pub fn order_at(rules: &Rules, limit: u8, program: (&[u8], usize), bench: &mut Bench) -> Answer {
    let answer = rewrite_at(rules, limit, program, (&[], 0), bench);
    if answer.number == DONE {
        let parts = parts(rules, program.0);
        let ordered: Vec<Part> = rules.house(&parts).iter().map(|&i| parts[i]).collect();
        write(&ordered, bench);
    }
    answer
}

pub fn tie(rules: &Rules, racking: i8, first: &[u8], second: &[u8]) -> Tie {
    match rules.pair_read(racking.into(), first, second) {
        Err(number) => Tie { number, ..Tie::default() },
        Ok((first, second)) => rules.tie(&first, &second, racking.into()),
    }
}

/// "it takes the first record of a slice of any length, changes the lent state itself and gives a number and the record's length
/// (15 is looked at first, then 3 to 11)" (01), and complete (02, W4). The slice may be longer than its bytes.
pub fn step(rules: &Rules, lent: &mut LentState, bytes: &[u8], length: usize) -> Stepped {
    if rules.foul(lent) {
        let length = rules.length_given(FOUL_STATE, 0, length);
        return Stepped { number: FOUL_STATE, complete: false, looked: 0, length };
    }
    let before = lent.state();
    let mut after = before.clone();
    let (number, size) = match rules.read(bytes) {
        Err(number) => (number, 0),
        Ok((record, size)) => (rules.refusal(&before, &record), size),
    };
    if let (DONE, Ok((record, _))) = (number, rules.read(bytes)) {
        rules.apply(&mut after, &record);
        *lent = LentState::of(&after);
    }
    let (complete, looked) = rules.tells(&before, &after);
    Stepped { number, complete, looked, length: rules.length_given(number, size, length) }
}

/// "A second service fills a lent list of carrier entries [..] and it gives a number and length 10".
pub fn carriers(rules: &Rules, lent: &LentState, list: &mut [LentCarrier], count: usize) -> (u8, usize) {
    let number = rules.list_number(rules.foul(lent), count);
    if number != DONE {
        return (number, 0);
    }
    rules.listed(lent, list);
    (number, CARRIERS)
}
