//! One rewriter call through the C entry, compared with the model in every byte and entry.

use crate::draft::Random;
use crate::lend::{lend, place_in, Lent};
use crate::limit_coverage::OtherLimits;
use crate::machine::HOOK_LIMIT;
use crate::rewrite::is_written;
use crate::swap_coverage::{SwapCoverage, LOANS};
use crate::{fail, show, show_answer};

extern "C" {
    fn knitout_rewrite(
        program: *const u8,
        program_length: usize,
        log: *const u8,
        log_length: usize,
        output: *mut u8,
        output_length: usize,
        work: *mut u16,
        work_count: usize,
    ) -> u64;
    fn knitout_rewrite_at(
        limit: u8,
        program: *const u8,
        program_length: usize,
        log: *const u8,
        log_length: usize,
        output: *mut u8,
        output_length: usize,
        work: *mut u16,
        work_count: usize,
    ) -> u64;
}

/// One in so many calls at limit 8 is also made by the entry that takes none.
const PLAIN_EVERY: u64 = 4;

/// A limit, a program, a log, and how long an output and a work area are lent.
#[derive(Clone, Copy)]
pub struct Call<'a> {
    pub limit: u8,
    pub program: &'a [u8],
    pub log: &'a [u8],
    pub output: usize,
    pub work: usize,
}

/// Which entry a call is made by.
#[derive(Clone, Copy)]
enum Entry {
    At,
    Plain,
}

/// What a call leaves behind.
pub struct Left {
    pub answer: u64,
    pub output: Vec<u8>,
    pub work: Vec<u16>,
}

pub struct Rewriter {
    pub coverage: SwapCoverage,
    pub calls: u64,
    pub chains: u64,
    pub changed_chains: u64,
    pub other_limits: OtherLimits,
    pub plain_calls: u64,
    random: Random,
    lent: [Lent; 4],
}

pub fn entries(bytes: &[u8]) -> Vec<u16> {
    let pairs = bytes.chunks_exact(2);
    pairs.map(|b| u16::from_ne_bytes([b[0], b[1]])).collect()
}

/// Where two lists of equal length first differ.
fn first_difference<T: PartialEq>(expected: &[T], given: &[T]) -> Option<usize> {
    (0..expected.len()).find(|&at| expected[at] != given[at])
}

/// An output and a work area before a call; no start has a work entry's value.
pub fn patterns(random: &mut Random, output: usize, work: usize) -> (Vec<u8>, Vec<u16>) {
    let (salt, odd) = (random.byte(), random.byte() | 1);
    let output = (0..output).map(|at| (at as u8).wrapping_mul(odd) ^ salt);
    let work = (0..work).map(|at| (at as u16).wrapping_mul(odd.into()) | 0x8000);
    (output.collect(), work.collect())
}

impl Left {
    /// What another call left otherwise, if anything.
    pub fn difference(&self, given: &Left) -> Option<String> {
        if given.answer != self.answer {
            return Some("number and place".to_string());
        }
        if let Some(at) = first_difference(&self.output, &given.output) {
            return Some(format!("output byte {at}"));
        }
        let at = first_difference(&self.work, &given.work)?;
        let (wanted, found) = (self.work[at], given.work[at]);
        Some(format!(
            "work entry {at}, {wanted} in the model and {found}"
        ))
    }
}

impl Rewriter {
    pub fn new(seed: u64) -> Rewriter {
        Rewriter {
            coverage: SwapCoverage::new(),
            calls: 0,
            chains: 0,
            changed_chains: 0,
            other_limits: OtherLimits::new(),
            plain_calls: 0,
            random: Random::new(!seed),
            lent: [0; 4].map(|_| Lent::new()),
        }
    }

    /// Lends bytes; the last loan is of entries, which are aligned.
    fn lend(&mut self, loan: usize, bytes: &[u8]) -> *mut u8 {
        let lent = lend(&mut self.random, &mut self.lent[loan], bytes, loan < 3);
        self.coverage.loan(loan, lent.guarded, lent.null);
        lent.start
    }

    /// Makes the call; if it may write nothing, output and work can only be read.
    fn library(
        &mut self,
        entry: Entry,
        call: &Call,
        output: &[u8],
        work: &[u16],
        locked: bool,
    ) -> Left {
        let work: Vec<u8> = work.iter().flat_map(|entry| entry.to_ne_bytes()).collect();
        let program = self.lend(0, call.program);
        let log = match place_in(call.program, call.log) {
            // SAFETY: the place is in the lent program.
            Some(place) => unsafe { program.add(place) },
            None => self.lend(1, call.log),
        };
        let out = self.lend(2, output);
        let starts = self.lend(3, &work).cast::<u16>();
        let (length, log_length) = (call.program.len(), call.log.len());
        let (out_length, count) = (call.output, call.work);
        // SAFETY: each pointer is readable, and the last two writable if the call must write, for
        // the length beside it; the work area ends an even number of bytes before a page's end.
        let make = || unsafe {
            match entry {
                Entry::Plain => knitout_rewrite(
                    program, length, log, log_length, out, out_length, starts, count,
                ),
                Entry::At => knitout_rewrite_at(
                    call.limit, program, length, log, log_length, out, out_length, starts, count,
                ),
            }
        };
        let answer = if locked {
            self.lent[2].read_only(|| self.lent[3].read_only(make))
        } else {
            make()
        };
        Left {
            answer,
            output: self.lent[2].bytes().to_vec(),
            work: entries(self.lent[3].bytes()),
        }
    }

    /// Makes a call and gives its number and the program that the next one in a chain starts from.
    pub fn call(&mut self, call: &Call, from: &str) -> (u8, Vec<u8>) {
        let (mut output, mut work) = patterns(&mut self.random, call.output, call.work);
        let (lent_output, lent_work) = (output.clone(), work.clone());
        let answer = self.coverage.rewrite(call, &mut output, &mut work);
        let locked = !is_written(answer.number) && self.random.percent(25);
        if locked {
            self.coverage.locked(answer.number);
        }
        let expected = Left {
            answer: answer.packed(),
            output,
            work,
        };
        let plain = call.limit == HOOK_LIMIT && self.calls % PLAIN_EVERY == 0;
        let entries = [Entry::At, Entry::Plain].into_iter();
        for entry in entries.take(1 + usize::from(plain)) {
            let given = self.library(entry, call, &lent_output, &lent_work, locked);
            self.compare(call, &expected, &given, from);
        }
        self.calls += 1;
        self.plain_calls += u64::from(plain);
        let next = if is_written(answer.number) {
            expected.output[..call.program.len()].to_vec()
        } else {
            call.program.to_vec()
        };
        (answer.number, next)
    }

    fn compare(&self, call: &Call, expected: &Left, given: &Left, from: &str) {
        if let Some(what) = expected.difference(given) {
            differ(call, expected, given, from, &what);
        }
        for (loan, bytes) in [call.program, call.log].into_iter().enumerate() {
            let shared = loan == 1 && place_in(call.program, call.log).is_some();
            if !shared && self.lent[loan].bytes() != bytes {
                let what = format!("{} written to", LOANS[loan]);
                differ(call, expected, given, from, &what);
            }
        }
        for (name, lent) in LOANS.iter().zip(&self.lent) {
            if !lent.marks_stand() {
                differ(call, expected, given, from, &format!("bytes around {name}"));
            }
        }
    }
}

fn differ(call: &Call, expected: &Left, given: &Left, from: &str, what: &str) -> ! {
    println!("rewriter, {from}: {what}");
    for (name, left) in [("model", expected), ("library", given)] {
        show_answer(name, left.answer);
        show("output", &left.output);
    }
    let (program, log) = (call.program.len(), call.log.len());
    let (output, work) = (call.output, call.work);
    println!("limit {}", call.limit);
    println!("lengths: program {program}, log {log}, output {output}, work {work} entries");
    show("program", call.program);
    show("log", call.log);
    fail("the library's rewriter differs from the model")
}
