//! One call for the house order through the C entries, compared with the model in every byte.

use crate::calls::{entries, patterns, Left, Rewriter};
use crate::draft::Random;
use crate::lend::{lend, Lent};
use crate::machine::{DONE, HOOK_LIMIT};
use crate::order_coverage::{OrderCoverage, LOANS};
use crate::{fail, show, show_answer};

extern "C" {
    fn knitout_order(
        program: *const u8,
        program_length: usize,
        output: *mut u8,
        output_length: usize,
        work: *mut u16,
        work_count: usize,
    ) -> u64;
    fn knitout_order_at(
        limit: u8,
        program: *const u8,
        program_length: usize,
        output: *mut u8,
        output_length: usize,
        work: *mut u16,
        work_count: usize,
    ) -> u64;
}

/// One in so many calls at limit 8 is also made by the entry that takes none.
const PLAIN_EVERY: u64 = 4;

/// A limit, a program, and how long an output and a work area are lent.
#[derive(Clone, Copy)]
pub struct OrderCall<'a> {
    pub limit: u8,
    pub program: &'a [u8],
    pub output: usize,
    pub work: usize,
}

/// Which entry a call is made by.
#[derive(Clone, Copy)]
enum Entry {
    At,
    Plain,
}

/// The swapper makes swaps before an order; what it counts is not looked at.
pub struct Orderer {
    pub coverage: OrderCoverage,
    pub calls: u64,
    pub plain_calls: u64,
    pub swapper: Rewriter,
    random: Random,
    lent: [Lent; 3],
}

impl Orderer {
    pub fn new(seed: u64) -> Orderer {
        Orderer {
            coverage: OrderCoverage::new(),
            calls: 0,
            plain_calls: 0,
            swapper: Rewriter::new(seed),
            random: Random::new(seed.rotate_left(32)),
            lent: [0; 3].map(|_| Lent::new()),
        }
    }

    /// Lends bytes; the last loan is of entries, which are aligned.
    fn lend(&mut self, loan: usize, bytes: &[u8]) -> *mut u8 {
        let lent = lend(&mut self.random, &mut self.lent[loan], bytes, loan < 2);
        self.coverage.loan(loan, lent.guarded, lent.null);
        lent.start
    }

    /// Makes the call; if it may write nothing, output and work can only be read.
    fn library(
        &mut self,
        entry: Entry,
        call: &OrderCall,
        output: &[u8],
        work: &[u16],
        locked: bool,
    ) -> Left {
        let work: Vec<u8> = work.iter().flat_map(|entry| entry.to_ne_bytes()).collect();
        let program = self.lend(0, call.program);
        let out = self.lend(1, output);
        let starts = self.lend(2, &work).cast::<u16>();
        let (length, out_length, count) = (call.program.len(), call.output, call.work);
        // SAFETY: each pointer is readable, and the last two writable if the call must write, for
        // the length beside it; the work area ends an even number of bytes before a page's end.
        let make = || unsafe {
            match entry {
                Entry::Plain => knitout_order(program, length, out, out_length, starts, count),
                Entry::At => {
                    knitout_order_at(call.limit, program, length, out, out_length, starts, count)
                }
            }
        };
        let answer = if locked {
            self.lent[1].read_only(|| self.lent[2].read_only(make))
        } else {
            make()
        };
        Left {
            answer,
            output: self.lent[1].bytes().to_vec(),
            work: entries(self.lent[2].bytes()),
        }
    }

    /// Makes a call; of a done one, gives what the library wrote to the front of the output.
    pub fn call(&mut self, call: &OrderCall, from: &str) -> Option<Vec<u8>> {
        let (mut output, mut work) = patterns(&mut self.random, call.output, call.work);
        let (lent_output, lent_work) = (output.clone(), work.clone());
        let answer = self.coverage.order(call, &mut output, &mut work);
        let done = answer.number == DONE;
        let locked = !done && self.random.percent(25);
        if locked {
            self.coverage.locked(answer.number);
        }
        let expected = Left {
            answer: answer.packed(),
            output,
            work,
        };
        let given = self.library(Entry::At, call, &lent_output, &lent_work, locked);
        self.compare(call, &expected, &given, from);
        if call.limit == HOOK_LIMIT && self.calls % PLAIN_EVERY == 0 {
            let plain = self.library(Entry::Plain, call, &lent_output, &lent_work, locked);
            self.compare(call, &expected, &plain, from);
            self.plain_calls += 1;
        }
        self.calls += 1;
        done.then(|| given.output[..call.program.len()].to_vec())
    }

    fn compare(&self, call: &OrderCall, expected: &Left, given: &Left, from: &str) {
        if let Some(what) = expected.difference(given) {
            differ(call, expected, given, from, &what);
        }
        if self.lent[0].bytes() != call.program {
            differ(call, expected, given, from, "program written to");
        }
        for (name, lent) in LOANS.iter().zip(&self.lent) {
            if !lent.marks_stand() {
                differ(call, expected, given, from, &format!("bytes around {name}"));
            }
        }
    }
}

fn differ(call: &OrderCall, expected: &Left, given: &Left, from: &str, what: &str) -> ! {
    println!("house order, {from}: {what}");
    for (name, left) in [("model", expected), ("library", given)] {
        show_answer(name, left.answer);
        show("output", &left.output);
    }
    let (program, output, work) = (call.program.len(), call.output, call.work);
    println!("limit {}", call.limit);
    println!("lengths: program {program}, output {output}, work {work} entries");
    show("program", call.program);
    fail("the library's house order differs from the model")
}
