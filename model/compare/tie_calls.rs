//! One call for a tie through its C entry, compared with the model in every field.

use crate::calls::Rewriter;
use crate::draft::Random;
use crate::lend::{lend, Lent, Loan};
use crate::machine::{read_record, DONE};
use crate::rewrite::TIED;
use crate::tie::{tie, Tied};
use crate::tie_coverage::{Event, TieCoverage};
use crate::{fail, show};

extern "C" {
    fn knitout_tie(
        racking: i8,
        first: *const u8,
        first_length: usize,
        second: *const u8,
        second_length: usize,
    ) -> Tied;
    fn knitout_interface_3() -> u32;
}

/// One in so many calls is lent memory that can only be read.
const READ_ONLY_EVERY: usize = 32;

/// One in so many pairs is also asked for with its records exchanged.
const EXCHANGED_EVERY: u64 = 4;

/// What the library's interface says of itself.
pub fn interface() -> u32 {
    // SAFETY: it takes nothing.
    unsafe { knitout_interface_3() }
}

/// A racking, and bytes with a record at their front or none.
#[derive(Clone, Copy)]
pub struct Pair<'a> {
    pub racking: i8,
    pub sides: [&'a [u8]; 2],
}

impl Pair<'_> {
    pub fn exchanged(&self) -> Self {
        let [first, second] = self.sides;
        Pair {
            sides: [second, first],
            ..*self
        }
    }

    pub fn model(&self) -> Tied {
        tie(self.racking, self.sides[0], self.sides[1])
    }
}

/// The swapper makes a pair's swap; what it counts is not looked at.
pub struct Ties {
    pub coverage: TieCoverage,
    pub calls: u64,
    pub swapper: Rewriter,
    random: Random,
    lent: [Lent; 2],
}

pub fn is_answered(number: u8) -> bool {
    matches!(number, DONE | TIED)
}

impl Ties {
    pub fn new(seed: u64) -> Ties {
        Ties {
            coverage: TieCoverage::new(),
            calls: 0,
            swapper: Rewriter::new(seed),
            random: Random::new(!seed.rotate_left(16)),
            lent: [0; 2].map(|_| Lent::new()),
        }
    }

    /// Asks for a tie, at times in both orders.
    pub fn call(&mut self, pair: &Pair, from: &str) -> Tied {
        let answer = self.lent_call(pair, from);
        if self.calls % EXCHANGED_EVERY == 0 {
            let other = self.lent_call(&pair.exchanged(), from);
            if is_answered(answer.number) && other != answer {
                differ(pair, &answer, &other, from, "records exchanged");
            }
        }
        answer
    }

    /// Lends each side on its own.
    fn lent_call(&mut self, pair: &Pair, from: &str) -> Tied {
        let [first, second] = [0, 1].map(|side| {
            let bytes = pair.sides[side];
            lend(&mut self.random, &mut self.lent[side], bytes, true)
        });
        let answer = self.call_at(pair, [first.start, second.start], from);
        for (side, loan) in [first, second].iter().enumerate() {
            self.loan(side, pair.sides[side], loan, &answer);
        }
        answer
    }

    /// Asks for a tie of two records of a program, each lent with the program's rest behind it.
    pub fn call_within(
        &mut self,
        racking: i8,
        program: &[u8],
        places: [usize; 2],
        from: &str,
    ) -> Tied {
        let pair = Pair {
            racking,
            sides: places.map(|place| &program[place..]),
        };
        let start = self.lent[0].lend(program, 0);
        // SAFETY: the places are in the lent program.
        let at = places.map(|place| unsafe { start.add(place) });
        let answer = self.made(&pair, at, from);
        self.compare_loan(0, program, &pair, &answer, from);
        let side = usize::from(places[0] > places[1]);
        let same = places[0] == places[1];
        self.coverage
            .note(Event::Overlapping, side, !same && answer.number == TIED);
        if same {
            for side in 0..2 {
                self.coverage.note(Event::OnePlace, side, true);
            }
        }
        answer
    }

    fn loan(&mut self, side: usize, bytes: &[u8], loan: &Loan, answer: &Tied) {
        let by = usize::from(answer.by);
        match read_record(bytes) {
            Ok((_, length)) if is_answered(answer.number) => {
                let whole = length == bytes.len();
                self.coverage.guarded[side][by] += u64::from(whole && loan.guarded);
                self.coverage.behind[side][by] += u64::from(!whole);
            }
            Ok(_) => (),
            Err(_) => {
                self.coverage.note(Event::FaultGuarded, side, loan.guarded);
                self.coverage.note(Event::Null, side, loan.null);
            }
        }
    }

    fn call_at(&mut self, pair: &Pair, at: [*mut u8; 2], from: &str) -> Tied {
        let answer = self.made(pair, at, from);
        for (side, bytes) in pair.sides.iter().enumerate() {
            self.compare_loan(side, bytes, pair, &answer, from);
        }
        answer
    }

    /// Makes the call and compares its answer.
    fn made(&mut self, pair: &Pair, at: [*mut u8; 2], from: &str) -> Tied {
        let expected = pair.model();
        let [first, second] = pair.sides.map(<[u8]>::len);
        // SAFETY: each pointer is readable for the length behind it.
        let make = || unsafe { knitout_tie(pair.racking, at[0], first, at[1], second) };
        let read_only = self.random.below(READ_ONLY_EVERY) == 0;
        let given = if read_only {
            self.lent[0].read_only(|| self.lent[1].read_only(make))
        } else {
            make()
        };
        if given != expected {
            differ(pair, &expected, &given, from, "the answer");
        }
        self.coverage.pair(pair, &expected);
        self.coverage.read_only[usize::from(expected.number)] += u64::from(read_only);
        self.calls += 1;
        given
    }

    fn compare_loan(&self, side: usize, bytes: &[u8], pair: &Pair, answer: &Tied, from: &str) {
        if self.lent[side].bytes() != bytes || !self.lent[side].marks_stand() {
            differ(pair, answer, answer, from, "bytes written to, or around");
        }
    }
}

fn differ(pair: &Pair, expected: &Tied, given: &Tied, from: &str, what: &str) -> ! {
    println!("tie, {from}: {what}");
    println!("model: {expected:?}");
    println!("library: {given:?}");
    println!("racking {}", pair.racking);
    show("first", pair.sides[0]);
    show("second", pair.sides[1]);
    fail("the library's tie differs from the model")
}
