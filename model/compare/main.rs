//! Compares the linked library with the model, by a seed: run, rewriter, house order, panel, ties.

mod calls;
mod complete_coverage;
mod complete_groups;
mod coverage;
mod draft;
mod generate;
mod layout;
mod lend;
mod limit_coverage;
mod logs;
mod order_calls;
mod order_coverage;
mod order_groups;
mod order_moves;
mod order_reach;
mod panel_calls;
mod panel_coverage;
mod panel_groups;
mod panel_records;
mod panel_states;
mod plated;
mod plated_coverage;
mod stretch_coverage;
mod stretched;
mod swap_classes;
mod swap_coverage;
mod swap_groups;
mod swaps;
mod tie_calls;
mod tie_coverage;
mod tie_groups;

use calls::Rewriter;
use coverage::Coverage;
use draft::Random;
use generate::GROUPS;
use lend::Lent;
use limit_coverage::{is_bad, Raised, CALL_LIMITS};
use machine::{Answer, DONE, HOOK_LIMIT, LIMITS};
use model::{
    history, machine, order, order_pieces, panel, panel_pieces, pieces, raw_state, rewrite, tie,
    tie_pieces, walk,
};
use order_calls::Orderer;
use panel_calls::Panel;
use std::process::exit;
use tie_calls::Ties;

const DEFAULT_SEED: u64 = 20_230_726;
const ROUNDS: usize = 240;
/// Rounds at each limit but 8.
const LIMIT_ROUNDS: usize = 10;
const LEAST_PROGRAMS: u64 = 1_000_000;
const LEAST_CALLS: u64 = 100_000;

/// Every program cut short, and one in so many of the others, is also run before a guard page.
const GUARD_EVERY: u64 = 8;

extern "C" {
    fn knitout_run(program: *const u8, length: usize) -> u64;
    fn knitout_run_at(limit: u8, program: *const u8, length: usize) -> u64;
}

fn library_run(limit: u8, program: &[u8]) -> u64 {
    // SAFETY: the slice is readable for its length.
    unsafe { knitout_run_at(limit, program.as_ptr(), program.len()) }
}

/// The library's run at limit 8, by the entry that takes none.
fn plain_run(program: &[u8]) -> u64 {
    // SAFETY: the slice is readable for its length.
    unsafe { knitout_run(program.as_ptr(), program.len()) }
}

fn fail(reason: &str) -> ! {
    println!("model: FAILED: {reason}");
    exit(1)
}

fn hex(bytes: &[u8]) -> String {
    bytes.iter().map(|byte| format!("{byte:02x}")).collect()
}

/// Prints bytes, and of many only the first and the last.
fn show(name: &str, bytes: &[u8]) {
    const SHOWN: usize = 600;
    if bytes.len() > SHOWN {
        let (first, last) = (&bytes[..SHOWN / 2], &bytes[bytes.len() - SHOWN / 2..]);
        println!("{name}, first bytes: {}", hex(first));
        println!("{name}, last bytes:  {}", hex(last));
    } else {
        println!("{name}: {}", hex(bytes));
    }
}

/// Prints number and place of a packed answer.
fn show_answer(name: &str, packed: u64) {
    let (number, place) = (packed / 65_536, packed % 65_536);
    println!("{name}: number {number} place {place}");
}

fn report_difference(limit: u8, program: &[u8], expected: u64, given: u64, from: &str) -> ! {
    show_answer("model", expected);
    show_answer("library", given);
    println!("limit {limit}, length {}, {from}", program.len());
    show("program", program);
    fail("the library differs from the model")
}

/// The library's answer for a copy of the program that ends at a guard page.
fn guarded_run(guarded: &mut Lent, limit: u8, program: &[u8]) -> u64 {
    let copy = guarded.lend(program, 0);
    // SAFETY: the copy is readable for its length.
    unsafe { knitout_run_at(limit, copy, program.len()) }
}

struct Comparison {
    coverage: Coverage,
    guarded: Lent,
    raised: Raised,
    programs: u64,
    guarded_programs: u64,
    other_limits: u64,
}

/// Fails if the library's answer is not the model's.
fn agree(limit: u8, program: &[u8], answer: &Answer, given: u64, from: &str) {
    let expected = answer.packed();
    if given != expected {
        report_difference(limit, program, expected, given, from);
    }
}

impl Comparison {
    /// Compares a program at a limit in range, and at another one of those that calls are made at.
    fn compare(&mut self, limit: u8, program: &[u8], from: &str) {
        let answer = if limit == HOOK_LIMIT {
            self.coverage.run(program)
        } else {
            self.coverage.limits.run(limit, program)
        };
        if limit == HOOK_LIMIT {
            agree(limit, program, &answer, plain_run(program), from);
        }
        agree(limit, program, &answer, library_run(limit, program), from);
        if answer.number == machine::CUT_SHORT || self.programs % GUARD_EVERY == 0 {
            let given = guarded_run(&mut self.guarded, limit, program);
            let from = format!("{from}, before a guard page");
            agree(limit, program, &answer, given, &from);
            self.guarded_programs += 1;
        }
        let turn = self.programs as usize % CALL_LIMITS.len();
        self.other_limit(CALL_LIMITS[turn], program, &answer, from);
        self.programs += 1;
    }

    /// Compares a program at another limit than that of an answer.
    fn other_limit(&mut self, limit: u8, program: &[u8], answer: &Answer, from: &str) {
        if limit == answer.state.limit {
            return;
        }
        let other = self.coverage.limits.run(limit, program);
        agree(limit, program, &other, library_run(limit, program), from);
        self.other_limits += 1;
        if is_bad(limit) {
            self.coverage.limits.bad(limit, answer.number);
            return;
        }
        let (lower, greater) = if limit < answer.state.limit {
            (&other, answer)
        } else {
            (answer, &other)
        };
        if let Some(what) = history::raised_difference(lower, greater) {
            show("program", program);
            fail(what);
        }
        if lower.number == DONE {
            self.raised.valid(lower.state.limit, greater.state.limit);
        }
    }

    /// Each piece at its own limit, then at the others.
    fn pieces(&mut self) {
        for piece in pieces::pieces() {
            let answer = machine::run_at(piece.limit, &piece.program);
            if (answer.number, answer.place) != (piece.number, piece.place) {
                fail(&format!(
                    "the model differs from the paper on piece {}",
                    piece.name
                ));
            }
            agree(
                piece.limit,
                &piece.program,
                &answer,
                library_run(piece.limit, &piece.program),
                piece.name,
            );
            for limit in LIMITS {
                self.compare(limit, &piece.program, piece.name);
            }
        }
        if !pieces::states_agree() {
            fail("the model differs from the paper on a final state");
        }
    }

    /// Every program of one byte or two, and every drop.
    fn short_programs(&mut self) {
        for first in 0..=255 {
            self.compare(HOOK_LIMIT, &[first], "one byte");
            for second in 0..=255 {
                self.compare(HOOK_LIMIT, &[first, second], "two bytes");
                self.compare(HOOK_LIMIT, &[machine::DROP, first, second], "one drop");
            }
        }
    }

    /// Every limit out of range, on a program of each piece.
    fn bad_limits(&mut self) {
        for piece in pieces::pieces() {
            let answer = machine::run(&piece.program);
            for limit in (0..=255).filter(|&limit| is_bad(limit)) {
                self.other_limit(limit, &piece.program, &answer, piece.name);
            }
        }
    }

    fn seeded_programs(&mut self, seed: u64) {
        let mut random = Random::new(seed);
        for limit in LIMITS {
            let rounds = if limit == HOOK_LIMIT {
                ROUNDS
            } else {
                LIMIT_ROUNDS
            };
            for _ in 0..rounds {
                self.round(&mut random, limit);
            }
        }
    }

    fn round(&mut self, random: &mut Random, limit: u8) {
        for (name, calls, generate) in GROUPS {
            for _ in 0..calls {
                let mut check = |program: &[u8]| self.compare(limit, program, name);
                generate(random, limit, &mut check);
            }
        }
    }
}

fn seed_argument() -> u64 {
    match std::env::args().nth(1) {
        None => DEFAULT_SEED,
        Some(text) => text
            .parse()
            .unwrap_or_else(|_| fail("the seed is not a number")),
    }
}

fn main() {
    let seed = seed_argument();
    println!("model: seed {seed}");
    let comparison = runs(seed);
    let rewriter = rewriter_calls(seed);
    let orderer = order_calls(seed);
    let panel = panel_services(seed);
    let ties = ties_asked(seed);
    let covered = covered(&comparison, &rewriter, &orderer, &panel, &ties);
    let few_calls = rewriter.calls.min(orderer.calls) < LEAST_CALLS;
    let few = comparison.programs < LEAST_PROGRAMS || few_calls;
    if !covered || few || rewriter.changed_chains == 0 {
        fail("the programs do not cover what they should");
    }
    println!(
        "model: {} programs agree (seed {seed})",
        comparison.programs
    );
}

/// Whether all counts are what they should be; tells those that are not.
fn covered(
    comparison: &Comparison,
    rewriter: &Rewriter,
    orderer: &Orderer,
    panel: &Panel,
    ties: &Ties,
) -> bool {
    let mut missing = comparison.coverage.missing();
    missing.extend(comparison.raised.missing());
    missing.extend(rewriter.coverage.missing());
    missing.extend(rewriter.other_limits.missing());
    missing.extend(orderer.coverage.missing());
    missing.extend(panel.coverage.missing());
    missing.extend(ties.coverage.missing());
    let mut impossible = comparison.coverage.impossible();
    impossible.extend(rewriter.coverage.impossible());
    impossible.extend(orderer.coverage.impossible());
    impossible.extend(panel.coverage.impossible());
    impossible.extend(ties.coverage.impossible());
    for name in &missing {
        println!("never came: {name}");
    }
    for name in &impossible {
        println!("came and cannot: {name}");
    }
    missing.is_empty() && impossible.is_empty()
}

/// Counts by number, those that came.
fn by_number(counts: &[u64]) -> String {
    let came = counts.iter().enumerate().filter(|(_, count)| **count > 0);
    let cells: Vec<String> = came
        .map(|(number, count)| format!("{number}: {count}"))
        .collect();
    cells.join(", ")
}

/// Compares the run and tells the counts.
fn runs(seed: u64) -> Comparison {
    let mut comparison = Comparison {
        coverage: Coverage::new(),
        guarded: Lent::new(),
        raised: Raised::new(),
        programs: 0,
        guarded_programs: 0,
        other_limits: 0,
    };
    comparison.pieces();
    comparison.bad_limits();
    comparison.short_programs();
    let short = comparison.programs;
    comparison.seeded_programs(seed);
    let seeded = comparison.programs - short;
    comparison.coverage.print();
    println!("{short} short programs, {seeded} seeded ones");
    println!(
        "{} of them also before a guard page",
        comparison.guarded_programs
    );
    println!("{} runs more at another limit", comparison.other_limits);
    comparison.raised.print();
    comparison
}

/// Compares the rewriter and tells the counts.
fn rewriter_calls(seed: u64) -> Rewriter {
    let mut rewriter = Rewriter::new(seed);
    swap_groups::compare(&mut rewriter, seed);
    println!(
        "rewriter: {} pairs of program and log agree, {} swaps made, {} of {} chains changed; {}",
        rewriter.calls,
        rewriter.coverage.swapped,
        rewriter.changed_chains,
        rewriter.chains,
        by_number(&rewriter.coverage.numbers)
    );
    println!(
        "rewriter: {} of these at limit 8 by the entry that takes none too",
        rewriter.plain_calls
    );
    println!(
        "rewriter: {} refused calls store nothing in read-only memory; {}",
        rewriter.coverage.locked.iter().sum::<u64>(),
        by_number(&rewriter.coverage.locked)
    );
    rewriter.coverage.plated.print("rewriter");
    rewriter.coverage.plated_ties.print();
    rewriter.coverage.limits.print();
    rewriter.coverage.stretch.print("rewriter");
    rewriter.other_limits.print();
    rewriter
}

/// Compares the house order and tells the counts.
fn order_calls(seed: u64) -> Orderer {
    let mut orderer = Orderer::new(seed);
    order_groups::compare(&mut orderer, seed);
    println!(
        "order: {} programs agree; {}",
        orderer.calls,
        by_number(&orderer.coverage.numbers)
    );
    println!(
        "order: {} of these at limit 8 by the entry that takes none too",
        orderer.plain_calls
    );
    println!(
        "order: {} refused calls store nothing in read-only memory; {}",
        orderer.coverage.locked.iter().sum::<u64>(),
        by_number(&orderer.coverage.locked)
    );
    orderer.coverage.print();
    orderer
}

/// Compares the panel's services and tells the counts.
fn panel_services(seed: u64) -> Panel {
    let mut panel = Panel::new(seed);
    panel_groups::compare(&mut panel, seed);
    panel.coverage.print();
    panel
}

/// Compares ties and tells the counts.
fn ties_asked(seed: u64) -> Ties {
    let mut ties = Ties::new(seed);
    tie_groups::compare(&mut ties, seed);
    println!(
        "tie: {} pairs agree, interface {}; {}",
        ties.calls,
        tie_calls::interface(),
        by_number(&ties.coverage.numbers)
    );
    ties.coverage.print();
    ties
}
