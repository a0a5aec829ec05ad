//! Compares a library with the rules of the papers, call by call, and measures the comparison by the faults that it notices.

mod call;
mod claims;
mod counts;
mod lend;
mod library;
mod misreadings;
mod random;
mod record;
mod rows;
mod scenes;
mod signals;
mod walk;

use call::*;
use counts::Counts;
use lend::Area;
use library::Library;
use misreadings::Misreading;
use random::Random;
use rules::rules::Rules;
use scenes::Scenes;
use std::process::exit;

const SEED: u64 = 2023;
/// The calls of a comparison, and of one with plain C.
const CALLS: u64 = 2_000_000;
const SECOND_CALLS: u64 = 500_000;
/// The calls within which each misreading and each faulty library must be noticed.
const NOTICED_WITHIN: u64 = 200_000;

const USAGE: &str = "usage: compare all LIBRARY ROWS     the library on worked examples and generated calls, every misreading
       compare second LIBRARY PREFIX   a second reading of the calls, under names of its own
       compare notice LIBRARY          the call at which a faulty library is noticed; fails if it is not
       compare record FILE COUNT       writes so many calls of each entry for controller/replay.c";

/// A library beside the rules.
struct Comparison<'a> {
    rules: &'a Rules,
    library: Library,
    /// One for each pointer of an entry.
    areas: Vec<Area>,
    places: Random,
    calls: u64,
}

impl<'a> Comparison<'a> {
    fn new(rules: &'a Rules, file: &str, prefix: &str) -> Comparison<'a> {
        let library = Library::load(file, prefix);
        Comparison { rules, library, areas: (0..4).map(|_| Area::new()).collect(), places: Random::new(SEED), calls: 0 }
    }

    /// Makes a call; gives what it must answer and leave. Says what is wrong, if anything is, and ends.
    fn hold(&mut self, call: &Call) -> Outcome {
        self.calls += 1;
        signals::at_call(self.calls);
        let right = call.expect(self.rules);
        if let Some(wrong) = self.library.wrong(call, &right, &mut self.areas, &mut self.places) {
            println!("call {}, {}: {wrong}", self.calls, call.entry.name());
            eprintln!("{call:?}");
            signals::end();
        }
        right
    }
}

/// So many generated calls.
fn compare(file: &str, prefix: &str, calls: u64) {
    let rules = Rules::right();
    let (mut comparison, mut scenes) = (Comparison::new(&rules, file, prefix), Scenes::new(&rules, SEED));
    while comparison.calls < calls {
        scenes.play(&mut |call| comparison.hold(call));
    }
}

/// Those of the misreadings that a call tells apart from the rules are noticed, and drop out.
fn notice(left: &mut Vec<Misreading>, call: &Call, right: &Outcome, calls: u64) {
    left.retain(|misreading| {
        let looked_for = misreading.at.is_none_or(|entry| entry == call.entry);
        let noticed = looked_for && call.expect(&misreading.rules) != *right;
        if noticed {
            println!("misreading {}: call {calls}, {}", misreading.name, call.entry.name());
        }
        !noticed
    });
}

fn compare_all(file: &str, rows: &str) {
    let rules = Rules::right();
    let mut comparison = Comparison::new(&rules, file, "knitout_");
    let text = std::fs::read_to_string(rows).expect("the rows");
    match rows::hold(&rules, &text, &mut |call| comparison.hold(call)) {
        Ok(count) => println!("compare: {count} worked examples hold"),
        Err(row) => {
            println!("compare: a worked example does not hold: {row}");
            exit(1);
        }
    }
    comparison.calls = 0;
    let (mut counts, mut left) = (Counts::new(), misreadings::all());
    let count = left.len();
    let mut scenes = Scenes::new(&rules, SEED);
    while comparison.calls < CALLS {
        scenes.play(&mut |call| {
            let right = comparison.hold(call);
            counts.note(call, &right);
            if comparison.calls <= NOTICED_WITHIN {
                notice(&mut left, call, &right, comparison.calls);
            }
            right
        });
    }
    counts.print();
    let mut faults = counts.faults();
    faults.extend(left.iter().map(|misreading| format!("{}: a misreading not noticed", misreading.name)));
    faults.iter().for_each(|fault| println!("compare: {fault}"));
    println!("compare: {} calls agree, {} programs keep what is claimed of them", comparison.calls, scenes.held);
    println!("compare: {} of {count} misreadings noticed within {NOTICED_WITHIN} calls", count - left.len());
    if !faults.is_empty() {
        exit(1);
    }
}

fn main() {
    let words: Vec<String> = std::env::args().skip(1).collect();
    let words: Vec<&str> = words.iter().map(String::as_str).collect();
    match words[..] {
        ["all", library, rows] => {
            signals::watch(60, 1);
            compare_all(library, rows)
        }
        ["second", library, prefix] => {
            signals::watch(60, 1);
            compare(library, prefix, SECOND_CALLS);
            println!("compare: {SECOND_CALLS} calls of {prefix} agree");
        }
        ["notice", library] => {
            signals::watch(5, 0);
            compare(library, "knitout_", NOTICED_WITHIN);
            println!("not noticed within {NOTICED_WITHIN} calls");
            exit(1)
        }
        ["record", file, count] => record::record(file, count.parse().expect("a count")).expect("a file of calls"),
        _ => {
            eprintln!("{USAGE}");
            exit(2)
        }
    }
}
