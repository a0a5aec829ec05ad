//! What no list of rewriter calls may change: validity, final state, racks, stretches, histories;
//! and what no greater limit may.

use crate::machine::*;
use std::collections::HashMap;

/// A record's bytes, and how many equal ones stand before it in the program.
type Known<'a> = (&'a [u8], usize);

struct Story<'a> {
    racks: Vec<Known<'a>>,
    stretches: Vec<Vec<Known<'a>>>,
    needles: Vec<Vec<Known<'a>>>,
    carriers: Vec<Vec<Known<'a>>>,
}

fn needle_index(needle: Needle) -> usize {
    match needle.bed {
        Bed::Front => needle.number,
        Bed::Back => NEEDLES + needle.number,
    }
}

/// The needles into whose history a record enters.
fn named_needles(record: &Record) -> Vec<Needle> {
    match *record {
        Record::Rack(_) | Record::In(_) | Record::Out(_) | Record::Miss(_) => vec![],
        Record::Drop(needle) => vec![needle],
        Record::Tuck(m) | Record::Knit(m) => vec![m.needle],
        Record::Xfer(first, second) => vec![first, second],
        Record::Split(m, second) => vec![m.needle, second],
        Record::PlatedTuck(p) | Record::PlatedKnit(p) => vec![p.first.needle],
    }
}

impl<'a> Story<'a> {
    fn of(program: &'a [u8]) -> Story<'a> {
        let mut story = Story {
            racks: vec![],
            stretches: vec![vec![]],
            needles: vec![vec![]; 2 * NEEDLES],
            carriers: vec![vec![]; CARRIERS],
        };
        let mut equal_before = HashMap::new();
        let mut bytes = program;
        while let Ok((record, length)) = read_record(bytes) {
            let (own, rest) = bytes.split_at(length);
            let count = equal_before.entry(own).or_insert(0);
            story.add(&record, (own, *count));
            *count += 1;
            bytes = rest;
        }
        for stretch in &mut story.stretches {
            stretch.sort();
        }
        story
    }

    fn add(&mut self, record: &Record, known: Known<'a>) {
        if let Record::Rack(_) = record {
            self.racks.push(known);
            self.stretches.push(vec![]);
            return;
        }
        let last = self.stretches.len() - 1;
        self.stretches[last].push(known);
        for needle in named_needles(record) {
            self.needles[needle_index(needle)].push(known);
        }
        for m in record.carrier_moves() {
            self.carriers[m.carrier].push(known);
        }
    }
}

/// What differs between a program valid at a limit and the one that calls made of it, if anything
/// does. "Valid now means at a limit: demand 2 holds at each, demand 3 at the starting program's,
/// whatever limits its calls are given" (02, W2).
pub fn difference(limit: u8, before: &[u8], after: &[u8]) -> Option<&'static str> {
    let (run_before, run_after) = (run_at(limit, before), run_at(limit, after));
    if run_before.number != DONE || run_after.number != DONE {
        return Some("one program is not valid");
    }
    if run_before.state != run_after.state {
        return Some("the final states differ");
    }
    let (old, new) = (Story::of(before), Story::of(after));
    if old.racks != new.racks || old.stretches != new.stretches {
        return Some("the records between the racks differ");
    }
    if old.needles != new.needles {
        return Some("a needle's history differs");
    }
    (old.carriers != new.carriers).then_some("a carrier's history differs")
}

/// What differs between a program's runs at a limit and at a greater one, if anything does: once
/// valid, it is valid at the greater one, with the same final state but for the limit.
pub fn raised_difference(lower: &Answer, greater: &Answer) -> Option<&'static str> {
    if lower.number != DONE {
        return None;
    }
    if greater.number != DONE {
        return Some("a program is valid at a limit and not at a greater one");
    }
    let raised = State {
        limit: greater.state.limit,
        ..lower.state.clone()
    };
    (raised != greater.state).then_some("the final states differ by more than the limit")
}
