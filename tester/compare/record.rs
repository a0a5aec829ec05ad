//! Calls in a file, each with what it must answer and leave by the rules, for controller/replay.c to make on other machines.

use crate::call::*;
use crate::scenes::Scenes;
use rules::rules::Rules;
use std::fs::File;
use std::io::{BufWriter, Result, Write};

/// The bytes that a board can lend in one call.
const LENT_MOST: usize = 100_000;

/// The call as a board with lengths of 32 bits can make it: one that claims 2^32 entries or more to read claims 2^32 - 1 or some 2^30 less.
fn narrowed(call: &Call) -> Option<Call> {
    let mut call = call.clone();
    for (i, loan) in call.loans.iter_mut().enumerate().filter(|(_, loan)| loan.beyond > 0) {
        if call.entry.writable().contains(&i) {
            return None;
        }
        let more = loan.length() - (1 << 32);
        loan.beyond -= more + 1 + (more << 30);
    }
    let lent: usize = call.loans.iter().map(|loan| loan.bytes.len()).sum();
    (call.inside.is_none() && lent <= LENT_MOST).then_some(call)
}

/// Where a loan changes: from the first byte that does to the last.
fn change<'b>(before: &[u8], after: &'b [u8]) -> (usize, &'b [u8]) {
    let changes = |i: &usize| before[*i] != after[*i];
    let from = (0..before.len()).find(changes).unwrap_or(0);
    let end = (0..before.len()).rfind(changes).map_or(from, |last| last + 1);
    (from, &after[from..end])
}

/// The answer's fields, what the call is, its loans' sizes, and of each its contents and what changes in it.
fn bytes(call: &Call, place: u32, right: &Outcome) -> Vec<u8> {
    let written = |i: usize| call.entry.writable().iter().position(|&w| w == i);
    let after = |i: usize| written(i).map_or(&call.loans[i].bytes, |w| &right.left[w]);
    let changes: Vec<_> = (0..call.loans.len()).map(|i| change(&call.loans[i].bytes, after(i))).collect();
    let mut bytes: Vec<u8> = right.fields.iter().flat_map(|field| field.to_le_bytes()).collect();
    bytes.extend(place.to_le_bytes());
    bytes.extend([call.entry as u8, call.limit, call.racking as u8, call.loans.len() as u8]);
    for (loan, (from, changed)) in call.loans.iter().zip(&changes) {
        let sizes = [loan.unit, loan.length(), loan.bytes.len(), *from, changed.len()];
        bytes.extend(sizes.iter().flat_map(|&size| (size as u32).to_le_bytes()));
    }
    call.loans.iter().zip(changes).for_each(|(loan, (_, changed))| bytes.extend(loan.bytes.iter().chain(changed)));
    bytes
}

/// Plays scenes until there are so many calls of each entry.
pub fn record(file: &str, count: usize) -> Result<()> {
    let rules = Rules::right();
    let (mut scenes, mut file) = (Scenes::new(&rules, crate::SEED), BufWriter::new(File::create(file)?));
    let (mut recorded, mut place) = ([0; ENTRIES.len()], 0);
    while recorded.iter().any(|&calls| calls < count) {
        scenes.play(&mut |call| {
            place += 1;
            let calls = &mut recorded[call.entry as usize];
            if let (true, Some(call)) = (*calls < count, narrowed(call)) {
                *calls += 1;
                file.write_all(&bytes(&call, place, &call.expect(&rules))).expect("room for the record");
            }
            call.expect(&rules)
        });
    }
    file.flush()
}
