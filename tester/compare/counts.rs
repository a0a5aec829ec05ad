//! Counts of calls by entry, kind, number and limit: fails if one that can come has not, or one that cannot has.

use crate::call::*;
use rules::state::*;

/// The limits of a machine, and one place for all that are out of range.
const LIMITS: usize = 9;

pub struct Counts {
    /// By entry, limit (0: out of range) and number.
    entries: [[[u64; NUMBERS]; LIMITS]; ENTRIES.len()],
    /// Records that a run refused, and that a step did or refused, by kind (0: unknown) and number.
    kinds: [[[u64; NUMBERS]; KINDS]; 2],
}

/// The numbers that a record of a kind can get; a plated knit 11 at limit 1 alone.
fn of_kind(kind: u8) -> &'static [u8] {
    match kind {
        RACK => &[0, 4, 5, 17],
        DROP => &[0, 4, 5],
        XFER => &[0, 4, 5, 10, 11],
        IN => &[0, 4, 5, 6],
        OUT | MISS => &[0, 4, 5, 7, 8],
        TUCK => &[0, 4, 5, 7, 8, 9, 11],
        KNIT => &[0, 4, 5, 7, 8, 9],
        SPLIT => &[0, 4, 5, 7, 8, 9, 10, 11],
        PLATED_TUCK | PLATED_KNIT => &[0, 4, 5, 7, 8, 9, 11, 16],
        _ => &[3],
    }
}

/// The numbers that an entry can give at a limit in range, and at one out of it.
fn of_entry(entry: Entry, in_range: bool) -> Vec<u8> {
    let records = [3, 4, 5, 6, 7, 8, 9, 10, 11, 16, 17];
    let own: &[u8] = match (entry, in_range) {
        (Entry::Tie, true) => return vec![0, 3, 4, 5, 13, 15],
        (Entry::Carriers, true) => return vec![0, 2, 15],
        (Entry::Step, true) => &[0, 15],
        (Entry::RunAt | Entry::Run, true) => &[0, 1],
        (Entry::OrderAt | Entry::Order, true) => &[0, 1, 2],
        (Entry::RewriteAt | Entry::Rewrite, true) => &[0, 1, 2, 12, 13, 14],
        (Entry::RunAt | Entry::RewriteAt | Entry::OrderAt | Entry::Step | Entry::Carriers, false) => return vec![15],
        (_, false) => return vec![],
    };
    own.iter().copied().chain(records).collect()
}

impl Counts {
    pub fn new() -> Counts {
        Counts { entries: [[[0; NUMBERS]; LIMITS]; ENTRIES.len()], kinds: [[[0; NUMBERS]; KINDS]; 2] }
    }

    /// The limit of a call: its own, its state's, or 8.
    fn limit(call: &Call) -> usize {
        let limit = match call.entry {
            Entry::Step | Entry::Carriers => call.loans[0].bytes[501],
            Entry::RunAt | Entry::RewriteAt | Entry::OrderAt => call.limit,
            _ => 8,
        };
        if limit < LIMITS as u8 { limit.into() } else { 0 }
    }

    pub fn note(&mut self, call: &Call, outcome: &Outcome) {
        let number = usize::from(outcome.number);
        self.entries[call.entry as usize][Self::limit(call)][number] += 1;
        let (place, record) = match call.entry {
            Entry::Step => (0, &call.loans[1].bytes),
            Entry::RunAt | Entry::Run => ((outcome.fields[0] & 0xffff) as usize, &call.loans[0].bytes),
            _ => return,
        };
        let done_run = outcome.number == DONE && call.entry != Entry::Step;
        if done_run || [FOUL_STATE, TOO_LONG].contains(&outcome.number) {
            return;
        }
        if let Some(&kind) = record.get(place) {
            let kind = if usize::from(kind) < KINDS { kind.into() } else { 0 };
            self.kinds[usize::from(call.entry == Entry::Step)][kind][number] += 1;
        }
    }

    /// What never came though it can, or came though it cannot.
    pub fn faults(&self) -> Vec<String> {
        let mut faults = vec![];
        let mut look = |what: String, counts: &[u64; NUMBERS], can: &[u8]| {
            for (number, &count) in counts.iter().enumerate() {
                match (count > 0, can.contains(&(number as u8))) {
                    (false, true) => faults.push(format!("{what}: {number} never came")),
                    (true, false) => faults.push(format!("{what}: {number} came {count} times and cannot")),
                    _ => (),
                }
            }
        };
        for entry in ENTRIES {
            for limit in 0..LIMITS {
                let unlimited = matches!(entry, Entry::Run | Entry::Rewrite | Entry::Order | Entry::Tie);
                let can = if unlimited && limit != 8 { vec![] } else { of_entry(entry, limit > 0) };
                look(format!("{} at limit {limit}", entry.name()), &self.entries[entry as usize][limit], &can);
            }
        }
        for (service, kinds) in ["run", "step"].iter().zip(&self.kinds) {
            for (kind, counts) in kinds.iter().enumerate() {
                let can: Vec<u8> = of_kind(kind as u8).iter().copied().filter(|&n| n != DONE || *service == "step").collect();
                look(format!("{service}, kind {kind}"), counts, &can);
            }
        }
        faults
    }

    pub fn print(&self) {
        for (entry, limits) in ENTRIES.iter().zip(&self.entries) {
            let sum = |number: usize| limits.iter().map(|counts| counts[number]).sum::<u64>();
            let numbers: Vec<String> =
                (0..NUMBERS).filter(|&n| sum(n) > 0).map(|n| format!("{n}: {}", sum(n))).collect();
            println!("{}: {} calls; {}", entry.name(), (0..NUMBERS).map(sum).sum::<u64>(), numbers.join(", "));
        }
    }
}
