//! What came of racks in a call: yarn about 20, nearer, kept, by which carriers, and misreadings.

use crate::limit_coverage::Class;
use crate::machine::*;

/// How a rack leaves the yarn of a carrier, where that is near the border or beyond it.
#[derive(Clone, Copy)]
enum End {
    GrownTo20,
    GrownTo21,
    GrownBeyond,
    NearerBeyond,
    NearerTo21,
    CurrentBeyond,
    FrontBeyond,
}

/// The names of these; the second and the third are refused.
const ENDS: [&str; 7] = [
    "grown to 20",
    "grown from 20 or less to 21",
    "grown from over 20",
    "nearer, over 21",
    "nearer, at 21",
    "over 20, racked to the current value",
    "over 20 at a front needle, racked to another value",
];

const RACKINGS: usize = 17;
const SIDES: [&str; 2] = ["left", "right"];

/// Attached carriers besides the one that is stretched.
const OTHERS: [&str; 3] = ["no other", "a lower one", "a higher one"];

/// `rackings` are those before and those after, grown to 20 and to 21; `sides` by the attachment's
/// side and by where it ends from its carrier; `several` by how many are stretched, to three.
pub struct StretchCoverage {
    rackings: [[[u64; 2]; RACKINGS]; 2],
    sides: [[[u64; ENDS.len()]; 2]; 2],
    carriers: [[u64; ENDS.len()]; CARRIERS],
    alone: [[u64; OTHERS.len()]; CARRIERS],
    several: [u64; 3],
    readings: [[u64; 2]; READINGS.len()],
    across: u64,
}

// Misreadings of the rule.

/// A carrier's yarn with the end that a rack moves: where it is attached and where it is parked.
type Yarn = (Attachment, i32);

fn yarns(state: &State) -> impl Iterator<Item = Yarn> + '_ {
    let parked = state.carriers.iter().flatten();
    parked.filter_map(|parked| Some((parked.attachment?, parked.slot)))
}

/// Columns that the attachment is right of its carrier, less than none if it is left of it.
fn offset((attachment, slot): Yarn, racking: i32) -> i32 {
    attachment.slot(racking) - slot
}

fn length(yarn: Yarn, racking: i32) -> i32 {
    offset(yarn, racking).abs()
}

fn stretched(yarn: Yarn, before: i32, after: i32) -> bool {
    grown_over(20, length(yarn, before), length(yarn, after))
}

fn grown_over(limit: i32, before: i32, after: i32) -> bool {
    after > limit && after > before
}

/// The column of the attachment's needle in place of its slot.
fn column_length((attachment, slot): Yarn, racking: i32) -> i32 {
    (attachment.needle.column(racking) - slot).abs()
}

fn exchanged((attachment, slot): Yarn) -> Yarn {
    let side = crate::generate::reverse(attachment.side);
    (Attachment { side, ..attachment }, slot)
}

/// The yarn with its attachment on the back bed, where the needle's number is the same.
fn on_back((attachment, slot): Yarn) -> Yarn {
    let bed = Bed::Back;
    let needle = Needle {
        bed,
        ..attachment.needle
    };
    (
        Attachment {
            needle,
            ..attachment
        },
        slot,
    )
}

/// Whether a misreading of the rule refuses a rack from one racking to another.
type Reading = fn(&State, i32, i32) -> bool;

/// A misreading, and whether it can refuse what passes and let pass what is refused.
const READINGS: [(&str, [bool; 2], Reading); 23] = [
    ("over 19", [true, false], |state, b, a| {
        yarns(state).any(|y| grown_over(19, length(y, b), length(y, a)))
    }),
    ("over 21", [false, true], |state, b, a| {
        yarns(state).any(|y| grown_over(21, length(y, b), length(y, a)))
    }),
    ("not less than before", [true, false], |state, b, a| {
        yarns(state).any(|y| length(y, a) > 20 && length(y, a) >= length(y, b))
    }),
    ("over 20 alone", [true, false], |state, _, a| {
        yarns(state).any(|y| length(y, a) > 20)
    }),
    ("greater alone", [true, false], |state, b, a| {
        yarns(state).any(|y| length(y, a) > length(y, b))
    }),
    ("before at racking 0", [true, true], |state, _, a| {
        yarns(state).any(|y| stretched(y, 0, a))
    }),
    ("from 20 or less", [false, true], |state, b, a| {
        yarns(state).any(|y| length(y, b) <= 20 && length(y, a) > 20)
    }),
    ("columns for slots", [true, true], |state, b, a| {
        yarns(state).any(|y| grown_over(20, column_length(y, b), column_length(y, a)))
    }),
    ("sides exchanged", [true, true], |state, b, a| {
        yarns(state).any(|y| stretched(exchanged(y), b, a))
    }),
    ("front needles carried too", [true, false], |state, b, a| {
        yarns(state).any(|y| stretched(on_back(y), b, a))
    }),
    ("the other way", [true, true], |state, b, a| {
        yarns(state).any(|y| stretched(y, -b, -a))
    }),
    ("to the right alone", [false, true], |state, b, a| {
        yarns(state).any(|y| grown_over(20, offset(y, b), offset(y, a)))
    }),
    ("to the left alone", [false, true], |state, b, a| {
        yarns(state).any(|y| grown_over(20, -offset(y, b), -offset(y, a)))
    }),
    ("the first alone", [false, true], |state, b, a| {
        yarns(state).take(1).any(|y| stretched(y, b, a))
    }),
    ("the last alone", [false, true], |state, b, a| {
        yarns(state).last().is_some_and(|y| stretched(y, b, a))
    }),
    ("every one", [false, true], |state, b, a| {
        yarns(state).next().is_some() && yarns(state).all(|y| stretched(y, b, a))
    }),
    ("in one byte", [true, true], |state, b, a| {
        yarns(state).any(|y| grown_over(20, length(y, b) & 255, length(y, a) & 255))
    }),
    ("in one byte, held at 255", [false, true], |state, b, a| {
        yarns(state).any(|y| grown_over(20, length(y, b).min(255), length(y, a).min(255)))
    }),
    ("the first over 20 decides", [false, true], |state, b, a| {
        let over = yarns(state).find(|&y| length(y, a) > 20);
        over.is_some_and(|y| stretched(y, b, a))
    }),
    ("the last over 20 decides", [false, true], |state, b, a| {
        let over = yarns(state).filter(|&y| length(y, a) > 20);
        over.last().is_some_and(|y| stretched(y, b, a))
    }),
    ("the longest of all", [false, true], |state, b, a| {
        let longest = |racking| yarns(state).map(|y| length(y, racking)).max().unwrap_or(0);
        grown_over(20, longest(b), longest(a))
    }),
    ("unless one comes nearer", [false, true], |state, b, a| {
        yarns(state).any(|y| stretched(y, b, a))
            && !yarns(state).any(|y| length(y, a) < length(y, b))
    }),
    (
        "one over 20, another further",
        [true, false],
        |state, b, a| {
            yarns(state).any(|y| length(y, a) > 20)
                && yarns(state).any(|y| length(y, a) > length(y, b))
        },
    ),
];

// Counting.

/// The end of a yarn, if it is one that is counted.
fn end(yarn: Yarn, before: i32, after: i32) -> Option<End> {
    let (was, is) = (length(yarn, before), length(yarn, after));
    match (was, is) {
        _ if was < is && is == 20 => Some(End::GrownTo20),
        _ if was <= 20 && is == 21 => Some(End::GrownTo21),
        _ if is <= 20 => None,
        _ if before == after => Some(End::CurrentBeyond),
        _ if yarn.0.needle.bed == Bed::Front => Some(End::FrontBeyond),
        (21.., _) if was < is => Some(End::GrownBeyond),
        (_, 21) => Some(End::NearerTo21),
        _ => (is < was).then_some(End::NearerBeyond),
    }
}

/// Whether a rack with a yarn of an end can be done, and whether it can be refused for it.
fn fits(end: End, number: u8) -> bool {
    let refused = matches!(end, End::GrownTo21 | End::GrownBeyond);
    refused == (number == STRETCHED)
}

/// Whether no racking makes a yarn longer than 19.
fn is_short((attachment, slot): Yarn) -> bool {
    (attachment.needle.number as i32 - slot).abs() <= 10
}

/// Whether the attachment comes to its carrier's other side and ends over 20.
fn goes_across(yarn: Yarn, before: i32, after: i32) -> bool {
    let sides = offset(yarn, before).signum() * offset(yarn, after).signum();
    sides < 0 && length(yarn, after) > 20
}

impl StretchCoverage {
    pub fn new() -> StretchCoverage {
        StretchCoverage {
            rackings: [[[0; 2]; RACKINGS]; 2],
            sides: [[[0; ENDS.len()]; 2]; 2],
            carriers: [[0; ENDS.len()]; CARRIERS],
            alone: [[0; OTHERS.len()]; CARRIERS],
            several: [0; 3],
            readings: [[0; 2]; READINGS.len()],
            across: 0,
        }
    }

    /// Counts a record that a call came to, if it is a rack and not all yarn is short.
    pub fn record(&mut self, state: &State, bytes: &[u8], number: u8) {
        if bytes.first() != Some(&RACK) || yarns(state).all(is_short) {
            return;
        }
        let Ok((Record::Rack(after), _)) = read_record(bytes) else {
            return;
        };
        for (index, parked) in state.carriers.iter().enumerate() {
            let yarn = parked.and_then(|parked| Some((parked.attachment?, parked.slot)));
            if let Some(yarn) = yarn {
                self.yarn(index, yarn, [state.racking, after], number);
            }
        }
        if number == STRETCHED {
            self.refused(state, after);
        }
        for ((_, _, refuses), counts) in READINGS.iter().zip(&mut self.readings) {
            match (refuses(state, state.racking, after), number) {
                (true, DONE) => counts[0] += 1,
                (false, STRETCHED) => counts[1] += 1,
                _ => (),
            }
        }
    }

    fn yarn(&mut self, carrier: usize, yarn: Yarn, [before, after]: [i32; 2], number: u8) {
        self.across += u64::from(goes_across(yarn, before, after));
        let Some(end) = end(yarn, before, after).filter(|&end| fits(end, number)) else {
            return;
        };
        let right = usize::from(offset(yarn, after) > 0);
        self.sides[yarn.0.side as usize][right][end as usize] += 1;
        self.carriers[carrier][end as usize] += 1;
        if matches!(end, End::GrownTo20 | End::GrownTo21) {
            for (counts, racking) in self.rackings.iter_mut().zip([before, after]) {
                counts[(racking + MAX_RACKING) as usize][end as usize] += 1;
            }
        }
    }

    /// Counts the carriers that refuse a rack, and the attached ones besides.
    fn refused(&mut self, state: &State, after: i32) {
        let attached = |k: &usize| state.carriers[*k].is_some_and(|p| p.attachment.is_some());
        let is_stretched =
            |k: &usize| state.carriers[*k].is_some_and(|p| p.stretched(state.racking, after));
        let stretched: Vec<usize> = (0..CARRIERS).filter(is_stretched).collect();
        self.several[stretched.len().clamp(1, 3) - 1] += 1;
        if let [alone] = stretched[..] {
            let lower = (0..alone).any(|k| attached(&k));
            let higher = (alone + 1..CARRIERS).any(|k| attached(&k));
            let others = [!lower && !higher, lower, higher];
            for (count, holds) in self.alone[alone].iter_mut().zip(others) {
                *count += u64::from(holds);
            }
        }
    }
}

/// Whether a program has a rack that passes and leaves yarn of 20 or more.
pub fn strained(limit: u8, program: &[u8]) -> bool {
    let mut found = false;
    run_watched(limit, program, |state, bytes, number| {
        if found || number != DONE || bytes[0] != RACK {
            return;
        }
        if let Ok((Record::Rack(after), _)) = read_record(bytes) {
            found = yarns(state).any(|yarn| length(yarn, after) >= 20);
        }
    });
    found
}

// What can occur, what is missing, the summary.

impl StretchCoverage {
    fn classes(&self) -> Vec<Class> {
        let mut classes = self.carrier_classes();
        for (side, counts) in SIDES.iter().zip(self.sides) {
            for (way, counts) in SIDES.iter().zip(counts) {
                for (end, count) in ENDS.iter().zip(counts) {
                    let name = format!("attached on the {side}, ends to the {way}: {end}");
                    classes.push((name, true, count));
                }
            }
        }
        for (word, counts) in ["from", "to"].iter().zip(self.rackings) {
            for (racking, counts) in (-MAX_RACKING..).zip(counts) {
                for (end, count) in ENDS.iter().zip(counts) {
                    classes.push((format!("rack {word} {racking}, {end}"), true, count));
                }
            }
        }
        for ((name, can, _), counts) in READINGS.iter().zip(self.readings) {
            let [refused, passed] = counts;
            classes.push((format!("refused if misread: {name}"), can[0], refused));
            classes.push((format!("not refused if misread: {name}"), can[1], passed));
        }
        let across = "over 20 at the carrier's other side".to_string();
        classes.push((across, false, self.across));
        classes
    }

    fn carrier_classes(&self) -> Vec<Class> {
        let mut classes = Vec::new();
        for (index, (ends, alone)) in self.carriers.iter().zip(self.alone).enumerate() {
            let carrier = index + 1;
            for (end, &count) in ENDS.iter().zip(ends) {
                classes.push((format!("carrier {carrier} {end}"), true, count));
            }
            let can = [true, index > 0, carrier < CARRIERS];
            for ((others, can), count) in OTHERS.iter().zip(can).zip(alone) {
                let name = format!("carrier {carrier} alone stretched, {others} attached");
                classes.push((name, can, count));
            }
        }
        for (count, &racks) in self.several.iter().enumerate() {
            classes.push((format!("{} stretched", count + 1), true, racks));
        }
        classes
    }

    fn named(&self, call: &str, wanted: impl Fn(&Class) -> bool) -> Vec<String> {
        let classes = self.classes().into_iter().filter(wanted);
        classes
            .map(|class| format!("{call}: {}", class.0))
            .collect()
    }

    /// The names of counts that are zero and should not be.
    pub fn missing(&self, call: &str) -> Vec<String> {
        self.named(call, |(_, can, count)| *can && *count == 0)
    }

    /// The names of counts that are not zero, of what cannot occur.
    pub fn impossible(&self, call: &str) -> Vec<String> {
        self.named(call, |(_, can, count)| !can && *count > 0)
    }

    pub fn print(&self, call: &str) {
        let cells: Vec<String> = (0..ENDS.len())
            .map(|end| (end, self.carriers.iter().map(|ends| ends[end]).sum::<u64>()))
            .map(|(end, count)| format!("{} {count}", ENDS[end]))
            .collect();
        println!("{call}: yarn at a rack; {}", cells.join("; "));
        let classes = self.classes().into_iter().filter(|class| class.1);
        let least = classes.clone().map(|class| class.2).min().unwrap_or(0);
        let refused: u64 = self.several.iter().sum();
        println!(
            "{call}: {refused} racks stretched; {} classes, least {least}",
            classes.count()
        );
    }
}
