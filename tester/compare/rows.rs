//! Worked examples: the rows that `tools/cases --rows` writes from tools/cases.txt, held against the rules, and their calls emitted.

use crate::call::*;
use crate::scenes::Emit;
use rules::calls::{rewrite_at, Bench};
use rules::rules::Rules;
use rules::state::*;

fn bytes(word: &str) -> Vec<u8> {
    let digits = |at: usize| u8::from_str_radix(&word[at..at + 2], 16).expect("hexadecimal");
    if word == "-" { vec![] } else { (0..word.len()).step_by(2).map(digits).collect() }
}

fn figures(words: &[&str]) -> Vec<i64> {
    words.iter().map(|word| word.parse().expect("a figure")).collect()
}

/// The listing of 01 for a rewriter's call at a limit.
fn listing(rules: &Rules, limit: u8, program: &[u8], log: &[u8]) -> String {
    let (mut output, mut work) = (vec![0; program.len()], vec![0; program.len() / 2]);
    let (output_length, work_count) = (output.len(), work.len());
    let mut bench = Bench { output: &mut output, work: &mut work, output_length, work_count };
    let answer = rewrite_at(rules, limit, (program, program.len()), (log, log.len()), &mut bench);
    let state = &answer.state;
    let mut lines = vec![
        format!("{} {} {}", answer.number, answer.place, u8::from(rules.complete(state))),
        format!("r {}", state.racking),
    ];
    let bed = |bed: Bed| if bed == Front { "f" } else { "b" };
    for (side, hooks) in [Front, Back].into_iter().zip(&state.loops) {
        let held = hooks.iter().enumerate().filter(|(_, &count)| count > 0);
        lines.extend(held.map(|(number, count)| format!("{} {number} {count}", bed(side))));
    }
    for (k, parked) in state.carriers.iter().enumerate().filter_map(|(k, carrier)| Some((k + 1, (*carrier)?))) {
        lines.push(match parked.attachment {
            None => format!("c {k} {} none", parked.slot),
            Some(Attachment { needle, side }) => {
                let side = if side == Right { "+" } else { "-" };
                format!("c {k} {} {} {} {side}", parked.slot, bed(needle.bed), needle.number)
            }
        });
    }
    let written = if rules.writes(answer.number) { &output[..] } else { &[] };
    let hexadecimal: String = written.iter().map(|byte| format!("{byte:02x}")).collect();
    lines.push(format!("p {hexadecimal}").trim_end().to_string());
    lines.join("/").replace(' ', "_")
}

/// A call of rewriter or order with areas of these sizes; none are just enough.
fn written(entry: Entry, limit: u8, program: Vec<u8>, log: Option<Vec<u8>>, areas: Option<(usize, usize)>) -> Call {
    let (output, work) = areas.unwrap_or((program.len(), program.len() / 2));
    let mut loans = vec![Loan::of(1, program)];
    loans.extend(log.map(|log| Loan::of(1, log)));
    loans.extend([Loan::of(1, vec![0xa5; output]), Loan::of(2, vec![0xa5; 2 * work])]);
    Call::new(entry, limit, loans)
}

/// Whether a call has this number and place, and this output if one is given.
fn gives(rules: &Rules, outcome: &Outcome, answer: &[i64], output: Option<Vec<u8>>) -> bool {
    outcome.fields[0] == rules.word(answer[0] as u8, answer[1] as usize) as i64
        && output.is_none_or(|output| output.is_empty() || outcome.left[0][..output.len()] == output)
}

/// Steps a program from a state: whether number, complete and looked are as given after each record.
fn steps(state: Vec<u8>, program: &[u8], told: &str, emit: &mut Emit) -> bool {
    let (mut state, mut rest) = (state, program);
    for step in told.split(';') {
        let outcome = emit(&Call::new(Entry::Step, 0, vec![Loan::of(2, state), Loan::bytes(rest)]));
        if outcome.fields[..3] != figures(&step.split(',').collect::<Vec<_>>()) {
            return false;
        }
        rest = &rest[outcome.fields[3] as usize..];
        state = outcome.left[0].clone();
    }
    true
}

/// One row: whether its call gives what is written there.
fn holds(rules: &Rules, words: &[&str], emit: &mut Emit) -> bool {
    let limit = || words[2].parse().expect("a limit");
    match words[0] {
        "listing" => {
            let (program, log) = (bytes(words[3]), bytes(words[4]));
            let same = listing(rules, limit(), &program, &log) == words[5];
            emit(&written(Entry::RewriteAt, limit(), program, Some(log), None));
            same
        }
        "answer" => {
            let lent = figures(&words[5..7]);
            let areas = Some((lent[0] as usize, lent[1] as usize));
            let program = bytes(words[3]);
            let outcome = emit(&match words[4] {
                "none" => Call::new(Entry::RunAt, limit(), vec![Loan::of(1, program)]),
                "order" => written(Entry::OrderAt, limit(), program, None, areas),
                log => written(Entry::RewriteAt, limit(), program, Some(bytes(log)), areas),
            });
            gives(rules, &outcome, &figures(&words[7..9]), None)
        }
        "rewrite" => {
            let outcome = emit(&written(Entry::RewriteAt, limit(), bytes(words[3]), Some(bytes(words[4])), None));
            gives(rules, &outcome, &figures(&words[5..7]), Some(bytes(words[7])))
        }
        "order" => {
            let outcome = emit(&written(Entry::OrderAt, limit(), bytes(words[3]), None, None));
            gives(rules, &outcome, &figures(&words[4..6]), Some(bytes(words[6])))
        }
        "steps" => steps(bytes(words[2]), &bytes(words[3]), words[4], emit),
        "tie" => {
            let mut call = Call::new(Entry::Tie, 0, vec![Loan::bytes(&bytes(words[3])), Loan::bytes(&bytes(words[4]))]);
            call.racking = words[2].parse().expect("a racking");
            let told = figures(&words[5..12]);
            emit(&call).fields == [told[3], told[4], told[0], told[1], told[2], told[5], told[6]]
        }
        _ => false,
    }
}

/// Holds every row of a file; gives how many there are, or the one that fails.
pub fn hold(rules: &Rules, text: &str, emit: &mut Emit) -> Result<usize, String> {
    for line in text.lines() {
        let words: Vec<&str> = line.split(' ').collect();
        if !holds(rules, &words, emit) {
            return Err(line.to_string());
        }
    }
    Ok(text.lines().count())
}
