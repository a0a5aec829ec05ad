//! What the papers claim of the rules, held on the programs that come by: demand 3, the house order, greater limits, steps and run.

use rules::calls::*;
use rules::lent::LentState;
use rules::rules::Rules;
use rules::state::*;
use std::collections::HashMap;

/// "a record is known by its bytes and by how many equal ones stand before it in the program".
type Known<'a> = (&'a [u8], usize);

fn known<'a>(parts: &[Part<'a>]) -> Vec<Known<'a>> {
    let mut before = HashMap::new();
    let count = |part: &Part<'a>| {
        let equal = before.entry(part.bytes).or_insert(0);
        *equal += 1;
        (part.bytes, *equal)
    };
    parts.iter().map(count).collect()
}

/// What a record enters the history of: "drop, xfer, tuck, knit and split records" of the needles that they name (a needle by its bed and
/// number), and all of the carriers (by 2 and number).
fn entered(record: &Record) -> Vec<(u8, usize)> {
    let needles = match record.kind {
        RACK | IN | OUT | MISS => vec![],
        XFER | SPLIT => vec![record.needle, record.opposite],
        _ => vec![record.needle],
    };
    let needles = needles.iter().map(|needle| (needle.bed as u8, needle.number));
    needles.chain(record.carriers().iter().map(|&carrier| (2, carrier))).collect()
}

fn histories<'a>(parts: &[Part<'a>]) -> HashMap<(u8, usize), Vec<Known<'a>>> {
    let mut all: HashMap<_, Vec<Known>> = HashMap::new();
    for (part, name) in parts.iter().zip(known(parts)) {
        entered(&part.record).into_iter().for_each(|of| all.entry(of).or_default().push(name));
    }
    all
}

/// Two tied records of one stretch, in their order.
fn tied_pairs<'a>(rules: &Rules, parts: &[Part<'a>]) -> Vec<(Known<'a>, Known<'a>)> {
    let names = known(parts);
    let mut pairs = vec![];
    for (i, first) in parts.iter().enumerate().filter(|(_, part)| part.record.kind != RACK) {
        let stretch = parts.iter().enumerate().skip(i + 1).take_while(|(_, part)| part.record.kind != RACK);
        let tied = stretch.filter(|(_, second)| rules.tied(&first.record, &second.record, first.racking));
        pairs.extend(tied.map(|(j, _)| (names[i], names[j])));
    }
    pairs.sort();
    pairs
}

/// The racks, and the records of each stretch between them, sorted.
fn stretches<'a>(parts: &[Part<'a>]) -> Vec<Vec<&'a [u8]>> {
    let mut all = vec![vec![]];
    for part in parts {
        if part.record.kind == RACK {
            all.extend([vec![part.bytes], vec![]]);
        } else if let Some(stretch) = all.last_mut() {
            stretch.push(part.bytes);
        }
    }
    all.iter_mut().for_each(|stretch| stretch.sort());
    all
}

/// Demand 3 of a program that is valid at a limit and what a list of calls left of it.
fn kept(rules: &Rules, limit: u8, before: &[u8], after: &[u8]) -> Result<(), &'static str> {
    let (old, new) = (run_records(rules, limit, before), run_records(rules, limit, after));
    let (was, is) = (parts(rules, before), parts(rules, after));
    let check = |holds: bool, what| if holds { Ok(()) } else { Err(what) };
    check(old.number == DONE && new.number == DONE, "a program is not valid")?;
    check(old.state == new.state, "the final states differ")?;
    check(stretches(&was) == stretches(&is), "the records between the racks differ")?;
    check(tied_pairs(rules, &was) == tied_pairs(rules, &is), "two tied records changed their order")?;
    check(histories(&was) == histories(&is), "a needle's or a carrier's history differs")
}

fn house(rules: &Rules, program: &[u8]) -> Vec<u8> {
    let parts = parts(rules, program);
    rules.house(&parts).iter().flat_map(|&i| parts[i].bytes.to_vec()).collect()
}

/// The programs that accepted swaps lead to, if there are not too many.
fn reached(rules: &Rules, program: &[u8]) -> Option<Vec<Vec<u8>>> {
    let mut all = vec![program.to_vec()];
    let mut at = 0;
    while at < all.len() {
        let from = all[at].clone();
        for i in 0..parts(rules, &from).len().saturating_sub(1) {
            let mut swapped = parts(rules, &from);
            if rules.log_number(&swapped, &[0x40, 0, i as u8]) == DONE {
                rules.swap(&mut swapped, i);
                let bytes = swapped.iter().flat_map(|part| part.bytes.to_vec()).collect();
                if !all.contains(&bytes) {
                    all.push(bytes);
                }
            }
        }
        at += 1;
        if all.len() > 60 {
            return None;
        }
    }
    Some(all)
}

/// "equal bytes exactly if accepted swaps lead from one to the other, and ordering twice must give what ordering once gives".
fn ordered(rules: &Rules, program: &[u8], swapped: &[u8]) -> Result<(), &'static str> {
    let order = house(rules, program);
    if house(rules, swapped) != order || house(rules, &order) != order {
        return Err("house orders differ");
    }
    if program.len() > 60 {
        return Ok(());
    }
    let Some(all) = reached(rules, program) else { return Ok(()) };
    if all.iter().any(|other| house(rules, other) != order) || all.iter().min() != Some(&order) {
        return Err("a house order is not the first of those that swaps reach");
    }
    let parts = parts(rules, program);
    for i in 1..parts.len() {
        let mut other = parts.clone();
        other.swap(i - 1, i);
        let bytes: Vec<u8> = other.iter().flat_map(|part| part.bytes.to_vec()).collect();
        if (house(rules, &bytes) == order) != all.contains(&bytes) {
            return Err("equal house orders, and no swaps lead from one to the other");
        }
    }
    Ok(())
}

/// A run goes as steps do; what is done at a limit ends so at every greater one.
fn stepped(rules: &Rules, limit: u8, program: &[u8]) -> Result<(), &'static str> {
    let run = run_records(rules, limit, program);
    let (mut lent, mut place) = (LentState::of(&State::empty(limit)), 0);
    while place < program.len() {
        place += step(rules, &mut lent, &program[place..], program.len() - place).length;
    }
    if lent.state() != run.state {
        return Err("steps and run end otherwise");
    }
    for greater in limit..=8 {
        let raised = run_records(rules, greater, program);
        if raised.number != DONE || raised.state != (State { limit: greater, ..run.state.clone() }) {
            return Err("a greater limit ends otherwise");
        }
    }
    Ok(())
}

/// Holds all of it of a program that is valid at a limit, and of what calls left of it.
pub fn hold(rules: &Rules, limit: u8, program: &[u8], swapped: &[u8]) -> Result<(), &'static str> {
    kept(rules, limit, program, swapped)?;
    ordered(rules, program, swapped)?;
    stepped(rules, limit, program)
}
