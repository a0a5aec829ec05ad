//! Logs for the rewriter: swaps that can be made, then perhaps one of every way to be refused.

use crate::draft::Random;
use crate::rewrite::*;

fn push(log: &mut Vec<u8>, position: usize) {
    log.push(SWAP);
    log.extend((position as u16).to_be_bytes());
}

/// How the next position is chosen.
#[derive(Clone, Copy)]
enum Walk {
    Anywhere,
    Near,
    Onward,
    Backward,
}

fn next_position(random: &mut Random, order: &Order, last: usize, walk: Walk) -> usize {
    let pairs = order.parts.len() - 1;
    match walk {
        Walk::Anywhere => random.below(pairs),
        Walk::Near => (last + random.below(7)).saturating_sub(3).min(pairs - 1),
        Walk::Onward => (last + 1) % pairs,
        Walk::Backward => (last + pairs - 1) % pairs,
    }
}

/// A position whose pair is tied or not, as wanted, if one is found soon.
fn find(random: &mut Random, order: &Order, last: usize, walk: Walk, tied: bool) -> Option<usize> {
    if order.parts.len() < 2 {
        return None;
    }
    (0..40)
        .map(|attempt| {
            let walk = if attempt == 0 { walk } else { Walk::Anywhere };
            next_position(random, order, last, walk)
        })
        .find(|&position| order.tied(position) == tied)
}

/// Up to so many swaps that can be made in turn, made in the order too.
pub fn swaps(random: &mut Random, order: &mut Order, count: usize) -> Vec<u8> {
    let walks = [Walk::Anywhere, Walk::Near, Walk::Onward, Walk::Backward];
    let walk = random.pick(&walks);
    let mut log = Vec::new();
    let mut last = random.below(order.parts.len() + 1);
    for _ in 0..count {
        let Some(position) = find(random, order, last, walk, false) else {
            break;
        };
        push(&mut log, position);
        order.swap(position);
        last = position;
    }
    log
}

/// A position that has no pair, often close to the last one that has.
fn no_pair(random: &mut Random, order: &Order) -> usize {
    let count = order.parts.len();
    let last = count.saturating_sub(1);
    match random.below(5) {
        0 | 1 => last,
        2 => count,
        3 => random.pick(&[65_535, 65_534, 32_768, 32_767]).max(last),
        _ => last + random.below(65_536 - last),
    }
}

fn any_position(random: &mut Random, order: &Order) -> usize {
    random.below(order.parts.len() + 2)
}

/// A log record of another kind, often at a position with a number of its own.
fn strange(random: &mut Random, order: &Order, log: &mut Vec<u8>) {
    let position = match random.below(3) {
        0 => no_pair(random, order),
        1 => find(random, order, 0, Walk::Anywhere, true).unwrap_or(0),
        _ => any_position(random, order),
    };
    push(log, position);
    let kind = log.len() - SWAP_LENGTH;
    log[kind] = match random.below(4) {
        0 => random.pick(&[0x00, 0x04, 0x3f, 0x41, 0xc0, 0xff]),
        _ => (SWAP as usize + 1 + random.below(255)) as u8,
    };
}

/// Ends a log: not at all, tied, without a pair, or torn; whole records may stand behind.
pub fn end(random: &mut Random, order: &Order, log: &mut Vec<u8>) {
    match random.below(10) {
        0..=2 => return,
        3..=5 => {
            let tied = find(random, order, 0, Walk::Anywhere, true);
            push(log, tied.unwrap_or(0));
        }
        6 => push(log, no_pair(random, order)),
        7 => strange(random, order, log),
        8 => {
            log.push(if random.percent(80) {
                SWAP
            } else {
                random.byte()
            });
            if random.percent(50) {
                log.push(random.below(2) as u8);
            }
            return;
        }
        _ => push(log, any_position(random, order)),
    }
    if random.percent(40) {
        let good = find(random, order, 0, Walk::Anywhere, false);
        push(log, good.unwrap_or(0));
        log.truncate(log.len() - random.pick(&[0, 0, 1, 2]));
    }
}

/// A log for a valid program, with up to so many swaps before its end.
pub fn log(random: &mut Random, program: &[u8], most: usize) -> Vec<u8> {
    let mut order = Order::of(program);
    let count = random.below(most + 1);
    let mut log = swaps(random, &mut order, count);
    end(random, &order, &mut log);
    log
}

/// A log of one record.
pub fn one_swap(position: usize) -> Vec<u8> {
    let mut log = Vec::new();
    push(&mut log, position);
    log
}

/// Any log at all, whole or torn.
pub fn any_log(random: &mut Random) -> Vec<u8> {
    let mut log = Vec::new();
    for _ in 0..random.below(4) {
        push(&mut log, random.below(12));
    }
    if random.percent(40) {
        log.push(random.pick(&[SWAP, 0x00, 0x41]));
    }
    log
}
