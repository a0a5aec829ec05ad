//! The groups of rewriter calls: pieces, pairs, chains, racks, refused programs, limits, lengths.

use crate::calls::{Call, Rewriter};
use crate::draft::*;
use crate::fail;
use crate::generate::{add_racks_and_drops, whole_program};
use crate::history;
use crate::limit_coverage::{is_bad, BAD_LIMITS, CALL_LIMITS};
use crate::logs;
use crate::machine::*;
use crate::pieces::swap_pieces;
use crate::plated::plated_program;
use crate::rewrite::*;
use crate::stretch_coverage::strained;
use crate::stretched::{add_drops, stretch_case};
use crate::swap_coverage::Event;
use crate::swaps::*;

/// Makes calls at a hook limit.
type Group = fn(&mut Random, u8, &mut Rewriter);

/// Rounds of a group at limit 8 and at each other one, and its function; one round makes one call or
/// several.
const GROUPS: [([usize; 2], Group); 8] = [
    ([16_000, 1_000], chain),
    ([20_000, 600], far_pair),
    ([4_000, 250], near_racks),
    ([24_000, 8_000], refused),
    ([4_000, 1_500], stretched),
    ([60, 4], long),
    ([400, 100], over),
    ([400, 25], log_in_program),
];

pub fn compare(rewriter: &mut Rewriter, seed: u64) {
    let mut random = Random::new(seed);
    pieces(rewriter);
    small(rewriter);
    every_pair(&mut random, rewriter);
    full(&mut random, rewriter);
    for limit in LIMITS {
        for (rounds, group) in GROUPS {
            for _ in 0..rounds[usize::from(limit != HOOK_LIMIT)] {
                group(&mut random, limit, rewriter);
            }
        }
    }
    for limit in (0..=255).filter(|&limit| is_bad(limit)) {
        bad_limit(&mut random, limit, rewriter);
    }
}

// Areas.

pub fn length_about(random: &mut Random, needed: usize) -> usize {
    match random.below(20) {
        0..=9 => needed,
        10..=13 => needed + 1,
        14..=17 => needed + random.below(70),
        18 => needed.saturating_sub(1),
        _ => random.below(needed + 1),
    }
}

/// A call with areas that are mostly long enough.
fn about<'a>(random: &mut Random, limit: u8, program: &'a [u8], log: &'a [u8]) -> Call<'a> {
    Call {
        limit,
        program,
        log,
        output: length_about(random, program.len()),
        work: length_about(random, program.len() / 2),
    }
}

pub fn just_enough<'a>(limit: u8, program: &'a [u8], log: &'a [u8]) -> Call<'a> {
    Call {
        limit,
        program,
        log,
        output: program.len(),
        work: program.len() / 2,
    }
}

// Pieces.

fn pieces(rewriter: &mut Rewriter) {
    for piece in swap_pieces() {
        let length = piece.program.len();
        let untouched = vec![0xaa; length];
        let (mut output, mut work) = (untouched.clone(), vec![0; length / 2]);
        let (program, log) = (&piece.program, &piece.log);
        let answer = rewrite_at(piece.limit, program, log, &mut output, &mut work);
        let agrees = (answer.number, answer.place) == (piece.number, piece.place);
        if !agrees || output != piece.output.unwrap_or(untouched) {
            fail(&format!(
                "the model differs from the paper on piece {}",
                piece.name
            ));
        }
        for limit in CALL_LIMITS {
            rewriter.call(&just_enough(limit, program, log), piece.name);
        }
    }
}

// Small programs, logs and areas, each with each, at limit 8 and at others in turn.

fn small(rewriter: &mut Rewriter) {
    let programs: [&[u8]; 9] = [
        &[],
        &[RACK],
        &[0],
        &[RACK, 2],
        &[DROP, 0, 5],
        &[DROP, 0, 5, DROP, 1, 5],
        &[DROP, 0, 5, DROP, 0, 5],
        &[RACK, 0, DROP, 0, 5],
        &[RACK, 1, XFER, 0, 5, 4, DROP, 1, 9],
    ];
    let logs: [&[u8]; 10] = [
        &[],
        &[SWAP],
        &[SWAP, 0],
        &[SWAP, 0, 0],
        &[SWAP, 0, 1],
        &[SWAP, 1, 0],
        &[0x41, 0, 0],
        &[SWAP, 0, 0, SWAP],
        &[SWAP, 0, 1, SWAP, 0, 1],
        &[SWAP, 0, 0, SWAP, 0, 0],
    ];
    for program in programs {
        for log in logs {
            small_areas(rewriter, program, log);
        }
    }
}

fn small_areas(rewriter: &mut Rewriter, program: &[u8], log: &[u8]) {
    for output in 0..program.len() + 3 {
        for work in 0..program.len() / 2 + 3 {
            let turn = (output + 3 * work) % CALL_LIMITS.len();
            for limit in [HOOK_LIMIT, CALL_LIMITS[turn]] {
                let call = Call {
                    limit,
                    program,
                    log,
                    output,
                    work,
                };
                rewriter.call(&call, "small areas");
            }
        }
    }
}

// Pairs.

/// A racking and a column from which two columns each way are on both beds.
pub fn middle_place(random: &mut Random) -> (i32, i32) {
    let racking = random.racking();
    let (low, high) = (racking.max(0), racking.min(0) + NEEDLES as i32 - 1);
    (racking, random.between(low + 2, high - 2))
}

/// One pair in so many is also called at a limit of `CALL_LIMITS`.
const PAIR_LIMIT_EVERY: usize = 16;

/// Every two kinds, beds and carriers at column distances -2 to 2.
fn every_pair(random: &mut Random, rewriter: &mut Rewriter) {
    for first in actors() {
        for second in actors() {
            for distance in -2..=2 {
                let (racking, column) = middle_place(random);
                let places = [(first, column), (second, column + distance)];
                let made = pair(random, racking, places);
                let records = [first, second].map(|actor| lone_record(actor, 100));
                let one_carrier = name_one_carrier(&records[0], &records[1]);
                match made {
                    Some(draft) => {
                        swap_last(rewriter, HOOK_LIMIT, &draft.bytes, "every pair");
                        if random.below(PAIR_LIMIT_EVERY) == 0 {
                            let limit = random.pick(&CALL_LIMITS);
                            swap_last(rewriter, limit, &draft.bytes, "pairs at a limit");
                        }
                    }
                    None if one_carrier => (),
                    None => fail("a pair has no program"),
                }
            }
        }
    }
}

fn swap_last(rewriter: &mut Rewriter, limit: u8, program: &[u8], from: &str) {
    let log = logs::one_swap(Order::of(program).parts.len() - 2);
    rewriter.call(&just_enough(limit, program, &log), from);
}

/// Two columns, often at a distance where narrow numbers would wrap.
fn far_columns(random: &mut Random) -> (i32, i32) {
    let column = match random.below(4) {
        0 => random.between(-8, 2),
        1 => random.between(247, 257),
        _ => random.between(-8, 257),
    };
    let distance = match random.below(3) {
        0 => random.pick(&[64, 127, 128, 129, 255, 256, 257]),
        1 => random.between(0, 2),
        _ => random.between(0, 265),
    };
    (column, column + distance * random.pick(&[-1, 1]))
}

/// A pair at any columns, at times at both ends of the widest beds.
fn far_pair(random: &mut Random, limit: u8, rewriter: &mut Rewriter) {
    let edges = random.between(0, 2);
    let (racking, first, second) = match random.below(6) {
        0 => (-8, -8 + edges, 249 - random.between(0, 2)),
        1 => (8, 257 - edges, random.between(0, 2)),
        _ => {
            let (first, second) = far_columns(random);
            (random.racking(), first, second)
        }
    };
    let mut places = [(any_actor(random), first), (any_actor(random), second)];
    if random.percent(50) {
        places.swap(0, 1);
    }
    if let Some(draft) = pair(random, racking, places) {
        swap_last(rewriter, limit, &draft.bytes, "pairs far apart");
    }
}

// Chains: each call's program is the one that the call before left.

fn chain(random: &mut Random, limit: u8, rewriter: &mut Rewriter) {
    let length = random.pick(&[0, 8, 30, 60, 100, 100, 200, 200, 400, 700]);
    let first = laned(random, limit, length);
    let most = random.pick(&[0, 1, 3, 10, 30, 30, 100, 500]);
    let calls = 1 + random.below(8);
    follow_chain(random, rewriter, limit, first, most, calls);
}

/// Calls on a program valid at a starting limit; some of them are at other limits, in range or not,
/// where a call either writes nothing or swaps. What demand 3 keeps is kept at the starting limit.
fn follow_chain(
    random: &mut Random,
    rewriter: &mut Rewriter,
    start: u8,
    first: Vec<u8>,
    most: usize,
    calls: usize,
) {
    let mut program = first.clone();
    for _ in 0..calls {
        let mut log = logs::log(random, &program, most);
        if random.percent(1) {
            log.resize(LOG_LIMIT + 1, SWAP);
        }
        let other = random.percent(20);
        let limit = if other {
            random.pick(&CALL_LIMITS)
        } else {
            start
        };
        let (number, next) = rewriter.call(&about(random, limit, &program, &log), "chains");
        if limit != start && !rewriter.other_limits.call(start, limit, number) {
            fail(&format!("{number} at limit {limit}, valid at {start}"));
        }
        program = next;
    }
    if let Some(what) = history::difference(start, &first, &program) {
        fail(&format!("after a chain of rewriter calls {what}"));
    }
    let changed = program != first;
    rewriter.chains += 1;
    rewriter.changed_chains += u64::from(changed);
    let strained = changed && strained(start, &first);
    rewriter.coverage.note(Event::StrainedSwapped, strained);
}

// Racks near every 64th record.

fn near_racks(random: &mut Random, limit: u8, rewriter: &mut Rewriter) {
    let (program, racks) = racked(random, limit);
    for rack in racks {
        for position in [rack.saturating_sub(2), rack + 1, rack + 2, rack + 3] {
            let log = logs::one_swap(position);
            rewriter.call(&just_enough(limit, &program, &log), "racks near 64ths");
        }
    }
    let near = (random.below(4) * 64 + random.below(5)).saturating_sub(2);
    let log = logs::one_swap(near);
    rewriter.call(&just_enough(limit, &program, &log), "racks near 64ths");
    follow_chain(random, rewriter, limit, program, 30, 2);
}

// Programs with a number from 3 to 11, with 16 or with 17.

pub fn refused_program(random: &mut Random, limit: u8) -> Vec<u8> {
    let mut program = if random.percent(25) {
        plated_program(random, limit)
    } else {
        whole_program(random, limit)
    };
    match random.below(7) {
        0 => program.push(random.unknown_kind()),
        1 => program.push(random.known_kind()),
        6 => program.extend([random.known_kind(), 0x7f, 0x7f, 0x7f, 0x7f, 0x7f]),
        2 if !program.is_empty() => {
            let place = random.below(program.len());
            program[place] = random.byte();
        }
        _ => (),
    }
    program
}

fn refused(random: &mut Random, limit: u8, rewriter: &mut Rewriter) {
    let program = refused_program(random, limit);
    let log = logs::any_log(random);
    let call = about(random, limit, &program, &log);
    rewriter.call(&call, "refused programs");
}

/// A rack about the border: refused, or swaps before it and behind it.
fn stretched(random: &mut Random, limit: u8, rewriter: &mut Rewriter) {
    let (mut draft, rack) = stretch_case(random, limit);
    add_drops(random, &mut draft);
    if draft.add(&rack).is_some() {
        add_drops(random, &mut draft);
        follow_chain(random, rewriter, limit, draft.bytes, 10, 2);
        return;
    }
    let program = draft.with(&bytes_of(&rack));
    let log = match random.below(4) {
        0 => logs::one_swap(65_535),
        _ => logs::any_log(random),
    };
    let call = about(random, limit, &program, &log);
    rewriter.call(&call, "stretched racks");
}

// Limits out of range: 15 before every other number, and nothing is written.

/// Programs for each limit that comes before every number, and for the others.
const BAD_ROUNDS: [usize; 2] = [2_000, 4];

fn bad_limit(random: &mut Random, limit: u8, rewriter: &mut Rewriter) {
    let rounds = BAD_ROUNDS[usize::from(!BAD_LIMITS.contains(&limit))];
    for _ in 0..rounds {
        let program = refused_program(random, HOOK_LIMIT);
        let log = logs::any_log(random);
        rewriter.call(&about(random, limit, &program, &log), "bad limits");
    }
    for _ in 0..rounds / 4 {
        let program = laned(random, HOOK_LIMIT, 60);
        let log = logs::log(random, &program, 3);
        rewriter.call(&about(random, limit, &program, &log), "bad limits");
    }
    let program = laned(random, HOOK_LIMIT, 60);
    let (mut long, mut long_log) = (program.clone(), vec![SWAP, 0, 0]);
    long.resize(PROGRAM_LIMIT + 1, 0);
    long_log.resize(LOG_LIMIT + 1, SWAP);
    for (program, log) in [(&long, &[][..]), (&program, &long_log), (&long, &long_log)] {
        let mut call = just_enough(limit, program, log);
        rewriter.call(&call, "bad limits and lengths");
        (call.output, call.work) = (0, 0);
        rewriter.call(&call, "bad limits, lengths and no areas");
    }
}

// Long programs and logs.

/// Two-byte and three-byte records only, up to the limit.
fn full(random: &mut Random, rewriter: &mut Rewriter) {
    let racks: Vec<u8> = (0..PROGRAM_LIMIT / 2)
        .flat_map(|_| [RACK, random.racking() as u8])
        .collect();
    for position in [0, 63, 16_382, 16_383, 16_384] {
        let log = logs::one_swap(position);
        rewriter.call(&just_enough(HOOK_LIMIT, &racks, &log), "full of racks");
    }
    rewriter.call(&just_enough(1, &racks, &[]), "full of racks");
    let mut drops = Draft::new(1);
    add_racks_and_drops(random, &mut drops, PROGRAM_LIMIT);
    follow_chain(random, rewriter, 1, drops.bytes, 3_000, 3);
    late_racks(random, rewriter);
    let mut bare = Vec::new();
    while bare.len() + 5 <= PROGRAM_LIMIT {
        bare.extend([DROP, random.below(2) as u8, random.below(NEEDLES) as u8]);
    }
    bare.extend([RACK, 1]);
    longest_log(random, rewriter, 1, &bare);
    loop {
        let fives = full_of_fives(random, HOOK_LIMIT);
        if longest_log(random, rewriter, HOOK_LIMIT, &fives) {
            return;
        }
    }
}

/// Positions near 64ths, far into a program of over 8,192 records.
fn late_racks(random: &mut Random, rewriter: &mut Rewriter) {
    let program = full_of_short_records(random);
    for _ in 0..300 {
        let position = 64 * (random.below(16) + 129) + random.below(6) - 2;
        let log = logs::one_swap(position);
        rewriter.call(&just_enough(HOOK_LIMIT, &program, &log), "late racks");
    }
    follow_chain(random, rewriter, HOOK_LIMIT, program, 3_000, 3);
}

/// Logs of up to 10,922 swaps, with one to four bytes more, and with a fault in the last swap.
/// Gives whether there were 10,922.
fn longest_log(random: &mut Random, rewriter: &mut Rewriter, limit: u8, program: &[u8]) -> bool {
    let mut order = Order::of(program);
    let log = logs::swaps(random, &mut order, LOG_LIMIT / SWAP_LENGTH);
    let mut longer = log.clone();
    for more in [SWAP, 0, 0, SWAP] {
        rewriter.call(&just_enough(limit, program, &longer), "longest logs");
        longer.push(more);
    }
    rewriter.call(&just_enough(limit, program, &longer), "longest logs");
    for (back, value) in [(SWAP_LENGTH, 0), (SWAP_LENGTH - 1, 0xff)] {
        if log.len() >= SWAP_LENGTH {
            let mut changed = log.clone();
            changed[log.len() - back] = value;
            rewriter.call(&just_enough(limit, program, &changed), "longest logs");
        }
    }
    log.len() == LOG_LIMIT / SWAP_LENGTH * SWAP_LENGTH
}

fn long(random: &mut Random, limit: u8, rewriter: &mut Rewriter) {
    let length = match random.below(3) {
        0 => PROGRAM_LIMIT - random.below(3),
        1 => 2_000 + random.below(20_000),
        _ => 1_500 + random.below(1_500),
    };
    let program = laned_exactly(random, limit, length);
    let most = random.pick(&[500, 2_000, LOG_LIMIT / SWAP_LENGTH]);
    let calls = 1 + random.below(3);
    follow_chain(random, rewriter, limit, program, most, calls);
}

// Lengths over a limit, and areas far longer than needed.

fn over(random: &mut Random, limit: u8, rewriter: &mut Rewriter) {
    let length = PROGRAM_LIMIT + random.below(2);
    let mut program = match random.below(3) {
        0 => laned_exactly(random, limit, length),
        1 => whole_program(random, limit),
        _ => laned(random, limit, 200),
    };
    let mut log = if program.len() > PROGRAM_LIMIT {
        logs::any_log(random)
    } else {
        logs::log(random, &program, 20)
    };
    match random.below(4) {
        0 => log.resize(random.pick(&[32_769, 32_770, 65_536, 65_539]), SWAP),
        1 => program.resize(random.pick(&[32_769, 65_536, 65_538, 70_000]), 0),
        _ => (),
    }
    let mut call = about(random, limit, &program, &log);
    match random.below(4) {
        0 => call.output = 65_536 + random.below(40),
        1 => call.work = 65_536 + random.below(40),
        _ => (),
    }
    rewriter.call(&call, "lengths over a limit");
}

// Shared bytes.

/// A log in the program's own bytes: drops of f.64, which from their third byte on read as swaps at
/// position 512, before drops of a few needles.
fn log_in_program(random: &mut Random, limit: u8, rewriter: &mut Rewriter) {
    let swaps = 1 + random.below(60);
    let mut program = [DROP, 0, SWAP].repeat(swaps + 1);
    for _ in swaps + 1..520 + random.below(50) {
        program.extend([DROP, random.pick(&[0, 1]), random.pick(&[10, 11, 12])]);
    }
    let log = &program[2..2 + SWAP_LENGTH * swaps];
    rewriter.call(&about(random, limit, &program, log), "log in the program");
}
