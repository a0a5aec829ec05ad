//! The groups of calls for the house order: rows, areas, swaps before it, refused programs, lengths.

use crate::draft::*;
use crate::fail;
use crate::generate::{add_racks_and_drops, whole_program};
use crate::history;
use crate::limit_coverage::{is_bad, BAD_LIMITS, CALL_LIMITS};
use crate::logs;
use crate::machine::*;
use crate::order::order_at;
use crate::order_calls::{OrderCall, Orderer};
use crate::order_coverage::Event;
use crate::order_pieces::{order_pieces, AREA_PIECES, AREA_PROGRAM};
use crate::order_reach;
use crate::rewrite::*;
use crate::show;
use crate::stretch_coverage::strained;
use crate::stretched::{add_drops, stretch_case};
use crate::swap_groups::{just_enough, length_about, refused_program};
use crate::swaps::*;

/// Makes calls at a hook limit.
type Group = fn(&mut Random, u8, &mut Orderer);

/// Rounds of a group at limit 8 and at each other one, and its function; one round makes one call or
/// several.
const GROUPS: [([usize; 2], Group); 7] = [
    ([5_000, 400], swapped),
    ([400, 40], near_racks),
    ([200, 20], turned),
    ([24_000, 8_000], refused),
    ([4_000, 1_500], stretched),
    ([10, 2], long),
    ([120, 30], over),
];

pub fn compare(orderer: &mut Orderer, seed: u64) {
    let mut random = Random::new(seed ^ 0x5733);
    pieces(orderer);
    small(orderer);
    order_reach::compare(orderer, &mut random);
    full(&mut random, orderer);
    for limit in LIMITS {
        for (rounds, group) in GROUPS {
            for _ in 0..rounds[usize::from(limit != HOOK_LIMIT)] {
                group(&mut random, limit, orderer);
            }
        }
    }
    for limit in (0..=255).filter(|&limit| is_bad(limit)) {
        bad_limit(&mut random, limit, orderer);
    }
}

// Areas.

/// A call with areas that are mostly long enough.
fn about<'a>(random: &mut Random, limit: u8, program: &'a [u8]) -> OrderCall<'a> {
    OrderCall {
        limit,
        program,
        output: length_about(random, program.len()),
        work: length_about(random, program.len() / 2),
    }
}

fn enough(limit: u8, program: &[u8]) -> OrderCall<'_> {
    OrderCall {
        limit,
        program,
        output: program.len(),
        work: program.len() / 2,
    }
}

// Rows.

fn pieces(orderer: &mut Orderer) {
    for piece in order_pieces() {
        let program = piece.program();
        let (mut output, mut work) = (vec![0xaa; program.len()], vec![0xaaaa; program.len() / 2]);
        let (mut ordered, mut starts) = piece.written().unwrap_or_default();
        ordered.extend(&output[ordered.len()..]);
        starts.extend(&work[starts.len()..]);
        let answer = order_at(piece.limit, &program, &mut output, &mut work);
        let agrees = (answer.number, answer.place) == (piece.number, piece.place);
        if !agrees || output != ordered || work != starts {
            fail(&format!(
                "the model differs from the paper on piece {}",
                piece.name
            ));
        }
        for limit in CALL_LIMITS {
            orderer.call(&enough(limit, &program), piece.name);
        }
    }
    for (output, work, number) in AREA_PIECES {
        let (mut bytes, mut starts) = (vec![0; output], vec![0; work]);
        if order_at(HOOK_LIMIT, &AREA_PROGRAM, &mut bytes, &mut starts).number != number {
            fail("the model differs from a piece about areas");
        }
    }
}

/// Small programs with each small area, at limit 8 and at others in turn.
fn small(orderer: &mut Orderer) {
    let programs: [&[u8]; 8] = [
        &[],
        &[RACK],
        &[0],
        &[RACK, 2],
        &[DROP, 1, 5],
        &AREA_PROGRAM,
        &[RACK, 0, DROP, 1, 5, DROP, 0, 5],
        &[RACK, 1, XFER, 0, 5, 4, DROP, 1, 9],
    ];
    for program in programs {
        for output in 0..program.len() + 3 {
            for work in 0..program.len() / 2 + 3 {
                let turn = (output + 3 * work) % CALL_LIMITS.len();
                for limit in [HOOK_LIMIT, CALL_LIMITS[turn]] {
                    let call = OrderCall {
                        limit,
                        program,
                        output,
                        work,
                    };
                    orderer.call(&call, "small areas");
                }
            }
        }
    }
}

// Valid programs: ordered, ordered again, after swaps, after tied records changed places.

fn swapped(random: &mut Random, limit: u8, orderer: &mut Orderer) {
    let length = random.pick(&[0, 8, 30, 60, 100, 100, 200, 200, 400, 700]);
    let program = laned(random, limit, length);
    orderer.call(&about(random, limit, &program), "lanes");
    order_all(random, limit, orderer, &program);
}

/// Fails unless a program has the house order given, or has another one, as it must.
fn same_order(orderer: &mut Orderer, limit: u8, house: &[u8], program: &[u8], same: bool) {
    let other = house_order(orderer, limit, program);
    if (other == house) != same {
        show("house order", house);
        show("other house order", &other);
        show("of program", program);
        fail(if same {
            "swaps change a house order"
        } else {
            "two tied records changed places and the house order is the same"
        });
    }
}

fn house_order(orderer: &mut Orderer, limit: u8, program: &[u8]) -> Vec<u8> {
    let ordered = orderer.call(&enough(limit, program), "valid programs");
    ordered.unwrap_or_else(|| fail("a valid program has no house order"))
}

/// A valid program's house order keeps what swaps keep, and is that of every program that swaps of
/// the library's rewriter make of it, at any limit at which it is valid; not so if two neighbours
/// that are tied change places.
fn order_all(random: &mut Random, limit: u8, orderer: &mut Orderer, program: &[u8]) {
    let house = house_order(orderer, limit, program);
    if let Some(what) = history::difference(limit, program, &house) {
        fail(&format!("in a house order {what}"));
    }
    same_order(orderer, limit, &house, &house, true);
    let changed = house != program;
    orderer.coverage.note(Event::Twice, changed);
    let strained = changed && strained(limit, program);
    orderer.coverage.note(Event::StrainedOrdered, strained);
    let greater = limit + random.below(usize::from(HOOK_LIMIT - limit) + 1) as u8;
    if greater > limit {
        same_order(orderer, greater, &house, program, true);
        orderer.coverage.note(Event::OtherLimit, true);
    }
    let changed = by_rewriter(random, limit, orderer, program);
    same_order(orderer, limit, &house, &changed, true);
    let moved = changed != program;
    orderer.coverage.note(Event::SameAfterSwaps, moved);
    if let Some(other) = tied_exchanged(random, limit, program) {
        same_order(orderer, limit, &house, &other, false);
        orderer.coverage.note(Event::OtherAfterTied, true);
    }
}

/// The program that a log of swaps makes of one.
fn by_rewriter(random: &mut Random, limit: u8, orderer: &mut Orderer, program: &[u8]) -> Vec<u8> {
    let most = random.pick(&[1, 3, 10, 30, 100]);
    let log = logs::swaps(random, &mut Order::of(program), most);
    let call = just_enough(limit, program, &log);
    orderer.swapper.call(&call, "swaps before an order").1
}

/// A valid program with two unequal neighbours that are tied in the other order, if one is found.
fn tied_exchanged(random: &mut Random, limit: u8, program: &[u8]) -> Option<Vec<u8>> {
    let mut order = Order::of(program);
    let pairs = order
        .parts
        .len()
        .checked_sub(1)
        .filter(|&pairs| pairs > 0)?;
    for _ in 0..8 {
        let at = random.below(pairs);
        if !order.tied(at) || order.parts[at].bytes == order.parts[at + 1].bytes {
            continue;
        }
        order.swap(at);
        let parts = order.parts.iter().flat_map(|part| part.bytes);
        let exchanged: Vec<u8> = parts.copied().collect();
        if run_at(limit, &exchanged).number == DONE {
            return Some(exchanged);
        }
        order.swap(at);
    }
    None
}

/// Racks close to each other, so that each decides columns of a few records.
fn near_racks(random: &mut Random, limit: u8, orderer: &mut Orderer) {
    let (program, _) = racked(random, limit);
    orderer.call(&enough(limit, &program), "racks near 64ths");
    order_all(random, limit, orderer, &program);
}

// Programs with a number from 3 to 11, with 16 or with 17, and limits out of range.

fn refused(random: &mut Random, limit: u8, orderer: &mut Orderer) {
    let program = refused_program(random, limit);
    orderer.call(&about(random, limit, &program), "refused programs");
}

/// A rack about the border: refused, or a program with its order.
fn stretched(random: &mut Random, limit: u8, orderer: &mut Orderer) {
    let (mut draft, rack) = stretch_case(random, limit);
    add_drops(random, &mut draft);
    let accepted = draft.add(&rack).is_some();
    if accepted && random.below(STRAINED_EVERY) == 0 {
        add_drops(random, &mut draft);
        order_all(random, limit, orderer, &draft.bytes);
        return;
    }
    let program = if accepted {
        draft.bytes
    } else {
        draft.with(&bytes_of(&rack))
    };
    orderer.call(&about(random, limit, &program), "stretched racks");
}

/// One in so many programs with a rack that passes is ordered after swaps too.
const STRAINED_EVERY: usize = 4;

/// Programs for each limit that comes before every number, and for the others.
const BAD_ROUNDS: [usize; 2] = [2_000, 4];

fn bad_limit(random: &mut Random, limit: u8, orderer: &mut Orderer) {
    let rounds = BAD_ROUNDS[usize::from(!BAD_LIMITS.contains(&limit))];
    for _ in 0..rounds {
        let program = refused_program(random, HOOK_LIMIT);
        orderer.call(&about(random, limit, &program), "bad limits");
    }
    let mut long = laned(random, HOOK_LIMIT, 60);
    orderer.call(&enough(limit, &long), "bad limits");
    long.resize(PROGRAM_LIMIT + 1, 0);
    for (output, work) in [(long.len(), long.len() / 2), (0, 0)] {
        let call = OrderCall {
            limit,
            program: &long,
            output,
            work,
        };
        orderer.call(&call, "bad limits and lengths");
    }
}

// Long programs.

/// Programs up to the limit of racks, of drops, of both, and of records of five bytes.
fn full(random: &mut Random, orderer: &mut Orderer) {
    let racks: Vec<u8> = (0..PROGRAM_LIMIT / 2)
        .flat_map(|_| [RACK, random.racking() as u8])
        .collect();
    orderer.call(&enough(1, &racks), "full of racks");
    let mut both = Draft::new(1);
    add_racks_and_drops(random, &mut both, PROGRAM_LIMIT);
    orderer.call(&enough(1, &both.bytes), "full of racks and drops");
    let fives = full_of_fives(random, HOOK_LIMIT);
    orderer.call(&enough(HOOK_LIMIT, &fives), "full of fives");
    full_of_drops(random, orderer);
}

/// The drop at one of the 500 hooks.
fn drop_at(hook: usize) -> [u8; 3] {
    [DROP, (hook / NEEDLES) as u8, (hook % NEEDLES) as u8]
}

/// One stretch of drops, the last of which comes first, before a rack.
fn full_of_drops(random: &mut Random, orderer: &mut Orderer) {
    let count = PROGRAM_LIMIT / 3 - 1;
    let hooks = (0..count).map(|_| 1 + random.below(2 * NEEDLES - 1));
    let mut program: Vec<u8> = hooks.chain([0]).flat_map(drop_at).collect();
    program.extend([RACK, 1]);
    orderer.call(&enough(HOOK_LIMIT, &program), "full of drops");
}

/// Stretches of drops from higher needles down, or nearly so.
fn turned(random: &mut Random, limit: u8, orderer: &mut Orderer) {
    let mut program = Vec::new();
    for _ in 0..1 + random.below(4) {
        let count = 1 + random.below(70);
        let first = random.below(2 * NEEDLES - count);
        let mut hooks: Vec<usize> = (first..first + count).rev().collect();
        if random.percent(50) {
            hooks.swap(random.below(count), random.below(count));
        }
        program.extend(hooks.into_iter().flat_map(drop_at));
        program.extend([RACK, random.racking() as u8]);
    }
    orderer.call(
        &about(random, limit, &program),
        "drops from higher needles down",
    );
}

fn long(random: &mut Random, limit: u8, orderer: &mut Orderer) {
    let length = match random.below(10) {
        0 => PROGRAM_LIMIT - random.below(3),
        _ => 1_500 + random.below(4_000),
    };
    let program = laned_exactly(random, limit, length);
    let changed = by_rewriter(random, limit, orderer, &program);
    let house = house_order(orderer, limit, &program);
    same_order(orderer, limit, &house, &changed, true);
}

/// A program of 32,769 bytes that is valid but for its length.
fn too_long(random: &mut Random, limit: u8) -> Vec<u8> {
    loop {
        let mut draft = Draft::new(limit);
        add_racks_and_drops(random, &mut draft, PROGRAM_LIMIT + 1);
        if draft.bytes.len() > PROGRAM_LIMIT {
            return draft.bytes;
        }
    }
}

/// Lengths over the limit, and areas far longer than needed.
fn over(random: &mut Random, limit: u8, orderer: &mut Orderer) {
    let mut program = match random.below(3) {
        0 => too_long(random, limit),
        1 => whole_program(random, limit),
        _ => laned(random, limit, 200),
    };
    if random.percent(25) {
        program.resize(random.pick(&[32_769, 65_536, 65_538, 70_000]), 0);
    }
    let mut call = about(random, limit, &program);
    match random.below(4) {
        0 => call.output = 65_536 + random.below(40),
        1 => call.work = 65_536 + random.below(40),
        _ => (),
    }
    orderer.call(&call, "lengths over the limit");
}
