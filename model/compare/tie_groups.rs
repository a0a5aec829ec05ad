//! The groups of calls for a tie: rows, every two actors, close needles, faults, programs' swaps.

use crate::draft::*;
use crate::logs;
use crate::machine::*;
use crate::panel_records::{cut, unknown, with_field};
use crate::rewrite::Order;
use crate::swap_groups::{just_enough, middle_place};
use crate::swaps::*;
use crate::tie_calls::{interface, Pair, Ties};
use crate::tie_pieces::tie_pieces;
use crate::{fail, show};
use std::ops::RangeInclusive;

/// Pairs of any bytes.
const ANY_PAIRS: usize = 300_000;

/// Programs of each make whose swaps are compared.
const LANED: usize = 1_500;
const RACKED: usize = 12;
const PAIRS: usize = 15_000;

/// All rackings.
const RACKINGS: RangeInclusive<i32> = -MAX_RACKING..=MAX_RACKING;

pub fn compare(ties: &mut Ties, seed: u64) {
    let mut random = Random::new(seed.rotate_left(48));
    if interface() != 3 {
        fail("the interface is not 3");
    }
    pieces(ties);
    every_pair(&mut random, ties);
    racks(&mut random, ties);
    close_needles(&mut random, ties);
    rackings(&mut random, ties);
    lengths(&mut random, ties);
    wide(&mut random, ties);
    fields(&mut random, ties);
    any_pairs(&mut random, ties);
    programs(&mut random, ties);
}

fn pieces(ties: &mut Ties) {
    for piece in tie_pieces() {
        let pair = Pair {
            racking: piece.racking,
            sides: [&piece.first, &piece.second],
        };
        if pair.model() != piece.answer {
            fail(&format!(
                "the model differs from the paper on the tie {}",
                piece.name
            ));
        }
        ties.call(&pair, piece.name);
    }
}

// Records.

/// The actor's record at a needle; direction and second needle have no part in a tie.
fn bytes_at(random: &mut Random, actor: Actor, needle: u8, second: u8) -> Vec<u8> {
    let (kind, bed, direction) = (actor.kind, actor.bed as u8, random.below(2) as u8);
    let [one, two] = actor.carriers.map(|carrier| carrier as u8 + 1);
    match kind {
        DROP => vec![kind, bed, needle],
        XFER => vec![kind, bed, needle, second],
        SPLIT => vec![kind, direction, bed, needle, one, second],
        PLATED_TUCK | PLATED_KNIT => vec![kind, direction, bed, needle, one, two],
        _ => vec![kind, direction, bed, needle, one],
    }
}

fn number_at(bed: Bed, racking: i32, column: i32) -> Option<u8> {
    let number = match bed {
        Bed::Front => column,
        Bed::Back => column - racking,
    };
    u8::try_from(number)
        .ok()
        .filter(|&n| usize::from(n) < NEEDLES)
}

/// The second needle of an xfer or split: about the column, of a carrier's number, or any.
fn second_needle(random: &mut Random, bed: Bed, racking: i32, column: i32) -> u8 {
    let near = column + random.between(-2, 2);
    let any = random.below(NEEDLES) as u8;
    match random.below(4) {
        0 => any,
        1 => 1 + random.below(CARRIERS) as u8,
        _ => number_at(bed.other(), racking, near).unwrap_or(any),
    }
}

fn record_at(random: &mut Random, actor: Actor, racking: i32, column: i32) -> Option<Vec<u8>> {
    let needle = number_at(actor.bed, racking, column)?;
    let second = second_needle(random, actor.bed, racking, column);
    let mut bytes = bytes_at(random, actor, needle, second);
    if random.percent(30) {
        add_bytes(random, &mut bytes);
    }
    Some(bytes)
}

/// Every kind but rack, on both beds, with all carriers it can name; one yarn twice too.
fn tie_actors() -> Vec<Actor> {
    let mut all = actors();
    for (kind, bed) in [PLATED_TUCK, PLATED_KNIT]
        .into_iter()
        .flat_map(|kind| [Bed::Front, Bed::Back].map(|bed| (kind, bed)))
    {
        all.extend((0..CARRIERS).map(|carrier| Actor {
            kind,
            bed,
            carriers: [carrier; 2],
        }));
    }
    all
}

/// A record of a kind other than rack, anywhere.
fn any_of(random: &mut Random, kind: u8) -> Vec<u8> {
    let actor = Actor {
        kind,
        bed: random.bed(),
        carriers: [0; 2].map(|_| random.below(CARRIERS)),
    };
    let [needle, second] = [0; 2].map(|_| random.below(NEEDLES) as u8);
    bytes_at(random, actor, needle, second)
}

fn any_rack(random: &mut Random) -> Vec<u8> {
    vec![RACK, random.racking() as i8 as u8]
}

/// A whole record of a kind, its fields in range; of an unknown kind, bytes as of a knit.
fn whole(random: &mut Random, kind: u8) -> Vec<u8> {
    match kind {
        RACK => any_rack(random),
        _ => any_of(random, kind),
    }
}

// Pairs.

fn pair_at(random: &mut Random, racking: i32, places: [(Actor, i32); 2]) -> Option<[Vec<u8>; 2]> {
    let [(first, one), (second, two)] = places;
    let first = record_at(random, first, racking, one)?;
    Some([first, record_at(random, second, racking, two)?])
}

/// Every two actors at column distances -2 to 2, at times at the ends of the beds.
fn every_pair(random: &mut Random, ties: &mut Ties) {
    let all = tie_actors();
    for &first in &all {
        for &second in &all {
            for distance in -2..=2 {
                near_pair(random, ties, [first, second], distance);
            }
        }
    }
}

fn near_pair(random: &mut Random, ties: &mut Ties, [first, second]: [Actor; 2], distance: i32) {
    let (racking, sides) = loop {
        let (racking, column) = match random.below(5) {
            0 => end_place(random),
            _ => middle_place(random),
        };
        let places = [(first, column), (second, column + distance)];
        if let Some(sides) = pair_at(random, racking, places) {
            break (racking, sides);
        }
    };
    let pair = Pair {
        racking: racking as i8,
        sides: [&sides[0], &sides[1]],
    };
    ties.call(&pair, "every pair");
}

/// A racking and a column near an end of a bed, which may not be on both.
fn end_place(random: &mut Random) -> (i32, i32) {
    let racking = random.racking();
    let last = NEEDLES as i32 - 1;
    let end = random.pick(&[0, racking, last, last + racking]);
    (racking, end + random.between(-2, 2))
}

/// A rack, at times with bytes behind it, often another record's.
fn rack_bytes(random: &mut Random, new: i32, other: &[u8]) -> Vec<u8> {
    let mut bytes = vec![RACK, new as i8 as u8];
    match random.below(3) {
        0 => add_bytes(random, &mut bytes),
        1 => bytes.extend(other.iter().skip(2)),
        _ => (),
    }
    bytes
}

/// Every rack with every actor in both orders, and with every rack.
fn racks(random: &mut Random, ties: &mut Ties) {
    let all = tie_actors();
    for new in RACKINGS {
        for &actor in &all {
            let (racking, column) = middle_place(random);
            let other = record_at(random, actor, racking, column).expect("a column of both beds");
            let rack = rack_bytes(random, new, &other);
            let pair = Pair {
                racking: racking as i8,
                sides: [&rack, &other],
            };
            ties.call(&pair, "racks");
            ties.call(&pair.exchanged(), "racks");
        }
        for other in RACKINGS {
            let sides = [new, other].map(|new| rack_bytes(random, new, &[]));
            let pair = Pair {
                racking: random.racking() as i8,
                sides: [&sides[0], &sides[1]],
            };
            ties.call(&pair, "two racks");
        }
    }
}

/// Carriers of two records, plain or first of a plated stitch: one, next to each other, far apart.
const CLOSE_CARRIERS: [[usize; 2]; 4] = [[6, 6], [3, 4], [4, 3], [9, 0]];

/// Every two kinds and beds, needle numbers up to 10 apart, at every racking.
fn close_needles(random: &mut Random, ties: &mut Ties) {
    let kinds = || DROP..=PLATED_KNIT;
    let beds = [Bed::Front, Bed::Back];
    for (first, second) in kinds().flat_map(|first| kinds().map(move |second| (first, second))) {
        for (one, two) in beds.into_iter().flat_map(|one| beds.map(|two| (one, two))) {
            for carriers in CLOSE_CARRIERS {
                let actors = [(first, one, carriers[0]), (second, two, carriers[1])];
                close_actors(random, ties, actors);
            }
        }
    }
}

fn close_actors(random: &mut Random, ties: &mut Ties, actors: [(u8, Bed, usize); 2]) {
    for racking in RACKINGS {
        for distance in -10..=10 {
            let first = random.between(0.max(-distance), NEEDLES as i32 - 1 - 0.max(distance));
            let needles = [first, first + distance];
            let sides = [0, 1].map(|side| {
                let (kind, bed, carrier) = actors[side];
                let carriers = [carrier, random.below(CARRIERS)];
                let actor = Actor {
                    kind,
                    bed,
                    carriers,
                };
                let other = needles[1 - side] as u8;
                bytes_at(random, actor, needles[side] as u8, other)
            });
            let pair = Pair {
                racking: racking as i8,
                sides: [&sides[0], &sides[1]],
            };
            ties.call(&pair, "close needles");
        }
    }
}

// Faults.

/// Every racking, with a record of each kind and with faults, each with each.
fn rackings(random: &mut Random, ties: &mut Ties) {
    for racking in i8::MIN..=i8::MAX {
        let mut samples: Vec<Vec<u8>> = KINDS.map(|kind| whole(random, kind)).collect();
        samples.extend([vec![], vec![0], vec![KNIT, 1], vec![DROP, 0, 250]]);
        for first in &samples {
            for second in &samples {
                let sides = [first.as_slice(), second];
                ties.call(&Pair { racking, sides }, "every racking");
            }
        }
    }
}

/// The kinds, and some unknown ones.
fn some_kinds() -> impl Iterator<Item = u8> {
    KINDS.chain([0, 12, 255])
}

/// Every two lengths of 0 to 8 bytes of every two kinds.
fn lengths(random: &mut Random, ties: &mut Ties) {
    let both = || some_kinds().flat_map(|kind| (0..=8).map(move |length| (kind, length)));
    for (first, one) in both() {
        for (second, two) in both() {
            let sides = [(first, one), (second, two)].map(|(kind, length)| {
                let mut bytes = whole(random, kind);
                bytes.resize_with(8, || random.byte());
                bytes.truncate(length);
                bytes
            });
            let pair = Pair {
                racking: random.racking() as i8,
                sides: [&sides[0], &sides[1]],
            };
            ties.call(&pair, "lengths");
        }
    }
}

/// A record of each kind before so many bytes that a narrow length would be short of it.
fn wide(random: &mut Random, ties: &mut Ties) {
    for (kind, more) in KINDS.flat_map(|kind| (0..12).map(move |more| (kind, more))) {
        for length in [256, 65_536] {
            let mut bytes = whole(random, kind);
            bytes.resize(length + more, random.byte());
            let other = random.known_kind();
            let other = whole(random, other);
            let pair = Pair {
                racking: random.racking() as i8,
                sides: [&bytes, &other],
            };
            ties.call(&pair, "wide");
            ties.call(&pair.exchanged(), "wide");
        }
    }
}

/// Every value of every byte behind a kind, beside any record.
fn fields(random: &mut Random, ties: &mut Ties) {
    for kind in KINDS {
        for place in 1..whole(random, kind).len() {
            for value in 0..=255 {
                let mut bytes = whole(random, kind);
                bytes[place] = value;
                let other = random.known_kind();
                let other = whole(random, other);
                let pair = Pair {
                    racking: random.racking() as i8,
                    sides: [&bytes, &other],
                };
                ties.call(&pair, "fields");
                ties.call(&pair.exchanged(), "fields");
            }
        }
    }
}

/// A record near a column, whole or with a fault, or any bytes; at times with bytes behind it.
fn any_side(random: &mut Random, racking: i32, column: i32, carriers: [usize; 2]) -> Vec<u8> {
    let near = column + random.between(-1, 1);
    let mut actor = any_actor(random);
    actor.carriers = [0; 2].map(|_| random.pick(&carriers));
    let record = record_at(random, actor, racking, near).unwrap_or_else(|| any_rack(random));
    match random.below(12) {
        0 => cut(random, &record),
        1 => unknown(random),
        2 => with_field(random, &record),
        3 => (0..random.below(9)).map(|_| random.byte()).collect(),
        4 => any_rack(random),
        _ => record,
    }
}

/// Pairs of any bytes, near each other, with few carriers; mostly at a racking in range.
fn any_pairs(random: &mut Random, ties: &mut Ties) {
    for _ in 0..ANY_PAIRS {
        let racking = match random.below(20) {
            0 => random.byte() as i8,
            1 => random.pick(&[-9, 9]),
            _ => random.racking() as i8,
        };
        let column = random.between(-8, 257);
        let carriers = [0; 2].map(|_| random.below(CARRIERS));
        let sides = [0; 2].map(|_| any_side(random, racking.into(), column, carriers));
        let pair = Pair {
            racking,
            sides: [&sides[0], &sides[1]],
        };
        ties.call(&pair, "any bytes");
    }
}

// Programs: a swap gets 13 exactly if the two are tied at the racking in force.

fn programs(random: &mut Random, ties: &mut Ties) {
    for _ in 0..LANED {
        let limit = random.limit();
        let length = random.pick(&[30, 60, 100, 200, 400]);
        let program = laned(random, limit, length);
        every_swap(ties, limit, &program);
    }
    for _ in 0..RACKED {
        let limit = random.limit();
        let (program, _) = racked(random, limit);
        every_swap(ties, limit, &program);
    }
    for _ in 0..PAIRS {
        let (racking, column) = middle_place(random);
        let near = column + random.between(-2, 2);
        let places = [(any_actor(random), column), (any_actor(random), near)];
        if let Some(draft) = pair(random, racking, places) {
            let order = Order::of(&draft.bytes);
            swap(
                ties,
                HOOK_LIMIT,
                &draft.bytes,
                &order,
                order.parts.len() - 2,
            );
        }
    }
}

fn every_swap(ties: &mut Ties, limit: u8, program: &[u8]) {
    let order = Order::of(program);
    for position in (0..order.parts.len()).filter(|&position| order.is_pair(position)) {
        swap(ties, limit, program, &order, position);
    }
}

/// Compares the tie of neighbours with the rewriter's answer to their swap, which is the library's
/// and the model's. They are also asked for exchanged, and the later one with itself.
fn swap(ties: &mut Ties, limit: u8, program: &[u8], order: &Order, position: usize) {
    let before = order.parts.iter().take(position);
    let place: usize = before.map(|part| part.bytes.len()).sum();
    let next = place + order.parts[position].bytes.len();
    let racking = order.racking(position) as i8;
    let tied = ties.call_within(racking, program, [place, next], "neighbours");
    ties.call_within(racking, program, [next, place], "neighbours exchanged");
    ties.call_within(racking, program, [next, next], "a record with itself");
    let log = logs::one_swap(position);
    let call = just_enough(limit, program, &log);
    let (number, _) = ties.swapper.call(&call, "swaps of neighbours");
    if number != tied.number {
        show("program", program);
        fail(&format!(
            "the swap at {position} gets {number}, the tie {}",
            tied.number
        ));
    }
    ties.coverage.swaps[usize::from(tied.by)] += 1;
}
