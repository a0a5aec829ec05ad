//! Rows for 02's W5 as its words give them: racks that leave yarn of 20 and of 21, and what passes.

use crate::machine::*;
use crate::order_pieces::{ordered, refused, OrderPiece};
use crate::panel_pieces::{row, StepPiece};
use crate::pieces::{piece, swap_piece, Piece, SwapPiece};
use crate::raw_state::*;
use crate::rewrite::*;

const LEFT: u8 = 0;
const RIGHT: u8 = 1;
const FRONT: u8 = 0;
const BACK: u8 = 1;

/// The side that the tuck attaches on, which way misses lead the carrier off, and both in words.
const WAYS: [(u8, i32, &str); 4] = [
    (RIGHT, 1, "W5, right side, led right"),
    (RIGHT, -1, "W5, right side, led left"),
    (LEFT, 1, "W5, left side, led right"),
    (LEFT, -1, "W5, left side, led left"),
];

/// Misses by a carrier from a slot on, to the right or, if fewer than none, to the left.
fn misses(carrier: u8, slot: i32, count: i32) -> Vec<u8> {
    let over = |past: i32| match count {
        1.. => [MISS, RIGHT, FRONT, (slot + past) as u8, carrier],
        _ => [MISS, LEFT, FRONT, (slot - past - 1) as u8, carrier],
    };
    (0..count.abs()).flat_map(over).collect()
}

/// A carrier's tuck on a needle to a side, at racking 0, and misses that lead it off: the yarn is
/// as long as they are many.
fn led(carrier: u8, [bed, needle, side]: [u8; 3], count: i32) -> Vec<u8> {
    let record = |kind| [kind, side, bed, needle, carrier];
    let slot = i32::from(needle) + i32::from(side);
    let tuck = [record(IN), record(TUCK)].concat();
    [tuck, misses(carrier, slot, count)].concat()
}

/// Carrier 3, from b.100.
fn back(side: u8, count: i32) -> Vec<u8> {
    led(3, [BACK, 100, side], count)
}

fn rack(racking: i32) -> [u8; 2] {
    [RACK, racking as u8]
}

/// Racks behind a program, with the number of the last; those before it are done.
fn racks(name: &'static str, program: &[u8], rackings: &[i32], number: u8) -> Piece {
    let racked: Vec<u8> = rackings.iter().flat_map(|&racking| rack(racking)).collect();
    let program = [program, &racked].concat();
    let place = if number == DONE { 0 } else { program.len() - 2 };
    piece(name, program, number, place)
}

pub fn stretch_pieces() -> Vec<Piece> {
    let mut pieces: Vec<Piece> = WAYS.into_iter().flat_map(border_pieces).collect();
    pieces.extend(present_pieces());
    pieces.extend(bed_pieces());
    pieces.extend(carrier_pieces());
    pieces.extend(no_yarn_pieces());
    pieces
}

/// From both sides of a needle to both sides: 20 passes, 21 does not, nearer passes. No rack can
/// carry an attachment to the other side of its carrier and end over 20: it moves it by 16 at most.
fn border_pieces((side, way, name): (u8, i32, &'static str)) -> Vec<Piece> {
    let row = |count, racking, number| {
        let program = back(side, way * count);
        racks(name, &program, &[-way * racking], number)
    };
    vec![
        row(12, 8, DONE),
        row(13, 8, STRETCHED),
        row(13, 7, DONE),
        row(19, 1, DONE),
        row(20, 1, STRETCHED),
        row(20, 0, DONE),
        row(20, -1, DONE),
        row(21, 0, DONE),
        row(21, 1, STRETCHED),
        row(22, -1, DONE),
        row(36, -8, DONE),
        row(36, 8, STRETCHED),
    ]
}

/// Yarn of 25 at racking 0, 17 at 8: what it was is taken at the racking in force.
fn present_pieces() -> Vec<Piece> {
    let program = back(RIGHT, 25);
    let row = |name, rackings: &[i32], number| racks(name, &program, rackings, number);
    let at_least = [back(RIGHT, 12), rack(-8).to_vec(), misses(3, 113, 5)].concat();
    let from_least = |name, racking, number| racks(name, &at_least, &[racking], number);
    vec![
        row("W5, 25 to 25", &[0], DONE),
        row("W5, 25 to 24", &[1], DONE),
        row("W5, 25 to 26", &[-1], STRETCHED),
        row("W5, 24 to 24", &[1, 1], DONE),
        row("W5, 24 to 25", &[1, 0], STRETCHED),
        row("W5, 17 to 20", &[8, 5], DONE),
        row("W5, 17 to 21", &[8, 4], STRETCHED),
        row("W5, 17 to 33", &[8, -8], STRETCHED),
        from_least("W5, 25 at -8", -8, DONE),
        from_least("W5, 25 at -8 to 24", -7, DONE),
        from_least("W5, 25 at -8 to 21", -4, DONE),
        from_least("W5, 25 at -8 to 9", 8, DONE),
        piece(
            "W5, 5 before",
            [&program[..], &[RACK, 0xf7]].concat(),
            5,
            135,
        ),
        piece("W5, cut", [&program[..], &[RACK]].concat(), CUT_SHORT, 135),
    ]
}

/// A front needle's yarn stays as it is; an attachment goes with its loops to the other bed.
fn bed_pieces() -> Vec<Piece> {
    let front = led(3, [FRONT, 100, RIGHT], 25);
    let on = |program: &[u8], record: &[u8]| [program, record].concat();
    let to_back = on(&front, &[XFER, FRONT, 100, 100]);
    let to_front = on(&back(RIGHT, 25), &[XFER, BACK, 100, 100]);
    let split = [
        &[IN, LEFT, BACK, 100, 9][..],
        &[SPLIT, LEFT, BACK, 100, 9, 100],
    ]
    .concat();
    let dropped = on(&back(RIGHT, 25), &[DROP, BACK, 100]);
    vec![
        racks("W5, front", &front, &[8, -8, 0], DONE),
        racks("W5, xfer to the back", &to_back, &[1], DONE),
        racks("W5, xfer to the back", &to_back, &[-1], STRETCHED),
        racks("W5, xfer to the front", &to_front, &[-8, 8], DONE),
        racks(
            "W5, split to the front",
            &on(&to_front, &split),
            &[-8],
            DONE,
        ),
        racks("W5, split", &on(&back(RIGHT, 25), &split), &[-8], DONE),
        racks("W5, dropped", &dropped, &[-1], STRETCHED),
    ]
}

/// Two carriers of which one is stretched, by the first place or the second, and none.
fn carrier_pieces() -> Vec<Piece> {
    let two = |carriers: [u8; 2], counts: [i32; 2]| {
        let first = led(carriers[0], [BACK, 100, RIGHT], counts[0]);
        let second = led(carriers[1], [BACK, 180, RIGHT], counts[1]);
        [first, second].concat()
    };
    let enter = [[IN, 1, BACK, 100, 3], [IN, 1, BACK, 100, 4]].concat();
    let plated = [&enter[..], &[PLATED_TUCK, RIGHT, BACK, 100, 3, 4]].concat();
    let second = [plated.clone(), misses(4, 101, 13)].concat();
    let row = |name, carriers, counts, number| racks(name, &two(carriers, counts), &[-8], number);
    vec![
        row("W5, second", [3, 4], [0, 13], STRETCHED),
        row("W5, first", [3, 4], [13, 0], STRETCHED),
        row("W5, ten", [1, 10], [12, 13], STRETCHED),
        row("W5, one", [1, 10], [13, 12], STRETCHED),
        row("W5, both", [1, 10], [13, 20], STRETCHED),
        row("W5, neither", [1, 10], [12, 12], DONE),
        row("W5, nearer and second", [3, 4], [-25, 13], STRETCHED),
        row("W5, nearer, both", [3, 4], [-25, -30], DONE),
        racks("W5, plated, second", &second, &[-8], STRETCHED),
        racks("W5, plated", &plated, &[-8, 8], DONE),
    ]
}

/// Carriers that have no yarn to stretch: unattached, out, in again; and one attached anew.
fn no_yarn_pieces() -> Vec<Piece> {
    let enter: &[u8] = &[IN, RIGHT, BACK, 100, 3];
    let unattached = [enter, &misses(3, 100, 30)].concat();
    let out = [back(RIGHT, 30), vec![OUT, RIGHT, FRONT, 130, 3]].concat();
    let again = [&out[..], &[IN, RIGHT, FRONT, 131, 3]].concat();
    let anew = [back(RIGHT, 13), vec![TUCK, RIGHT, FRONT, 114, 3]].concat();
    let near = [back(RIGHT, 13), vec![TUCK, RIGHT, BACK, 114, 3]].concat();
    vec![
        racks("W5, unattached", &unattached, &[-8, 8], DONE),
        racks("W5, out", &out, &[-8, 8], DONE),
        racks("W5, in again", &again, &[-8, 8], DONE),
        racks("W5, anew on the front", &anew, &[-8, 8], DONE),
        racks("W5, anew on the back", &near, &[-8, 8], DONE),
    ]
}

/// Whether a stretched rack keeps the state before it and one that passes moves no slot.
pub fn stretch_states_agree() -> bool {
    let program = back(RIGHT, 25);
    let before = run(&program).state;
    let refused = run(&[&program[..], &rack(-1)].concat());
    let passed = run(&[&program[..], &rack(1)].concat());
    let racked = State {
        racking: 1,
        ..before.clone()
    };
    refused.state == before && !refused.complete() && passed.state == racked
}

// Rewriter and house order.

/// Carrier 3 led off by 12 or 13 from b.100, two drops, and a rack to -8.
fn with_drops(count: i32, drops: [u8; 6]) -> Vec<u8> {
    [back(RIGHT, count), drops.to_vec(), rack(-8).to_vec()].concat()
}

/// 17 before what the log holds, swaps before a rack that passes, and the rack itself tied.
pub fn stretch_swap_pieces() -> Vec<SwapPiece> {
    let drops = [DROP, FRONT, 9, DROP, FRONT, 5];
    let swapped = [DROP, FRONT, 5, DROP, FRONT, 9];
    let (far, near) = (with_drops(13, drops), with_drops(12, drops));
    let after = with_drops(12, swapped);
    let swap = [SWAP, 0, 14];
    let refused = |name, log: &[u8]| swap_piece(name, &far, log, (STRETCHED, 81), None);
    let mut bad = refused("W5, limit 9", &swap);
    (bad.limit, bad.number, bad.place) = (9, FOUL_STATE, 0);
    vec![
        refused("W5, 17", &swap),
        refused("W5, 17, empty log", &[]),
        refused("W5, 17, torn log", &[SWAP]),
        refused("W5, 17, no pair", &[SWAP, 0xff, 0xff]),
        bad,
        swap_piece("W5, 20", &near, &swap, (DONE, 0), Some(&after)),
        swap_piece("W5, rack", &near, &[SWAP, 0, 15], (TIED, 0), Some(&near)),
    ]
}

/// 17 at the rack's place, and the order of a program whose rack leaves yarn of 20.
pub fn stretch_order_pieces() -> Vec<OrderPiece> {
    let last: [&[u8]; 3] = [&[DROP, FRONT, 9], &[DROP, FRONT, 5], &rack(-8)];
    let (far, near) = (back(RIGHT, 13), back(RIGHT, 12));
    let far: Vec<&[u8]> = far.chunks(5).chain(last).collect();
    let near: Vec<&[u8]> = near.chunks(5).chain(last).collect();
    let positions: Vec<usize> = [15, 14].into_iter().chain(0..14).chain([16]).collect();
    vec![
        refused("W5, order, 17", 8, &far, STRETCHED, 81),
        refused("W5, order, 17 at 1", 1, &far, STRETCHED, 81),
        refused("W5, order, limit 0", 0, &far, FOUL_STATE, 0),
        ordered("W5, order, 20", &near, &positions),
    ]
}

// Steps.

/// A state with one carrier parked at a slot, attached to a back needle.
fn parked(racking: i8, carrier: usize, slot: i16, side: u8, needle: u16) -> RawState {
    let mut state = RawState::empty(HOOK_LIMIT);
    state.racking = racking;
    state.carriers[carrier - 1] = RawCarrier {
        active: 1,
        side: 1 + side,
        slot,
        bed: 1,
        needle,
    };
    state
}

/// There is no loop: all hooks are looked at if the racking left is 0, else none.
fn step(name: &'static str, state: RawState, racking: i32, number: u8) -> StepPiece {
    let left = if number == DONE {
        racking
    } else {
        state.racking.into()
    };
    let looked = if left == 0 { 500 } else { 0 };
    row(name, state, &rack(racking), number, (0, looked))
}

/// Steps by a rack. A refused one leaves the state, which is not complete: a carrier is in.
pub fn stretch_step_pieces() -> Vec<StepPiece> {
    let right = |slot| parked(0, 3, slot, RIGHT, 100);
    let mut front = right(121);
    front.carriers[2].bed = 0;
    let mut tenth = right(101);
    tenth.carriers[9] = right(121).carriers[2];
    let mut unattached = RawState::empty(HOOK_LIMIT);
    unattached.carriers[0].active = 1;
    unattached.carriers[0].slot = 258;
    let mut pieces = vec![
        step("W5, step, 20 to 21", right(121), -1, STRETCHED),
        step("W5, step, 20", right(121), 0, DONE),
        step("W5, step, 20 to 19", right(121), 1, DONE),
        step("W5, step, 21", right(122), 0, DONE),
        step("W5, step, 21 to 29", right(122), -8, STRETCHED),
        step("W5, step, front", front, -8, DONE),
        step("W5, step, tenth", tenth, -1, STRETCHED),
        step("W5, step, unattached", unattached, -8, DONE),
    ];
    pieces.extend(wide_step_pieces());
    pieces
}

/// The left side at the border, and distances where a narrow number would wrap.
fn wide_step_pieces() -> Vec<StepPiece> {
    let left = |racking, slot| parked(racking, 1, slot, LEFT, 92);
    let far = |racking| parked(racking, 2, 0, RIGHT, 249);
    let rightmost = |racking| parked(racking, 10, 258, LEFT, 0);
    let leftmost = parked(7, 10, -8, RIGHT, 249);
    vec![
        step("W5, step, left, 20", left(8, 80), 8, DONE),
        step("W5, step, left, 19 to 20", left(7, 80), 8, DONE),
        step("W5, step, left, 20 to 21", left(7, 79), 8, STRETCHED),
        step("W5, step, 255 to 256", far(5), 6, STRETCHED),
        step("W5, step, 257 to 256", far(7), 6, DONE),
        step("W5, step, 256 to 255", far(6), 5, DONE),
        step("W5, step, 265 to 266", leftmost, 8, STRETCHED),
        step("W5, step, 266", rightmost(-8), -8, DONE),
        step("W5, step, 266 to 250", rightmost(-8), 8, DONE),
        step("W5, step, 265 to 266", rightmost(-7), -8, STRETCHED),
    ]
}
