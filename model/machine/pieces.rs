//! Paper 01's pieces for run and rewriter with the answers it gives, and rows for 02's W1, W2 and W5.

use crate::machine::*;
use crate::rewrite::*;
use crate::stretch_pieces::*;

/// A program at a limit, its number and its place.
pub struct Piece {
    pub name: &'static str,
    pub limit: u8,
    pub program: Vec<u8>,
    pub number: u8,
    pub place: usize,
}

pub(crate) fn piece(name: &'static str, program: Vec<u8>, number: u8, place: usize) -> Piece {
    piece_at(HOOK_LIMIT, name, program, (number, place))
}

fn piece_at(limit: u8, name: &'static str, program: Vec<u8>, answer: (u8, usize)) -> Piece {
    Piece {
        name,
        limit,
        program,
        number: answer.0,
        place: answer.1,
    }
}

/// A record at a front needle with carrier 3.
fn front(kind: u8, direction: u8, needle: u8) -> [u8; 5] {
    [kind, direction, 0, needle, 3]
}

/// Piece 6: tucks right and left in turn on f.10.
fn tucks(count: usize) -> Vec<u8> {
    let mut program = front(IN, 1, 10).to_vec();
    for tuck in 0..count {
        program.extend(front(TUCK, if tuck % 2 == 0 { 1 } else { 0 }, 10));
    }
    program
}

/// Piece 7: a tuck on f.10, misses right up to the column before, a tuck on the last needle.
fn float(last: u8) -> Vec<u8> {
    let mut program = [front(IN, 1, 10), front(TUCK, 1, 10)].concat();
    for needle in 11..last {
        program.extend(front(MISS, 1, needle));
    }
    program.extend(front(TUCK, 1, last));
    program
}

/// Piece 9's in and out, and the whole of it.
fn in_out() -> Vec<u8> {
    [front(IN, 1, 10), front(OUT, 0, 10)].concat()
}

fn in_out_in() -> Vec<u8> {
    [in_out(), front(IN, 1, 50).to_vec()].concat()
}

/// Piece 8's program P.
pub fn program_p() -> Vec<u8> {
    vec![
        4, 1, 0, 10, 3, 4, 1, 1, 10, 4, 8, 1, 0, 10, 3, 8, 1, 1, 10, 4,
    ]
}

pub fn pieces() -> Vec<Piece> {
    let mut pieces = paper_pieces();
    pieces.extend(plated_pieces());
    pieces.extend(second_carrier_pieces());
    pieces.extend(tuck_limit_pieces());
    pieces.extend(stitch_limit_pieces());
    pieces.extend(transfer_limit_pieces());
    pieces.extend(bad_limit_pieces());
    pieces.extend(stretch_pieces());
    pieces
}

fn paper_pieces() -> Vec<Piece> {
    vec![
        piece("1", vec![], DONE, 0),
        piece("2, rack 08", vec![1, 0x08], DONE, 0),
        piece("2, rack F8", vec![1, 0xf8], DONE, 0),
        piece("2, rack 09", vec![1, 0x09], FIELD_RANGE, 0),
        piece("2, rack F7", vec![1, 0xf7], FIELD_RANGE, 0),
        piece("3, f.249", vec![2, 0, 249], DONE, 0),
        piece("3, f.250", vec![2, 0, 250], FIELD_RANGE, 0),
        piece(
            "4",
            [front(IN, 1, 10), front(KNIT, 0, 10)].concat(),
            WRONG_SLOT,
            5,
        ),
        piece("5, f.12", vec![1, 2, 3, 0, 12, 10], DONE, 0),
        piece("5, f.8", vec![1, 2, 3, 0, 8, 10], NOT_OPPOSITE, 2),
        piece("6, eight", tucks(8), DONE, 0),
        piece("6, nine", tucks(9), HOOK_FULL, 45),
        piece("7, f.30", float(30), DONE, 0),
        piece("7, f.31", float(31), FLOAT_TOO_LONG, 110),
        piece("8, P", program_p(), DONE, 0),
        piece("9", in_out_in(), DONE, 0),
        piece("9, first two", in_out(), DONE, 0),
        piece("12, kind 00", vec![0], UNKNOWN_KIND, 0),
        piece("12, bytes 08 01", vec![8, 1], CUT_SHORT, 0),
    ]
}

// Plated stitches (W1).

/// A record at a front needle with a carrier.
fn by(carrier: u8, kind: u8, direction: u8, needle: u8) -> Vec<u8> {
    vec![kind, direction, 0, needle, carrier]
}

/// A plated stitch to the right on a front needle.
fn plated(kind: u8, needle: u8, carriers: [u8; 2]) -> Vec<u8> {
    vec![kind, 1, 0, needle, carriers[0], carriers[1]]
}

/// Carriers 3 and 4 before f.10, and a plated knit.
fn plated_knit() -> Vec<u8> {
    let knit = plated(PLATED_KNIT, 10, [3, 4]);
    [by(3, IN, 1, 10), by(4, IN, 1, 10), knit].concat()
}

/// Tucks on f.10 by carrier 3, then a plated stitch there by carriers 1 and 2.
fn plated_onto(loops: usize, kind: u8) -> Vec<u8> {
    let stitch = plated(kind, 10, [1, 2]);
    [tucks(loops), by(1, IN, 1, 10), by(2, IN, 1, 10), stitch].concat()
}

/// A tuck on f.10 by carrier 4 and misses up to the column before the needle.
fn long_float(needle: u8) -> Vec<u8> {
    let misses = (11..needle).flat_map(|over| by(4, MISS, 1, over));
    let start = [by(4, IN, 1, 10), by(4, TUCK, 1, 10)].concat();
    start.into_iter().chain(misses).collect()
}

/// A plated stitch: done, onto loops, one yarn twice, fields, cut short.
fn plated_pieces() -> Vec<Piece> {
    let alone = |carriers| plated(PLATED_KNIT, 10, carriers);
    let twice = |carriers| [by(3, IN, 1, 10), plated(PLATED_TUCK, 10, carriers)].concat();
    vec![
        piece("W1, plated knit", plated_knit(), DONE, 0),
        piece("W1, tuck onto six", plated_onto(6, PLATED_TUCK), DONE, 0),
        piece(
            "W1, tuck onto 7",
            plated_onto(7, PLATED_TUCK),
            HOOK_FULL,
            50,
        ),
        piece("W1, knit onto eight", plated_onto(8, PLATED_KNIT), DONE, 0),
        piece("W1, twice, not in", alone([3, 3]), YARN_TWICE, 0),
        piece("W1, twice, ready", twice([3, 3]), YARN_TWICE, 5),
        piece("W1, twice 0", alone([0, 0]), FIELD_RANGE, 0),
        piece("W1, twice 11", alone([11, 11]), FIELD_RANGE, 0),
        piece("W1, second 0", twice([3, 0]), FIELD_RANGE, 5),
        piece("W1, second 11", twice([3, 11]), FIELD_RANGE, 5),
        piece("W1, cut", alone([3, 3])[..5].to_vec(), CUT_SHORT, 0),
        piece("W1, kind 0C", vec![12, 1, 0, 10, 3, 4], UNKNOWN_KIND, 0),
    ]
}

/// 7, 8 and 9 by the second carrier alone, and by one carrier while the other has a higher number.
fn second_carrier_pieces() -> Vec<Piece> {
    let three = by(3, IN, 1, 10);
    let elsewhere = |carrier| by(carrier, IN, 0, 10);
    let knit = |needle, carriers| plated(PLATED_KNIT, needle, carriers);
    let float = |needle, carriers| {
        let before = by(3, IN, 1, needle);
        [long_float(needle), before, knit(needle, carriers)].concat()
    };
    let not_in = [three.clone(), knit(10, [3, 4])].concat();
    let slot = [three, elsewhere(4), knit(10, [3, 4])].concat();
    let first_slot = [elsewhere(3), knit(10, [3, 4])].concat();
    let far_and_slot = [long_float(31), elsewhere(3), knit(31, [4, 3])].concat();
    vec![
        piece("W1, second not in", not_in, NOT_IN, 5),
        piece("W1, second elsewhere", slot, WRONG_SLOT, 10),
        piece("W1, second at 20", float(30, [3, 4]), DONE, 0),
        piece("W1, second at 21", float(31, [3, 4]), FLOAT_TOO_LONG, 115),
        piece("W1, first at 21", float(31, [4, 3]), FLOAT_TOO_LONG, 115),
        piece("W1, elsewhere, not in", first_slot, NOT_IN, 5),
        piece("W1, at 21, elsewhere", far_and_slot, WRONG_SLOT, 115),
    ]
}

// Hook limits (W2).

/// As many tucks as the limit and one more, at each limit.
fn tuck_limit_pieces() -> Vec<Piece> {
    let at = |limit: u8| {
        let count = usize::from(limit);
        let over = (HOOK_FULL, 5 + 5 * count);
        [
            piece_at(limit, "W2, tucks up to the limit", tucks(count), (DONE, 0)),
            piece_at(limit, "W2, one tuck more", tucks(count + 1), over),
        ]
    };
    LIMITS.flat_map(at).collect()
}

/// Knits, plated knits and plated tucks at limits about two.
fn stitch_limit_pieces() -> Vec<Piece> {
    let knits = || {
        let turns = [front(KNIT, 1, 10), front(KNIT, 0, 10), front(KNIT, 1, 10)];
        [front(IN, 1, 10).to_vec(), turns.concat()].concat()
    };
    let plated_knit_on = |loops| plated_onto(loops, PLATED_KNIT);
    let tuck_on = |loops| plated_onto(loops, PLATED_TUCK);
    vec![
        piece_at(1, "W2, knits at 1", knits(), (DONE, 0)),
        piece_at(1, "W2, plated knit at 1", plated_knit(), (HOOK_FULL, 10)),
        piece_at(2, "W2, plated knit at 2", plated_knit(), (DONE, 0)),
        piece_at(2, "W2, plated knit on 2", plated_knit_on(2), (DONE, 0)),
        piece_at(1, "W2, plated tuck at 1", tuck_on(0), (HOOK_FULL, 15)),
        piece_at(2, "W2, plated tuck at 2", tuck_on(0), (DONE, 0)),
        piece_at(2, "W2, plated tuck on 1", tuck_on(1), (HOOK_FULL, 20)),
        piece_at(3, "W2, plated tuck on 1 at 3", tuck_on(1), (DONE, 0)),
        piece_at(3, "W2, plated tuck on 2 at 3", tuck_on(2), (HOOK_FULL, 25)),
        piece_at(1, "W2, 16 at 1", plated(11, 10, [3, 3]), (YARN_TWICE, 0)),
        piece_at(1, "W2, 7 at 1", plated(11, 10, [3, 4]), (NOT_IN, 0)),
    ]
}

/// Tucks on f.10 by carrier 3 and on b.10 by carrier 4, then a record there.
fn loaded(on_front: usize, on_back: usize, last: &[u8]) -> Vec<u8> {
    let mut back = tucks(on_back);
    for record in back.chunks_mut(5) {
        (record[2], record[4]) = (1, 4);
    }
    [&tucks(on_front), &back, last].concat()
}

/// Transfers whose loops just fit the second hook, and one loop more; a split's own always fits.
fn transfer_limit_pieces() -> Vec<Piece> {
    let xfer = |first, second| loaded(first, second, &[XFER, 0, 10, 10]);
    let split = |first, second| {
        let by_five = [IN, 1, 0, 10, 5, SPLIT, 1, 0, 10, 5, 10];
        loaded(first, second, &by_five)
    };
    vec![
        piece_at(1, "W2, xfer 1 and 0", xfer(1, 0), (DONE, 0)),
        piece_at(1, "W2, xfer 1 and 1", xfer(1, 1), (HOOK_FULL, 20)),
        piece_at(1, "W2, xfer 0 and 1", xfer(0, 1), (DONE, 0)),
        piece_at(4, "W2, xfer 3 and 1", xfer(3, 1), (DONE, 0)),
        piece_at(4, "W2, xfer 4 and 1", xfer(4, 1), (HOOK_FULL, 35)),
        piece_at(5, "W2, xfer 4 and 1 at 5", xfer(4, 1), (DONE, 0)),
        piece_at(1, "W2, split 0 and 1", split(0, 1), (DONE, 0)),
        piece_at(1, "W2, split 1 and 0", split(1, 0), (DONE, 0)),
        piece_at(1, "W2, split 1 and 1", split(1, 1), (HOOK_FULL, 25)),
        piece_at(4, "W2, split 2 and 2", split(2, 2), (DONE, 0)),
        piece_at(4, "W2, split 3 and 2", split(3, 2), (HOOK_FULL, 40)),
    ]
}

/// Limits out of range, and 15 before 1.
fn bad_limit_pieces() -> Vec<Piece> {
    let too_long = || vec![0; PROGRAM_LIMIT + 1];
    let mut pieces = vec![
        piece_at(1, "W2, too long at 1", too_long(), (TOO_LONG, 0)),
        piece_at(9, "W2, too long at 9", too_long(), (FOUL_STATE, 0)),
        piece_at(9, "W2, P at 9", program_p(), (FOUL_STATE, 0)),
        piece_at(9, "W2, kind 00 at 9", vec![0], (FOUL_STATE, 0)),
    ];
    let empty = |limit| piece_at(limit, "W2, bad limit", vec![], (FOUL_STATE, 0));
    pieces.extend([0, 9, 128, 255].map(empty));
    pieces
}

/// Whether the model ends P in the state that the paper lists and a plated knit with both carriers
/// attached, completes piece 9's in and out, has the empty state's limit as W2 says, and keeps or
/// racks the state as W5 says.
pub fn states_agree() -> bool {
    let parked = |bed| {
        let needle = Needle { bed, number: 10 };
        Some(Parked {
            slot: 11,
            attachment: Some(Attachment {
                needle,
                side: Direction::Right,
            }),
        })
    };
    let mut listed = State::empty(HOOK_LIMIT);
    listed.front_loops[10] = 1;
    listed.back_loops[10] = 1;
    listed.carriers[2] = parked(Bed::Front);
    listed.carriers[3] = parked(Bed::Back);
    let mut plated = State::empty(HOOK_LIMIT);
    plated.front_loops[10] = 2;
    plated.carriers[2] = parked(Bed::Front);
    plated.carriers[3] = parked(Bed::Front);
    let p = run(&program_p());
    let complete = run(&in_out()).complete() && run(&[]).complete();
    let ends = p.state == listed && run(&plated_knit()).state == plated;
    ends && !p.complete() && complete && limits_agree() && stretch_states_agree()
}

/// The limit of the states that W2 names: the given one, and 8 with 15; all of these are complete.
fn limits_agree() -> bool {
    let too_long = vec![0; PROGRAM_LIMIT + 1];
    let empty = |answer: Answer, limit| answer.complete() && answer.state == State::empty(limit);
    let given = |limit| {
        let not_run = [run_at(limit, &too_long), no_bench(limit)];
        let ends = [run_at(limit, &in_out()), run_at(limit, &[])];
        not_run.into_iter().chain(ends).all(|a| empty(a, limit))
    };
    let bad = |limit| {
        let answers = [run_at(limit, &too_long), no_bench(limit)];
        answers.into_iter().all(|answer| empty(answer, HOOK_LIMIT))
    };
    let p = run_at(3, &program_p());
    let all = LIMITS.into_iter().all(given) && [0, 9, 255].into_iter().all(bad);
    all && p.state.limit == 3 && !p.complete()
}

/// A rewriter call that lends no output.
fn no_bench(limit: u8) -> Answer {
    rewrite_at(limit, &program_p(), &[], &mut [], &mut [])
}

// The rewriter's pieces.

/// A program and a log at a limit, their number and place, and the output if it is written.
pub struct SwapPiece {
    pub name: &'static str,
    pub limit: u8,
    pub program: Vec<u8>,
    pub log: Vec<u8>,
    pub number: u8,
    pub place: usize,
    pub output: Option<Vec<u8>>,
}

pub(crate) fn swap_piece(
    name: &'static str,
    program: &[u8],
    log: &[u8],
    answer: (u8, usize),
    output: Option<&[u8]>,
) -> SwapPiece {
    SwapPiece {
        name,
        limit: HOOK_LIMIT,
        program: program.to_vec(),
        log: log.to_vec(),
        number: answer.0,
        place: answer.1,
        output: output.map(|bytes| bytes.to_vec()),
    }
}

/// P with records 2 and 3 swapped, as the paper's listing prints it.
const P_SWAPPED: [u8; 20] = [
    0x04, 0x01, 0x00, 0x0a, 0x03, 0x04, 0x01, 0x01, 0x0a, 0x04, 0x08, 0x01, 0x01, 0x0a, 0x04, 0x08,
    0x01, 0x00, 0x0a, 0x03,
];

/// Piece 10's pair at racking 0; the tuck's carrier comes in first.
fn tuck_and_xfer(needle: u8) -> Vec<u8> {
    let stitches = [IN, 1, 0, 10, 1, TUCK, 1, 0, 10, 1];
    [&stitches[..], &[XFER, 0, needle, needle]].concat()
}

/// Pieces 8 to 10: one swap each, made or tied.
fn tie_pieces() -> Vec<SwapPiece> {
    let p = program_p();
    let mut five = p.clone();
    five[4] = 5;
    five[14] = 5;
    let nine = in_out_in();
    let (apart, opposite) = (tuck_and_xfer(11), tuck_and_xfer(10));
    let swapped = [&apart[..5], &apart[10..], &apart[5..10]].concat();
    let (one, two) = ([SWAP, 0, 1], [SWAP, 0, 2]);
    vec![
        swap_piece("8, P", &p, &two, (DONE, 0), Some(&P_SWAPPED)),
        swap_piece("8, carrier 5", &five, &two, (TIED, 0), Some(&five)),
        swap_piece("9, swap 1", &nine, &one, (TIED, 0), Some(&nine)),
        swap_piece("10, f.11", &apart, &one, (DONE, 0), Some(&swapped)),
        swap_piece("10, f.10", &opposite, &one, (TIED, 0), Some(&opposite)),
    ]
}

/// A plated knit by two carriers on a bed's needle 10, another record there, and how a swap ends.
fn plated_tie(
    name: &'static str,
    bed: u8,
    carriers: [u8; 2],
    other: [u8; 5],
    tied: bool,
) -> SwapPiece {
    let enter = |carrier| [IN, 1, 0, 10, carrier];
    let [first, second] = carriers;
    let mut program = [enter(first), enter(second), enter(other[4])].concat();
    if second == other[4] {
        program.truncate(10);
    }
    let start = program.len();
    program.extend([PLATED_KNIT, 1, bed, 10, first, second]);
    program.extend(other);
    let swapped = [&program[..start], &other, &program[start..start + 6]].concat();
    let log = [SWAP, 0, (start / 5) as u8];
    let (number, output) = if tied {
        (TIED, &program)
    } else {
        (DONE, &swapped)
    };
    swap_piece(name, &program, &log, (number, 0), Some(output))
}

/// Layers of a plated stitch at their edges on both beds, and its second carrier.
fn plated_tie_pieces() -> Vec<SwapPiece> {
    let back = |carrier| [KNIT, 1, 1, 10, carrier];
    let front = |carrier| [KNIT, 1, 0, 10, carrier];
    let onward = [MISS, 1, 0, 11, 5];
    vec![
        plated_tie("W1, front 2 5, back 6", 0, [2, 5], back(6), false),
        plated_tie("W1, front 5 2, back 6", 0, [5, 2], back(6), false),
        plated_tie("W1, front 2 5, back 4", 0, [2, 5], back(4), true),
        plated_tie("W1, front 5 2, back 4", 0, [5, 2], back(4), true),
        plated_tie("W1, back 5 8, front 4", 1, [5, 8], front(4), false),
        plated_tie("W1, back 8 5, front 4", 1, [8, 5], front(4), false),
        plated_tie("W1, back 5 8, front 6", 1, [5, 8], front(6), true),
        plated_tie("W1, back 8 5, front 6", 1, [8, 5], front(6), true),
        plated_tie("W1, second carrier", 0, [2, 5], onward, true),
    ]
}

/// A piece at another limit.
fn at(limit: u8, piece: SwapPiece) -> SwapPiece {
    SwapPiece { limit, ..piece }
}

/// Swaps at limit 1 and 2, and limits out of range before everything else (W2).
fn limit_swap_pieces() -> Vec<SwapPiece> {
    let (p, two, foul) = (program_p(), [SWAP, 0, 2], [0x41]);
    let knit = plated_knit();
    let too_long = vec![0; PROGRAM_LIMIT + 1];
    let refused = |name, program: &[u8], log: &[u8], number, place| {
        swap_piece(name, program, log, (number, place), None)
    };
    let bad = |name, program: &[u8], log: &[u8]| refused(name, program, log, FOUL_STATE, 0);
    vec![
        at(
            1,
            swap_piece("W2, P", &p, &two, (DONE, 0), Some(&P_SWAPPED)),
        ),
        at(1, refused("W2, knit at 1", &knit, &foul, HOOK_FULL, 10)),
        at(
            2,
            swap_piece("W2, foul", &knit, &foul, (TORN_LOG, 0), Some(&knit)),
        ),
        at(0, bad("W2, P at 0", &p, &two)),
        at(9, bad("W2, P at 9", &p, &two)),
        at(255, bad("W2, P at 255", &p, &foul)),
        at(9, bad("W2, too long at 9", &too_long, &two)),
        at(
            1,
            refused("W2, too long at 1", &too_long, &two, TOO_LONG, 0),
        ),
    ]
}

pub fn swap_pieces() -> Vec<SwapPiece> {
    let p = program_p();
    let (two, three) = ([SWAP, 0, 2], [SWAP, 0, 3]);
    let torn = [SWAP, 0, 2, SWAP];
    let mut pieces = tie_pieces();
    pieces.extend(plated_tie_pieces());
    pieces.extend(limit_swap_pieces());
    pieces.extend(stretch_swap_pieces());
    pieces.extend([
        swap_piece("1, empty program", &[], &[], (DONE, 0), Some(&[])),
        swap_piece("1, empty log", &p, &[], (DONE, 0), Some(&p)),
        swap_piece("11, position 3", &p, &three, (NO_PAIR, 0), Some(&p)),
        swap_piece("11, torn", &p, &torn, (TORN_LOG, 3), Some(&P_SWAPPED)),
        swap_piece("12, kind 00", &[0], &two, (UNKNOWN_KIND, 0), None),
        swap_piece("12, bytes 08 01", &[8, 1], &two, (CUT_SHORT, 0), None),
    ]);
    pieces
}
