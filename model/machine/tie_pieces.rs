//! Rows for the tie of two records, worked out by hand from paper 01's words and 02's W1.

use crate::machine::*;
use crate::rewrite::TIED;
use crate::tie::*;

/// A racking, two records, and the answer.
pub struct TiePiece {
    pub name: &'static str,
    pub racking: i8,
    pub first: Vec<u8>,
    pub second: Vec<u8>,
    pub answer: Tied,
}

fn row(name: &'static str, racking: i8, records: [&[u8]; 2], answer: Tied) -> TiePiece {
    TiePiece {
        name,
        racking,
        first: records[0].to_vec(),
        second: records[1].to_vec(),
        answer,
    }
}

fn number(number: u8) -> Tied {
    Tied {
        number,
        ..Tied::default()
    }
}

fn rack() -> Tied {
    Tied {
        by: BY_RACK,
        ..number(TIED)
    }
}

fn carrier(carrier: u8) -> Tied {
    Tied {
        by: BY_CARRIER,
        carrier,
        ..number(TIED)
    }
}

/// Half columns and layers in common.
fn meet([left, right]: [i32; 2], [low, high]: [u8; 2]) -> Tied {
    Tied {
        left,
        right,
        by: BY_EXTENTS,
        low,
        high,
        ..number(TIED)
    }
}

const NONE: Tied = Tied {
    left: 0,
    right: 0,
    number: DONE,
    by: NOT_TIED,
    carrier: 0,
    low: 0,
    high: 0,
};

pub fn tie_pieces() -> Vec<TiePiece> {
    let mut pieces = paper_pieces();
    pieces.extend(carrier_pieces());
    pieces.extend(extent_pieces());
    pieces.extend(racking_pieces());
    pieces.extend(refused_pieces());
    pieces
}

/// A knit right.
fn knit(bed: u8, needle: u8, carrier: u8) -> [u8; 5] {
    [KNIT, 1, bed, needle, carrier]
}

/// A plated knit right on f.10.
fn plated(first: u8, second: u8) -> [u8; 6] {
    [PLATED_KNIT, 1, 0, 10, first, second]
}

/// Pieces 8 to 10 of paper 01, and racks.
fn paper_pieces() -> Vec<TiePiece> {
    let (front, greater) = (knit(0, 10, 3), knit(0, 10, 5));
    let back = knit(1, 10, 4);
    let (out, again) = ([OUT, 0, 0, 10, 3], [IN, 1, 0, 50, 3]);
    let tuck = [TUCK, 1, 0, 10, 1];
    let drop = [DROP, 0, 0];
    vec![
        row("8", 0, [&front, &back], NONE),
        row("8, 5 for 3", 0, [&greater, &back], meet([19, 21], [4, 5])),
        row("9", 0, [&out, &again], carrier(3)),
        row("10, f.11", 0, [&tuck, &[XFER, 0, 11, 11]], NONE),
        row(
            "10, f.10",
            0,
            [&tuck, &[XFER, 0, 10, 10]],
            meet([20, 20], [0, 1]),
        ),
        row("rack first", 3, [&[RACK, 3], &drop], rack()),
        row("rack second", -8, [&front, &[RACK, 0]], rack()),
        row("two racks", 0, [&[RACK, 8], &[RACK, 0xf8]], rack()),
    ]
}

fn carrier_pieces() -> Vec<TiePiece> {
    let far = |carrier| [MISS, 0, 1, 249, carrier];
    let split = [SPLIT, 1, 0, 10, 7, 3];
    let alone = |least| carrier(least);
    vec![
        row("first of two", 0, [&plated(3, 8), &far(3)], alone(3)),
        row("second of two", 0, [&far(8), &plated(3, 8)], alone(8)),
        row("least first", 0, [&plated(3, 8), &plated(3, 8)], alone(3)),
        row("least second", 0, [&plated(8, 3), &plated(8, 3)], alone(3)),
        row("least crossed", 0, [&plated(8, 3), &plated(3, 8)], alone(3)),
        row("one of two", 0, [&plated(2, 8), &plated(9, 8)], alone(8)),
        row("one yarn twice", 0, [&plated(6, 6), &far(6)], alone(6)),
        row("twice, no tie", 0, [&plated(6, 6), &far(7)], NONE),
        row("a split's needle", 0, [&split, &far(3)], NONE),
        row("a split's carrier", 0, [&split, &far(7)], alone(7)),
    ]
}

fn extent_pieces() -> Vec<TiePiece> {
    let split = [SPLIT, 0, 0, 10, 2, 10];
    let xfer = [XFER, 1, 10, 77];
    let miss = |needle| [MISS, 1, 0, needle, 9];
    let drop = |bed, needle| [DROP, bed, needle];
    let all = [0, 11];
    vec![
        row(
            "drops",
            0,
            [&drop(1, 9), &drop(1, 9)],
            meet([18; 2], [11; 2]),
        ),
        row("beds apart", 0, [&drop(0, 9), &drop(1, 9)], NONE),
        row(
            "drop, knit",
            0,
            [&drop(0, 9), &knit(0, 9, 4)],
            meet([18; 2], [0; 2]),
        ),
        row("drop next", 0, [&drop(0, 9), &knit(0, 10, 4)], NONE),
        row("drop under", 0, [&drop(0, 10), &miss(10)], NONE),
        row("xfer, split", 0, [&xfer, &split], meet([20; 2], all)),
        row(
            "split, miss",
            0,
            [&split, &miss(10)],
            meet([19, 21], [9; 2]),
        ),
        row("miss right", 0, [&split, &miss(11)], meet([21; 2], [9; 2])),
        row("miss left", 0, [&split, &miss(9)], meet([19; 2], [9; 2])),
        row("two apart", 0, [&split, &miss(12)], NONE),
        row(
            "plated front",
            0,
            [&plated(4, 9), &knit(1, 11, 3)],
            meet([21; 2], [3, 9]),
        ),
        row("plated greater", 0, [&plated(9, 4), &knit(1, 10, 10)], NONE),
        row(
            "plated back",
            0,
            [&[PLATED_TUCK, 0, 1, 10, 8, 5], &knit(0, 10, 7)],
            meet([19, 21], [5, 7]),
        ),
        row(
            "plated smaller",
            0,
            [&knit(0, 10, 4), &[PLATED_TUCK, 0, 1, 10, 8, 5]],
            NONE,
        ),
        row(
            "twice, front",
            0,
            [&plated(6, 6), &knit(1, 9, 5)],
            meet([19; 2], [5, 6]),
        ),
    ]
}

/// Columns by the racking: back needle n has column n + r.
fn racking_pieces() -> Vec<TiePiece> {
    let drop = |bed, needle| [DROP, bed, needle];
    let xfer = |bed, needle| [XFER, bed, needle, 0];
    let split = |bed, needle, carrier| [SPLIT, 1, bed, needle, carrier, 0];
    vec![
        row(
            "2: f.12, b.10",
            2,
            [&xfer(0, 12), &drop(1, 10)],
            meet([24; 2], [11; 2]),
        ),
        row("2: f.10, b.10", 2, [&xfer(0, 10), &drop(1, 10)], NONE),
        row(
            "-3: f.7, b.10",
            -3,
            [&knit(1, 10, 1), &xfer(0, 7)],
            meet([14; 2], [1, 11]),
        ),
        row(
            "-8: b.0",
            -8,
            [&split(1, 0, 1), &split(1, 0, 2)],
            meet([-17, -15], [0, 11]),
        ),
        row(
            "8: b.249",
            8,
            [&split(1, 249, 1), &split(1, 249, 2)],
            meet([513, 515], [0, 11]),
        ),
        row(
            "-1: f.0, b.0",
            -1,
            [&split(0, 0, 1), &split(1, 0, 2)],
            meet([-1; 2], [0, 11]),
        ),
        row(
            "0: f.0",
            0,
            [&xfer(0, 0), &drop(0, 0)],
            meet([0; 2], [0; 2]),
        ),
        row("-8: ends", -8, [&split(1, 0, 1), &split(0, 249, 2)], NONE),
    ]
}

fn refused_pieces() -> Vec<TiePiece> {
    let drop: &[u8] = &[DROP, 0, 5];
    let (strange, cut, field): (&[u8], &[u8], &[u8]) = (&[0], &[DROP, 2], &[DROP, 0, 250]);
    let again = meet([10; 2], [0; 2]);
    vec![
        row("racking 9", 9, [drop, drop], number(FOUL_STATE)),
        row("racking -9", -9, [strange, cut], number(FOUL_STATE)),
        row("racking 127", 127, [&[], &[]], number(FOUL_STATE)),
        row("racking -128", -128, [&[RACK, 0], drop], number(FOUL_STATE)),
        row("no byte", 0, [&[], strange], number(CUT_SHORT)),
        row("no second byte", 0, [drop, &[]], number(CUT_SHORT)),
        row("first strange", 0, [strange, field], number(UNKNOWN_KIND)),
        row("second strange", 0, [drop, strange], number(UNKNOWN_KIND)),
        row("first cut", 0, [cut, strange], number(CUT_SHORT)),
        row("first field", 0, [field, strange], number(FIELD_RANGE)),
        row("second field", 0, [&[RACK, 0], field], number(FIELD_RANGE)),
        row("rack 9", 0, [&[RACK, 9], drop], number(FIELD_RANGE)),
        row(
            "bytes behind",
            0,
            [&[DROP, 0, 5, 0], &[DROP, 0, 5, 250]],
            again,
        ),
    ]
}
