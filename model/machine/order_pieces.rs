//! Rows for 02's W3 with the house order as its words give it: what a wrong reading would order so.

use crate::machine::*;
use crate::rewrite::NO_BENCH;
use crate::stretch_pieces::stretch_order_pieces;

/// A program's records at a limit; for a done call, the positions in which they must come.
pub struct OrderPiece {
    pub name: &'static str,
    pub limit: u8,
    pub records: Vec<Vec<u8>>,
    pub number: u8,
    pub place: usize,
    pub positions: Option<Vec<usize>>,
}

impl OrderPiece {
    pub fn program(&self) -> Vec<u8> {
        self.records.concat()
    }

    /// What output and work must hold, if the call writes.
    pub fn written(&self) -> Option<(Vec<u8>, Vec<u16>)> {
        let (mut output, mut starts) = (Vec::new(), Vec::new());
        for &position in self.positions.as_ref()? {
            starts.push(output.len() as u16);
            output.extend(&self.records[position]);
        }
        Some((output, starts))
    }
}

pub(crate) type Records<'a> = &'a [&'a [u8]];

pub(crate) fn ordered(name: &'static str, records: Records, positions: &[usize]) -> OrderPiece {
    OrderPiece {
        name,
        limit: HOOK_LIMIT,
        records: records.iter().map(|bytes| bytes.to_vec()).collect(),
        number: DONE,
        place: 0,
        positions: Some(positions.to_vec()),
    }
}

pub(crate) fn refused(
    name: &'static str,
    limit: u8,
    records: Records,
    number: u8,
    place: usize,
) -> OrderPiece {
    OrderPiece {
        limit,
        number,
        place,
        positions: None,
        ..ordered(name, records, &[])
    }
}

fn at(limit: u8, piece: OrderPiece) -> OrderPiece {
    OrderPiece { limit, ..piece }
}

/// Bytes: unsigned, the kind first, then the bed, then the needle.
fn byte_pieces() -> Vec<OrderPiece> {
    let drop = |bed, needle| [DROP, bed, needle];
    let (low, high) = (drop(0, 127), drop(0, 128));
    let xfer: &[u8] = &[XFER, 0, 1, 1];
    vec![
        ordered("W3, empty", &[], &[]),
        ordered("W3, one record", &[&low], &[0]),
        ordered("W3, 128 then 127", &[&high, &low], &[1, 0]),
        ordered("W3, 127 then 128", &[&low, &high], &[0, 1]),
        ordered("W3, 249 and 0", &[&drop(0, 249), &drop(0, 0)], &[1, 0]),
        ordered("W3, bed first", &[&drop(1, 5), &drop(0, 9)], &[1, 0]),
        ordered("W3, kind first", &[xfer, &drop(0, 9)], &[1, 0]),
        ordered("W3, kind not needle", &[&drop(0, 9), xfer], &[0, 1]),
        ordered(
            "W3, reversed",
            &[&drop(1, 3), &drop(1, 2), &drop(0, 3), &drop(0, 2)],
            &[3, 2, 1, 0],
        ),
    ]
}

/// P of piece 8 in three orders that swaps lead between, and its parts by carrier 5, which are tied.
fn stitch_pieces() -> Vec<OrderPiece> {
    let [in_3, in_4] = [[IN, 1, 0, 10, 3], [IN, 1, 1, 10, 4]];
    let [knit_3, knit_4] = [[KNIT, 1, 0, 10, 3], [KNIT, 1, 1, 10, 4]];
    let [in_5, knit_5] = [[IN, 1, 0, 10, 5], [KNIT, 1, 0, 10, 5]];
    let p: Records = &[&in_3, &in_4, &knit_3, &knit_4];
    vec![
        ordered("W3, P", p, &[0, 1, 2, 3]),
        at(1, ordered("W3, P at 1", p, &[0, 1, 2, 3])),
        ordered(
            "W3, P by swap 2",
            &[&in_3, &in_4, &knit_4, &knit_3],
            &[0, 1, 3, 2],
        ),
        ordered(
            "W3, P by carriers",
            &[&in_4, &knit_4, &in_3, &knit_3],
            &[2, 0, 3, 1],
        ),
        ordered(
            "W3, carrier 5 behind",
            &[&in_5, &in_4, &knit_4, &knit_5],
            &[0, 1, 2, 3],
        ),
        ordered(
            "W3, carrier 5 before",
            &[&in_4, &in_5, &knit_5, &knit_4],
            &[1, 0, 2, 3],
        ),
    ]
}

/// Ties that hold a record whose bytes come first.
fn tie_pieces() -> Vec<OrderPiece> {
    let [in_1, in_2] = [[IN, 1, 0, 10, 1], [IN, 1, 0, 11, 2]];
    let [tuck_1, tuck_2] = [[TUCK, 1, 0, 10, 1], [TUCK, 1, 0, 11, 2]];
    let [drop_10, drop_11] = [[DROP, 0, 10], [DROP, 0, 11]];
    let [far_in, far_out] = [[IN, 1, 0, 50, 3], [OUT, 0, 0, 50, 3]];
    let [near_in, near_out] = [[IN, 1, 0, 10, 3], [OUT, 0, 0, 10, 3]];
    let apart: &[u8] = &[XFER, 0, 50, 50];
    vec![
        ordered("W3, free of both", &[&in_1, &tuck_1, &drop_11], &[2, 0, 1]),
        ordered(
            "W3, tied through a third",
            &[&in_1, &in_2, &tuck_1, &tuck_2, &drop_11],
            &[0, 1, 2, 3, 4],
        ),
        ordered(
            "W3, neighbours in order",
            &[&in_1, &tuck_1, &drop_10, apart],
            &[3, 0, 1, 2],
        ),
        ordered(
            "W3, equal drops",
            &[&drop_11, &drop_10, &drop_11, &drop_10],
            &[1, 3, 0, 2],
        ),
        ordered(
            "W3, one carrier out and in",
            &[&near_in, &near_out, &far_in, &far_out],
            &[0, 1, 2, 3],
        ),
        ordered(
            "W3, one carrier, far first",
            &[&far_in, &far_out, &near_in, &near_out],
            &[0, 1, 2, 3],
        ),
    ]
}

/// Racks: none is passed or moved, and columns are taken at the one in force.
fn rack_pieces() -> Vec<OrderPiece> {
    let drop = |bed, needle| [DROP, bed, needle];
    let rack = |racking: i8| [RACK, racking as u8];
    let at_2: &[u8] = &[XFER, 0, 12, 10];
    let at_0: &[u8] = &[XFER, 0, 12, 12];
    vec![
        ordered("W3, rack alone last", &[&drop(0, 5), &rack(2)], &[0, 1]),
        ordered("W3, racks", &[&rack(2), &rack(-2), &rack(0)], &[0, 1, 2]),
        ordered(
            "W3, rack to the same",
            &[&drop(0, 9), &rack(0), &drop(0, 5)],
            &[0, 1, 2],
        ),
        ordered(
            "W3, two stretches",
            &[&drop(0, 9), &drop(0, 8), &rack(1), &drop(0, 7), &drop(0, 6)],
            &[1, 0, 2, 4, 3],
        ),
        ordered("W3, b.10 at 2", &[&rack(2), at_2, &drop(1, 10)], &[0, 1, 2]),
        ordered("W3, b.12 at 2", &[&rack(2), at_2, &drop(1, 12)], &[0, 2, 1]),
        ordered(
            "W3, b.10 at 0 again",
            &[&rack(2), &rack(0), at_0, &drop(1, 10)],
            &[0, 1, 3, 2],
        ),
        ordered(
            "W3, b.12 at 0 again",
            &[&rack(2), &rack(0), at_0, &drop(1, 12)],
            &[0, 1, 2, 3],
        ),
        ordered(
            "W3, rack behind",
            &[&rack(2), at_2, &drop(1, 12), &rack(0)],
            &[0, 2, 1, 3],
        ),
    ]
}

/// Plated stitches: the greater carrier on the front, the smaller on the back, and both named.
fn plated_pieces() -> Vec<OrderPiece> {
    let enter = |carrier| [IN, 1, 0, 10, carrier];
    let (in_2, in_4, in_5, in_6) = (enter(2), enter(4), enter(5), enter(6));
    let plated: &[u8] = &[PLATED_KNIT, 1, 0, 10, 5, 2];
    let [back_4, back_6] = [[KNIT, 1, 1, 10, 4], [KNIT, 1, 1, 10, 6]];
    let onward = [MISS, 1, 0, 11, 2];
    vec![
        ordered(
            "W3, plated, back 6",
            &[&in_2, &in_5, &in_6, plated, &back_6],
            &[0, 1, 2, 4, 3],
        ),
        ordered(
            "W3, plated, back 4",
            &[&in_2, &in_4, &in_5, plated, &back_4],
            &[0, 1, 2, 3, 4],
        ),
        ordered(
            "W3, plated, second carrier",
            &[&in_2, &in_5, plated, &onward],
            &[0, 1, 2, 3],
        ),
        refused("W3, plated at 1", 1, &[&in_5, &in_2, plated], HOOK_FULL, 10),
        refused(
            "W3, yarn twice",
            8,
            &[&in_2, &[PLATED_TUCK, 1, 0, 10, 2, 2]],
            YARN_TWICE,
            5,
        ),
    ]
}

/// What is refused before a record is ordered, at the place where the run refuses it.
fn refused_pieces() -> Vec<OrderPiece> {
    let drops: Records = &[&[DROP, 0, 9], &[DROP, 0, 5]];
    let late = |bytes| [drops, bytes].concat();
    let too_long = vec![0; PROGRAM_LIMIT + 1];
    vec![
        refused("W3, limit 0", 0, drops, FOUL_STATE, 0),
        refused("W3, limit 9", 9, drops, FOUL_STATE, 0),
        refused("W3, limit 255", 255, &[&too_long], FOUL_STATE, 0),
        refused("W3, too long", 8, &[&too_long], TOO_LONG, 0),
        refused("W3, kind 00", 8, &late(&[&[0]]), UNKNOWN_KIND, 6),
        refused("W3, kind 40", 8, &late(&[&[0x40, 0, 0]]), UNKNOWN_KIND, 6),
        refused("W3, cut short", 8, &late(&[&[DROP, 0]]), CUT_SHORT, 6),
        refused("W3, f.250", 8, &late(&[&[DROP, 0, 250]]), FIELD_RANGE, 6),
    ]
}

pub fn order_pieces() -> Vec<OrderPiece> {
    let mut pieces = byte_pieces();
    pieces.extend(stitch_pieces());
    pieces.extend(tie_pieces());
    pieces.extend(rack_pieces());
    pieces.extend(plated_pieces());
    pieces.extend(refused_pieces());
    pieces.extend(stretch_order_pieces());
    pieces
}

/// Two drops, and areas with the number that they give: a byte or an entry short of enough.
pub const AREA_PROGRAM: [u8; 6] = [DROP, 0, 9, DROP, 0, 5];
pub const AREA_PIECES: [(usize, usize, u8); 4] = [
    (6, 3, DONE),
    (5, 3, NO_BENCH),
    (6, 2, NO_BENCH),
    (0, 0, NO_BENCH),
];
