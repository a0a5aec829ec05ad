//! Programs about one plated stitch: how both carriers stand, its hook, its fields, what follows.

use crate::draft::*;
use crate::generate::*;
use crate::machine::*;

/// How a carrier stands before a stitch; an attached one is at the entry slot and comes from a
/// needle so many columns away.
#[derive(Clone, Copy)]
enum Standing {
    Ready,
    NotIn,
    Elsewhere,
    Attached(i32),
}

fn any_standing(random: &mut Random) -> Standing {
    let columns = random.pick(&[20, 21, 21, 22]);
    random.pick(&[
        Standing::Ready,
        Standing::Ready,
        Standing::NotIn,
        Standing::Elsewhere,
        Standing::Attached(columns),
    ])
}

/// Brings a carrier that is not in to how it shall stand before it moves.
fn stand(random: &mut Random, draft: &mut Draft, m: CarrierMove, standing: Standing) -> Option<()> {
    let column = draft.state.column(m.needle);
    match standing {
        Standing::Ready => draft.add(&Record::In(m)),
        Standing::NotIn => Some(()),
        Standing::Elsewhere => {
            let column = column + random.pick(&[-20, -1, 0, 0, 1, 20]);
            let needle = any_needle_at(random, &draft.state, column)?;
            let direction = reverse(m.direction);
            draft.add(&Record::In(carrier_move(direction, needle, m.carrier)))
        }
        Standing::Attached(columns) => {
            let from = column + columns * random.pick(&[-1, 1]);
            let needle = any_needle_at(random, &draft.state, from)?;
            let stitch = carrier_move(random.direction(), needle, m.carrier);
            draft.add(&Record::In(stitch))?;
            draft.add(&Record::Knit(stitch))?;
            miss_to(random, draft, m.carrier, entry_slot(column, m.direction))
        }
    }
}

/// A plated stitch of either kind.
pub fn plated(random: &mut Random, p: PlatedMove) -> Record {
    if random.percent(50) {
        Record::PlatedTuck(p)
    } else {
        Record::PlatedKnit(p)
    }
}

/// The move with a second carrier, which is at times put first.
pub fn with_second(random: &mut Random, m: CarrierMove, second_carrier: usize) -> PlatedMove {
    let p = PlatedMove {
        first: m,
        second_carrier,
    };
    if random.percent(50) {
        return p;
    }
    PlatedMove {
        first: p.second(),
        second_carrier: m.carrier,
    }
}

/// The move with a second carrier that comes in for it.
pub fn with_ready(random: &mut Random, draft: &mut Draft, m: CarrierMove) -> Option<PlatedMove> {
    let carrier = draft.inactive_carrier_but(random, m.carrier)?;
    draft.add(&Record::In(CarrierMove { carrier, ..m }))?;
    Some(with_second(random, m, carrier))
}

/// The move with a second carrier that stands in any way, or with its own carrier twice.
pub fn with_any(random: &mut Random, draft: &mut Draft, m: CarrierMove) -> Option<PlatedMove> {
    if random.percent(8) {
        return Some(with_second(random, m, m.carrier));
    }
    let carrier = draft.inactive_carrier_but(random, m.carrier)?;
    let standing = any_standing(random);
    stand(random, draft, CarrierMove { carrier, ..m }, standing)?;
    Some(with_second(random, m, carrier))
}

fn plated_draft(random: &mut Random, limit: u8) -> Option<(Draft, Record)> {
    let mut draft = Draft::new(limit);
    draft.add(&Record::Rack(random.racking()))?;
    let column = random.between(-8, 257);
    let needle = any_needle_at(random, &draft.state, column)?;
    let loops = random.pick(&[0, 1, 2, 3, 4, 5, 6, 6, 7, 7, 8]);
    tuck_to(random, &mut draft, needle, loops.min(limit))?;
    let carrier = draft.inactive_carrier(random)?;
    let m = carrier_move(random.direction(), needle, carrier);
    let standing = any_standing(random);
    stand(random, &mut draft, m, standing)?;
    let p = with_any(random, &mut draft, m)?;
    Some((draft, plated(random, p)))
}

/// A valid draft and a plated stitch after it, accepted or refused.
pub fn plated_case(random: &mut Random, limit: u8) -> (Draft, Record) {
    loop {
        if let Some(case) = plated_draft(random, limit) {
            return case;
        }
    }
}

/// Sets carriers just out of their range: one of them or both.
fn spoil_carriers(random: &mut Random, bytes: &mut [u8]) {
    let bad = random.pick(&[0, 11]);
    let which = random.below(3);
    if which != 1 {
        bytes[4] = bad;
    }
    if which != 0 {
        bytes[5] = bad;
    }
}

/// A program that ends with a plated stitch, at times with bad carriers or cut short.
pub fn plated_program(random: &mut Random, limit: u8) -> Vec<u8> {
    let (draft, record) = plated_case(random, limit);
    let mut bytes = bytes_of(&record);
    match random.below(10) {
        0 | 1 => spoil_carriers(random, &mut bytes),
        2 => bytes.truncate(1 + random.below(5)),
        _ => (),
    }
    draft.with(&bytes)
}

/// The stitch, its carriers set to values in and out of range, and records that show where both
/// carriers and the hook are after it.
pub fn plated_stitches(random: &mut Random, limit: u8, check: Check) {
    let (mut draft, record) = plated_case(random, limit);
    let bytes = bytes_of(&record);
    check(&draft.with(&bytes));
    let mut changed = bytes.clone();
    spoil_carriers(random, &mut changed);
    check(&draft.with(&changed));
    (changed[4], changed[5]) = (bytes[5], bytes[5]);
    check(&draft.with(&changed));
    if draft.add(&record).is_none() {
        return;
    }
    for m in record.carrier_moves() {
        for direction in [Direction::Left, Direction::Right] {
            let m = CarrierMove { direction, ..m };
            for after in [Record::Out(m), Record::Miss(m), Record::Tuck(m)] {
                check(&draft.with(&bytes_of(&after)));
            }
        }
        if let Some((far, after)) = measured(random, draft.clone(), m.carrier) {
            check(&far.with(&bytes_of(&after)));
        }
        check(&filled(random, &draft, m.needle));
    }
}
