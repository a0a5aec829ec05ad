//! Seeded generator of programs: crowded columns, floats, hooks, fields, cuts, damage, lengths.

use crate::draft::*;
use crate::machine::*;
use crate::plated::{plated, plated_case, plated_stitches, with_any, with_ready, with_second};
use crate::stretched::{stretch_case, stretched_racks};

/// Takes each generated program.
pub type Check<'a> = &'a mut dyn FnMut(&[u8]);

/// Makes programs for machines of a hook limit.
type Generator = fn(&mut Random, u8, Check);

/// Name of a group, calls a round, and its generator; one call may give several programs.
pub const GROUPS: [(&str, usize, Generator); 12] = [
    ("crowded columns", 200, crowded),
    ("float distances", 300, floats),
    ("hooks and transfers", 30, hooks),
    ("plated stitches", 20, plated_stitches),
    ("stretched racks", 30, stretched_racks),
    ("fields in and out of range", 20, fields),
    ("cut ends", 30, cut_ends),
    ("damaged bytes", 40, damaged),
    ("unknown kinds", 80, unknown_kinds),
    ("random bytes", 200, random_bytes),
    ("lengths near the limit", 4, lengths),
    ("every hook", 1, every_hook),
];

// Crowded columns: a few neighbouring columns, some carriers, some rackings.

pub struct CrowdedColumns {
    pub first: i32,
    pub last: i32,
    pub carriers: Vec<usize>,
    pub rackings: Vec<i32>,
}

impl CrowdedColumns {
    pub fn new(random: &mut Random) -> CrowdedColumns {
        let span = random.between(0, 5);
        let first = match random.below(4) {
            0 => random.between(-8, 2),
            1 => random.between(247, 257) - span,
            2 => random.pick(&[0, 249 - span]),
            _ => random.between(0, 249 - span),
        };
        let start = random.below(CARRIERS);
        let count = 1 + random.below(CARRIERS);
        CrowdedColumns {
            first,
            last: first + span,
            carriers: (0..count).map(|k| (start + k) % CARRIERS).collect(),
            rackings: (0..1 + random.below(4)).map(|_| random.racking()).collect(),
        }
    }

    fn column(&self, random: &mut Random) -> i32 {
        random.between(self.first, self.last)
    }
}

/// A record that is likely, but not sure, to be accepted.
pub fn candidate(random: &mut Random, state: &State, crowd: &CrowdedColumns) -> Option<Record> {
    let choice = random.below(100);
    if choice < 4 {
        return Some(Record::Rack(random.pick(&crowd.rackings)));
    }
    if choice >= 22 {
        return carrier_candidate(random, state, crowd);
    }
    let column = crowd.column(random);
    let needle = any_needle_at(random, state, column)?;
    if choice < 9 {
        return Some(Record::Drop(needle));
    }
    Some(Record::Xfer(needle, about_opposite(random, state, needle)))
}

fn carrier_candidate(random: &mut Random, state: &State, crowd: &CrowdedColumns) -> Option<Record> {
    let carrier = random.pick(&crowd.carriers);
    let mut direction = random.direction();
    let mut column = crowd.column(random);
    if let Some(parked) = state.carriers[carrier] {
        if parked.slot <= crowd.first && random.percent(90) {
            direction = Direction::Right;
        }
        if parked.slot > crowd.last && random.percent(90) {
            direction = Direction::Left;
        }
        if random.percent(92) {
            column = parked.slot - entry_slot(0, direction);
        }
    }
    if let Some(slot) = beside(random, state, crowd, carrier) {
        column = slot - entry_slot(0, direction);
    }
    let needle = any_needle_at(random, state, column)?;
    let m = carrier_move(direction, needle, carrier);
    if state.carriers[carrier].is_none() && random.percent(85) {
        return Some(Record::In(m));
    }
    Some(match random.below(100) {
        0..=3 => Record::In(m),
        4..=10 => leaving(random, state, m),
        11..=27 => Record::Miss(m),
        _ => stitch(random, state, m),
    })
}

/// For an inactive carrier, at times the slot of an active one, so that two can stitch together.
fn beside(
    random: &mut Random,
    state: &State,
    crowd: &CrowdedColumns,
    carrier: usize,
) -> Option<i32> {
    if state.carriers[carrier].is_some() || random.percent(60) {
        return None;
    }
    Some(state.carriers[random.pick(&crowd.carriers)]?.slot)
}

/// An out, mostly over the column whose exit slot the carrier is parked at.
fn leaving(random: &mut Random, state: &State, m: CarrierMove) -> Record {
    let fitting = state.carriers[m.carrier]
        .filter(|_| random.percent(80))
        .and_then(|parked| {
            let column = parked.slot - exit_slot(0, m.direction);
            any_needle_at(random, state, column)
        });
    Record::Out(CarrierMove {
        needle: fitting.unwrap_or(m.needle),
        ..m
    })
}

fn stitch(random: &mut Random, state: &State, m: CarrierMove) -> Record {
    match random.below(6) {
        0 | 1 => Record::Tuck(m),
        2 => Record::Knit(m),
        3 => Record::Split(m, about_opposite(random, state, m.needle)),
        _ => plated_stitch(random, state, m),
    }
}

/// A plated stitch, mostly with a carrier at the same slot; a tuck where there is none.
pub fn plated_stitch(random: &mut Random, state: &State, m: CarrierMove) -> Record {
    let together = |k: &usize| {
        let slot = |carrier: usize| state.carriers[carrier].map(|p| p.slot);
        *k != m.carrier && slot(*k).is_some() && slot(*k) == slot(m.carrier)
    };
    let carriers: Vec<usize> = (0..CARRIERS).filter(together).collect();
    let second = match random.below(20) {
        0 => m.carrier,
        1 | 2 => random.below(CARRIERS),
        _ if carriers.is_empty() => return Record::Tuck(m),
        _ => random.pick(&carriers),
    };
    let p = with_second(random, m, second);
    plated(random, p)
}

/// Adds accepted candidates until the draft has so many bytes.
fn add_candidates(random: &mut Random, draft: &mut Draft, crowd: &CrowdedColumns, length: usize) {
    let mut tries = 0;
    while draft.bytes.len() < length && tries < 10 * length + 100 {
        tries += 1;
        if let Some(record) = candidate(random, &draft.state, crowd) {
            draft.add(&record);
        }
    }
}

/// A candidate that is refused, of a wanted length in bytes if one is given.
fn refused(
    random: &mut Random,
    draft: &Draft,
    crowd: &CrowdedColumns,
    length: Option<usize>,
) -> Option<Vec<u8>> {
    for _ in 0..200 {
        let Some(record) = candidate(random, &draft.state, crowd) else {
            continue;
        };
        let bytes = bytes_of(&record);
        let fits = length.is_none_or(|wanted| bytes.len() == wanted);
        if fits && refusal(&draft.state, &record).is_some() {
            return Some(bytes);
        }
    }
    None
}

fn crowded(random: &mut Random, limit: u8, check: Check) {
    let crowd = CrowdedColumns::new(random);
    let mut draft = Draft::new(limit);
    let length = random.pick(&[0, 10, 40, 100, 200, 300, 500, 1000]);
    add_candidates(random, &mut draft, &crowd, length);
    check(&draft.bytes);
    for _ in 0..2 {
        if let Some(bytes) = refused(random, &draft, &crowd, None) {
            check(&draft.with(&bytes));
        }
    }
    let column = crowd.column(random);
    if let Some(needle) = any_needle_at(random, &draft.state, column) {
        check(&filled(random, &draft, needle));
    }
    if let Some(carrier) = draft.attached_carrier(random) {
        if let Some((draft, record)) = measured(random, draft, carrier) {
            check(&draft.with(&bytes_of(&record)));
        }
    }
}

// Floats.

/// Moves a carrier by misses to a slot.
pub fn miss_to(random: &mut Random, draft: &mut Draft, carrier: usize, slot: i32) -> Option<()> {
    loop {
        let now = draft.state.carriers[carrier]?.slot;
        if now == slot {
            return Some(());
        }
        let direction = if now < slot {
            Direction::Right
        } else {
            Direction::Left
        };
        let column = now - entry_slot(0, direction);
        let needle = any_needle_at(random, &draft.state, column)?;
        draft.add(&Record::Miss(carrier_move(direction, needle, carrier)))?;
    }
}

/// Tucks by an inactive carrier until the hook holds so many loops.
pub fn tuck_to(random: &mut Random, draft: &mut Draft, needle: Needle, loops: u8) -> Option<()> {
    let carrier = draft.inactive_carrier(random)?;
    let mut direction = random.direction();
    draft.add(&Record::In(carrier_move(direction, needle, carrier)))?;
    while draft.state.loops(needle) < loops {
        draft.add(&Record::Tuck(carrier_move(direction, needle, carrier)))?;
        direction = reverse(direction);
    }
    Some(())
}

pub fn reverse(direction: Direction) -> Direction {
    match direction {
        Direction::Left => Direction::Right,
        Direction::Right => Direction::Left,
    }
}

/// The draft, then tucks on the needle until its hook is full and one tuck more.
pub fn filled(random: &mut Random, draft: &Draft, needle: Needle) -> Vec<u8> {
    let (mut draft, limit) = (draft.clone(), draft.state.limit);
    if tuck_to(random, &mut draft, needle, limit).is_none() {
        return draft.bytes;
    }
    let tuck = |carrier: usize, direction| Record::Tuck(carrier_move(direction, needle, carrier));
    let end = (0..CARRIERS)
        .flat_map(|k| [tuck(k, Direction::Left), tuck(k, Direction::Right)])
        .find(|record| refusal(&draft.state, record) == Some(HOOK_FULL));
    end.map_or(draft.bytes.clone(), |record| draft.with(&bytes_of(&record)))
}

/// Up to three stitches attach carriers to a needle; gives a carrier of the last.
pub fn attach(random: &mut Random, draft: &mut Draft, needle: Needle) -> Option<usize> {
    let mut last = None;
    for _ in 0..1 + random.below(3) {
        let carrier = draft.inactive_carrier(random)?;
        let m = carrier_move(random.direction(), needle, carrier);
        draft.add(&Record::In(m))?;
        let record = match random.below(5) {
            0 => Record::Tuck(m),
            1 => Record::Knit(m),
            2 => Record::Split(m, opposite(&draft.state, needle)?),
            _ => {
                let p = with_ready(random, draft, m)?;
                plated(random, p)
            }
        };
        draft.add(&record)?;
        last = Some(carrier);
    }
    last
}

/// A carrier attached somewhere; then perhaps the hook emptied, and the attachment moved.
fn attached(random: &mut Random, draft: &mut Draft) -> Option<usize> {
    draft.add(&Record::Rack(random.racking()))?;
    let column = match random.below(3) {
        0 => random.between(-8, 14),
        1 => random.between(235, 257),
        _ => random.between(0, 249),
    };
    let needle = any_needle_at(random, &draft.state, column)?;
    let attached = attach(random, draft, needle)?;
    if random.percent(30) {
        draft.add(&Record::Drop(needle))?;
    }
    let second = opposite(&draft.state, needle);
    match random.below(3) {
        0 => draft.add(&Record::Xfer(needle, second?))?,
        1 => {
            let carrier = draft.inactive_carrier(random)?;
            let m = carrier_move(random.direction(), needle, carrier);
            draft.add(&Record::In(m))?;
            draft.add(&Record::Split(m, second?))?;
        }
        _ => (),
    }
    Some(attached)
}

/// Moves an attached carrier about 20 columns away, perhaps after a rack, to a stitch or an out.
pub fn measured(random: &mut Random, mut draft: Draft, carrier: usize) -> Option<(Draft, Record)> {
    if random.percent(60) {
        draft.add(&Record::Rack(random.racking()))?;
    }
    let attached = draft.state.carriers[carrier]?.attachment?.needle;
    let distance = random.pick(&[20, 20, 20, 21, 21, 21, 19, 22]) * random.pick(&[-1, 1]);
    let column = draft.state.column(attached) + distance;
    let needle = any_needle_at(random, &draft.state, column)?;
    let m = carrier_move(random.direction(), needle, carrier);
    miss_to(random, &mut draft, carrier, entry_slot(column, m.direction))?;
    let limit = draft.state.limit;
    if random.percent(20) {
        tuck_to(random, &mut draft, needle, limit)?;
    }
    if random.percent(20) {
        let second = opposite(&draft.state, needle)?;
        let loops = random.pick(&[1, limit]);
        tuck_to(random, &mut draft, second, loops)?;
    }
    if random.percent(15) {
        miss_to(random, &mut draft, carrier, exit_slot(column, m.direction))?;
    }
    let record = far_record(random, &mut draft, m)?;
    Some((draft, record))
}

/// A stitch or an out; the second carrier of a plated stitch is brought to it.
fn far_record(random: &mut Random, draft: &mut Draft, m: CarrierMove) -> Option<Record> {
    Some(match random.below(24) {
        0 => Record::Out(CarrierMove {
            direction: reverse(m.direction),
            ..m
        }),
        1..=4 => Record::Tuck(m),
        5..=8 => Record::Knit(m),
        9..=13 => Record::Split(m, about_opposite(random, &draft.state, m.needle)),
        14..=20 => {
            let p = with_ready(random, draft, m)?;
            plated(random, p)
        }
        _ => {
            let p = with_any(random, draft, m)?;
            plated(random, p)
        }
    })
}

/// A carrier goes out, comes in again elsewhere and stitches there, free of its old attachment.
fn reentered(random: &mut Random, mut draft: Draft, carrier: usize) -> Option<(Draft, Record)> {
    let direction = random.direction();
    let column = draft.state.carriers[carrier]?.slot - exit_slot(0, direction);
    let needle = any_needle_at(random, &draft.state, column)?;
    draft.add(&Record::Out(carrier_move(direction, needle, carrier)))?;
    let column = random.between(0, 249);
    let needle = any_needle_at(random, &draft.state, column)?;
    let m = carrier_move(direction, needle, carrier);
    draft.add(&Record::In(m))?;
    let record = stitch(random, &draft.state, m);
    Some((draft, record))
}

/// From the outermost back needle over both beds to a stitch 256 or 257 columns away.
fn widest(random: &mut Random, limit: u8) -> Option<(Draft, Record)> {
    let mut draft = Draft::new(limit);
    let (racking, number, columns) = random.pick(&[(-8, 0, [248, 249]), (8, 249, [0, 1])]);
    draft.add(&Record::Rack(racking))?;
    let bed = Bed::Back;
    let carrier = attach(random, &mut draft, Needle { bed, number })?;
    let column = random.pick(&columns);
    let needle = needle_at(&draft.state, Bed::Front, column)?;
    let m = carrier_move(random.direction(), needle, carrier);
    miss_to(random, &mut draft, carrier, entry_slot(column, m.direction))?;
    let record = stitch(random, &draft.state, m);
    Some((draft, record))
}

/// A draft and a record after it that the float rule may refuse.
fn float_case(random: &mut Random, limit: u8) -> (Draft, Record) {
    loop {
        let mut draft = Draft::new(limit);
        let Some(carrier) = attached(random, &mut draft) else {
            continue;
        };
        let case = match random.below(100) {
            0 => widest(random, limit),
            1..=9 => reentered(random, draft, carrier),
            _ => measured(random, draft, carrier),
        };
        if let Some(case) = case {
            return case;
        }
    }
}

fn floats(random: &mut Random, limit: u8, check: Check) {
    let (draft, record) = float_case(random, limit);
    check(&draft.with(&bytes_of(&record)));
}

// Hooks and transfers.

/// Opposite needles, a neighbour of the second, and a carrier that stands there.
struct Pair {
    first: Needle,
    second: Needle,
    neighbour: Needle,
    carrier: usize,
}

/// Loads opposite needles with loops whose sum is often near the hook limit.
fn loaded_pair(random: &mut Random, draft: &mut Draft) -> Option<Pair> {
    draft.add(&Record::Rack(random.racking()))?;
    let column = random.between(0, 249);
    let first = any_needle_at(random, &draft.state, column)?;
    let second = opposite(&draft.state, first)?;
    let neighbour = Needle {
        number: (second.number + 1) % NEEDLES,
        ..second
    };
    let limit = draft.state.limit;
    let on_first = match random.below(10) {
        0 => 0,
        _ => random.between(0, limit.into()) as u8,
    };
    let on_second = match random.below(8) {
        0 => limit,
        1 => random.between(0, limit.into()) as u8,
        2 | 3 => (limit + 1 - on_first).min(limit),
        _ => limit - on_first,
    };
    tuck_to(random, draft, first, on_first)?;
    tuck_to(random, draft, second, on_second)?;
    let carrier = (0..CARRIERS).find(|&k| draft.state.carriers[k].is_some())?;
    if random.percent(50) {
        tuck_to(random, draft, neighbour, limit)?;
    }
    Some(Pair {
        first,
        second,
        neighbour,
        carrier,
    })
}

fn pair_case(random: &mut Random, limit: u8) -> (Draft, Pair) {
    loop {
        let mut draft = Draft::new(limit);
        if let Some(pair) = loaded_pair(random, &mut draft) {
            return (draft, pair);
        }
    }
}

/// Records about a loaded pair, by a carrier that stands there and by an inactive one.
fn pair_records(random: &mut Random, draft: &Draft, pair: &Pair) -> Vec<Record> {
    let (first, second) = (pair.first, pair.second);
    let mut records = vec![
        Record::Xfer(first, second),
        Record::Xfer(second, first),
        Record::Xfer(first, pair.neighbour),
        Record::Xfer(first, about_opposite(random, &draft.state, first)),
    ];
    let inactive = draft.inactive_carrier(random).unwrap_or(pair.carrier);
    for carrier in [pair.carrier, inactive] {
        for direction in [Direction::Left, Direction::Right] {
            let m = CarrierMove {
                direction,
                needle: first,
                carrier,
            };
            records.push(Record::Tuck(m));
            records.push(Record::Knit(m));
            records.push(Record::Split(m, second));
            records.push(Record::Split(
                CarrierMove {
                    needle: second,
                    ..m
                },
                first,
            ));
            records.push(Record::Split(m, pair.neighbour));
        }
    }
    records
}

fn hooks(random: &mut Random, limit: u8, check: Check) {
    let (draft, pair) = pair_case(random, limit);
    for record in pair_records(random, &draft, &pair) {
        let mut branch = draft.clone();
        if branch.add(&record).is_some() {
            let needle = random.pick(&[pair.first, pair.second]);
            check(&filled(random, &branch, needle));
        } else {
            check(&draft.with(&bytes_of(&record)));
        }
    }
}

/// Tucks on a needle by a carrier that comes in for them and goes out after them.
fn tucks(random: &mut Random, draft: &mut Draft, needle: Needle, count: u8) -> Option<()> {
    let carrier = draft.inactive_carrier(random)?;
    let mut direction = random.direction();
    draft.add(&Record::In(carrier_move(direction, needle, carrier)))?;
    for _ in 0..count {
        draft.add(&Record::Tuck(carrier_move(direction, needle, carrier)))?;
        direction = reverse(direction);
    }
    draft.add(&Record::Out(CarrierMove {
        direction: reverse(direction),
        needle,
        carrier,
    }))
}

/// Loads all 500 hooks at random, then fills each one to the limit, so that no two can be confused.
fn every_hook(random: &mut Random, limit: u8, check: Check) {
    let mut draft = Draft::new(limit);
    draft.add(&Record::Rack(random.racking()));
    let beds = [Bed::Front, Bed::Back];
    let mut needles: Vec<Needle> = beds
        .iter()
        .flat_map(|&bed| (0..NEEDLES).map(move |number| Needle { bed, number }))
        .collect();
    for round in 0..2 {
        random.shuffle(&mut needles);
        for &needle in &needles {
            let loops = draft.state.loops(needle);
            let more = if round == 0 {
                random.between(0, limit.into()) as u8
            } else {
                limit - loops
            };
            if more > 0 {
                tucks(random, &mut draft, needle, more);
            }
        }
    }
    check(&draft.bytes);
    let needle = random.pick(&needles);
    check(&filled(random, &draft, needle));
}

// Fields, cuts, damage, unknown kinds, random bytes.

const FIELD_VALUES: [u8; 18] = [
    0x00, 0x01, 0x02, 0x03, 0x07, 0x08, 0x09, 0x0a, 0x0b, 0x7f, 0x80, 0xf7, 0xf8, 0xf9, 0xfa, 0xfb,
    0xfe, 0xff,
];

fn small_draft(random: &mut Random, limit: u8, crowd: &CrowdedColumns) -> Draft {
    let mut draft = Draft::new(limit);
    let length = random.below(150);
    add_candidates(random, &mut draft, crowd, length);
    draft
}

/// A record of any kind, accepted or refused as wished if such a one is found.
fn crowd_case(random: &mut Random, limit: u8) -> (Draft, Record) {
    let crowd = CrowdedColumns::new(random);
    let draft = small_draft(random, limit, &crowd);
    let kind = random.known_kind();
    let wants_refusal = random.percent(50);
    let mut found = Record::Rack(0);
    for _ in 0..300 {
        let Some(record) = candidate(random, &draft.state, &crowd) else {
            continue;
        };
        if bytes_of(&record)[0] == kind {
            found = record;
            if refusal(&draft.state, &record).is_some() == wants_refusal {
                break;
            }
        }
    }
    (draft, found)
}

/// A valid draft and a whole record after it, accepted or refused.
fn any_case(random: &mut Random, limit: u8) -> (Draft, Record) {
    match random.below(13) {
        0 | 1 => float_case(random, limit),
        2 | 3 => plated_case(random, limit),
        4 | 5 => {
            let (draft, pair) = pair_case(random, limit);
            let records = pair_records(random, &draft, &pair);
            (draft, random.pick(&records))
        }
        6 => stretch_case(random, limit),
        _ => crowd_case(random, limit),
    }
}

/// Each field of a record in turn set to chosen values.
fn fields(random: &mut Random, limit: u8, check: Check) {
    let (draft, record) = any_case(random, limit);
    let bytes = bytes_of(&record);
    for field in 1..bytes.len() {
        for value in FIELD_VALUES {
            let mut changed = bytes.clone();
            changed[field] = value;
            check(&draft.with(&changed));
        }
    }
}

pub fn whole_program(random: &mut Random, limit: u8) -> Vec<u8> {
    let (draft, record) = any_case(random, limit);
    draft.with(&bytes_of(&record))
}

/// A program cut at every place near its end, and its last record cut behind a field out of range.
fn cut_ends(random: &mut Random, limit: u8, check: Check) {
    let (draft, record) = any_case(random, limit);
    let bytes = bytes_of(&record);
    let program = draft.with(&bytes);
    for end in program.len().saturating_sub(13)..=program.len() {
        check(&program[..end]);
    }
    for field in 1..bytes.len() {
        let mut changed = bytes.clone();
        changed[field] = random.pick(&[0xfa, 0xff]);
        for end in field + 1..bytes.len() {
            check(&draft.with(&changed[..end]));
        }
    }
}

fn damaged(random: &mut Random, limit: u8, check: Check) {
    let program = whole_program(random, limit);
    for _ in 0..8 {
        let mut changed = program.clone();
        if changed.is_empty() {
            return;
        }
        let place = random.below(changed.len());
        let old = changed[place];
        changed[place] = match random.below(4) {
            0 => random.byte(),
            1 => old.wrapping_add(1),
            2 => old.wrapping_sub(1),
            _ => old ^ (1 << random.below(8)),
        };
        check(&changed);
    }
}

fn unknown_kinds(random: &mut Random, limit: u8, check: Check) {
    let mut program = if random.percent(30) {
        Vec::new()
    } else {
        whole_program(random, limit)
    };
    program.push(random.unknown_kind());
    add_bytes(random, &mut program);
    check(&program);
}

fn random_bytes(random: &mut Random, _: u8, check: Check) {
    let longest = random.pick(&[8, 30, 300]);
    let length = random.below(longest);
    let bound = random.pick(&[2, 10, 11, 12, 13, 16, 256]);
    let mut program: Vec<u8> = (0..length).map(|_| random.below(bound) as u8).collect();
    if length > 0 && random.percent(50) {
        program[0] = random.known_kind();
    }
    check(&program);
}

// Lengths near the limit.

/// Adds racks and drops until the draft has exactly so many bytes; one byte cannot be added.
pub fn add_racks_and_drops(random: &mut Random, draft: &mut Draft, length: usize) {
    while draft.bytes.len() + 2 <= length {
        let left = length - draft.bytes.len();
        let rack = left == 2 || (left != 3 && random.percent(50));
        let needle = Needle {
            bed: random.bed(),
            number: random.below(NEEDLES),
        };
        draft.add(&if rack {
            Record::Rack(random.racking())
        } else {
            Record::Drop(needle)
        });
    }
}

/// A draft of exactly so many bytes, mostly of accepted candidates or mostly of racks and drops.
fn long_draft(random: &mut Random, limit: u8, crowd: &CrowdedColumns, length: usize) -> Draft {
    let mut draft = Draft::new(limit);
    let most = length.saturating_sub(10);
    let candidates = if random.percent(70) {
        most
    } else {
        most.min(200)
    };
    add_candidates(random, &mut draft, crowd, candidates);
    add_racks_and_drops(random, &mut draft, length);
    draft
}

fn wanted_length(random: &mut Random) -> usize {
    let most = PROGRAM_LIMIT;
    match random.below(20) {
        0..=2 => random.pick(&[65_535, 65_536, 65_537, 65_543, 65_536 + most, 131_072]),
        3..=5 => random.pick(&[most - 2, most + 2]),
        6..=9 => most - 1,
        10..=14 => most,
        _ => most + 1,
    }
}

/// Programs at, under and over the limit: done, refused at the end, or with a fault at the start.
fn lengths(random: &mut Random, limit: u8, check: Check) {
    let crowd = CrowdedColumns::new(random);
    let length = wanted_length(random);
    let end = random.below(5);
    if end == 0 {
        let draft = long_draft(random, limit, &crowd, length - 1);
        check(&draft.with(&[random.unknown_kind()]));
        check(&draft.with(&[random.known_kind()]));
        check(&draft.bytes);
        return;
    }
    if end == 1 {
        let last = random.pick(&[5, 6]);
        let draft = long_draft(random, limit, &crowd, length - last);
        if let Some(bytes) = refused(random, &draft, &crowd, Some(last)) {
            check(&draft.with(&bytes));
            check(&draft.with(&bytes[..last - 1]));
            return;
        }
    }
    let mut program = long_draft(random, limit, &crowd, length).bytes;
    check(&program);
    let place = if end == 2 { 0 } else { random.below(length) };
    program[place] = random.byte();
    check(&program);
}
