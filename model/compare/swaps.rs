//! Programs for the rewriter: chosen pairs, carriers on apart columns, racks near every 64th record.

use crate::draft::*;
use crate::generate::*;
use crate::machine::*;

// Pairs.

/// What a record is apart from its column and direction; drop and xfer leave the carriers unused,
/// and only plated stitches use the second.
#[derive(Clone, Copy)]
pub struct Actor {
    pub kind: u8,
    pub bed: Bed,
    pub carriers: [usize; 2],
}

/// The carriers that a record of a kind can name.
fn carriers_named(kind: u8) -> Vec<[usize; 2]> {
    match kind {
        DROP | XFER => vec![[0, 1]],
        PLATED_TUCK | PLATED_KNIT => (0..CARRIERS)
            .flat_map(|first| (0..CARRIERS).map(move |second| [first, second]))
            .filter(|[first, second]| first != second)
            .collect(),
        _ => (0..CARRIERS).map(|carrier| [carrier, 0]).collect(),
    }
}

/// Every kind but rack, on both beds, with all carriers it can name.
pub fn actors() -> Vec<Actor> {
    let mut actors = Vec::new();
    for kind in KINDS.filter(|&kind| kind != RACK) {
        for bed in [Bed::Front, Bed::Back] {
            let named = carriers_named(kind).into_iter();
            actors.extend(named.map(|carriers| Actor {
                kind,
                bed,
                carriers,
            }));
        }
    }
    actors
}

pub fn any_actor(random: &mut Random) -> Actor {
    let kind = random.between(DROP.into(), (*KINDS.end()).into()) as u8;
    let bed = random.bed();
    let carriers = random.pick(&carriers_named(kind));
    Actor {
        kind,
        bed,
        carriers,
    }
}

pub fn placed(state: &State, actor: Actor, column: i32, direction: Direction) -> Option<Record> {
    let needle = needle_at(state, actor.bed, column)?;
    let m = carrier_move(direction, needle, actor.carriers[0]);
    let p = PlatedMove {
        first: m,
        second_carrier: actor.carriers[1],
    };
    Some(match actor.kind {
        DROP => Record::Drop(needle),
        XFER => Record::Xfer(needle, opposite(state, needle)?),
        IN => Record::In(m),
        OUT => Record::Out(m),
        MISS => Record::Miss(m),
        TUCK => Record::Tuck(m),
        KNIT => Record::Knit(m),
        PLATED_TUCK => Record::PlatedTuck(p),
        PLATED_KNIT => Record::PlatedKnit(p),
        _ => Record::Split(m, opposite(state, needle)?),
    })
}

/// The actor's record at racking 0, over a column that both beds have.
pub fn lone_record(actor: Actor, column: i32) -> Record {
    placed(&State::empty(HOOK_LIMIT), actor, column, Direction::Right)
        .expect("a column of both beds")
}

/// Brings a carrier of the record in where the record wants it.
pub fn bring(draft: &mut Draft, record: &Record, m: CarrierMove) -> Option<()> {
    match record {
        Record::In(_) => Some(()),
        Record::Out(_) => draft.add(&Record::In(CarrierMove {
            direction: reverse(m.direction),
            ..m
        })),
        _ => draft.add(&Record::In(m)),
    }
}

fn directed_pair(
    racking: i32,
    places: [(Actor, i32); 2],
    directions: [Direction; 2],
) -> Option<Draft> {
    let mut draft = Draft::new(HOOK_LIMIT);
    draft.add(&Record::Rack(racking))?;
    let [first, second] = [0, 1].map(|at| {
        let (actor, column) = places[at];
        placed(&draft.state, actor, column, directions[at])
    });
    let (first, second) = (first?, second?);
    for m in first.carrier_moves() {
        bring(&mut draft, &first, m)?;
    }
    let named = |m: &CarrierMove| first.carrier_moves().any(|own| own.carrier == m.carrier);
    for m in second.carrier_moves().filter(|m| !named(m)) {
        bring(&mut draft, &second, m)?;
    }
    draft.add(&first)?;
    draft.add(&second)?;
    Some(draft)
}

/// A valid program that ends with the two records over the two columns, if there is one.
pub fn pair(random: &mut Random, racking: i32, places: [(Actor, i32); 2]) -> Option<Draft> {
    let turn = random.below(4);
    (0..4).find_map(|number| {
        let bits = (number + turn) % 4;
        let directions = [bits & 1, bits >> 1].map(|bit| {
            if bit == 0 {
                Direction::Left
            } else {
                Direction::Right
            }
        });
        directed_pair(racking, places, directions)
    })
}

// Lanes: windows of columns, apart or side by side, each with carriers of its own.

fn shuffled_carriers(random: &mut Random) -> Vec<usize> {
    let mut carriers: Vec<usize> = (0..CARRIERS).collect();
    random.shuffle(&mut carriers);
    carriers
}

fn lanes(random: &mut Random) -> Vec<CrowdedColumns> {
    let carriers = shuffled_carriers(random);
    let count = random.pick(&[1, 2, 3, 4, 5, 10]);
    let spacing = random.pick(&[0, 1, 2, 3, 5, 24, 60]);
    let span = random.between(0, 4);
    let width = spacing * (count as i32 - 1) + span;
    let first = match random.below(5) {
        0 => -MAX_RACKING,
        1 => 257 - width,
        _ => random.between(0, 249) - width / 2,
    };
    let rackings: Vec<i32> = (0..1 + random.below(4)).map(|_| random.racking()).collect();
    let shared = random.percent(20);
    (0..count)
        .map(|lane| {
            let start = first + spacing * lane as i32;
            let own = carriers.iter().skip(lane).step_by(count).copied();
            CrowdedColumns {
                first: start,
                last: start + span,
                carriers: if shared {
                    carriers.clone()
                } else {
                    own.collect()
                },
                rackings: rackings.clone(),
            }
        })
        .collect()
}

/// Adds accepted records of the lanes, of the wanted kinds, up to so many bytes.
fn add_lanes(
    random: &mut Random,
    draft: &mut Draft,
    length: usize,
    wants: impl Fn(&Record) -> bool,
) {
    let lanes = lanes(random);
    let mut tries = 0;
    while draft.bytes.len() < length && tries < 10 * length + 100 {
        tries += 1;
        let lane = &lanes[random.below(lanes.len())];
        if let Some(record) = candidate(random, &draft.state, lane).filter(&wants) {
            draft.add(&record);
        }
    }
}

/// A valid program over lanes, with racks or without.
pub fn laned(random: &mut Random, limit: u8, length: usize) -> Vec<u8> {
    let mut draft = Draft::new(limit);
    if random.percent(50) {
        draft.add(&Record::Rack(random.racking()));
    }
    let racks = random.percent(60);
    let wants = |record: &Record| racks || !matches!(record, Record::Rack(_));
    add_lanes(random, &mut draft, length, wants);
    draft.bytes
}

/// A valid program over lanes of exactly so many bytes; racks and drops make the last of them.
pub fn laned_exactly(random: &mut Random, limit: u8, length: usize) -> Vec<u8> {
    let mut draft = Draft::new(limit);
    let racks = random.percent(50);
    let wants = |record: &Record| racks || !matches!(record, Record::Rack(_));
    add_lanes(random, &mut draft, length.saturating_sub(10), wants);
    add_racks_and_drops(random, &mut draft, length);
    draft.bytes
}

/// As many records of five bytes as there may be, and a drop among them: 32,768 bytes.
pub fn full_of_fives(random: &mut Random, limit: u8) -> Vec<u8> {
    loop {
        let mut draft = Draft::new(limit);
        draft.add(&Record::Drop(Needle {
            bed: Bed::Back,
            number: random.below(NEEDLES),
        }));
        let wants = |record: &Record| bytes_of(record).len() == 5;
        add_lanes(random, &mut draft, PROGRAM_LIMIT, wants);
        if draft.bytes.len() == PROGRAM_LIMIT {
            return draft.bytes;
        }
    }
}

// Racks near every 64th record.

/// Positions of racks: near multiples of 64, and now and then anywhere.
fn rack_positions(random: &mut Random, count: usize) -> Vec<usize> {
    let mut positions = Vec::new();
    for near in (64..count + 64).step_by(64) {
        for _ in 0..random.below(3) {
            positions.push(near + random.below(6) - 3);
        }
    }
    if random.percent(30) {
        positions.push(random.below(count));
    }
    positions
}

/// A valid program on few columns, whose racks are close to each other and stand near 64ths; with
/// it, the positions of its racks.
pub fn racked(random: &mut Random, limit: u8) -> (Vec<u8>, Vec<usize>) {
    let count = random.pick(&[64, 65, 66, 70, 70, 128, 130, 135, 200, 262]);
    let racks = rack_positions(random, count);
    let middle = random.between(-6, 6);
    let mut crowd = CrowdedColumns::new(random);
    crowd.rackings = (-2..=2).map(|more| middle + more).collect();
    crowd.first = random.between(8, 230);
    crowd.last = crowd.first + random.between(1, 5);
    let mut draft = Draft::new(limit);
    for position in 0..count {
        if racks.contains(&position) {
            draft.add(&Record::Rack(random.pick(&crowd.rackings)));
            continue;
        }
        let accepted = (0..50).any(|_| {
            candidate(random, &draft.state, &crowd)
                .filter(|record| !matches!(record, Record::Rack(_)))
                .is_some_and(|record| draft.add(&record).is_some())
        });
        if !accepted {
            let needle = needle_at(&draft.state, random.bed(), crowd.first);
            draft.add(&Record::Drop(needle.expect("a column of both beds")));
        }
    }
    (draft.bytes, racks)
}

/// Drops and xfers on few columns, with racks mostly near 64ths, up to the limit: over 8,192 records.
pub fn full_of_short_records(random: &mut Random) -> Vec<u8> {
    let middle = random.between(-6, 6);
    let first = random.between(8, 230);
    let mut draft = Draft::new(HOOK_LIMIT);
    for position in 0.. {
        if draft.bytes.len() + 4 > PROGRAM_LIMIT {
            break;
        }
        let near = (position + 2) % 64 < 5;
        if random.percent(if near { 15 } else { 1 }) {
            draft.add(&Record::Rack(middle + random.between(-2, 2)));
            continue;
        }
        let (kind, bed) = (random.pick(&[DROP, XFER]), random.bed());
        let actor = Actor {
            kind,
            bed,
            carriers: [0, 1],
        };
        let column = first + random.between(0, 3);
        let record = placed(&draft.state, actor, column, Direction::Right);
        draft.add(&record.expect("a column of both beds"));
    }
    draft.bytes
}
