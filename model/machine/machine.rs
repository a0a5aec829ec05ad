//! The machine of papers 01 and 02: numbers, limits, state, columns, records, one step and the run.

use std::ops::RangeInclusive;

pub const DONE: u8 = 0;
pub const TOO_LONG: u8 = 1;
pub const UNKNOWN_KIND: u8 = 3;
pub const CUT_SHORT: u8 = 4;
pub const FIELD_RANGE: u8 = 5;
pub const ALREADY_IN: u8 = 6;
pub const NOT_IN: u8 = 7;
pub const WRONG_SLOT: u8 = 8;
pub const FLOAT_TOO_LONG: u8 = 9;
pub const NOT_OPPOSITE: u8 = 10;
pub const HOOK_FULL: u8 = 11;
pub const FOUL_STATE: u8 = 15;
pub const YARN_TWICE: u8 = 16;
pub const STRETCHED: u8 = 17;

/// The numbers of a record that was read whole, its fields in range, in the order of looking.
pub const RECORD_NUMBERS: [u8; 8] = [
    YARN_TWICE,
    STRETCHED,
    ALREADY_IN,
    NOT_IN,
    WRONG_SLOT,
    FLOAT_TOO_LONG,
    NOT_OPPOSITE,
    HOOK_FULL,
];

pub fn is_of_record(number: u8) -> bool {
    RECORD_NUMBERS.contains(&number)
}

pub const NEEDLES: usize = 250;
pub const CARRIERS: usize = 10;
pub const MAX_RACKING: i32 = 8;

/// Hook limits: "The machine state gains a hook limit, 1 to 8" (02, W2).
pub const LIMITS: RangeInclusive<u8> = 1..=8;

/// The limit of calls that are given none: "The listing and the C entry run with limit 8" (02, W2).
pub const HOOK_LIMIT: u8 = 8;

pub const FLOAT_LIMIT: i32 = 20;

/// A rack may leave yarn this long: "ends over 20" (02, W5).
pub const STRETCH_LIMIT: i32 = 20;
pub const PROGRAM_LIMIT: usize = 32_768;

pub const RACK: u8 = 0x01;
pub const DROP: u8 = 0x02;
pub const XFER: u8 = 0x03;
pub const IN: u8 = 0x04;
pub const OUT: u8 = 0x05;
pub const MISS: u8 = 0x06;
pub const TUCK: u8 = 0x07;
pub const KNIT: u8 = 0x08;
pub const SPLIT: u8 = 0x09;
pub const PLATED_TUCK: u8 = 0x0a;
pub const PLATED_KNIT: u8 = 0x0b;
pub const KINDS: RangeInclusive<u8> = RACK..=PLATED_KNIT;

#[derive(Clone, Copy, PartialEq, Eq, Debug)]
pub enum Bed {
    Front,
    Back,
}

/// A direction of travel, and the side of a needle.
#[derive(Clone, Copy, PartialEq, Eq, Debug)]
pub enum Direction {
    Left,
    Right,
}

#[derive(Clone, Copy, PartialEq, Eq, Debug)]
pub struct Needle {
    pub bed: Bed,
    pub number: usize,
}

#[derive(Clone, Copy, PartialEq, Eq, Debug)]
pub struct Attachment {
    pub needle: Needle,
    pub side: Direction,
}

/// An active carrier.
#[derive(Clone, Copy, PartialEq, Eq, Debug)]
pub struct Parked {
    pub slot: i32,
    pub attachment: Option<Attachment>,
}

/// Carrier k is at index k - 1; None is an inactive one. The limit is "given when a run starts and
/// kept by every step" (02, W2).
#[derive(Clone, PartialEq, Eq, Debug)]
pub struct State {
    pub racking: i32,
    pub front_loops: [u8; NEEDLES],
    pub back_loops: [u8; NEEDLES],
    pub limit: u8,
    pub carriers: [Option<Parked>; CARRIERS],
}

/// A carrier (by its index) moves over the column of a needle.
#[derive(Clone, Copy, PartialEq, Eq, Debug)]
pub struct CarrierMove {
    pub direction: Direction,
    pub needle: Needle,
    pub carrier: usize,
}

/// Two carriers (by their indices) move over the column of a needle.
#[derive(Clone, Copy, PartialEq, Eq, Debug)]
pub struct PlatedMove {
    pub first: CarrierMove,
    pub second_carrier: usize,
}

#[derive(Clone, Copy, PartialEq, Eq, Debug)]
pub enum Record {
    Rack(i32),
    Drop(Needle),
    Xfer(Needle, Needle),
    In(CarrierMove),
    Out(CarrierMove),
    Miss(CarrierMove),
    Tuck(CarrierMove),
    Knit(CarrierMove),
    Split(CarrierMove, Needle),
    PlatedTuck(PlatedMove),
    PlatedKnit(PlatedMove),
}

/// What a run answers; for a refusal the state precedes the refused record.
pub struct Answer {
    pub number: u8,
    pub place: usize,
    pub state: State,
}

impl Answer {
    /// A refusal before the program is looked at, at a limit in range.
    pub fn not_run(limit: u8, number: u8) -> Answer {
        Answer {
            number,
            place: 0,
            state: State::empty(limit),
        }
    }

    /// "a run or rewrite started with a bad limit gets 15 too, before everything else, with the
    /// empty state of limit 8, complete" (02, W2).
    pub fn bad_limit() -> Answer {
        Answer::not_run(HOOK_LIMIT, FOUL_STATE)
    }

    pub fn complete(&self) -> bool {
        self.state.complete()
    }

    /// The answer as the C entries give it.
    pub fn packed(&self) -> u64 {
        packed(self.number, self.place)
    }
}

/// Number and place in one word.
pub fn packed(number: u8, place: usize) -> u64 {
    u64::from(number) * 65_536 + place as u64
}

// Columns and slots.

impl Bed {
    pub fn other(self) -> Bed {
        match self {
            Bed::Front => Bed::Back,
            Bed::Back => Bed::Front,
        }
    }
}

impl Needle {
    pub fn column(self, racking: i32) -> i32 {
        match self.bed {
            Bed::Front => self.number as i32,
            Bed::Back => self.number as i32 + racking,
        }
    }
}

pub fn entry_slot(column: i32, direction: Direction) -> i32 {
    match direction {
        Direction::Right => column,
        Direction::Left => column + 1,
    }
}

pub fn exit_slot(column: i32, direction: Direction) -> i32 {
    match direction {
        Direction::Right => column + 1,
        Direction::Left => column,
    }
}

impl State {
    pub fn empty(limit: u8) -> State {
        State {
            racking: 0,
            front_loops: [0; NEEDLES],
            back_loops: [0; NEEDLES],
            limit,
            carriers: [None; CARRIERS],
        }
    }

    /// "The empty state has the limit given, and complete compares against that" (02, W2).
    pub fn complete(&self) -> bool {
        *self == State::empty(self.limit)
    }

    pub fn column(&self, needle: Needle) -> i32 {
        needle.column(self.racking)
    }

    pub fn loops(&self, needle: Needle) -> u8 {
        match needle.bed {
            Bed::Front => self.front_loops[needle.number],
            Bed::Back => self.back_loops[needle.number],
        }
    }

    fn set_loops(&mut self, needle: Needle, count: u8) {
        match needle.bed {
            Bed::Front => self.front_loops[needle.number] = count,
            Bed::Back => self.back_loops[needle.number] = count,
        }
    }
}

// Records: 3, 4 and 5.

pub fn body_length(kind: u8) -> Option<usize> {
    match kind {
        RACK => Some(1),
        DROP => Some(2),
        XFER => Some(3),
        IN..=KNIT => Some(4),
        SPLIT | PLATED_TUCK | PLATED_KNIT => Some(5),
        _ => None,
    }
}

fn read_racking(byte: u8) -> Option<i32> {
    let racking = i32::from(byte as i8);
    (-MAX_RACKING..=MAX_RACKING)
        .contains(&racking)
        .then_some(racking)
}

fn read_direction(byte: u8) -> Option<Direction> {
    match byte {
        0 => Some(Direction::Left),
        1 => Some(Direction::Right),
        _ => None,
    }
}

fn read_bed(byte: u8) -> Option<Bed> {
    match byte {
        0 => Some(Bed::Front),
        1 => Some(Bed::Back),
        _ => None,
    }
}

fn read_needle(bed: Bed, byte: u8) -> Option<Needle> {
    let number = usize::from(byte);
    (number < NEEDLES).then_some(Needle { bed, number })
}

fn read_carrier(byte: u8) -> Option<usize> {
    let carrier = usize::from(byte);
    (1..=CARRIERS).contains(&carrier).then(|| carrier - 1)
}

fn read_move(body: &[u8]) -> Option<CarrierMove> {
    Some(CarrierMove {
        direction: read_direction(body[0])?,
        needle: read_needle(read_bed(body[1])?, body[2])?,
        carrier: read_carrier(body[3])?,
    })
}

fn read_plated(body: &[u8]) -> Option<PlatedMove> {
    Some(PlatedMove {
        first: read_move(body)?,
        second_carrier: read_carrier(body[4])?,
    })
}

/// The record of a known kind and a whole body, if every field is in range.
fn read_fields(kind: u8, body: &[u8]) -> Option<Record> {
    match kind {
        RACK => Some(Record::Rack(read_racking(body[0])?)),
        DROP => Some(Record::Drop(read_needle(read_bed(body[0])?, body[1])?)),
        XFER => {
            let bed = read_bed(body[0])?;
            let first = read_needle(bed, body[1])?;
            Some(Record::Xfer(first, read_needle(bed.other(), body[2])?))
        }
        IN => Some(Record::In(read_move(body)?)),
        OUT => Some(Record::Out(read_move(body)?)),
        MISS => Some(Record::Miss(read_move(body)?)),
        TUCK => Some(Record::Tuck(read_move(body)?)),
        KNIT => Some(Record::Knit(read_move(body)?)),
        SPLIT => {
            let first = read_move(body)?;
            let second = read_needle(first.needle.bed.other(), body[4])?;
            Some(Record::Split(first, second))
        }
        PLATED_TUCK => Some(Record::PlatedTuck(read_plated(body)?)),
        PLATED_KNIT => Some(Record::PlatedKnit(read_plated(body)?)),
        _ => None,
    }
}

/// The first record of the bytes and its length, or 3, 4 or 5.
pub fn read_record(bytes: &[u8]) -> Result<(Record, usize), u8> {
    let kind = *bytes.first().ok_or(CUT_SHORT)?;
    let length = 1 + body_length(kind).ok_or(UNKNOWN_KIND)?;
    let body = bytes.get(1..length).ok_or(CUT_SHORT)?;
    let record = read_fields(kind, body).ok_or(FIELD_RANGE)?;
    Ok((record, length))
}

impl Record {
    pub fn kind(&self) -> u8 {
        match self {
            Record::Rack(_) => RACK,
            Record::Drop(_) => DROP,
            Record::Xfer(..) => XFER,
            Record::In(_) => IN,
            Record::Out(_) => OUT,
            Record::Miss(_) => MISS,
            Record::Tuck(_) => TUCK,
            Record::Knit(_) => KNIT,
            Record::Split(..) => SPLIT,
            Record::PlatedTuck(_) => PLATED_TUCK,
            Record::PlatedKnit(_) => PLATED_KNIT,
        }
    }

    /// The move of the carrier it names, of a plated stitch of the first one.
    pub fn carrier_move(&self) -> Option<CarrierMove> {
        match *self {
            Record::Rack(_) | Record::Drop(_) | Record::Xfer(..) => None,
            Record::In(m) | Record::Out(m) | Record::Miss(m) => Some(m),
            Record::Tuck(m) | Record::Knit(m) | Record::Split(m, _) => Some(m),
            Record::PlatedTuck(p) | Record::PlatedKnit(p) => Some(p.first),
        }
    }

    pub fn plated(&self) -> Option<PlatedMove> {
        match *self {
            Record::PlatedTuck(p) | Record::PlatedKnit(p) => Some(p),
            _ => None,
        }
    }

    /// The moves of all carriers it names, the first carrier's first.
    pub fn carrier_moves(&self) -> impl Iterator<Item = CarrierMove> {
        let second = self.plated().map(|p| p.second());
        self.carrier_move().into_iter().chain(second)
    }

    pub fn first_needle(&self) -> Option<Needle> {
        match *self {
            Record::Rack(_) => None,
            Record::Drop(needle) | Record::Xfer(needle, _) => Some(needle),
            _ => self.carrier_move().map(|m| m.needle),
        }
    }

    /// The needles between which loops and attachments go.
    pub fn transfer(&self) -> Option<(Needle, Needle)> {
        match *self {
            Record::Xfer(first, second) => Some((first, second)),
            Record::Split(m, second) => Some((m.needle, second)),
            _ => None,
        }
    }

    pub fn forms_loop(&self) -> bool {
        matches!(self, Record::Tuck(_) | Record::Knit(_) | Record::Split(..))
            || self.plated().is_some()
    }
}

impl PlatedMove {
    pub fn second(self) -> CarrierMove {
        CarrierMove {
            carrier: self.second_carrier,
            ..self.first
        }
    }
}

// Refusals 16, 17 and 6 to 11. Each says whether its own reason holds, whatever the others say.

fn yarn_twice(record: &Record) -> bool {
    record
        .plated()
        .is_some_and(|p| p.first.carrier == p.second_carrier)
}

impl Attachment {
    /// "right side: the needle's column + 1, left side: the column" (02, W5), at a racking.
    pub fn slot(self, racking: i32) -> i32 {
        let column = self.needle.column(racking);
        match self.side {
            Direction::Right => column + 1,
            Direction::Left => column,
        }
    }
}

impl Parked {
    /// "the distance from its attachment's slot [..] to its parked slot" (02, W5), at a racking.
    pub fn yarn(&self, racking: i32) -> Option<i32> {
        let slot = self.attachment?.slot(racking);
        Some((slot - self.slot).abs())
    }

    /// Whether a rack from one racking to another stretches the yarn: its length "ends over 20 and
    /// is greater than before" (02, W5).
    pub fn stretched(&self, before: i32, after: i32) -> bool {
        match (self.yarn(before), self.yarn(after)) {
            (Some(before), Some(after)) => after > STRETCH_LIMIT && after > before,
            _ => false,
        }
    }
}

/// "for some parked and attached carrier" (02, W5).
fn stretched(state: &State, record: &Record) -> bool {
    let Record::Rack(racking) = *record else {
        return false;
    };
    let mut parked = state.carriers.iter().flatten();
    parked.any(|parked| parked.stretched(state.racking, racking))
}

fn already_in(state: &State, record: &Record) -> bool {
    matches!(record, Record::In(m) if state.carriers[m.carrier].is_some())
}

fn not_in(state: &State, record: &Record) -> bool {
    !matches!(record, Record::In(_)) && record.carrier_moves().any(|m| carrier_not_in(state, m))
}

pub fn carrier_not_in(state: &State, m: CarrierMove) -> bool {
    state.carriers[m.carrier].is_none()
}

fn wrong_slot(state: &State, record: &Record) -> bool {
    match record {
        Record::In(_) => false,
        Record::Out(m) => carrier_elsewhere(state, *m, exit_slot),
        _ => record
            .carrier_moves()
            .any(|m| carrier_elsewhere(state, m, entry_slot)),
    }
}

/// Whether a carrier is parked, and not at the wanted slot of the column it moves over.
pub fn carrier_elsewhere(state: &State, m: CarrierMove, wanted: fn(i32, Direction) -> i32) -> bool {
    let slot = wanted(state.column(m.needle), m.direction);
    state.carriers[m.carrier].is_some_and(|parked| parked.slot != slot)
}

/// Columns from a carrier's attachment to the needle it moves over.
pub fn float_columns(state: &State, m: CarrierMove) -> Option<i32> {
    let attachment = state.carriers[m.carrier]?.attachment?;
    Some((state.column(attachment.needle) - state.column(m.needle)).abs())
}

pub fn carrier_too_far(state: &State, m: CarrierMove) -> bool {
    float_columns(state, m).is_some_and(|columns| columns > FLOAT_LIMIT)
}

fn float_too_long(state: &State, record: &Record) -> bool {
    record.forms_loop() && record.carrier_moves().any(|m| carrier_too_far(state, m))
}

fn not_opposite(state: &State, record: &Record) -> bool {
    match record.transfer() {
        Some((first, second)) => state.column(first) != state.column(second),
        None => false,
    }
}

/// The loops on a hook that are measured against the limit: those there after a tuck or plated
/// stitch, or on the second hook of an xfer or split. One loop always fits, so a knit and a split's
/// own loop are not measured.
pub fn loops_measured(state: &State, record: &Record) -> Option<u8> {
    match *record {
        Record::Tuck(m) => Some(state.loops(m.needle) + 1),
        Record::PlatedTuck(p) => Some(state.loops(p.first.needle) + 2),
        Record::PlatedKnit(_) => Some(2),
        _ => {
            let (first, second) = record.transfer()?;
            Some(state.loops(first) + state.loops(second))
        }
    }
}

/// "Number 11 is measured against it for all loop-forming and moving records, so a plated knit at
/// limit 1 gets 11" (02, W2).
fn hook_full(state: &State, record: &Record) -> bool {
    loops_measured(state, record).is_some_and(|loops| loops > state.limit)
}

pub fn holds(state: &State, record: &Record, number: u8) -> bool {
    match number {
        YARN_TWICE => yarn_twice(record),
        STRETCHED => stretched(state, record),
        ALREADY_IN => already_in(state, record),
        NOT_IN => not_in(state, record),
        WRONG_SLOT => wrong_slot(state, record),
        FLOAT_TOO_LONG => float_too_long(state, record),
        NOT_OPPOSITE => not_opposite(state, record),
        HOOK_FULL => hook_full(state, record),
        _ => false,
    }
}

/// The first number in the order of looking that holds, of 16, 17 and 6 to 11.
pub fn refusal(state: &State, record: &Record) -> Option<u8> {
    let mut numbers = RECORD_NUMBERS.into_iter();
    numbers.find(|&number| holds(state, record, number))
}

/// The first record of the bytes and its length, or the first of 3, 4, 5, 16, 17, 6 to 11 that holds.
pub fn look(state: &State, bytes: &[u8]) -> Result<(Record, usize), u8> {
    let (record, length) = read_record(bytes)?;
    match refusal(state, &record) {
        None => Ok((record, length)),
        Some(number) => Err(number),
    }
}

// Steps.

impl State {
    fn park(&mut self, m: CarrierMove) {
        let slot = exit_slot(self.column(m.needle), m.direction);
        if let Some(parked) = &mut self.carriers[m.carrier] {
            parked.slot = slot;
        }
    }

    fn attach(&mut self, m: CarrierMove) {
        if let Some(parked) = &mut self.carriers[m.carrier] {
            parked.attachment = Some(Attachment {
                needle: m.needle,
                side: m.direction,
            });
        }
    }

    fn transfer(&mut self, first: Needle, second: Needle) {
        self.set_loops(second, self.loops(first) + self.loops(second));
        self.set_loops(first, 0);
        for parked in self.carriers.iter_mut().flatten() {
            if let Some(attachment) = &mut parked.attachment {
                if attachment.needle == first {
                    attachment.needle = second;
                }
            }
        }
    }

    fn stitch(&mut self, m: CarrierMove, count: u8) {
        self.set_loops(m.needle, count);
        self.park(m);
        self.attach(m);
    }

    fn plated_stitch(&mut self, p: PlatedMove, count: u8) {
        self.stitch(p.first, count);
        self.stitch(p.second(), count);
    }
}

/// Makes the step of a record that has no refusal.
pub fn apply(state: &mut State, record: &Record) {
    match *record {
        Record::Rack(racking) => state.racking = racking,
        Record::Drop(needle) => state.set_loops(needle, 0),
        Record::Xfer(first, second) => state.transfer(first, second),
        Record::In(m) => {
            let slot = entry_slot(state.column(m.needle), m.direction);
            state.carriers[m.carrier] = Some(Parked {
                slot,
                attachment: None,
            });
        }
        Record::Out(m) => state.carriers[m.carrier] = None,
        Record::Miss(m) => state.park(m),
        Record::Tuck(m) => state.stitch(m, state.loops(m.needle) + 1),
        Record::Knit(m) => state.stitch(m, 1),
        Record::Split(m, second) => {
            state.transfer(m.needle, second);
            state.stitch(m, 1);
        }
        Record::PlatedTuck(p) => state.plated_stitch(p, state.loops(p.first.needle) + 2),
        Record::PlatedKnit(p) => state.plated_stitch(p, 2),
    }
}

/// One record: the state changes only if there is no refusal.
pub fn step(state: &mut State, record: &Record) -> Result<(), u8> {
    match refusal(state, record) {
        Some(number) => Err(number),
        None => {
            apply(state, record);
            Ok(())
        }
    }
}

// The run.

/// Runs the records in turn at a hook limit in range, whatever the program's length. Before each
/// step, `watch` gets the state, the bytes from the record on, and the record's number.
pub fn run_records(limit: u8, program: &[u8], mut watch: impl FnMut(&State, &[u8], u8)) -> Answer {
    let mut state = State::empty(limit);
    let mut place = 0;
    while place < program.len() {
        let bytes = &program[place..];
        match look(&state, bytes) {
            Ok((record, length)) => {
                watch(&state, bytes, DONE);
                apply(&mut state, &record);
                place += length;
            }
            Err(number) => {
                watch(&state, bytes, number);
                return Answer {
                    number,
                    place,
                    state,
                };
            }
        }
    }
    Answer {
        number: DONE,
        place: 0,
        state,
    }
}

pub fn run_watched(limit: u8, program: &[u8], watch: impl FnMut(&State, &[u8], u8)) -> Answer {
    if !LIMITS.contains(&limit) {
        return Answer::bad_limit();
    }
    if program.len() > PROGRAM_LIMIT {
        return Answer::not_run(limit, TOO_LONG);
    }
    run_records(limit, program, watch)
}

pub fn run_at(limit: u8, program: &[u8]) -> Answer {
    run_watched(limit, program, |_, _, _| {})
}

pub fn run(program: &[u8]) -> Answer {
    run_at(HOOK_LIMIT, program)
}
