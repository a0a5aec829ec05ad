//! What the compared programs came to at limit 8: kinds, numbers, fields, floats, hooks, lengths.

use crate::limit_coverage::{LimitCoverage, RUN};
use crate::machine::*;
use crate::plated_coverage::PlatedCoverage;
use crate::stretch_coverage::StretchCoverage;

/// Kinds and numbers, 0 included.
pub const KIND_COUNT: usize = 12;
pub const NUMBERS: usize = 18;

pub const KIND_NAMES: [&str; KIND_COUNT] = [
    "",
    "rack",
    "drop",
    "xfer",
    "in",
    "out",
    "miss",
    "tuck",
    "knit",
    "split",
    "plated tuck",
    "plated knit",
];

/// The numbers that a run can give, in the order of looking.
const RUN_NUMBERS: [usize; 13] = [0, 1, 3, 4, 5, 16, 17, 6, 7, 8, 9, 10, 11];

/// For each kind, the numbers it can get at limit 8 besides 0, 4 and 5.
pub const KIND_NUMBERS: [(u8, &[u8]); 11] = [
    (RACK, &[17]),
    (DROP, &[]),
    (XFER, &[10, 11]),
    (IN, &[6]),
    (OUT, &[7, 8]),
    (MISS, &[7, 8]),
    (TUCK, &[7, 8, 9, 11]),
    (KNIT, &[7, 8, 9]),
    (SPLIT, &[7, 8, 9, 10, 11]),
    (PLATED_TUCK, &[16, 7, 8, 9, 11]),
    (PLATED_KNIT, &[16, 7, 8, 9]),
];

/// For each kind, two reasons that can hold for one record; the first is given. Reason 5 can
/// stand before each of `KIND_NUMBERS`.
const KIND_PAIRS: [(u8, &[(u8, u8)]); 12] = [
    (XFER, &[(10, 11)]),
    (TUCK, &[(7, 11), (8, 9), (8, 11), (9, 11)]),
    (KNIT, &[(8, 9)]),
    (SPLIT, &[(4, 7), (4, 8), (4, 9), (7, 10), (7, 11)]),
    (SPLIT, &[(8, 9), (8, 10), (8, 11)]),
    (SPLIT, &[(9, 10), (9, 11), (10, 11)]),
    (PLATED_TUCK, &[(4, 7), (4, 8), (4, 9), (4, 11)]),
    (PLATED_TUCK, &[(16, 7), (16, 8), (16, 9), (16, 11)]),
    (PLATED_TUCK, &[(7, 8), (7, 9), (7, 11), (8, 9)]),
    (PLATED_TUCK, &[(8, 11), (9, 11)]),
    (PLATED_KNIT, &[(4, 7), (4, 8), (4, 9), (16, 7), (16, 8)]),
    (PLATED_KNIT, &[(16, 9), (7, 8), (7, 9), (8, 9)]),
];

macro_rules! events {
    ($($name:ident: $text:expr,)*) => {
        #[derive(Clone, Copy)]
        pub enum Event { $($name,)* }
        const EVENTS: &[&str] = &[$($text,)*];
    };
}
pub(crate) use events;

events! {
    CompleteEnd: "program with records ends complete",
    TenActive: "record reached with ten active carriers",
    LeftmostSlot: "carrier parked at slot -8",
    RightmostSlot: "carrier parked at slot 258",
    RackedSlot: "parked, then racked, then accepted at the slot",
    KnitEmpty: "knit on an empty hook",
    KnitFull: "knit on a hook of 8",
    TuckToFull: "tuck that makes 8 loops",
    XferEmpty: "xfer from an empty hook",
    SplitEmpty: "split from an empty hook",
    XferToFull: "xfer that makes exactly 8 loops",
    XferNine: "xfer refused at a sum of 9 loops",
    XferSixteen: "xfer refused at a sum of 16 loops",
    SplitToFull: "split that makes exactly 8 loops",
    SplitNine: "split refused at a sum of 9 loops",
    XferMovesSeveral: "xfer that moves 2 or more attachments",
    SplitMovesSeveral: "split that moves 2 or more attachments",
    SplitMovesOwn: "split by a carrier attached to the needle worked",
    SameNumberRacked: "transfer refused: equal needle numbers, racking not 0",
    FloatEmptyHook: "float of 21 from an emptied hook",
    FloatNegative: "float of 20 or 21 with a column below 0",
    FloatBeyond: "float of 20 or 21 with a column over 249",
    FloatWidest: "float of 256 or 257 columns refused",
    FarMiss: "miss over 20 columns from the attachment",
    FarOut: "out over 20 columns from the attachment",
    FreeAgain: "stitch over 20 columns from an attachment before out",
    DoneEmpty: "done at length 0",
    DoneBelowLimit: "done at length 32767",
    DoneAtLimit: "done at length 32768",
    OtherwiseValid: "too long at 32769, otherwise valid",
    TooLongFaulty: "too long with another fault",
    TooLongFar: "too long at 65536 or more",
    LastUnknown: "unknown kind at place 32767",
    LastCut: "cut short at place 32767",
    LateRefusal: "16, 17 or 6 to 11 at a place of 32760 or more",
    LastStretched: "17 at place 32766",
    TooLongStretched: "too long at 32770, otherwise 17 at the end",
    PlatedMoved: "plated stitch by two carriers that a transfer moved",
}

/// How a carrier came to its attachment and slot. `formed_by` is the stitch's kind from tuck on;
/// `left` is the needle it was attached to when it went out.
#[derive(Clone, Copy)]
struct Past {
    formed_by: usize,
    moved_by: usize,
    attach_racking: i32,
    park_racking: i32,
    left: Option<Needle>,
}

const NO_PAST: Past = Past {
    formed_by: 0,
    moved_by: 0,
    attach_racking: 0,
    park_racking: 0,
    left: None,
};

/// Values of `moved_by`: 0 not moved, 1 by xfer, 2 by xfer from an empty hook, 3 by split, 4 by
/// split from an empty hook.
const WAYS_MOVED: usize = 5;

/// Kinds that form a loop; then with the second carriers of plated stitches counted apart.
const STITCHES: usize = 5;
const STITCHING: usize = STITCHES + 2;

type Values = [[[u64; 256]; 6]; KIND_COUNT];

pub struct Coverage {
    numbers: [u64; NUMBERS],
    kinds: [[u64; NUMBERS]; KIND_COUNT],
    pairs: [[[u64; NUMBERS]; NUMBERS]; KIND_COUNT],
    cuts: [[u64; 6]; KIND_COUNT],
    bad_cuts: [[[u64; 6]; 6]; KIND_COUNT],
    edge_needles: [[[u64; 2]; 2]; KIND_COUNT],
    unknown: [u64; 256],
    unknown_follow: [u64; 7],
    accepted: Box<Values>,
    out_of_range: Box<Values>,
    stitched: [u64; STITCHING * 64],
    attached: [u64; STITCHES * WAYS_MOVED * 8],
    plated: PlatedCoverage,
    stretch: StretchCoverage,
    pub limits: LimitCoverage,
    events: [u64; EVENTS.len()],
    pasts: [Past; CARRIERS],
}

/// The position of a list of choices among all such lists; each is (choice, of how many).
pub fn class(choices: &[(usize, usize)]) -> usize {
    choices
        .iter()
        .fold(0, |position, &(choice, of)| position * of + choice)
}

impl Coverage {
    pub fn new() -> Coverage {
        Coverage {
            numbers: [0; NUMBERS],
            kinds: [[0; NUMBERS]; KIND_COUNT],
            pairs: [[[0; NUMBERS]; NUMBERS]; KIND_COUNT],
            cuts: [[0; 6]; KIND_COUNT],
            bad_cuts: [[[0; 6]; 6]; KIND_COUNT],
            edge_needles: [[[0; 2]; 2]; KIND_COUNT],
            unknown: [0; 256],
            unknown_follow: [0; 7],
            accepted: Box::new([[[0; 256]; 6]; KIND_COUNT]),
            out_of_range: Box::new([[[0; 256]; 6]; KIND_COUNT]),
            stitched: [0; STITCHING * 64],
            attached: [0; STITCHES * WAYS_MOVED * 8],
            plated: PlatedCoverage::new(),
            stretch: StretchCoverage::new(),
            limits: LimitCoverage::new(RUN),
            events: [0; EVENTS.len()],
            pasts: [NO_PAST; CARRIERS],
        }
    }

    /// Runs the model on a program at limit 8 and counts what it comes to.
    pub fn run(&mut self, program: &[u8]) -> Answer {
        self.pasts = [NO_PAST; CARRIERS];
        let answer = run_watched(HOOK_LIMIT, program, |state, bytes, number| {
            self.limits.record(state, bytes, number);
            self.record(state, bytes, number);
        });
        self.limits.call(HOOK_LIMIT, answer.number);
        self.numbers[usize::from(answer.number)] += 1;
        self.ending(program, &answer);
        answer
    }

    fn note(&mut self, event: Event, happened: bool) {
        self.events[event as usize] += u64::from(happened);
    }

    fn ending(&mut self, program: &[u8], answer: &Answer) {
        let (number, place, length) = (answer.number, answer.place, program.len());
        let done = number == DONE;
        self.note(Event::CompleteEnd, done && length > 0 && answer.complete());
        self.note(Event::DoneEmpty, done && length == 0);
        self.note(Event::DoneBelowLimit, done && length == PROGRAM_LIMIT - 1);
        self.note(Event::DoneAtLimit, done && length == PROGRAM_LIMIT);
        self.note(
            Event::LastUnknown,
            number == UNKNOWN_KIND && place == PROGRAM_LIMIT - 1,
        );
        self.note(
            Event::LastCut,
            number == CUT_SHORT && place == PROGRAM_LIMIT - 1,
        );
        self.note(
            Event::LateRefusal,
            is_of_record(number) && place >= PROGRAM_LIMIT - 8,
        );
        self.note(
            Event::LastStretched,
            number == STRETCHED && place == PROGRAM_LIMIT - 2,
        );
        if number == TOO_LONG {
            let run = run_records(HOOK_LIMIT, program, |_, _, _| {});
            let valid = run.number == DONE;
            let stretched = run.number == STRETCHED && run.place == PROGRAM_LIMIT;
            self.note(Event::TooLongStretched, stretched);
            self.note(Event::OtherwiseValid, valid && length == PROGRAM_LIMIT + 1);
            self.note(Event::TooLongFaulty, !valid);
            self.note(Event::TooLongFar, length >= 65_536);
        }
    }

    fn record(&mut self, state: &State, bytes: &[u8], number: u8) {
        let kind = usize::from(bytes[0]);
        if number == UNKNOWN_KIND {
            self.unknown[kind] += 1;
            self.unknown_follow[(bytes.len() - 1).min(6)] += 1;
            return;
        }
        self.kinds[kind][usize::from(number)] += 1;
        self.plated.record(state, bytes, number);
        self.stretch.record(state, bytes, number);
        match number {
            CUT_SHORT => self.cut(state, bytes),
            FIELD_RANGE => self.bad_field(state, bytes),
            _ => {
                let Ok((record, length)) = read_record(bytes) else {
                    return;
                };
                if number == DONE {
                    self.accepted_fields(&bytes[..length]);
                    self.accepted_record(state, &record, kind);
                } else {
                    self.refused_record(state, &record, kind, number);
                }
                self.float(state, &record, kind, number);
                if number == DONE {
                    self.follow(state, &record);
                }
            }
        }
    }

    /// Counts the bytes left, each field out of range among them, and what holds of a split or of a
    /// plated stitch's first carrier.
    fn cut(&mut self, state: &State, bytes: &[u8]) {
        let (kind, length) = (usize::from(bytes[0]), bytes.len());
        self.cuts[kind][length] += 1;
        for field in (1..length).filter(|&field| !in_range(bytes[0], field, bytes[field])) {
            self.bad_cuts[kind][length][field] += 1;
        }
        if length == 5 {
            let mut mended = [bytes, &[0]].concat();
            match bytes[0] {
                PLATED_TUCK => mended[0] = TUCK,
                PLATED_KNIT => mended[0] = KNIT,
                _ => (),
            }
            let mended = read_record(&mended).ok().map(|(record, _)| record);
            self.pairs_besides(state, bytes[0], mended, CUT_SHORT);
        }
    }

    /// Counts the reasons that hold for a record with number 4 or 5 when it is mended.
    fn pairs_besides(&mut self, state: &State, kind: u8, mended: Option<Record>, number: u8) {
        let Some(record) = mended else {
            return;
        };
        let also = |other: &u8| holds(state, &record, *other);
        for other in RECORD_NUMBERS.into_iter().filter(also) {
            self.pairs[usize::from(kind)][usize::from(number)][usize::from(other)] += 1;
        }
    }

    /// Counts a value that is the only one out of range, and the reasons that hold besides; for a
    /// racking out of range, at that racking.
    fn bad_field(&mut self, state: &State, bytes: &[u8]) {
        let kind = bytes[0];
        let fields = 1..=body_length(kind).unwrap_or(0);
        let bad: Vec<usize> = fields.filter(|&f| !in_range(kind, f, bytes[f])).collect();
        let [field] = bad[..] else { return };
        self.out_of_range[usize::from(kind)][field][usize::from(bytes[field])] += 1;
        let mended = if kind == RACK {
            Some(Record::Rack((bytes[field] as i8).into()))
        } else {
            let mut mended = bytes.to_vec();
            mended[field] = 1;
            read_record(&mended).ok().map(|(record, _)| record)
        };
        self.pairs_besides(state, kind, mended, FIELD_RANGE);
    }

    fn accepted_fields(&mut self, bytes: &[u8]) {
        for (field, &value) in bytes.iter().enumerate().skip(1) {
            self.accepted[usize::from(bytes[0])][field][usize::from(value)] += 1;
        }
    }

    fn accepted_record(&mut self, state: &State, record: &Record, kind: usize) {
        if let Some(needle) = record
            .first_needle()
            .filter(|n| n.number == 0 || n.number == 249)
        {
            self.edge_needles[kind][needle.bed as usize][usize::from(needle.number > 0)] += 1;
        }
        let active = state.carriers.iter().flatten().count();
        self.note(Event::TenActive, active == CARRIERS);
        match *record {
            Record::Knit(m) => {
                self.note(Event::KnitEmpty, state.loops(m.needle) == 0);
                self.note(Event::KnitFull, state.loops(m.needle) == HOOK_LIMIT);
            }
            Record::Tuck(m) => {
                self.note(Event::TuckToFull, state.loops(m.needle) == HOOK_LIMIT - 1);
            }
            Record::Miss(m) => self.note(Event::FarMiss, far_from_attachment(state, m)),
            Record::Out(m) => self.note(Event::FarOut, far_from_attachment(state, m)),
            _ => (),
        }
        if let Some((first, second)) = record.transfer() {
            self.accepted_transfer(state, record, first, second);
        }
    }

    fn accepted_transfer(&mut self, state: &State, record: &Record, first: Needle, second: Needle) {
        let split = record.forms_loop();
        let from = state.loops(first);
        let to_full = from > 0 && from + state.loops(second) == HOOK_LIMIT;
        let attachments = state.carriers.iter().flatten().filter_map(|p| p.attachment);
        let several = attachments.filter(|a| a.needle == first).count() > 1;
        let own = record
            .carrier_move()
            .is_some_and(|m| attached_to(state, m.carrier, first));
        if split {
            self.note(Event::SplitEmpty, from == 0);
            self.note(Event::SplitToFull, to_full);
            self.note(Event::SplitMovesSeveral, several);
            self.note(Event::SplitMovesOwn, own);
        } else {
            self.note(Event::XferEmpty, from == 0);
            self.note(Event::XferToFull, to_full);
            self.note(Event::XferMovesSeveral, several);
        }
    }

    fn refused_record(&mut self, state: &State, record: &Record, kind: usize, number: u8) {
        let behind = RECORD_NUMBERS.iter().skip_while(|&&n| n != number).skip(1);
        for &other in behind {
            let also = holds(state, record, other);
            self.pairs[kind][usize::from(number)][usize::from(other)] += u64::from(also);
        }
        let Some((first, second)) = record.transfer() else {
            return;
        };
        let equal_numbers = first.number == second.number && state.racking != 0;
        self.note(
            Event::SameNumberRacked,
            number == NOT_OPPOSITE && equal_numbers,
        );
        let loops = state.loops(first) + state.loops(second);
        if number == HOOK_FULL {
            let split = record.forms_loop();
            self.note(Event::SplitNine, split && loops == 9);
            self.note(Event::XferNine, !split && loops == 9);
            self.note(Event::XferSixteen, !split && loops == 16);
        }
    }

    /// Counts accepted floats of 20 columns and refused ones of 21.
    fn float(&mut self, state: &State, record: &Record, kind: usize, number: u8) {
        if !record.forms_loop() {
            return;
        }
        let refused = number == FLOAT_TOO_LONG;
        let stitch = kind - usize::from(TUCK);
        let stitching = [stitch, stitch + STITCHING - STITCHES];
        for (m, stitching) in record.carrier_moves().zip(stitching) {
            let columns = float_columns(state, m).unwrap_or(0);
            self.note(Event::FloatWidest, columns >= 256 && refused);
            let (exact, over) = (columns == 20 && number == DONE, columns == 21 && refused);
            let attachment = state.carriers[m.carrier].and_then(|p| p.attachment);
            if let Some(attachment) = attachment.filter(|_| exact || over) {
                self.float_classes(state, m, attachment, stitching, over);
            }
        }
    }

    fn float_classes(
        &mut self,
        state: &State,
        m: CarrierMove,
        a: Attachment,
        stitching: usize,
        over: bool,
    ) {
        let past = self.pasts[m.carrier];
        let (from, to) = (state.column(a.needle), state.column(m.needle));
        self.stitched[class(&[
            (stitching, STITCHING),
            (usize::from(over), 2),
            (a.needle.bed as usize, 2),
            (m.needle.bed as usize, 2),
            (a.side as usize, 2),
            (m.direction as usize, 2),
            (usize::from(from < to), 2),
        ])] += 1;
        self.attached[class(&[
            (past.formed_by, STITCHES),
            (past.moved_by, WAYS_MOVED),
            (usize::from(past.attach_racking != state.racking), 2),
            (a.needle.bed as usize, 2),
            (usize::from(over), 2),
        ])] += 1;
        let empty = state.loops(a.needle) == 0;
        self.note(Event::FloatEmptyHook, over && empty);
        self.note(Event::FloatNegative, from.min(to) < 0);
        self.note(Event::FloatBeyond, from.max(to) >= NEEDLES as i32);
    }

    /// Follows the attachments over an accepted record.
    fn follow(&mut self, state: &State, record: &Record) {
        if let Some((first, _)) = record.transfer() {
            let split = usize::from(record.forms_loop());
            let empty = usize::from(state.loops(first) == 0);
            for carrier in 0..CARRIERS {
                if attached_to(state, carrier, first) {
                    self.pasts[carrier].moved_by = 1 + 2 * split + empty;
                }
            }
        }
        if let Some(p) = record.plated() {
            let moved = |carrier: usize| self.pasts[carrier].moved_by > 0;
            let both = moved(p.first.carrier) && moved(p.second_carrier);
            self.note(Event::PlatedMoved, both);
        }
        for m in record.carrier_moves() {
            self.follow_carrier(state, record, m);
        }
    }

    fn follow_carrier(&mut self, state: &State, record: &Record, m: CarrierMove) {
        let mut past = self.pasts[m.carrier];
        let column = state.column(m.needle);
        let active = state.carriers[m.carrier].is_some();
        self.note(
            Event::RackedSlot,
            active && past.park_racking != state.racking,
        );
        past.park_racking = state.racking;
        if record.forms_loop() {
            let far = |needle| (state.column(needle) - column).abs() > FLOAT_LIMIT;
            self.note(Event::FreeAgain, past.left.is_some_and(far));
            past.formed_by = usize::from(record.kind() - TUCK);
            past.moved_by = 0;
            past.attach_racking = state.racking;
            past.left = None;
        }
        if let (Record::Out(_), Some(parked)) = (record, state.carriers[m.carrier]) {
            past.left = parked.attachment.map(|a| a.needle);
        }
        let slot = match record {
            Record::In(_) => entry_slot(column, m.direction),
            _ => exit_slot(column, m.direction),
        };
        let stays = !matches!(record, Record::Out(_));
        self.note(Event::LeftmostSlot, stays && slot == -8);
        self.note(Event::RightmostSlot, stays && slot == 258);
        self.pasts[m.carrier] = past;
    }
}

fn attached_to(state: &State, carrier: usize, needle: Needle) -> bool {
    state.carriers[carrier]
        .and_then(|p| p.attachment)
        .is_some_and(|a| a.needle == needle)
}

fn far_from_attachment(state: &State, m: CarrierMove) -> bool {
    let attachment = state.carriers[m.carrier].and_then(|p| p.attachment);
    let column = state.column(m.needle);
    attachment.is_some_and(|a| (state.column(a.needle) - column).abs() > FLOAT_LIMIT)
}

// Fields.

/// Lowest and highest value of a field; field 1 is the byte after the kind.
fn field_range(kind: u8, field: usize) -> (i32, i32) {
    const BIT: (i32, i32) = (0, 1);
    const NEEDLE: (i32, i32) = (0, NEEDLES as i32 - 1);
    match (kind, field) {
        (RACK, _) => (-MAX_RACKING, MAX_RACKING),
        (DROP | XFER, 1) => BIT,
        (DROP | XFER, _) => NEEDLE,
        (_, 1 | 2) => BIT,
        (_, 4) | (PLATED_TUCK | PLATED_KNIT, 5) => (1, CARRIERS as i32),
        _ => NEEDLE,
    }
}

fn in_range(kind: u8, field: usize, byte: u8) -> bool {
    let value = if kind == RACK {
        i32::from(byte as i8)
    } else {
        i32::from(byte)
    };
    let (low, high) = field_range(kind, field);
    low <= value && value <= high
}

/// Values of a field that must have been accepted, and those that must have been refused.
fn field_bounds(kind: u8, field: usize) -> (Vec<u8>, Vec<u8>) {
    let (low, high) = field_range(kind, field);
    let accepted: Vec<u8> = match (low, high) {
        (0, 249) => vec![0, 249],
        _ => (low..=high).map(|value| value as u8).collect(),
    };
    let edges = [low - 1, high + 1, 0x7f, 0x80, 0xff].map(|value| value as u8);
    let refused = edges
        .into_iter()
        .filter(|&value| !in_range(kind, field, value))
        .collect();
    (accepted, refused)
}

// What is missing, and the table.

impl Coverage {
    /// The names of counts that are zero and should not be.
    pub fn missing(&self) -> Vec<String> {
        let mut missing = Vec::new();
        for number in RUN_NUMBERS {
            if self.numbers[number] == 0 {
                missing.push(format!("number {number}"));
            }
        }
        for (name, _) in EVENTS.iter().zip(self.events).filter(|e| e.1 == 0) {
            missing.push(name.to_string());
        }
        for kind in (0..=255).filter(|&kind| body_length(kind).is_none()) {
            if self.unknown[usize::from(kind)] == 0 {
                missing.push(format!("unknown kind {kind}"));
            }
        }
        self.missing_kinds(&mut missing);
        self.missing_fields(&mut missing);
        self.missing_classes(&mut missing);
        missing.extend(self.plated.missing("run"));
        missing.extend(self.stretch.missing("run"));
        missing.extend(self.limits.missing());
        missing
    }

    /// The names of counts that are not zero, of what cannot occur.
    pub fn impossible(&self) -> Vec<String> {
        let mut impossible = self.limits.impossible();
        impossible.extend(self.stretch.impossible("run"));
        impossible
    }

    fn missing_classes(&self, missing: &mut Vec<String>) {
        let lists: [(&str, &[u64]); 3] = [
            ("bytes after an unknown kind:", &self.unknown_follow),
            ("float by stitch, class", &self.stitched),
            ("float by attachment, class", &self.attached),
        ];
        for (name, counts) in lists {
            for position in (0..counts.len()).filter(|&position| counts[position] == 0) {
                missing.push(format!("{name} {position}"));
            }
        }
        for kind in usize::from(DROP)..KIND_COUNT {
            for (bed, counts) in ["f", "b"].iter().zip(self.edge_needles[kind]) {
                for (needle, _) in [0, 249].iter().zip(counts).filter(|e| e.1 == 0) {
                    missing.push(format!("{} at {bed}.{needle}", KIND_NAMES[kind]));
                }
            }
        }
    }

    fn missing_kinds(&self, missing: &mut Vec<String>) {
        for (kind, numbers) in KIND_NUMBERS {
            let name = KIND_NAMES[usize::from(kind)];
            let counts = &self.kinds[usize::from(kind)];
            for &number in [DONE, CUT_SHORT, FIELD_RANGE].iter().chain(numbers) {
                if counts[usize::from(number)] == 0 {
                    missing.push(format!("{name} with number {number}"));
                }
            }
            for &number in numbers {
                if self.pairs[usize::from(kind)][5][usize::from(number)] == 0 {
                    missing.push(format!("{name} with 5 while {number} holds"));
                }
            }
        }
        for (kind, pairs) in KIND_PAIRS {
            for &(given, other) in pairs {
                if self.pairs[usize::from(kind)][usize::from(given)][usize::from(other)] == 0 {
                    let name = KIND_NAMES[usize::from(kind)];
                    missing.push(format!("{name} with {given} while {other} holds"));
                }
            }
        }
    }

    fn missing_fields(&self, missing: &mut Vec<String>) {
        for kind in KINDS {
            let name = KIND_NAMES[usize::from(kind)];
            for field in 1..=body_length(kind).unwrap_or(0) {
                let (accepted, refused) = field_bounds(kind, field);
                let good = &self.accepted[usize::from(kind)][field];
                let bad = &self.out_of_range[usize::from(kind)][field];
                for value in accepted.into_iter().filter(|&v| good[usize::from(v)] == 0) {
                    missing.push(format!("{name} field {field} accepted with {value:02x}"));
                }
                for value in refused.into_iter().filter(|&v| bad[usize::from(v)] == 0) {
                    missing.push(format!("{name} field {field} refused with {value:02x}"));
                }
                if self.cuts[usize::from(kind)][field] == 0 {
                    missing.push(format!("{name} cut to {field} bytes"));
                }
                for bad in (1..field).filter(|&b| self.bad_cuts[usize::from(kind)][field][b] == 0) {
                    missing.push(format!(
                        "{name} cut to {field} bytes, field {bad} out of range"
                    ));
                }
            }
        }
    }

    pub fn print(&self) {
        let columns = |cell: &dyn Fn(usize) -> u64| -> String {
            let cells = RUN_NUMBERS
                .iter()
                .map(|&number| format!("{:>9}", cell(number)));
            cells.collect()
        };
        println!("{:<11}{}", "number", columns(&|number| number as u64));
        println!(
            "{:<11}{}",
            "programs",
            columns(&|number| self.numbers[number])
        );
        for (name, counts) in KIND_NAMES.iter().zip(&self.kinds).skip(1) {
            println!("{name:<11}{}", columns(&|number| counts[number]));
        }
        println!("unknown    {:>27}", self.unknown.iter().sum::<u64>());
        self.print_pairs();
        self.plated.print("run");
        self.stretch.print("run");
        for (name, counts) in [
            ("stitch", &self.stitched[..]),
            ("attachment", &self.attached[..]),
        ] {
            let least = counts.iter().min().copied().unwrap_or(0);
            let classes = counts.iter().filter(|&&count| count > 0).count();
            let all = counts.len();
            println!("floats of 20 and 21 by {name}: {classes} of {all} classes, least {least}");
        }
        for (name, count) in EVENTS.iter().zip(self.events) {
            println!("{count:>9}  {name}");
        }
        self.limits.print();
    }

    fn print_pairs(&self) {
        println!("records with a number while a later one holds:");
        for kind in 1..KIND_COUNT {
            let mut cells = Vec::new();
            for (place, given) in RUN_NUMBERS.into_iter().enumerate() {
                for other in RUN_NUMBERS.into_iter().skip(place + 1) {
                    let count = self.pairs[kind][given][other];
                    if count > 0 {
                        cells.push(format!("{given}/{other} {count}"));
                    }
                }
            }
            println!("  {:<12}{}", KIND_NAMES[kind], cells.join(", "));
        }
    }
}
