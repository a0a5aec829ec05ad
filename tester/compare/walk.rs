//! Records and states that lead into corners: a walk that knows the machine state which it is in.

use crate::random::Random;
use rules::lent::*;
use rules::rules::Rules;
use rules::state::*;

// How often a walk aims at each kind, at a lead (misses one way, about as far as a float or a stretch may be, then a stitch), and at the
// last record again. In this order:
//   rack, drop, xfer, in, out, miss, tuck, knit, split, plated tuck, plated knit, lead, again
const WALK: [u32; 13] = [3, 4, 5, 6, 2, 6, 6, 6, 3, 4, 4, 1, 1];
const FILL: [u32; 13] = [1, 1, 9, 4, 1, 1, 12, 2, 4, 8, 3, 0, 2];
const FLOAT: [u32; 13] = [3, 1, 2, 4, 1, 2, 5, 5, 3, 3, 3, 9, 0];
const RACKS: [u32; 13] = [14, 1, 3, 4, 1, 4, 5, 3, 2, 2, 2, 7, 0];
const SPARSE: [u32; 13] = [1, 12, 12, 3, 0, 2, 2, 2, 1, 1, 1, 0, 2];
const EQUAL: [u32; 13] = [1, 4, 4, 3, 2, 4, 3, 2, 1, 1, 1, 0, 14];
const STYLES: [[u32; 13]; 6] = [WALK, FILL, FLOAT, RACKS, SPARSE, EQUAL];

/// Values at the edges of fields, and just beyond.
const EDGES: [u8; 24] =
    [0, 1, 2, 3, 7, 8, 9, 10, 11, 12, 16, 63, 64, 127, 128, 246, 247, 248, 249, 250, 251, 254, 255, 0x22];

pub struct Walk<'a> {
    pub rules: &'a Rules,
    pub random: Random,
    pub state: State,
    style: [u32; 13],
    /// The columns where the walk stays.
    home: (i32, i32),
    /// The carriers that it uses.
    carriers: Vec<usize>,
    /// A carrier, a way, and how many misses are still to come; then a stitch.
    lead: Option<(usize, Way, usize)>,
    last: Vec<u8>,
    /// How many bytes the walk has made; and for each number the last record that got it, with the bytes made before.
    made: usize,
    pub turned_away: Vec<Option<(usize, Vec<u8>)>>,
}

impl<'a> Walk<'a> {
    pub fn new(rules: &'a Rules, seed: u64) -> Walk<'a> {
        let random = Random::new(seed);
        let state = State::empty(8);
        let (lead, last, turned_away) = (None, vec![], vec![None; NUMBERS]);
        Walk { rules, random, state, style: WALK, home: (0, 9), carriers: vec![1], lead, last, made: 0, turned_away }
    }

    /// Begins another walk at a limit: where, with which carriers, in which style.
    pub fn begin(&mut self, limit: u8) {
        self.state = State::empty(limit);
        self.lead = None;
        self.last.clear();
        self.made = 0;
        self.turned_away.fill(None);
        self.style = self.random.pick(&STYLES);
        let reach = self.random.pick(&[0, 1, 2, 4, 12, 40, 249]);
        let from = self.random.pick(&[-8, 0, 246 - reach, 257 - reach, 100, 1000]);
        let from = if from == 1000 { self.random.from(-8, 257 - reach) } else { from };
        self.home = (from, from + reach);
        let count = self.random.pick(&[1, 2, 2, 3, 4, 10]);
        self.carriers = (0..count).map(|_| 1 + self.random.below(CARRIERS)).collect();
    }

    /// Stays within three columns.
    pub fn stay_near(&mut self) {
        self.home.1 = self.home.1.min(self.home.0 + 2);
    }

    fn way(&mut self) -> Way {
        self.random.pick(&[Left, Right])
    }

    fn bed(&mut self) -> Bed {
        self.random.pick(&[Front, Back])
    }

    /// A column of the walk's own.
    pub fn column(&mut self) -> i32 {
        self.random.from(self.home.0, self.home.1)
    }

    /// The needle of a bed at a column, if there is one.
    fn needle(&self, bed: Bed, column: i32) -> Option<u8> {
        let number = if bed == Back { column - self.state.racking } else { column };
        (0..NEEDLES as i32).contains(&number).then_some(number as u8)
    }

    /// A carrier of the walk's own, active or not.
    fn carrier(&mut self, active: bool) -> Option<usize> {
        let carrier = self.carriers[self.random.below(self.carriers.len())];
        (self.state.parked(carrier).is_some() == active).then_some(carrier)
    }

    /// A needle that an attachment names, or one at a column of the walk's own.
    fn worked(&mut self) -> Option<(Bed, u8)> {
        let attached = self.carrier(true).and_then(|carrier| self.state.parked(carrier)?.attachment);
        match attached {
            Some(attachment) if self.random.percent(60) => Some((attachment.needle.bed, attachment.needle.number as u8)),
            _ => {
                let (bed, column) = (self.bed(), self.column());
                Some((bed, self.needle(bed, column)?))
            }
        }
    }

    /// A record of a kind that mostly has its step.
    fn of_kind(&mut self, kind: u8) -> Option<Vec<u8>> {
        match kind {
            RACK => Some(vec![RACK, self.racking() as u8]),
            DROP => self.worked().map(|(bed, number)| vec![DROP, bed as u8, number]),
            XFER => {
                let (bed, number) = self.worked()?;
                let column = self.rules.column(Needle { bed, number: number.into() }, self.state.racking);
                Some(vec![XFER, bed as u8, number, self.needle(bed.other(), column)?])
            }
            IN => {
                let carrier = self.carrier(false)?;
                let beside = self.carrier(true).and_then(|other| self.state.parked(other)).map(|parked| parked.slot);
                let way = self.way();
                let column = match beside {
                    Some(slot) if self.random.percent(50) => slot - i32::from(way == Left),
                    _ => self.column(),
                };
                self.moving(IN, way, column, &[carrier])
            }
            _ => {
                let carrier = self.carrier(true)?;
                let way = self.way();
                self.working(kind, way, carrier)
            }
        }
    }

    /// A record of a kind by an active carrier, one way, from where it is parked.
    fn working(&mut self, kind: u8, way: Way, carrier: usize) -> Option<Vec<u8>> {
        let slot = self.state.parked(carrier)?.slot;
        let left = if kind == OUT { way == Right } else { way == Left };
        let column = slot - i32::from(left);
        if kind < PLATED_TUCK {
            return self.moving(kind, way, column, &[carrier]);
        }
        let stands = |&other: &usize| other != carrier && self.state.parked(other).is_some_and(|parked| parked.slot == slot);
        let beside: Vec<usize> = (1..=CARRIERS).filter(stands).collect();
        if beside.is_empty() {
            let other = self.carrier(false)?;
            return self.moving(IN, way, column, &[other]);
        }
        let other = self.random.pick(&beside);
        self.moving(kind, way, column, &[carrier, other])
    }

    /// A record of kinds 04 and up over a column.
    fn moving(&mut self, kind: u8, way: Way, column: i32, carriers: &[usize]) -> Option<Vec<u8>> {
        let bed = self.bed();
        let number = self.needle(bed, column)?;
        let mut bytes = vec![kind, way as u8, bed as u8, number, carriers[0] as u8];
        match kind {
            SPLIT => bytes.push(self.needle(bed.other(), column)?),
            PLATED_TUCK | PLATED_KNIT => bytes.push(carriers[1] as u8),
            _ => (),
        }
        Some(bytes)
    }

    /// A racking, often one that leaves some yarn just as long as it may be, or one longer.
    fn racking(&mut self) -> i32 {
        let edge = |racking: &i32| {
            let mut parked = self.state.carriers.iter().flatten();
            parked.any(|&parked| matches!(self.rules.distance(parked, *racking), Some(20 | 21)))
        };
        let edges: Vec<i32> = (-8..=8).filter(edge).collect();
        if !edges.is_empty() && self.random.percent(60) {
            return self.random.pick(&edges);
        }
        let now = self.state.racking;
        match self.random.below(6) {
            0 => self.random.pick(&[-8, 8]),
            1 => (now + self.random.pick(&[-1, 1])).clamp(-8, 8),
            2 => 0,
            3 => now,
            _ => self.random.from(-8, 8),
        }
    }

    fn led(&mut self) -> Option<Vec<u8>> {
        let (carrier, way, left) = self.lead?;
        self.state.parked(carrier)?;
        self.lead = (left > 0).then(|| (carrier, way, left.saturating_sub(1)));
        let stitch = self.random.pick(&[TUCK, KNIT, SPLIT, PLATED_TUCK, PLATED_KNIT, RACK, MISS]);
        match stitch {
            RACK if left == 0 => self.of_kind(RACK),
            _ => self.working(if left > 0 { MISS } else { stitch }, way, carrier),
        }
    }

    /// The last record again, or in the other direction.
    fn again(&mut self) -> Option<Vec<u8>> {
        let mut bytes = self.last.clone();
        if *bytes.first()? >= MISS && self.random.percent(70) {
            bytes[1] ^= 1;
        }
        Some(bytes)
    }

    fn aimed(&mut self) -> Option<Vec<u8>> {
        if self.lead.is_some() {
            return self.led();
        }
        let style = self.style;
        match self.random.weighed(&style) {
            11 => {
                let carrier = self.carrier(true)?;
                let misses = if self.random.percent(90) { 17 + self.random.below(6) } else { 30 + self.random.below(230) };
                self.lead = Some((carrier, self.way(), misses));
                self.led()
            }
            12 => self.again(),
            kind => self.of_kind(kind as u8 + 1),
        }
    }

    /// A record that mostly has its step from the state.
    pub fn record(&mut self) -> Vec<u8> {
        for _ in 0..12 {
            if let Some(bytes) = self.aimed() {
                return bytes;
            }
            if self.random.percent(30) {
                self.lead = None;
            }
            if self.random.percent(50) {
                if let Some(bytes) = self.of_kind(IN) {
                    return bytes;
                }
            }
        }
        vec![RACK, self.racking() as u8]
    }

    /// Makes a record's step, if it has one; else it is turned away.
    fn make(&mut self, bytes: &[u8]) -> bool {
        let Ok((record, size)) = self.rules.read(bytes) else { return false };
        let number = self.rules.refusal(&self.state, &record);
        if number != DONE {
            self.turned_away[usize::from(number)] = Some((self.made, bytes.to_vec()));
            return false;
        }
        self.rules.apply(&mut self.state, &record);
        self.made += size;
        self.last = bytes.to_vec();
        true
    }

    /// A record that has its step, made; none if none was found soon.
    pub fn made(&mut self) -> Option<Vec<u8>> {
        for _ in 0..6 {
            let bytes = self.record();
            if self.make(&bytes) {
                return Some(bytes);
            }
            self.lead = None;
        }
        None
    }

    /// The same of a kind.
    pub fn made_of(&mut self, kind: u8) -> Option<Vec<u8>> {
        let bytes = self.of_kind(kind)?;
        self.make(&bytes).then_some(bytes)
    }

    /// A record with one thing changed: a byte to an edge, a field by one, another kind, another carrier, cut; or any record at all.
    pub fn spoiled(&mut self, mut bytes: Vec<u8>) -> Vec<u8> {
        let at = self.random.below(bytes.len());
        let last = bytes.len() - 1;
        match self.random.below(11) {
            0 | 1 => bytes[at] = self.random.pick(&EDGES),
            2 => bytes[at] = bytes[at].wrapping_add(self.random.pick(&[1, 255])),
            3 => bytes[0] = self.random.from(0, 12) as u8,
            4 => bytes[0] = self.random.below(256) as u8,
            5 => bytes.truncate(at),
            6 => bytes[last] = self.random.pick(&[0, 1, 10, 11, 249, 250, 255]),
            7 if bytes[0] >= PLATED_TUCK && bytes.len() == 6 => bytes[5] = bytes[4],
            8 | 9 if last >= 4 => bytes[last - self.random.below(last - 3)] = self.random.pick(&self.carriers) as u8,
            _ => bytes = self.any_record(),
        }
        bytes
    }

    /// Any record with its fields in range, at the walk's columns, whatever the state.
    pub fn any_record(&mut self) -> Vec<u8> {
        let kind = self.random.from(RACK.into(), PLATED_KNIT.into()) as u8;
        let column = self.column();
        self.record_near(kind, column)
    }

    /// The same of a kind, as near to a column as its bed lets it.
    pub fn record_near(&mut self, kind: u8, column: i32) -> Vec<u8> {
        let (way, bed) = (self.way() as u8, self.bed());
        let on = |bed: Bed| if bed == Back { column - self.state.racking } else { column }.clamp(0, 249) as u8;
        let (first, second) = (1 + self.random.below(CARRIERS) as u8, 1 + self.random.below(CARRIERS) as u8);
        match kind {
            RACK => vec![RACK, self.random.from(-8, 8) as u8],
            DROP => vec![DROP, bed as u8, on(bed)],
            XFER => vec![XFER, bed as u8, on(bed), on(bed.other())],
            SPLIT => vec![SPLIT, way, bed as u8, on(bed), first, on(bed.other())],
            PLATED_TUCK | PLATED_KNIT => vec![kind, way, bed as u8, on(bed), first, second],
            _ => vec![kind, way, bed as u8, on(bed), first],
        }
    }

    // ---- States that no walk comes to

    /// Puts the walk into a state with carriers, attachments and loops anywhere, in range.
    pub fn stray(&mut self) {
        let home = (self.home.0.clamp(-8, 258), self.home.1.clamp(-8, 258));
        self.state.racking = if self.random.percent(40) { 0 } else { self.random.from(-8, 8) };
        for _ in 0..self.random.below(6) {
            let (bed, column) = (self.bed(), self.column());
            let number = self.needle(bed, column).unwrap_or(self.random.pick(&[0, 249])).into();
            let count = self.random.from(0, self.state.limit.into()) as u8;
            self.state.set_loops(Needle { bed, number }, count);
        }
        for carrier in 1..=CARRIERS {
            if self.random.percent(40) {
                let slot = if self.random.percent(90) { self.random.from(home.0, home.1) } else { self.random.pick(&[-8, 258]) };
                let attachment = self.stray_attachment(slot);
                *self.state.carrier(carrier) = Some(Parked { slot, attachment });
                self.carriers.push(carrier);
            }
        }
        let from = self.carriers.len().saturating_sub(4);
        self.carriers.drain(..from);
    }

    /// None, near by, as far away as a float or a stretch may be, or anywhere.
    fn stray_attachment(&mut self, slot: i32) -> Option<Attachment> {
        let bed = self.bed();
        let off = match self.random.below(5) {
            0 => return None,
            1 => self.random.from(-2, 2),
            2 => self.random.from(-30, 30),
            3 => self.random.pick(&[-1, 1]) * self.random.from(18, 30),
            _ => self.random.from(-266, 266),
        };
        let number = self.needle(bed, slot + off).unwrap_or(self.random.pick(&[0, 249])).into();
        Some(Attachment { needle: Needle { bed, number }, side: self.way() })
    }

    /// Puts the walk into a state that one record empties, or one that it fills: a lone loop, carrier or racking.
    pub fn lone(&mut self) -> Vec<u8> {
        let bed = self.bed();
        let number = if self.random.percent(50) { self.random.pick(&[0, 1, 248, 249]) } else { self.random.below(NEEDLES) };
        let needle = Needle { bed, number };
        match self.random.below(4) {
            0 => self.state.racking = self.random.from(-8, 8),
            1 => self.state.set_loops(needle, 1 + self.random.below(self.state.limit.into()) as u8),
            2 => {
                let carrier = 1 + self.random.below(CARRIERS);
                self.carriers = vec![carrier];
                let slot = number as i32 + self.random.from(0, 1);
                let attachment = self.random.percent(50).then_some(Attachment { needle, side: self.way() });
                *self.state.carrier(carrier) = Some(Parked { slot, attachment });
                if let Some(bytes) = self.of_kind(OUT) {
                    return bytes;
                }
            }
            _ => (),
        }
        match self.random.below(5) {
            0 | 1 => vec![DROP, bed as u8, number as u8],
            2 => vec![XFER, bed as u8, number as u8, number as u8],
            3 => vec![RACK, 0],
            _ => self.any_record(),
        }
    }

    /// A lent state in which one value, or now and then more, is at an edge or beyond.
    pub fn fouled(&mut self, mut lent: LentState) -> LentState {
        for _ in 0..self.random.pick(&[1, 1, 1, 2, 3]) {
            let edge = self.random.pick(&EDGES);
            let carrier = &mut lent.carriers[self.random.below(CARRIERS)];
            let hook = if self.random.percent(30) { self.random.pick(&[0, 249, 250, 499]) } else { self.random.below(HOOKS) };
            match self.random.below(9) {
                0 => lent.racking = self.random.pick(&[-128, -9, -8, 8, 9, 127]),
                1 => lent.loops[hook] = lent.limit.saturating_add(self.random.below(2) as u8),
                2 => lent.loops[hook] = edge,
                3 => lent.limit = self.random.pick(&[0, 1, 2, 3, 7, 8, 9, 255]),
                4 => carrier.active = self.random.pick(&[0, 1, 1, 2, 255]),
                5 => carrier.side = self.random.pick(&[0, 1, 2, 3, 255]),
                6 => carrier.slot = self.random.pick(&[-32768, -257, -9, -8, -1, 0, 1, 257, 258, 259, 260, 32767]),
                7 => carrier.bed = self.random.pick(&[0, 1, 2, 256, 257, 65535]),
                _ => carrier.needle = self.random.pick(&[0, 1, 249, 250, 255, 256, 505, 65535]),
            }
        }
        lent
    }
}
