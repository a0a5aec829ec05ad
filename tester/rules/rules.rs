//! The rules of documents 01 and 02, each a small function with a name, in a table: a reader replaces one of them by a
//! misreading, and all else goes by it.

use crate::lent::{LentCarrier, LentState};
use crate::state::*;

/// Makes the table of rules from the functions: each asks others through the table that it is handed.
macro_rules! rules {
    ($($(#[$doc:meta])* fn $name:ident($rules:ident $(, $arg:ident: $type:ty)*) -> $out:ty $body:block)*) => {
        pub struct Rules {
            $(pub $name: Box<dyn Fn(&Rules $(, $type)*) -> $out>,)*
        }

        impl Rules {
            /// The papers' own.
            pub fn right() -> Rules {
                Rules { $($name: Box::new($name)),* }
            }

            $($(#[$doc])*
            pub fn $name(&self $(, $arg: $type)*) -> $out {
                (self.$name)(self $(, $arg)*)
            })*
        }

        $($(#[$doc])*
        #[allow(unused_variables)]
        pub fn $name($rules: &Rules $(, $arg: $type)*) -> $out $body)*
    };
}

fn between(least: i32, value: i32, most: i32) -> bool {
    least <= value && value <= most
}

rules! {
    // ---- Machine (01)

    /// "A front needle n has column n. A back needle n has column n + r".
    fn column(rules, needle: Needle, racking: i32) -> i32 {
        match needle.bed {
            Front => needle.number as i32,
            Back => needle.number as i32 + racking,
        }
    }

    /// "Moving right over column z, the entry slot is z [..]; moving left, the entry is z + 1".
    fn entry(rules, column: i32, way: Way) -> i32 {
        if way == Right { column } else { column + 1 }
    }

    /// "the exit slot z + 1; moving left, [..] the exit z".
    fn exit(rules, column: i32, way: Way) -> i32 {
        if way == Right { column + 1 } else { column }
    }

    /// "Racking r is -8 to 8."
    fn racking_in_range(rules, racking: i32) -> bool {
        between(-8, racking, 8)
    }

    /// "a hook limit, 1 to 8" (02, W2).
    fn limit_in_range(rules, limit: u8) -> bool {
        between(1, limit.into(), 8)
    }

    /// "The listing and the C entry run with limit 8" (02, W2).
    fn limit_when_none(rules) -> u8 {
        8
    }

    // ---- Records (01; 0A and 0B 02, W1)

    /// "One byte of kind, then a body whose length the kind fixes": both together.
    fn size(rules, kind: u8) -> Option<usize> {
        match kind {
            RACK => Some(2),
            DROP => Some(3),
            XFER => Some(4),
            IN..=KNIT => Some(5),
            SPLIT..=PLATED_KNIT => Some(6),
            _ => None,
        }
    }

    /// "new racking, two's complement".
    fn racking_field(rules, byte: u8) -> Option<i32> {
        let racking = i32::from(byte as i8);
        rules.racking_in_range(racking).then_some(racking)
    }

    /// "direction (0 left, 1 right)".
    fn direction_field(rules, byte: u8) -> Option<Way> {
        [Left, Right].get(usize::from(byte)).copied()
    }

    /// "bed (0 front, 1 back)".
    fn bed_field(rules, byte: u8) -> Option<Bed> {
        [Front, Back].get(usize::from(byte)).copied()
    }

    /// "Needles are f.0 to f.249 (front bed) and b.0 to b.249 (back)".
    fn needle_field(rules, bed: Bed, byte: u8) -> Option<Needle> {
        (byte < 250).then_some(Needle { bed, number: byte.into() })
    }

    /// An xfer's and a split's second needle.
    fn opposite_field(rules, bed: Bed, byte: u8) -> Option<Needle> {
        rules.needle_field(bed.other(), byte)
    }

    /// "Carriers are 1 to 10."
    fn carrier_field(rules, byte: u8) -> Option<usize> {
        between(1, byte.into(), 10).then_some(byte.into())
    }

    /// A plated stitch's second carrier.
    fn second_carrier_field(rules, byte: u8) -> Option<usize> {
        rules.carrier_field(byte)
    }

    /// The fields of a record of a known kind that is whole: none if one is out of range.
    fn fields(rules, bytes: &[u8]) -> Option<Record> {
        let mut record = Record::of(bytes[0]);
        match record.kind {
            RACK => record.racking = rules.racking_field(bytes[1])?,
            DROP | XFER => record.needle = rules.needle_field(rules.bed_field(bytes[1])?, bytes[2])?,
            _ => {
                record.direction = rules.direction_field(bytes[1])?;
                record.needle = rules.needle_field(rules.bed_field(bytes[2])?, bytes[3])?;
                record.name(rules.carrier_field(bytes[4])?);
            }
        }
        match record.kind {
            XFER => record.opposite = rules.opposite_field(record.needle.bed, bytes[3])?,
            SPLIT => record.opposite = rules.opposite_field(record.needle.bed, bytes[5])?,
            PLATED_TUCK | PLATED_KNIT => record.name(rules.second_carrier_field(bytes[5])?),
            _ => (),
        }
        Some(record)
    }

    /// The first record and its size, or 3 "unknown kind", 4 "no byte, or fewer than the kind needs", 5 "a field outside its
    /// range", the first of them.
    fn read(rules, bytes: &[u8]) -> Result<(Record, usize), u8> {
        let kind = *bytes.first().ok_or(CUT_SHORT)?;
        let size = rules.size(kind).ok_or(STRANGE)?;
        let whole = bytes.get(..size).ok_or(CUT_SHORT)?;
        Ok((rules.fields(whole).ok_or(FIELD)?, size))
    }

    // ---- Steps (01; plated stitches 02, W1), of records that are not refused

    /// "rack sets r; parked slots don't move."
    fn rack(rules, state: &mut State, record: &Record) -> () {
        state.racking = record.racking;
    }

    /// "drop empties the hook, which may be empty already. Attachments remain."
    fn drop(rules, state: &mut State, record: &Record) -> () {
        state.set_loops(record.needle, 0);
    }

    /// "it parks at the entry slot, unattached."
    fn bring_in(rules, state: &mut State, record: &Record) -> () {
        let slot = rules.entry(rules.column(record.needle, state.racking), record.direction);
        *state.carrier(record.carriers()[0]) = Some(Parked { slot, attachment: None });
    }

    /// "it becomes inactive and unattached."
    fn take_out(rules, state: &mut State, record: &Record) -> () {
        *state.carrier(record.carriers()[0]) = None;
    }

    /// miss: "it parks at the exit slot"; of a plated stitch "both leave at the exit slot".
    fn pass(rules, state: &mut State, record: &Record) -> () {
        let slot = rules.exit(rules.column(record.needle, state.racking), record.direction);
        for &carrier in record.carriers() {
            let attachment = state.parked(carrier).and_then(|parked| parked.attachment);
            *state.carrier(carrier) = Some(Parked { slot, attachment });
        }
    }

    /// "the carrier is attached to this needle, on the side it moved to"; of a plated stitch both.
    fn attach(rules, state: &mut State, record: &Record) -> () {
        let attachment = Attachment { needle: record.needle, side: record.direction };
        for &carrier in record.carriers() {
            if let Some(parked) = state.carrier(carrier) {
                parked.attachment = Some(attachment);
            }
        }
    }

    /// tuck: "one loop more"; "A plated tuck adds 2 loops".
    fn tucked(rules, record: &Record, held: u8) -> u8 {
        held + if record.kind == PLATED_TUCK { 2 } else { 1 }
    }

    /// knit: "the hook then holds exactly 1 loop"; "a plated knit leaves 2".
    fn knitted(rules, record: &Record, held: u8) -> u8 {
        if record.kind == PLATED_KNIT { 2 } else { 1 }
    }

    /// "all loops [..] at the first go to the second".
    fn move_loops(rules, state: &mut State, from: Needle, to: Needle) -> () {
        let moved = state.loops(from);
        state.set_loops(from, 0);
        state.set_loops(to, state.loops(to) + moved);
    }

    /// "all [..] attachments at the first go to the second, sides kept."
    fn move_attachments(rules, state: &mut State, from: Needle, to: Needle) -> () {
        for parked in state.carriers.iter_mut().flatten() {
            match &mut parked.attachment {
                Some(attachment) if attachment.needle == from => attachment.needle = to,
                _ => (),
            }
        }
    }

    fn xfer(rules, state: &mut State, record: &Record) -> () {
        rules.move_loops(state, record.needle, record.opposite);
        rules.move_attachments(state, record.needle, record.opposite);
    }

    /// "as miss, and one loop more"; attached.
    fn tuck(rules, state: &mut State, record: &Record) -> () {
        rules.pass(state, record);
        state.set_loops(record.needle, rules.tucked(record, state.loops(record.needle)));
        rules.attach(state, record);
    }

    /// "as tuck, but the hook then holds exactly 1 loop."
    fn knit(rules, state: &mut State, record: &Record) -> () {
        rules.pass(state, record);
        state.set_loops(record.needle, rules.knitted(record, state.loops(record.needle)));
        rules.attach(state, record);
    }

    /// "the loops and attachments go as in xfer, then a loop is formed and attached as in knit."
    fn split(rules, state: &mut State, record: &Record) -> () {
        rules.xfer(state, record);
        rules.knit(state, record);
    }

    fn apply(rules, state: &mut State, record: &Record) -> () {
        match record.kind {
            RACK => rules.rack(state, record),
            DROP => rules.drop(state, record),
            XFER => rules.xfer(state, record),
            IN => rules.bring_in(state, record),
            OUT => rules.take_out(state, record),
            MISS => rules.pass(state, record),
            TUCK | PLATED_TUCK => rules.tuck(state, record),
            KNIT | PLATED_KNIT => rules.knit(state, record),
            _ => rules.split(state, record),
        }
    }

    // ---- Refusals of a record that was read: each says whether its own reason holds

    /// 6: "in for an active carrier".
    fn already_in(rules, state: &State, record: &Record) -> bool {
        record.kind == IN && state.parked(record.carriers()[0]).is_some()
    }

    /// 7: "any other use of an inactive one".
    fn not_in(rules, state: &State, record: &Record) -> bool {
        record.kind != IN && record.carriers().iter().any(|&carrier| state.parked(carrier).is_none())
    }

    /// "out: it must be parked at the exit slot"; "miss: it must be at the entry slot", and so tuck, knit, split; "Both carriers
    /// must stand at the entry slot" (02, W1).
    fn wanted_slot(rules, state: &State, record: &Record) -> i32 {
        let column = rules.column(record.needle, state.racking);
        match record.kind {
            OUT => rules.exit(column, record.direction),
            _ => rules.entry(column, record.direction),
        }
    }

    /// 8: "parked at the wrong slot".
    fn elsewhere(rules, state: &State, record: &Record) -> bool {
        let stands = |carrier: &usize| match state.parked(*carrier) {
            Some(parked) => parked.slot == rules.wanted_slot(state, record),
            None => true,
        };
        record.kind != IN && !record.carriers().iter().all(stands)
    }

    /// "For tuck, knit and split", and "Both carriers must [..] keep the float rule" (02, W1).
    fn forms_loops(rules, record: &Record) -> bool {
        record.is(&[TUCK, KNIT, SPLIT, PLATED_TUCK, PLATED_KNIT])
    }

    /// The columns between "an attached carrier's needle" and "the needle worked, both columns at the current racking".
    fn float_of(rules, state: &State, carrier: usize, record: &Record) -> Option<i32> {
        let from = state.parked(carrier)?.attachment?.needle;
        Some((rules.column(from, state.racking) - rules.column(record.needle, state.racking)).abs())
    }

    /// 9: "over 20 columns".
    fn too_far(rules, columns: i32) -> bool {
        columns > 20
    }

    fn float(rules, state: &State, record: &Record) -> bool {
        let far = |&carrier: &usize| rules.float_of(state, carrier, record).is_some_and(|columns| rules.too_far(columns));
        rules.forms_loops(record) && record.carriers().iter().any(far)
    }

    /// 10: "columns differ"; "both needles have the same column".
    fn not_opposite(rules, state: &State, record: &Record) -> bool {
        let column = |needle| rules.column(needle, state.racking);
        record.is(&[XFER, SPLIT]) && column(record.needle) != column(record.opposite)
    }

    /// The most loops that a hook would hold after the record, of those that it forms loops on or moves loops to.
    fn would_hold(rules, state: &State, record: &Record) -> u8 {
        let held = |needle| state.loops(needle);
        match record.kind {
            TUCK | PLATED_TUCK => rules.tucked(record, held(record.needle)),
            KNIT | PLATED_KNIT => rules.knitted(record, held(record.needle)),
            XFER => held(record.needle) + held(record.opposite),
            SPLIT => (held(record.needle) + held(record.opposite)).max(rules.knitted(record, 0)),
            _ => 0,
        }
    }

    /// 11: "over 8 loops on a hook"; "Number 11 is measured against it [the limit]" (02, W2).
    fn hook_full(rules, state: &State, record: &Record) -> bool {
        rules.would_hold(state, record) > state.limit
    }

    /// 16: "when both carriers are equal" (02, W1).
    fn one_yarn_twice(rules, record: &Record) -> bool {
        match record.carriers() {
            [first, second] => first == second,
            _ => false,
        }
    }

    /// "right side: the needle's column + 1, left side: the column" (02, W5).
    fn attachment_slot(rules, attachment: Attachment, racking: i32) -> i32 {
        let column = rules.column(attachment.needle, racking);
        if attachment.side == Right { column + 1 } else { column }
    }

    /// "the distance from its attachment's slot [..] to its parked slot" (02, W5), at a racking.
    fn distance(rules, parked: Parked, racking: i32) -> Option<i32> {
        Some((rules.attachment_slot(parked.attachment?, racking) - parked.slot).abs())
    }

    /// "ends over 20 and is greater than before" (02, W5).
    fn stretches(rules, before: i32, after: i32) -> bool {
        after > 20 && after > before
    }

    /// 17: "for some parked and attached carrier" (02, W5), "for rack only".
    fn stretched(rules, state: &State, record: &Record) -> bool {
        let stretched = |&parked: &Parked| {
            let before = rules.distance(parked, state.racking);
            let after = rules.distance(parked, record.racking);
            before.zip(after).is_some_and(|(before, after)| rules.stretches(before, after))
        };
        record.kind == RACK && state.carriers.iter().flatten().any(stretched)
    }

    /// The order of looking: "16 [..] after 5" (02, W1), "17 [..] after 5" (02, W5), then "6 to 11 by number".
    fn looking(rules) -> &'static [u8] {
        &[ONE_YARN_TWICE, STRETCHED, ALREADY_IN, NOT_IN, ELSEWHERE, FLOAT, NOT_OPPOSITE, HOOK_FULL]
    }

    fn holds(rules, number: u8, state: &State, record: &Record) -> bool {
        match number {
            ONE_YARN_TWICE => rules.one_yarn_twice(record),
            STRETCHED => rules.stretched(state, record),
            ALREADY_IN => rules.already_in(state, record),
            NOT_IN => rules.not_in(state, record),
            ELSEWHERE => rules.elsewhere(state, record),
            FLOAT => rules.float(state, record),
            NOT_OPPOSITE => rules.not_opposite(state, record),
            _ => rules.hook_full(state, record),
        }
    }

    /// The first reason that holds, or 0.
    fn refusal(rules, state: &State, record: &Record) -> u8 {
        let holds = |number: &&u8| rules.holds(**number, state, record);
        rules.looking().iter().find(holds).copied().unwrap_or(DONE)
    }

    /// "whether that state is the empty one (complete)"; "complete compares against" the state's limit (02, W2).
    fn complete(rules, state: &State) -> bool {
        *state == State::empty(state.limit)
    }

    // ---- Extents and ties (01; plated stitches 02, W1)

    /// "A drop covers 2z [..]. An xfer covers 2z [..]. The rest cover 2z - 1 to 2z + 1".
    fn halves(rules, record: &Record, racking: i32) -> (i32, i32) {
        let z = rules.column(record.needle, racking);
        if record.is(&[DROP, XFER]) { (2 * z, 2 * z) } else { (2 * z - 1, 2 * z + 1) }
    }

    /// "Layers run from 0 (front bed) through carriers 1 to 10 to 11 (back bed)": a drop "on its bed's layer", an xfer and a split
    /// "on layers 0 to 11"; "a front tuck or knit with carrier k on layers 0 to k; a back one on k to 11"; "in, out and miss on k
    /// alone". Plated: "On the front the layers run from 0 to the greater carrier, on the back from the smaller to 11".
    fn layers(rules, record: &Record) -> (i32, i32) {
        let carriers = || record.carriers().iter().map(|&carrier| carrier as i32);
        let (least, greatest) = (carriers().min().unwrap_or(0), carriers().max().unwrap_or(0));
        match (record.kind, record.needle.bed) {
            (DROP, Front) => (0, 0),
            (DROP, Back) => (11, 11),
            (IN | OUT | MISS, _) => (least, greatest),
            (TUCK | KNIT | PLATED_TUCK | PLATED_KNIT, Front) => (0, greatest),
            (TUCK | KNIT | PLATED_TUCK | PLATED_KNIT, Back) => (least, 11),
            _ => (0, 11),
        }
    }

    fn extent(rules, record: &Record, racking: i32) -> Extent {
        Extent { halves: rules.halves(record, racking), layers: rules.layers(record) }
    }

    /// What two extents share: "Extents meet if they share a half column and a layer."
    fn shared(rules, first: Extent, second: Extent) -> Option<Extent> {
        let overlap = |a: (i32, i32), b: (i32, i32)| {
            let both = (a.0.max(b.0), a.1.min(b.1));
            (both.0 <= both.1).then_some(both)
        };
        let halves = overlap(first.halves, second.halves)?;
        Some(Extent { halves, layers: overlap(first.layers, second.layers)? })
    }

    /// The carriers that both name, upward.
    fn both_name(rules, first: &Record, second: &Record) -> Vec<usize> {
        let both = |carrier: &usize| first.carriers().contains(carrier) && second.carriers().contains(carrier);
        (1..=CARRIERS).filter(both).collect()
    }

    /// "Two records are tied if either is a rack, if they name one carrier, or if their extents meet": the first that holds. Of
    /// several carriers that both name it is the least (the C header's word).
    fn tie(rules, first: &Record, second: &Record, racking: i32) -> Tie {
        let tied = Tie { number: TIED, ..Tie::default() };
        if first.kind == RACK || second.kind == RACK {
            return Tie { by: 1, ..tied };
        }
        if let Some(&carrier) = rules.both_name(first, second).first() {
            return Tie { by: 2, carrier, ..tied };
        }
        match rules.shared(rules.extent(first, racking), rules.extent(second, racking)) {
            Some(shared) => Tie { by: 3, halves: shared.halves, layers: shared.layers, ..tied },
            None => Tie::default(),
        }
    }

    fn tied(rules, first: &Record, second: &Record, racking: i32) -> bool {
        rules.tie(first, second, racking).number == TIED
    }

    /// The racking in force behind a record: "Extents are compared only within one stretch between racks".
    fn in_force(rules, before: i32, record: &Record) -> i32 {
        if record.kind == RACK { record.racking } else { before }
    }

    // ---- Calls (01; limits 02, W2)

    /// "program or log over its limit".
    fn too_long(rules, program: usize, log: usize) -> bool {
        program > 32_768 || log > 32_768
    }

    /// "output shorter than the program, work entries fewer than half its bytes rounded down".
    fn no_bench(rules, program: usize, output: usize, work: usize) -> bool {
        output < program || work < program / 2
    }

    /// 15 for a bad limit "before everything else" (02, W2), 1, 2; 0 if the program is run. The run is lent all it needs.
    fn refused_loan(rules, limit: u8, program: usize, log: usize, output: usize, work: usize) -> u8 {
        if !rules.limit_in_range(limit) {
            FOUL_STATE
        } else if rules.too_long(program, log) {
            TOO_LONG
        } else if rules.no_bench(program, output, work) {
            NO_BENCH
        } else {
            DONE
        }
    }

    /// "three-byte records: 40, then a position in two bytes, high first"; none if torn.
    fn log_record(rules, bytes: &[u8]) -> Option<usize> {
        match *bytes {
            [0x40, high, low, ..] => Some(usize::from(high) * 256 + usize::from(low)),
            _ => None,
        }
    }

    /// What a log record gets: 14, "position + 1 is not a record", "the pair is tied", or 0.
    fn log_number(rules, parts: &[Part], bytes: &[u8]) -> u8 {
        match rules.log_record(bytes) {
            None => TORN_LOG,
            Some(i) if i + 1 >= parts.len() => NO_PAIR,
            Some(i) if rules.tied(&parts[i].record, &parts[i + 1].record, parts[i].racking) => TIED,
            Some(_) => DONE,
        }
    }

    /// "Position i swaps records i and i + 1"; rackings in force stay where they were, since no rack is swapped.
    fn swap(rules, parts: &mut [Part], i: usize) -> () {
        parts.swap(i, i + 1);
        let racking = parts[i].racking;
        parts[i].racking = parts[i + 1].racking;
        parts[i + 1].racking = racking;
    }

    /// "Numbers 1 to 11 and 15 write nothing", nor 16 and 17, "handled like" 5.
    fn writes(rules, number: u8) -> bool {
        [DONE, NO_PAIR, TIED, TORN_LOG].contains(&number)
    }

    /// "Place is the record's start in the program (3 to 11) or log (12 to 14), else 0": where that record starts, or 0.
    fn place(rules, number: u8, start: usize) -> usize {
        if [DONE, TOO_LONG, NO_BENCH, FOUL_STATE].contains(&number) { 0 } else { start }
    }

    /// "the run's number times 65,536 plus its place".
    fn word(rules, number: u8, place: usize) -> u64 {
        u64::from(number) * 65_536 + place as u64
    }

    // ---- The house order (02, W3)

    /// "the record whose bytes come first (unsigned, byte by byte, a shorter prefix first)".
    fn comes_first(rules, first: &[u8], second: &[u8]) -> bool {
        match first.iter().zip(second).find(|(a, b)| a != b) {
            Some((a, b)) => a < b,
            None => first.len() < second.len(),
        }
    }

    /// Whether an earlier record that remains keeps a later one back.
    fn keeps_back(rules, earlier: &Part, later: &Part) -> bool {
        rules.tied(&earlier.record, &later.record, later.racking)
    }

    /// "always take next the record whose bytes come first [..] among those not tied to an earlier remaining one": the positions of
    /// a stretch's records in that order. For each record is counted how many earlier remaining ones keep it back.
    fn house_stretch(rules, parts: &[Part]) -> Vec<usize> {
        let kept_back = |i: usize| (0..i).filter(|&j| rules.keeps_back(&parts[j], &parts[i])).count();
        let mut waits: Vec<Option<usize>> = (0..parts.len()).map(|i| Some(kept_back(i))).collect();
        let mut order = Vec::new();
        for _ in 0..parts.len() {
            let free = (0..parts.len()).filter(|&i| waits[i] == Some(0));
            let first = |a: usize, b: usize| if rules.comes_first(parts[b].bytes, parts[a].bytes) { b } else { a };
            let Some(next) = free.reduce(first) else { break };
            waits[next] = None;
            for i in next + 1..parts.len() {
                if waits[i].is_some() && rules.keeps_back(&parts[next], &parts[i]) {
                    waits[i] = waits[i].map(|count| count - 1);
                }
            }
            order.push(next);
        }
        order
    }

    /// "between racks": a rack stays where it is.
    fn house(rules, parts: &[Part]) -> Vec<usize> {
        let mut order = Vec::new();
        let mut from = 0;
        for to in 0..=parts.len() {
            if to == parts.len() || parts[to].record.kind == RACK {
                order.extend(rules.house_stretch(&parts[from..to]).iter().map(|i| from + i));
                order.extend((to < parts.len()).then_some(to));
                from = to + 1;
            }
        }
        order
    }

    // ---- Lent states and the panel (01; limits 02, W2; complete and the walk W4)

    /// "slots -8 to 258".
    fn slot_in_range(rules, slot: i32) -> bool {
        between(-8, slot, 258)
    }

    /// "a value out of range [..] only 0 in a field without meaning there, as an inactive carrier's slot), or an inactive carrier
    /// attached".
    fn foul_carrier(rules, carrier: &LentCarrier) -> bool {
        let no_needle = carrier.bed == 0 && carrier.needle == 0;
        let needle = carrier.bed <= 1 && carrier.needle < 250;
        let slot = rules.slot_in_range(carrier.slot.into());
        match (carrier.active, carrier.side) {
            (0, 0) => carrier.slot != 0 || !no_needle,
            (1, 0) => !slot || !no_needle,
            (1, 1 | 2) => !slot || !needle,
            _ => true,
        }
    }

    /// "A lent state with a limit out of range, or more loops than its limit, is 15" (02, W2).
    fn foul(rules, state: &LentState) -> bool {
        !rules.racking_in_range(state.racking.into())
            || !rules.limit_in_range(state.limit)
            || state.loops.iter().any(|&count| count > state.limit)
            || state.carriers.iter().any(|carrier| rules.foul_carrier(carrier))
    }

    /// "the walk (front first, upward) should end at the first loop found and also answer how many hooks it looked at, that one
    /// included, all if there is none" (02, W4).
    fn walked(rules, state: &State) -> usize {
        let hooks = || state.loops.iter().flatten();
        hooks().position(|&count| count > 0).map_or(hooks().count(), |at| at + 1)
    }

    /// The hooks looked at for complete: a racking that is not 0 settles it without a walk (the C header's word).
    fn looked(rules, state: &State) -> usize {
        if state.racking == 0 { rules.walked(state) } else { 0 }
    }

    /// Complete and looked of a step: "for the state it leaves and that state's limit (no after 15)" (02, W4).
    fn tells(rules, before: &State, after: &State) -> (bool, usize) {
        (rules.complete(after), rules.looked(after))
    }

    /// "gives a number and the record's length"; refusals "give length 0".
    fn length_given(rules, number: u8, size: usize, slice: usize) -> usize {
        if number == DONE { size } else { 0 }
    }

    /// The carriers listed, and the number: "15 is looked at first, then 2", "a carrier list under ten".
    fn list_number(rules, foul: bool, count: usize) -> u8 {
        if foul {
            FOUL_STATE
        } else if count < 10 {
            NO_BENCH
        } else {
            DONE
        }
    }

    /// "the first ten become carriers 1 to 10 of a machine state handed to it, later ones keep their contents".
    fn listed(rules, state: &LentState, list: &mut [LentCarrier]) -> () {
        list[..CARRIERS].copy_from_slice(&state.carriers);
    }

    // ---- What ties two records (the C header's call, by 01's ties)

    /// 15 for the racking, then 3 to 5 of the first record, then of the second.
    fn pair_read(rules, racking: i32, first: &[u8], second: &[u8]) -> Result<(Record, Record), u8> {
        if !rules.racking_in_range(racking) {
            return Err(FOUL_STATE);
        }
        let first = rules.read(first)?.0;
        Ok((first, rules.read(second)?.0))
    }
}
