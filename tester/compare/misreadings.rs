//! Misreadings of the papers: a rule replaced by a wrong one, each with a name. The comparison must tell every one of them apart
//! from the right rules. In them `r` is the rules, `s` a state, `x` a record, `k` a carrier, `b` bytes, `a` and `b` two alike.

use crate::call::Entry;
use rules::rules::{self as right, Rules};
use rules::state::*;

pub struct Misreading {
    pub name: String,
    pub rules: Rules,
    /// The entry at which alone it is looked for, if any.
    pub at: Option<Entry>,
}

/// Makes rules wrong, one or more: `rule: another`; `rule(its arguments): answer => another answer, ..`, else the right one;
/// `rule(its arguments) of x: change`, the right rule with an x that is changed before; `rule(its arguments) then more`.
macro_rules! misread {
    ($rules:ident, $rule:ident: $wrong:expr $(; $($more:tt)+)?) => {
        $rules.$rule = Box::new($wrong);
        $(misread!($rules, $($more)+);)?
    };
    ($rules:ident, $rule:ident($($arg:ident),+): $($answer:pat $(if $when:expr)? => $wrong:expr),+) => {
        $rules.$rule = Box::new(|$($arg),+| match right::$rule($($arg),+) { $($answer $(if $when)? => $wrong,)+ other => other });
    };
    ($rules:ident, $rule:ident($($arg:ident),+) of $x:ident: $change:expr) => {
        $rules.$rule = Box::new(|$($arg),+| {
            let mut changed = $x.to_owned();
            { let $x = &mut changed; $change; }
            let $x = &changed;
            right::$rule($($arg),+)
        });
    };
    ($rules:ident, $rule:ident($($arg:ident),+) then $more:expr) => {
        $rules.$rule = Box::new(|$($arg),+| { right::$rule($($arg),+); $more });
    };
}

/// A list of misreadings: `name { what is wrong }`, or `name at Entry { what is wrong }` for one that is looked for there alone.
macro_rules! misreadings {
    ($list:ident: $($name:ident $(at $entry:ident)? { $($wrong:tt)+ })+) => {
        #[allow(unreachable_patterns)]
        fn $list() -> Vec<Misreading> {
            vec![$(Misreading {
                name: stringify!($name).to_string(),
                rules: { let mut rules = Rules::right(); misread!(rules, $($wrong)+); rules },
                at: [$(Entry::$entry)?].first().copied(),
            }),+]
        }
    };
}

pub fn all() -> Vec<Misreading> {
    [records, steps, refusals, ties, calls, orders, states, families].iter().flat_map(|list| list()).collect()
}

const PASSES: [u8; 3] = [IN, OUT, MISS];
const STITCHES: [u8; 5] = [TUCK, KNIT, SPLIT, PLATED_TUCK, PLATED_KNIT];
const PLATED: [u8; 2] = [PLATED_TUCK, PLATED_KNIT];
const TRANSFERS: [u8; 2] = [XFER, SPLIT];

fn last_carrier_alone(x: &mut Record) {
    x.named[0] = x.named[x.count.max(1) - 1];
    x.count = x.count.min(1);
}

/// A racking read from its byte otherwise.
fn racked(racking: impl Fn(i32) -> i32) -> impl Fn(&Rules, u8) -> Option<i32> {
    move |r, b| Some(racking(b.into())).filter(|&racking| r.racking_in_range(racking))
}

/// A record read as if its kind byte were another.
fn kind_byte(kind: impl Fn(u8) -> u8) -> impl Fn(&Rules, &[u8]) -> Result<(Record, usize), u8> {
    move |r, b| match b {
        [] => right::read(r, b),
        [first, body @ ..] => right::read(r, &[&[kind(*first)], body].concat()),
    }
}

misreadings! { records:
    // -- The machine
    columns_by_number { column: |_, n, _| n.number as i32 }
    front_and_back { column: |_, n, racking| n.number as i32 + if n.bed == Front { racking } else { 0 } }
    both_beds_shifted { column: |_, n, racking| n.number as i32 + racking }
    racking_subtracted { column: |r, n, racking| right::column(r, n, -racking) }
    negative_column_clamped { column(r, n, racking): column => column.max(0) }
    columns_in_bytes { column(r, n, racking): column => column & 0xff }
    entry_for_exit { entry: right::exit; exit: right::entry }
    slot_one_further { entry: |r, z, way| right::entry(r, z, way) + 1; exit: |r, z, way| right::exit(r, z, way) + 1 }
    slot_at_column { entry: |_, z, _| z; exit: |_, z, _| z }
    left_as_right { entry: |_, z, _| z; exit: |_, z, _| z + 1 }
    racking_9 { racking_in_range: |_, racking| (-8..=9).contains(&racking) }
    racking_7 { racking_in_range: |_, racking| (-8..=7).contains(&racking) }
    racking_minus_9 { racking_in_range: |_, racking| (-9..=8).contains(&racking) }
    racking_minus_7 { racking_in_range: |_, racking| (-7..=8).contains(&racking) }
    racking_unsigned { racking_in_range: |_, racking| (0..=8).contains(&racking) }
    limit_0 { limit_in_range: |_, limit| limit <= 8 }
    limit_9 { limit_in_range: |_, limit| (1..=9).contains(&limit) }
    limit_any { limit_in_range: |_, limit| limit >= 1 }
    entry_at_one { limit_when_none: |_| 1 }
    entry_at_seven { limit_when_none: |_| 7 }
    // -- Records
    sign_and_magnitude { racking_field: racked(|b| if b < 128 { b } else { 128 - b }) }
    racking_of_255 { racking_field: racked(|b| if b < 128 { b } else { b - 255 }) }
    directions_exchanged { direction_field(r, b): Some(way) => Some(way.other()) }
    direction_2 { direction_field(r, b): None => Some(Right) }
    beds_exchanged_in_fields { bed_field(r, b): Some(bed) => Some(bed.other()) }
    bed_2 { bed_field(r, b): None if b == 2 => Some(Back) }
    bed_any { bed_field: |_, b| Some(if b & 1 == 0 { Front } else { Back }) }
    needle_250 { needle_field(r, bed, b): None if b == 250 => Some(Needle { bed, number: 249 }) }
    needle_248 { needle_field(r, bed, b): _ if b == 249 => None }
    needles_to_10 { needle_field(r, bed, b): _ if b >= 10 => None }
    second_needle_unchecked { opposite_field: |r, bed, b| right::opposite_field(r, bed, b.min(249)) }
    own_bed_for_second { opposite_field: right::needle_field }
    carrier_0 { carrier_field(r, b): None if b == 0 => Some(1) }
    carrier_11 { carrier_field(r, b): None if b == 11 => Some(10) }
    carriers_to_250 { carrier_field(r, b): None if (11..=250).contains(&b) => Some((usize::from(b) - 1) % 10 + 1) }
    second_carrier_0 { second_carrier_field(r, b): None if b == 0 => Some(1) }
    second_carrier_11 { second_carrier_field(r, b): None if b == 11 => Some(10) }
    second_unchecked { second_carrier_field(r, b): None => Some((usize::from(b) + 9) % 10 + 1) }
    equal_carriers_5 { fields(r, b): Some(x) if r.one_yarn_twice(&x) => None }
    field_of_a_drop_behind { read(r, b): Ok((x, _)) if x.kind == DROP && b.get(3) == Some(&0) => Err(FIELD) }
    miss_read_as_out { fields(r, b): Some(x) if x.is(&[IN, MISS, TUCK, KNIT]) => Some(Record { kind: OUT, ..x }) }
    plated_of_seven { size(r, kind): _ if PLATED.contains(&kind) => Some(7) }
    kind_12_known { read: kind_byte(|kind| if kind == 12 { PLATED_KNIT } else { kind }) }
    kind_0_rack { read: kind_byte(|kind| kind.max(RACK)) }
    kind_in_four_bits { read: kind_byte(|kind| kind & 0x0f) }
    kind_in_seven_bits { read: kind_byte(|kind| kind & 0x7f) }
    wide_kinds_early { read: kind_byte(|kind| if (0x22..=0x2b).contains(&kind) { kind - 0x20 } else { kind }) }
    unknown_skipped { read(r, b): Err(STRANGE) => right::read(r, &b[1..]).map(|(x, size)| (x, size + 1)) }
    empty_step_done { read(r, b): Err(CUT_SHORT) if b.is_empty() => Err(DONE) }
    no_byte_3 { read(r, b): Err(CUT_SHORT) if b.is_empty() => Err(STRANGE) }
    cut_before_unknown { read(r, b): Err(STRANGE) if b.len() < 2 => Err(CUT_SHORT) }
    unknown_gets_4 { read(r, b): Err(STRANGE) => Err(CUT_SHORT) }
    field_before_cut { read(r, b): Err(CUT_SHORT) if b.len() > 1 && b[0] > RACK && b[1] > 1 => Err(FIELD) }
    sixteen_before_field { read(r, b): Err(FIELD) if PLATED.contains(&b[0]) && b[4] == b[5] => Err(ONE_YARN_TWICE) }
    seventeen_for_a_field { read(r, b): Err(FIELD) if b[0] == RACK => Err(STRETCHED) }
    missing_bytes_read_as_0 { read(r, b): Err(CUT_SHORT) if !b.is_empty() => right::read(r, &[b, &[0; 5]].concat()) }
    slice_is_one_record at Step { read(r, b): Ok((_, size)) if b.len() > size => Err(FIELD) }
    drop_names_carrier at Tie { read(r, b):
        Ok((x, size)) if x.is(&[DROP, XFER]) && b.len() > 4 => Ok((Record { named: [b[4].into(), 0], count: 1, ..x }, size)) }
}

/// A transfer after which some carriers are as they were, by the state before it.
fn kept(is_kept: impl Fn(&State, &Record, usize) -> bool) -> impl Fn(&Rules, &mut State, &Record) {
    move |r, s, x| {
        let before = s.clone();
        right::xfer(r, s, x);
        (1..=CARRIERS).filter(|&k| is_kept(&before, x, k)).for_each(|k| *s.carrier(k) = before.parked(k));
    }
}

/// The side on which a moved attachment ends, by the needle that it comes from and its side there.
fn moved(side: impl Fn(Needle, Way) -> Way) -> impl Fn(&Rules, &mut State, Needle, Needle) {
    move |_, s, from, to| for attachment in s.carriers.iter_mut().flatten().filter_map(|parked| parked.attachment.as_mut()) {
        if attachment.needle == from {
            *attachment = Attachment { needle: to, side: side(from, attachment.side) };
        }
    }
}

fn attached(s: &State, k: usize) -> Option<Attachment> {
    s.parked(k)?.attachment
}

misreadings! { steps:
    // -- Steps of beds and hooks
    rack_added { rack: |_, s, x| s.racking = (s.racking + x.racking).clamp(-8, 8) }
    rack_kept { rack: |_, _, _| () }
    slots_move_with_rack { rack: |_, s, x| {
        let by = x.racking - std::mem::replace(&mut s.racking, x.racking);
        s.carriers.iter_mut().flatten().filter(|p| p.attachment.is_some_and(|a| a.needle.bed == Back)).for_each(|p| p.slot += by);
    } }
    drop_takes_one { drop: |_, s, x| s.set_loops(x.needle, s.loops(x.needle).saturating_sub(1)) }
    drop_detaches { drop(r, s, x)
        then s.carriers.iter_mut().flatten().for_each(|p| p.attachment = p.attachment.filter(|a| a.needle != x.needle)) }
    drop_on_the_other_bed { drop(r, s, x) of x: x.needle.bed = x.needle.bed.other() }
    hook_bed_ignored { drop(r, s, x) of x: x.needle.bed = Front }
    hook_by_column { apply: |r, s, x| {
        let by = s.racking.rem_euclid(250) as usize;
        s.loops[1].rotate_left(by); right::apply(r, s, x); s.loops[1].rotate_right(by);
    } }
    xfer_loops_stay { move_loops: |_, s, from, to| s.set_loops(to, s.loops(to) + s.loops(from)) }
    xfer_takes_one { move_loops:
        |_, s, from, to| if s.loops(from) > 0 { s.set_loops(from, s.loops(from) - 1); s.set_loops(to, s.loops(to) + 1) } }
    xfer_replaces { move_loops: |r, s, from, to| { s.set_loops(to, 0); right::move_loops(r, s, from, to) } }
    xfer_back { move_loops: |r, s, from, to| right::move_loops(r, s, to, from) }
    attachments_stay { move_attachments: |_, _, _, _| () }
    xfer_attachments_stay { xfer: kept(|_, x, _| x.kind == XFER) }
    split_attachments_stay { xfer: kept(|_, x, _| x.kind == SPLIT) }
    emptied_hook_left_behind { xfer: kept(|s, x, _| s.loops(x.needle) == 0) }
    split_attachment_left { xfer: kept(|s, x, _| x.kind == SPLIT && s.loops(x.needle) == 0) }
    back_split_left { xfer: kept(|_, x, _| x.kind == SPLIT && x.needle.bed == Back) }
    racked_split_left { xfer: kept(|s, x, _| x.kind == SPLIT && s.racking != 0) }
    first_moved_alone { xfer: kept(|s, x, k| (1..k).any(|k| attached(s, k).is_some_and(|a| a.needle == x.needle))) }
    last_moved_alone { xfer: kept(|s, x, k| (k + 1..=10).any(|k| attached(s, k).is_some_and(|a| a.needle == x.needle))) }
    carrier_10_unmoved { xfer: kept(|_, _, k| k == 10) }
    moved_to_the_left { move_attachments: moved(|_, _| Left) }
    side_turned { move_attachments: moved(|_, side| side.other()) }
    from_the_back_turned { move_attachments: moved(|from, side| if from.bed == Back { side.other() } else { side }) }
    moved_from_back_left { move_attachments: moved(|from, side| if from.bed == Back { Left } else { side }) }
    moved_from_back_right { move_attachments: moved(|from, side| if from.bed == Back { Right } else { side }) }
    moved_back { move_attachments: |r, s, from, to| right::move_attachments(r, s, to, from) }
    every_attachment_moves { move_attachments:
        |_, s, _, to| s.carriers.iter_mut().flatten().filter_map(|p| p.attachment.as_mut()).for_each(|a| a.needle = to) }
    moved_by_number { move_attachments:
        |r, s, from, to| for bed in [Front, Back] { right::move_attachments(r, s, Needle { bed, ..from }, to) } }
    limit_8_left { apply(r, s, x) then s.limit = 8 }
    limit_up_to_held { apply(r, s, x) then s.limit = s.loops.iter().flatten().fold(1, |most, &count| most.max(count)) }
    // -- Steps of carriers
    in_attached { bring_in(r, s, x) then right::attach(r, s, x) }
    in_at_exit { bring_in(r, s, x) of x: x.direction = x.direction.other() }
    in_by_number { bring_in(r, s, x) of x: x.needle.bed = Front }
    out_stays { take_out: |_, _, _| () }
    miss_detaches { pass(r, s, x) then s.carrier(x.named[0]).as_mut().unwrap().attachment = None }
    miss_attaches { pass(r, s, x) then right::attach(r, s, x) }
    miss_turns_side { pass(r, s, x)
        then if attached(s, x.named[0]).is_some_and(|a| a.needle == x.needle) { right::attach(r, s, x) } }
    miss_moves_attachment_past_40 { pass(r, s, x) then if r.float_of(s, x.named[0], x) > Some(40) { right::attach(r, s, x) } }
    miss_over_nothing_stays { pass: |r, s, x| if x.kind != MISS || s.loops(x.needle) > 0 { right::pass(r, s, x) } }
    pass_stays { pass: |_, _, _| () }
    second_unmoved { pass(r, s, x) of x: x.count = x.count.min(1) }
    first_unmoved { pass(r, s, x) of x: last_carrier_alone(x) }
    side_it_came_from { attach(r, s, x) of x: x.direction = x.direction.other() }
    always_left { attach(r, s, x) of x: x.direction = Left }
    plated_tuck_right { attach(r, s, x) of x: if x.kind == PLATED_TUCK { x.direction = Right } }
    back_left_side { attach(r, s, x) of x: if x.needle.bed == Back { x.direction = Left } }
    never_attached { attach: |_, _, _| () }
    first_unattached { attach(r, s, x) of x: last_carrier_alone(x) }
    second_unattached { attach(r, s, x) of x: x.count = x.count.min(1) }
    second_other_side { attach: |r, s, x| {
        right::attach(r, s, &Record { direction: x.direction.other(), ..*x });
        right::attach(r, s, &Record { count: 1, ..*x });
    } }
    attached_on_the_other_bed { attach(r, s, x) of x: x.needle.bed = x.needle.bed.other() }
    split_attaches_to_second { attach(r, s, x) of x: if x.kind == SPLIT { x.needle = x.opposite } }
    tuck_as_plated { tucked: |_, _, held| held + 2 }
    plated_tuck_adds_one { tucked: |_, _, held| held + 1 }
    plated_tuck_leaves_2 { tucked(r, x, held): _ if x.kind == PLATED_TUCK => 2 }
    tuck_leaves_1 { tucked(r, x, held): _ if x.kind == TUCK => 1 }
    knit_adds { knitted(r, x, held): _ if x.kind == KNIT => held + 1 }
    knit_leaves_2 { knitted: |_, _, _| 2 }
    knit_leaves_none { knitted(r, x, held): 1 => 0 }
    knit_keeps { knitted(r, x, held): _ if x.kind == KNIT => held.max(1) }
    plated_knit_leaves_1 { knitted: |_, _, _| 1 }
    plated_knit_adds_2 { knitted(r, x, held): 2 => held + 2 }
    split_adds { split: |r, s, x| { let held = s.loops(x.needle); right::split(r, s, x); s.set_loops(x.needle, held + 1) } }
    split_knits_first { split: |r, s, x| { r.knit(s, x); r.xfer(s, x) } }
    split_forms_none { split: |r, s, x| { r.xfer(s, x); r.pass(s, x); r.attach(s, x) } }
    split_as_knit { split: right::knit }
    split_as_xfer { split: right::xfer }
}

/// How far an attached carrier's needle is to the right of the needle worked.
fn offset(r: &Rules, s: &State, k: usize, x: &Record) -> Option<i32> {
    Some(r.column(attached(s, k)?.needle, s.racking) - r.column(x.needle, s.racking))
}

/// The attached carriers at a rack, each with its distance before and after.
fn yarns(r: &Rules, s: &State, x: &Record) -> Vec<(usize, i32, i32)> {
    let yarn = |k: usize| s.parked(k).and_then(|p| Some((k, r.distance(p, s.racking)?, r.distance(p, x.racking)?)));
    (1..=CARRIERS).filter(|_| x.kind == RACK).filter_map(yarn).collect()
}

misreadings! { refusals:
    // -- The order of looking
    slot_before_active { looking: |_| &[16, 17, 6, 8, 7, 9, 10, 11];
        elsewhere(r, s, x): false if r.not_in(s, x) => r.wanted_slot(s, x) != 0 }
    float_before_slot { looking: |_| &[16, 17, 6, 7, 9, 8, 10, 11] }
    opposite_before_float { looking: |_| &[16, 17, 6, 7, 8, 10, 9, 11] }
    full_before_opposite { looking: |_| &[16, 17, 6, 7, 8, 9, 11, 10] }
    full_before_float { looking: |_| &[16, 17, 6, 7, 8, 11, 9, 10] }
    full_before_slot { looking: |_| &[16, 17, 6, 7, 11, 8, 9, 10] }
    full_before_in { looking: |_| &[16, 17, 6, 11, 7, 8, 9, 10] }
    yarns_after_in { looking: |_| &[17, 6, 7, 16, 8, 9, 10, 11] }
    yarns_after_slot { looking: |_| &[17, 6, 7, 8, 16, 9, 10, 11] }
    yarns_after_float { looking: |_| &[17, 6, 7, 8, 9, 16, 10, 11] }
    yarns_last { looking: |_| &[17, 6, 7, 8, 9, 10, 11, 16] }
    no_6 { looking: |_| &[16, 17, 7, 8, 9, 10, 11] }
    no_7 { looking: |_| &[16, 17, 6, 8, 9, 10, 11] }
    no_8 { looking: |_| &[16, 17, 6, 7, 9, 10, 11] }
    no_9 { looking: |_| &[16, 17, 6, 7, 8, 10, 11] }
    no_10 { looking: |_| &[16, 17, 6, 7, 8, 9, 11] }
    no_11 { looking: |_| &[16, 17, 6, 7, 8, 9, 10] }
    no_16 { looking: |_| &[17, 6, 7, 8, 9, 10, 11] }
    no_17 { looking: |_| &[16, 6, 7, 8, 9, 10, 11] }
    everything_accepted { looking: |_| &[] }
    // -- Carriers and columns
    in_of_an_active_gets_7 { refusal(r, s, x): ALREADY_IN => NOT_IN }
    inactive_gets_8 { refusal(r, s, x): NOT_IN => ELSEWHERE }
    out_of_an_inactive_passes { not_in(r, s, x): true => x.kind != OUT }
    second_inactive_unlooked { not_in(r, s, x) of x: x.count = x.count.min(1) }
    out_at_entry { wanted_slot(r, s, x) of x: x.kind = MISS }
    miss_at_exit { wanted_slot(r, s, x) of x: if x.kind == MISS { x.kind = OUT } }
    slot_by_number { wanted_slot(r, s, x) of x: if x.is(&STITCHES) { x.needle.bed = Front } }
    second_slot_unlooked { elsewhere(r, s, x) of x: x.count = x.count.min(1) }
    first_slot_unlooked { elsewhere(r, s, x) of x: last_carrier_alone(x) }
    out_anywhere { elsewhere(r, s, x): true => x.kind != OUT }
    miss_anywhere { elsewhere(r, s, x): true => x.kind != MISS }
    first_carrier_wholly_first { refusal(r, s, x): number @ (NOT_IN | ELSEWHERE) => {
        let first = right::refusal(r, s, &Record { count: 1, ..*x });
        if [ELSEWHERE, FLOAT].contains(&first) { first } else { number }
    } }
    opposite_by_number { not_opposite: |_, _, x| x.is(&TRANSFERS) && x.needle.number != x.opposite.number }
    opposite_of_xfer_alone { not_opposite(r, s, x): true => x.kind == XFER }
    opposite_of_split_alone { not_opposite(r, s, x): true => x.kind == SPLIT }
    opposite_within_1 { not_opposite(r, s, x):
        true => (r.column(x.needle, s.racking) - r.column(x.opposite, s.racking)).abs() > 1 }
    sixteen_by_one { one_yarn_twice: |_, x| matches!(x.carriers(), [a, b] if a.abs_diff(*b) <= 1) }
    sixteen_on_the_front { one_yarn_twice(r, x): true => x.needle.bed == Front }
    sixteen_below_10 { one_yarn_twice(r, x): true => x.named[0] < 10 }
    drop_of_nothing_refused { refusal(r, s, x): DONE if x.kind == DROP && s.loops(x.needle) == 0 => NOT_OPPOSITE }
    xfer_of_nothing_refused { refusal(r, s, x): DONE if x.kind == XFER && s.loops(x.needle) == 0 => NOT_OPPOSITE }
    knit_of_nothing_refused { refusal(r, s, x): DONE if x.kind == KNIT && s.loops(x.needle) == 0 => NOT_IN }
    // -- Floats
    float_of_20 { too_far: |_, columns| columns > 19 }
    float_of_21_passes { too_far: |_, columns| columns > 21 }
    float_cut_at_200 { too_far: |_, columns| columns > 20 && columns <= 200 }
    float_cut_at_40 { too_far: |_, columns| columns > 20 && columns <= 40 }
    float_wraps { too_far: |_, columns| columns & 0xff > 20 }
    float_slot_to_slot { float_of: |r, s, k, x|
        Some((r.attachment_slot(attached(s, k)?, s.racking) - r.exit(r.column(x.needle, s.racking), x.direction)).abs()) }
    float_behind_alone { float_of: |r, s, k, x| offset(r, s, k, x).map(|by| if x.direction == Right { -by } else { by }) }
    float_ahead_alone { float_of: |r, s, k, x| offset(r, s, k, x).map(|by| if x.direction == Right { by } else { -by }) }
    float_to_the_right_free { float_of: offset }
    float_to_the_left_free { float_of: |r, s, k, x| offset(r, s, k, x).map(|by| -by) }
    float_by_number { float_of: |_, s, k, x| Some(attached(s, k)?.needle.number.abs_diff(x.needle.number) as i32) }
    float_attachment_at_0 { float_of: |r, s, k, x|
        Some((attached(s, k)?.needle.number as i32 - r.column(x.needle, s.racking)).abs()) }
    float_needle_at_0 { float_of: |r, s, k, x|
        Some((r.column(attached(s, k)?.needle, s.racking) - x.needle.number as i32).abs()) }
    float_on_one_bed_alone { float_of(r, s, k, x): Some(_) if attached(s, k)?.needle.bed != x.needle.bed => None }
    float_of_held_loops_alone { float_of(r, s, k, x): Some(_) if s.loops(attached(s, k)?.needle) == 0 => None }
    float_of_the_unattached { float_of(r, s, k, x): None => Some(r.column(x.needle, s.racking).abs()) }
    float_of_misses_too { forms_loops(r, x): false => x.kind == MISS }
    float_of_outs_too { forms_loops(r, x): false => x.kind == OUT }
    float_not_of_tucks { forms_loops(r, x): true => x.kind != TUCK }
    float_not_of_knits { forms_loops(r, x): true => x.kind != KNIT }
    float_not_of_splits { forms_loops(r, x): true => x.kind != SPLIT }
    float_not_of_plated_tucks { forms_loops(r, x): true => x.kind != PLATED_TUCK }
    float_not_of_plated_knits { forms_loops(r, x): true => x.kind != PLATED_KNIT }
    second_float_unlooked { float(r, s, x) of x: x.count = x.count.min(1) }
    first_float_unlooked { float(r, s, x) of x: last_carrier_alone(x) }
    // -- Racks that stretch
    stretch_at_20 { stretches: |_, before, after| after > 19 && after > before }
    stretch_over_21 { stretches: |_, before, after| after > 21 && after > before }
    stretch_as_far_as_before { stretches: |_, before, after| after > 20 && after >= before }
    stretch_over_20_alone { stretches: |_, _, after| after > 20 }
    stretch_greater_alone { stretches: |_, before, after| after > before }
    stretch_from_20_or_less { stretches: |_, before, after| after > 20 && before <= 20 }
    stretch_at_most_40 { stretches: |_, before, after| after > 20 && after > before && after <= 40 }
    stretch_before_at_0 { stretched(r, s, x) of s: s.racking = 0 }
    stretch_columns_for_slots { attachment_slot: |r, a, racking| r.column(a.needle, racking) }
    stretch_sides_exchanged { attachment_slot: |r, a, racking| r.column(a.needle, racking) + i32::from(a.side == Left) }
    stretch_front_carried_too { attachment_slot: |_, a, racking| a.needle.number as i32 + racking + i32::from(a.side == Right) }
    stretch_other_way { attachment_slot: |r, a, racking| right::attachment_slot(r, a, -racking) }
    stretch_to_the_right_alone { distance: |r, p, racking| Some(r.attachment_slot(p.attachment?, racking) - p.slot) }
    stretch_to_the_left_alone { distance: |r, p, racking| Some(p.slot - r.attachment_slot(p.attachment?, racking)) }
    stretch_in_a_byte { distance(r, p, racking): Some(far) => Some(far & 0xff) }
    stretch_in_a_signed_byte { distance(r, p, racking): Some(far) => Some((far as i8).into()) }
    stretch_held_at_255 { distance(r, p, racking): Some(far) => Some(far.min(255)) }
    stretch_of_the_first_alone { stretched: |r, s, x| yarns(r, s, x).first().is_some_and(|y| r.stretches(y.1, y.2)) }
    stretch_of_the_last_alone { stretched: |r, s, x| yarns(r, s, x).last().is_some_and(|y| r.stretches(y.1, y.2)) }
    stretch_of_every_carrier { stretched(r, s, x): true => yarns(r, s, x).iter().all(|y| r.stretches(y.1, y.2)) }
    first_over_20_decides { stretched: |r, s, x| yarns(r, s, x).iter().find(|y| y.2 > 20).is_some_and(|y| r.stretches(y.1, y.2)) }
    last_over_20_decides { stretched: |r, s, x| yarns(r, s, x).iter().rfind(|y| y.2 > 20).is_some_and(|y| r.stretches(y.1, y.2)) }
    longest_decides { stretched: |r, s, x| {
        let most = yarns(r, s, x).iter().fold((0, 0), |most, y| (most.0.max(y.1), most.1.max(y.2)));
        r.stretches(most.0, most.1)
    } }
    unless_one_comes_nearer { stretched(r, s, x): true => yarns(r, s, x).iter().all(|y| y.2 >= y.1) }
    one_over_another_further { stretched: |r, s, x|
        yarns(r, s, x).iter().any(|y| y.2 > 20) && yarns(r, s, x).iter().any(|y| y.2 > y.1) }
    stretch_not_of_4_5_6_8 { stretched(r, s, x) of s: for k in [4, 5, 6, 8] { *s.carrier(k) = None } }
    stretch_not_of_1 { stretched(r, s, x) of s: s.carriers[0] = None }
    stretch_not_of_10 { stretched(r, s, x) of s: s.carriers[9] = None }
    stretch_at_limit_8_alone { stretched(r, s, x): true => s.limit == 8 }
    seventeen_of_drops { stretched(r, s, x) of x: if x.kind == DROP { x.kind = RACK } }
    // -- Room on a hook
    room_of_eight { hook_full: |r, s, x| r.would_hold(s, x) > 8 }
    room_of_nine { hook_full: |r, s, x| r.would_hold(s, x) > s.limit + 1 }
    room_one_less { hook_full: |r, s, x| r.would_hold(s, x) >= s.limit }
    tuck_room_less { would_hold(r, s, x): loops if x.kind == TUCK => loops + 1 }
    tuck_room_more { would_hold(r, s, x): loops if x.kind == TUCK => loops - 1 }
    xfer_room_less { would_hold(r, s, x): loops if x.kind == XFER => loops + 1 }
    xfer_room_more { would_hold(r, s, x): loops if x.kind == XFER => loops.saturating_sub(1) }
    split_room_less { would_hold(r, s, x): loops if x.kind == SPLIT => loops + 1 }
    split_room_more { would_hold(r, s, x): loops if x.kind == SPLIT => loops - 1 }
    plated_tuck_room_for_1 { would_hold(r, s, x): loops if x.kind == PLATED_TUCK => loops - 1 }
    plated_tuck_room_for_3 { would_hold(r, s, x): loops if x.kind == PLATED_TUCK => loops + 1 }
    plated_knit_roomless { would_hold(r, s, x): _ if x.kind == PLATED_KNIT => 0 }
    plated_knit_room_for_3 { would_hold(r, s, x): _ if x.kind == PLATED_KNIT => 3 }
    plated_knit_adds_for_room { would_hold(r, s, x): _ if x.kind == PLATED_KNIT => s.loops(x.needle) + 2 }
    knit_asks_room { would_hold(r, s, x): _ if x.kind == KNIT => s.loops(x.needle) + 1 }
    miss_asks_room { would_hold(r, s, x): _ if x.kind == MISS => s.loops(x.needle) + 1 }
    drop_asks_room { would_hold(r, s, x): _ if x.kind == DROP => s.loops(x.needle) + 1 }
    in_asks_room { would_hold(r, s, x): _ if x.is(&[IN, OUT]) => s.loops(x.needle) + 1 }
    split_asks_on_its_own_hook { would_hold(r, s, x): loops if x.kind == SPLIT => loops.max(s.loops(x.needle) + 1) }
    transfer_of_nothing_asks { would_hold(r, s, x): loops if x.is(&TRANSFERS) && s.loops(x.needle) == 0 => loops + 1 }
    transfer_asks_of_the_target_alone { would_hold(r, s, x): _ if x.is(&TRANSFERS) => s.loops(x.opposite) }
    room_on_the_back_alone { hook_full(r, s, x): true => x.needle.bed == Back }
    room_on_the_front_alone { hook_full(r, s, x): true => x.needle.bed == Front }
    split_room_at_8_alone { hook_full(r, s, x): true => x.kind != SPLIT || s.limit == 8 }
}

/// The racking of the next rack behind.
fn racking_behind(parts: &[Part], i: usize) -> i32 {
    parts[i..].iter().find(|part| part.record.kind == RACK).map_or(parts[i].racking, |rack| rack.record.racking)
}

/// The records of a program with other rackings in force.
fn at_rackings<'a>(parts: &[Part<'a>], racking: impl Fn(&[Part], usize) -> i32) -> Vec<Part<'a>> {
    (0..parts.len()).map(|i| Part { racking: racking(parts, i), ..parts[i] }).collect()
}

misreadings! { ties:
    // -- Extents
    drop_all_layers { layers(r, x): _ if x.kind == DROP => (0, 11) }
    drop_to_the_carriers { layers(r, x): (0, 0) => (0, 1), (11, 11) => (10, 11) }
    drop_layers_below { layers(r, x): (11, 11) => (0, 11) }
    drop_covers_the_other_bed { layers(r, x): (0, 0) => (11, 11), (11, 11) => (0, 0) }
    drop_broad { halves(r, x, racking): (left, right) if x.kind == DROP => (left - 1, right + 1) }
    xfer_broad { halves(r, x, racking): (left, right) if x.kind == XFER => (left - 1, right + 1) }
    xfer_between_the_beds { layers(r, x): _ if x.kind == XFER => (1, 10) }
    xfer_on_its_bed { layers(r, x) of x: if x.kind == XFER { x.kind = DROP } }
    xfer_at_its_second_needle { halves(r, x, racking) of x: if x.is(&TRANSFERS) { x.needle = x.opposite } }
    stitch_narrow { halves(r, x, racking): (left, right) if x.is(&STITCHES) => (left + 1, right - 1) }
    plated_narrow { halves(r, x, racking): (left, right) if x.is(&PLATED) => (left + 1, right - 1) }
    pass_narrow { halves(r, x, racking): (left, right) if x.is(&PASSES) => (left + 1, right - 1) }
    stitch_wider { halves(r, x, racking): (left, right) if x.is(&STITCHES) => (left - 1, right + 1) }
    stitch_lacks_its_right { halves(r, x, racking): (left, right) if x.is(&STITCHES) => (left, right - 1) }
    stitch_lacks_its_left { halves(r, x, racking): (left, right) if x.is(&STITCHES) => (left + 1, right) }
    in_from_the_left_end { halves(r, x, racking): (_, right) if x.is(&[IN, OUT]) => (-17, right) }
    miss_to_the_front { layers(r, x): (_, high) if x.is(&PASSES) => (0, high) }
    miss_to_the_back { layers(r, x): (low, _) if x.is(&PASSES) => (low, 11) }
    miss_to_its_bed { layers(r, x) of x: if x.is(&PASSES) { x.kind = KNIT } }
    miss_all_layers { layers(r, x): _ if x.is(&PASSES) => (0, 11) }
    beds_exchanged { layers(r, x) of x: x.needle.bed = x.needle.bed.other() }
    stitch_all_layers { layers(r, x): _ if x.is(&STITCHES) => (0, 11) }
    stitch_on_its_carrier_alone { layers(r, x) of x: if x.is(&[TUCK, KNIT]) { x.kind = MISS } }
    stitch_on_its_bed_alone { layers(r, x) of x: if x.is(&[TUCK, KNIT]) { x.kind = DROP } }
    stitch_short_of_its_carrier { layers(r, x):
        (0, k) if x.is(&[TUCK, KNIT]) => (0, k - 1), (k, 11) if x.is(&[TUCK, KNIT]) => (k + 1, 11) }
    stitch_past_its_carrier { layers(r, x):
        (0, k) if x.is(&[TUCK, KNIT]) => (0, k + 1), (k, 11) if x.is(&[TUCK, KNIT]) => (k - 1, 11) }
    carrier_8_to_9 { layers(r, x): (0, 8) => (0, 9) }
    split_as_a_knit { layers(r, x) of x: if x.kind == SPLIT { x.kind = KNIT } }
    plated_smaller_on_the_front { layers(r, x): (0, _) if x.is(&PLATED) => (0, x.named[0].min(x.named[1]) as i32),
        (_, 11) if x.is(&PLATED) => (x.named[0].max(x.named[1]) as i32, 11) }
    plated_first_alone { layers(r, x) of x: x.count = x.count.min(1) }
    plated_second_alone { layers(r, x) of x: last_carrier_alone(x) }
    plated_between_its_carriers { layers(r, x) of x: if x.is(&PLATED) { x.kind = MISS } }
    plated_all_layers { layers(r, x): _ if x.is(&PLATED) => (0, 11) }
    plated_beds_exchanged { layers(r, x) of x: if x.is(&PLATED) { x.needle.bed = x.needle.bed.other() } }
    ties_by_number { halves: |r, x, _| right::halves(r, x, 0) }
    columns_not_doubled { halves(r, x, racking):
        (left, right) => (left - r.column(x.needle, racking), right - r.column(x.needle, racking)) }
    negative_halves_rounded { halves(r, x, racking): (left, right) if left < 0 => (left + 1, right) }
    halves_touch_is_no_meeting { shared(r, a, b): Some(_) if a.halves.0 >= b.halves.1 || b.halves.0 >= a.halves.1 => None }
    layers_touch_is_no_meeting { shared(r, a, b): Some(_) if a.layers.0 >= b.layers.1 || b.layers.0 >= a.layers.1 => None }
    layers_unlooked { shared: |r, a, b| right::shared(r, Extent { layers: (0, 11), ..a }, Extent { layers: (0, 11), ..b }) }
    columns_unlooked { shared: |r, a, b| right::shared(r, Extent { halves: (0, 0), ..a }, Extent { halves: (0, 0), ..b }) }
    told_from_the_first_edge { shared(r, a, b): Some(both) => Some(Extent { halves: (a.halves.0, both.halves.1), ..both }) }
    told_to_the_first_edge { shared(r, a, b): Some(both) => Some(Extent { halves: (both.halves.0, a.halves.1), ..both }) }
    told_with_the_first_layers { shared(r, a, b): Some(both) => Some(Extent { layers: a.layers, ..both }) }
    told_with_the_second_layers { shared(r, a, b): Some(both) => Some(Extent { layers: b.layers, ..both }) }
    low_of_first { shared(r, a, b): Some(both) => Some(Extent { layers: (a.layers.0, both.layers.1), ..both }) }
    high_of_first { shared(r, a, b): Some(both) => Some(Extent { layers: (both.layers.0, a.layers.1), ..both }) }
    low_high_exchanged { shared(r, a, b): Some(both) => Some(Extent { layers: (both.layers.1, both.layers.0), ..both }) }
    told_all_that_either_covers { shared(r, a, b): Some(_) => Some(Extent {
        halves: (a.halves.0.min(b.halves.0), a.halves.1.max(b.halves.1)),
        layers: (a.layers.0.min(b.layers.0), a.layers.1.max(b.layers.1)),
    }) }
    // -- Ties
    extents_alone { both_name: |_, _, _| vec![] }
    carriers_alone { shared: |_, _, _| None }
    second_yarn_unlooked { both_name(r, a, b): mut both => { both.retain(|&k| k == a.named[0] && k == b.named[0]); both } }
    first_yarn_unlooked { both_name(r, a, b):
        mut both => { both.retain(|k| a.carriers().last() == Some(k) && b.carriers().last() == Some(k)); both } }
    split_names_none { both_name(r, a, b): _ if a.kind == SPLIT || b.kind == SPLIT => vec![] }
    in_names_none { both_name(r, a, b): _ if a.kind == IN || b.kind == IN => vec![] }
    splits_second_needle_named { both_name: |_, a, b| {
        let names = |x: &Record, k| x.carriers().contains(&k) || (x.kind == SPLIT && x.opposite.number == k);
        (1..=CARRIERS).filter(|&k| names(a, k) && names(b, k)).collect()
    } }
    greatest_carrier { both_name(r, a, b): both => both.into_iter().rev().collect() }
    first_named_carrier { both_name: |_, a, b| a.carriers().iter().copied().filter(|k| b.carriers().contains(k)).collect() }
    second_named_carrier { both_name: |_, a, b| b.carriers().iter().copied().filter(|k| a.carriers().contains(k)).collect() }
    racks_untied { tie(r, a, b, racking): _ if a.kind == RACK || b.kind == RACK => Tie::default() }
    second_rack_unlooked { tie(r, a, b, racking): _ if b.kind == RACK && a.kind != RACK => Tie::default() }
    first_rack_unlooked { tie(r, a, b, racking): _ if a.kind == RACK && b.kind != RACK => Tie::default() }
    rack_in_force_untied { tie(r, a, b, at): _ if [a, b].iter().any(|x| x.kind == RACK && x.racking == at) => Tie::default() }
    everything_tied { tied: |_, _, _, _| true }
    nothing_tied { tied: |_, a, b, _| a.kind == RACK || b.kind == RACK }
    equal_drops_untied { tied(r, a, b, racking): true => a.kind != DROP || a != b }
    carrier_before_rack { tie(r, a, b, racking): _ if a.count + b.count == 0 => Tie { number: TIED, by: 2, ..Tie::default() } }
    rack_tells_fields { tie(r, a, b, racking): tie if tie.by == 1 => Tie { carrier: a.named[0].max(b.named[0]), ..tie } }
    extents_before_carrier { tie(r, a, b, at): tie if tie.by == 2 => r.shared(r.extent(a, at), r.extent(b, at))
        .map_or(tie, |both| Tie { number: TIED, by: 3, carrier: 0, halves: both.halves, layers: both.layers }) }
    extents_told_with_a_carrier { tie(r, a, b, at): tie if tie.by == 2 => r.shared(r.extent(a, at), r.extent(b, at))
        .map_or(tie, |both| Tie { halves: both.halves, layers: both.layers, ..tie }) }
    told_columns { tie(r, a, b, racking): tie => Tie { halves: (tie.halves.0 / 2, tie.halves.1 / 2), ..tie } }
    by_extents_number_3_0 { tie(r, a, b, racking): tie if tie.number == DONE => Tie { by: 3, ..tie } }
    told_at_0 at Tie { tie: |r, a, b, _| right::tie(r, a, b, 0) }
    told_at_minus at Tie { tie: |r, a, b, racking| right::tie(r, a, b, -racking) }
    judged_at_0 { tied: |r, a, b, _| right::tied(r, a, b, 0) }
    judged_the_other_way { tied: |r, a, b, racking| right::tied(r, a, b, -racking) }
    racking_one_late { log_number(r, parts, b) of parts: *parts = at_rackings(parts, |parts, i| parts[i.max(1) - 1].racking) }
    racking_one_behind { log_number(r, parts, b) of parts: *parts = at_rackings(parts, racking_behind) }
    racking_before_the_last_rack { log_number(r, parts, b) of parts: *parts = at_rackings(parts, |parts, i| {
        parts[..i].iter().rfind(|part| part.record.kind == RACK).map_or(0, |rack| rack.racking)
    }) }
    racking_of_the_end { log_number(r, parts, b) of parts: *parts = at_rackings(parts, |parts, _| parts.last().unwrap().racking) }
    racking_kept_to_64 { log_number(r, parts, b) of parts: *parts = at_rackings(parts, |parts, i| parts[i / 64 * 64].racking) }
    second_read_first { pair_read: |r, racking, first, second| right::pair_read(r, racking, second, first).map(|(b, a)| (a, b)) }
    sixteen_of_a_pair { pair_read(r, racking, first, second):
        Ok(pair) if r.one_yarn_twice(&pair.0) || r.one_yarn_twice(&pair.1) => Err(ONE_YARN_TWICE) }
    pair_opposite_looked_at { pair_read(r, racking, first, second):
        Ok((a, b)) if [a, b].iter().any(|x| r.not_opposite(&State { racking, ..State::empty(8) }, x)) => Err(NOT_OPPOSITE) }
    racking_after_records { pair_read: |r, racking, first, second|
        right::pair_read(r, 0, first, second).and_then(|_| right::pair_read(r, racking, first, second)) }
    racking_minus_128_through { pair_read: |r, at, a, b| right::pair_read(r, if at == -128 { 0 } else { at }, a, b) }
    racking_9_through { pair_read: |r, at, a, b| right::pair_read(r, if at == 9 { 8 } else { at }, a, b) }
}

fn position(high: u8, low: u8) -> Option<usize> {
    Some(usize::from(high) * 256 + usize::from(low))
}

misreadings! { calls:
    program_of_32767 { too_long: |_, program, log| program > 32_767 || log > 32_768 }
    program_of_32769 { too_long: |_, program, log| program > 32_769 || log > 32_768 }
    log_of_32767 { too_long: |_, program, log| program > 32_768 || log > 32_767 }
    log_limit_32766 { too_long: |_, program, log| program > 32_768 || log > 32_766 }
    log_unlimited { too_long: |_, program, _| program > 32_768 }
    five_byte_logs { too_long: |_, program, log| program > 32_768 || log > 5 }
    lengths_in_16_bits { too_long: |_, program, log| program & 0xffff > 32_768 || log & 0xffff > 32_768 }
    lengths_in_32_bits { too_long: |_, program, log| program as u32 > 32_768 || log as u32 > 32_768 }
    entry_for_every_byte { no_bench: |_, program, output, work| output < program || work < program }
    half_rounded_up { no_bench: |_, program, output, work| output < program || work < program.div_ceil(2) }
    one_entry_more { no_bench: |_, program, output, work| output < program || work < program / 2 + 1 }
    empty_needs_room { no_bench: |_, program, output, work| output < program || work < (program / 2).max(1) }
    work_of_output_asked { no_bench: |_, program, output, work| output < program || work < output / 2 }
    output_one_more { no_bench: |_, program, output, work| output <= program || work < program / 2 }
    output_in_32_bits { no_bench: |_, program, output, work| (output as u32 as usize) < program || work < program / 2 }
    work_in_32_bits { no_bench: |_, program, output, work| output < program || (work as u32 as usize) < program / 2 }
    length_before_limit { refused_loan(r, limit, program, log, output, work): FOUL_STATE if r.too_long(program, log) => TOO_LONG }
    room_before_limit { refused_loan(r, limit, program, log, output, work):
        FOUL_STATE if r.no_bench(program, output, work) => NO_BENCH }
    room_before_length { refused_loan(r, limit, program, log, output, work):
        TOO_LONG if r.no_bench(program, output, work) => NO_BENCH }
    torn_by_length_first { refused_loan(r, limit, program, log, output, work): DONE if log % 3 != 0 => TORN_LOG }
    at_as_eight { refused_loan: |r, _, program, log, output, work| right::refused_loan(r, 8, program, log, output, work);
        hook_full: |r, s, x| r.would_hold(s, x) > 8 }
    log_low_first { log_record: |_, b| match *b { [0x40, low, high, ..] => position(high, low), _ => None } }
    log_from_1 { log_record(r, b): Some(i) => Some(i.saturating_sub(1)) }
    log_in_one_byte { log_record(r, b): Some(i) => Some(i & 0xff) }
    log_kind_41 { log_record: |_, b| match *b { [0x41, high, low, ..] => position(high, low), _ => None } }
    log_kinds_40_and_41 { log_record: |_, b| match *b { [0x40 | 0x41, high, low, ..] => position(high, low), _ => None } }
    log_any_kind { log_record: |_, b| match *b { [_, high, low, ..] => position(high, low), _ => None } }
    torn_read_with_0 { log_record(r, b): None if b.len() == 2 && b[0] == 0x40 => position(b[1], 0) }
    log_goes_on { log_number: |_, _, _| DONE; log_record: |r, b| right::log_record(r, b).or(Some(usize::MAX - 1));
        swap: |r, parts, i| if i + 1 < parts.len() && !r.keeps_back(&parts[i], &parts[i + 1]) { right::swap(r, parts, i) } }
    no_pair_one_early { log_number(r, parts, b): DONE | TIED if r.log_record(b) == Some(parts.len() - 2) => NO_PAIR }
    last_record_no_pair_gets_13 { log_number(r, parts, b): NO_PAIR if r.log_record(b) == parts.len().checked_sub(1) => TIED }
    twelve_before_fourteen { log_number(r, parts, b):
        TORN_LOG if b.len() == 3 && position(b[1], b[2]).is_some_and(|i| i + 1 >= parts.len()) => NO_PAIR }
    neighbours_by_final_state { log_number(r, parts, b): DONE | TIED => {
        let i = r.log_record(b).unwrap();
        let step = |mut s: State, x: &Record| (r.refusal(&s, x) == DONE).then(|| { r.apply(&mut s, x); s });
        let end = |pair: [usize; 2]| (0..i).chain(pair).map(|j| &parts[j].record).try_fold(State::empty(8), step);
        if end([i, i + 1]) == end([i + 1, i]) { DONE } else { TIED }
    } }
    no_swap { swap: |_, _, _| () }
    unlike_lengths_left { swap: |r, parts, i| if parts[i].bytes.len() == parts[i + 1].bytes.len() { right::swap(r, parts, i) } }
    tied_writes_nothing { writes(r, number): _ if number == TIED => false }
    no_pair_writes_nothing { writes(r, number): _ if number == NO_PAIR => false }
    torn_writes_nothing { writes(r, number): _ if number == TORN_LOG => false }
    made_up_place { place(r, number, start): _ if (3..=5).contains(&number) => 0 }
    place_lost { place: |_, _, _| 0 }
    place_of_16_lost { place(r, number, start): _ if number >= 16 => 0 }
    place_of_next { place(r, number, start): place if (12..=14).contains(&number) => place + 3 }
    place_after_refusal_1_2_15 { place(r, number, start): _ if [1, 2, 15].contains(&number) => 1 }
    place_in_records { place(r, number, start): place if (12..=14).contains(&number) => place / 3 }
    place_in_14_bits { place(r, number, start): place => place & 0x3fff }
    place_in_a_byte { place(r, number, start): place => place & 0xff }
    number_times_256 { word: |_, number, place| u64::from(number) * 256 + place as u64 }
    place_first { word: |_, number, place| place as u64 * 65_536 + u64::from(number) }
}

/// The order of a stretch, record by record: of those that are free among what is left, the one with the least key.
fn taken<K: Ord>(
    free: impl Fn(&Rules, &[Part], usize) -> bool, key: impl Fn(&Rules, &Part) -> K,
) -> impl Fn(&Rules, &[Part]) -> Vec<usize> {
    move |r, parts| {
        let (mut left, mut places) = (parts.to_vec(), Vec::from_iter(0..parts.len()));
        let mut next = || {
            let next = (0..left.len()).filter(|&at| free(r, &left, at)).min_by_key(|&at| key(r, &left[at])).unwrap_or(0);
            left.remove(next);
            places.remove(next)
        };
        parts.iter().map(|_| next()).collect()
    }
}

/// Free as it should be: not tied to an earlier one that is left.
fn free(r: &Rules, left: &[Part], at: usize) -> bool {
    left[..at].iter().all(|earlier| !r.keeps_back(earlier, &left[at]))
}

misreadings! { orders:
    descending { comes_first: |r, a, b| right::comes_first(r, b, a) }
    bytes_signed { comes_first: |_, a, b| a.iter().map(|&x| x as i8).lt(b.iter().map(|&x| x as i8)) }
    longer_first { comes_first: |r, a, b| a.len() > b.len() || (a.len() == b.len() && right::comes_first(r, a, b)) }
    kind_unlooked { comes_first: |r, a, b| right::comes_first(r, &a[1..], &b[1..]) }
    from_the_last_byte { comes_first: |_, a, b| a.iter().rev().lt(b.iter().rev()) }
    by_column { house_stretch: taken(free, |r, p| (r.column(p.record.needle, p.racking), p.bytes.to_vec())) }
    by_needle { house_stretch: taken(free, |_, p| (p.record.needle.number, p.bytes.to_vec())) }
    by_carrier { house_stretch: taken(free, |_, p| (p.record.named[0], p.bytes.to_vec())) }
    bed_before_direction { house_stretch: taken(free, |_, p| (p.bytes[0], p.record.needle.bed == Back, p.bytes.to_vec())) }
    taken_from_the_back { house_stretch: |r, parts| {
        let turned: Vec<Part> = parts.iter().rev().copied().collect();
        let order = taken(free, |_, part| std::cmp::Reverse(part.bytes.to_vec()))(r, &turned);
        order.iter().rev().map(|at| parts.len() - 1 - at).collect()
    } }
    taken_in_rounds { house_stretch: |r, parts| {
        let mut rounds: Vec<usize> = vec![];
        for (i, part) in parts.iter().enumerate() {
            rounds.push((0..i).filter(|&j| r.keeps_back(&parts[j], part)).map(|j| rounds[j] + 1).max().unwrap_or(0));
        }
        let mut order = Vec::from_iter(0..parts.len());
        order.sort_by_key(|&i| (rounds[i], parts[i].bytes));
        order
    } }
    taken_by_neighbours { house_stretch: |r, parts| {
        let mut order = Vec::from_iter(0..parts.len());
        let out = |a: usize, b: usize| parts[b].bytes < parts[a].bytes && !r.keeps_back(&parts[a], &parts[b]);
        while let Some(at) = (1..order.len()).find(|&at| out(order[at - 1], order[at])) {
            order.swap(at - 1, at);
        }
        order
    } }
    taken_as_they_stand { house_stretch: |_, parts| (0..parts.len()).collect() }
    insert_before_equal_bound { house_stretch: |r, parts| (0..parts.len()).fold(vec![], |mut order: Vec<usize>, i| {
        let last_tied = order.iter().rposition(|&j| r.keeps_back(&parts[j], &parts[i]));
        order.insert(last_tied.map_or(0, |at| at + 1), i);
        order
    }) }
    tied_to_the_one_before_alone { house_stretch: taken(
        |r, left, at| at == 0 || !r.keeps_back(&left[at - 1], &left[at]), |_, part| part.bytes.to_vec()) }
    tied_to_any_remaining { house_stretch: taken(
        |r, left, at| (0..left.len()).all(|i| i == at || !r.keeps_back(&left[i], &left[at])), |_, part| part.bytes.to_vec()) }
    house_ties_unseen { keeps_back: |_, _, _| false }
    house_carriers_unseen { keeps_back(r, a, b):
        true => r.shared(r.extent(&a.record, a.racking), r.extent(&b.record, b.racking)).is_some() }
    house_at_0 { keeps_back: |r, a, b| r.tied(&a.record, &b.record, 0) }
    house_racking_behind { house: |r, parts| right::house(r, &at_rackings(parts, racking_behind)) }
    house_neighbouring_columns_pass { keeps_back(r, a, b):
        true => r.column(a.record.needle, a.racking) == r.column(b.record.needle, b.racking) }
    house_reach_by_number { keeps_back(r, a, b): true => a.record.needle.number.abs_diff(b.record.needle.number) <= 1 }
    racks_passed { house: |r, parts| {
        let (racks, others): (Vec<usize>, Vec<usize>) = (0..parts.len()).partition(|&i| parts[i].record.kind == RACK);
        let stretch: Vec<Part> = others.iter().map(|&i| parts[i]).collect();
        let mut order: Vec<usize> = r.house_stretch(&stretch).iter().map(|&i| others[i]).collect();
        racks.iter().for_each(|&i| order.insert(i, i));
        order
    } }
    racks_ordered_too { house: |r, parts| r.house_stretch(parts);
        keeps_back(r, a, b): true => a.record.kind != RACK && b.record.kind != RACK }
}

misreadings! { states:
    slot_258 { slot_in_range: |_, slot| (-8..=257).contains(&slot) }
    slot_259 { slot_in_range: |_, slot| (-8..=259).contains(&slot) }
    slot_minus_8 { slot_in_range: |_, slot| (-7..=258).contains(&slot) }
    slot_minus_9 { slot_in_range: |_, slot| (-9..=258).contains(&slot) }
    slot_unlooked { slot_in_range: |_, _| true }
    inactive_unseen { foul_carrier(r, c): true => c.active != 0 || c.side != 0 }
    inactive_slot_fine { foul_carrier(r, c) of c: if c.active == 0 { c.slot = 0 } }
    inactive_needle_fine { foul_carrier(r, c) of c: if c.active == 0 { c.needle = 0 } }
    inactive_bed_fine { foul_carrier(r, c) of c: if c.active == 0 { c.bed = 0 } }
    inactive_attached_fine { foul_carrier(r, c) of c: if c.active == 0 { c.side = 0 } }
    unattached_needle_fine { foul_carrier(r, c) of c: if c.side == 0 { c.needle = 0 } }
    unattached_bed_fine { foul_carrier(r, c) of c: if c.side == 0 { c.bed = 0 } }
    active_2_fine { foul_carrier(r, c) of c: if c.active == 2 { c.active = 1 } }
    side_3_fine { foul_carrier(r, c) of c: if c.side == 3 { c.side = 2 } }
    lent_bed_2_fine { foul_carrier(r, c) of c: if c.bed == 2 { c.bed = 1 } }
    lent_needle_250_fine { foul_carrier(r, c) of c: if c.needle == 250 { c.needle = 249 } }
    lent_needle_249_foul { foul_carrier(r, c) of c: if c.needle == 249 { c.needle = 250 } }
    bed_by_its_low_byte { foul_carrier(r, c) of c: c.bed &= 0xff }
    needle_by_its_low_byte { foul_carrier(r, c) of c: c.needle &= 0xff }
    slot_by_its_low_byte { foul_carrier(r, c) of c: c.slot = (c.slot as i8).into() }
    big_endian_fields { foul_carrier(r, c) of c:
        (c.slot, c.bed, c.needle) = (c.slot.swap_bytes(), c.bed.swap_bytes(), c.needle.swap_bytes()) }
    attached_off_its_slot_foul { foul(r, s):
        false => s.state().carriers.iter().flatten().any(|parked| r.distance(*parked, s.racking.into()) > Some(0)) }
    carrier_10_unlooked { foul(r, s) of s: s.carriers[9] = Default::default() }
    carrier_1_unlooked { foul(r, s) of s: s.carriers[0] = Default::default() }
    racking_unlooked { foul(r, s) of s: s.racking = 0 }
    loops_to_eight { foul(r, s) of s: for count in &mut s.loops { if *count <= 8 { *count = 0 } } }
    loops_less_one { foul(r, s): false => s.loops.contains(&s.limit) }
    loops_sum { foul(r, s): false => s.loops.iter().map(|&count| u32::from(count)).sum::<u32>() > s.limit.into() }
    loops_of_the_front_alone { foul(r, s) of s: s.loops[250..].fill(0) }
    loops_of_the_back_alone { foul(r, s) of s: s.loops[..250].fill(0) }
    loops_of_f_0_unlooked { foul(r, s) of s: s.loops[0] = 0 }
    loops_of_b_249_unlooked { foul(r, s) of s: s.loops[499] = 0 }
    loops_outermost_only { foul(r, s) of s: s.loops[1..499].fill(0) }
    two_at_one_slot_foul { foul(r, s): false => (1..10).any(|i| s.carriers[..i].iter().any(|c| {
        c.active == 1 && s.carriers[i].active == 1 && c.slot == s.carriers[i].slot
    })) }
    attached_without_a_loop_foul { foul(r, s):
        false => s.carriers.iter().any(|c| c.side != 0 && s.loops[usize::from(c.bed * 250 + c.needle)] == 0) }
    complete_after_rack { complete(r, s) of s: s.racking = 0 }
    complete_at_8 { complete: |_, s| *s == State::empty(8) }
    complete_without_carriers { complete(r, s) of s: s.carriers = [None; CARRIERS] }
    complete_of_the_unattached { complete(r, s) of s: s.carriers = s.carriers.map(|c| c.filter(|p| p.attachment.is_some())) }
    complete_without_carrier_10 { complete(r, s) of s: s.carriers[9] = None }
    complete_without_carrier_1 { complete(r, s) of s: s.carriers[0] = None }
    complete_without_the_back { complete(r, s) of s: s.loops[1] = [0; NEEDLES] }
    complete_without_b_249 { complete(r, s) of s: s.loops[1][249] = 0 }
    complete_without_f_0 { complete(r, s) of s: s.loops[0][0] = 0 }
    never_complete { complete: |_, _| false }
    always_complete { complete: |_, _| true }
    complete_of_the_old { tells: |r, before, after| (r.complete(before), r.looked(after)) }
    looked_of_the_old { tells: |r, before, after| (r.complete(after), r.looked(before)) }
    complete_when_unchanged { tells(r, before, after): (_, looked) if before == after => (true, looked) }
    incomplete_when_unchanged { tells(r, before, after): (_, looked) if before == after => (false, looked) }
    looked_0_when_unchanged { tells(r, before, after): (complete, _) if before == after => (complete, 0) }
    found_uncounted { walked(r, s): looked if s.loops.iter().flatten().any(|&count| count > 0) => looked - 1 }
    none_counted_when_none { walked(r, s): 500 if s.loops[1][249] == 0 => 0 }
    walk_of_499 { walked(r, s): 500 => 499 }
    walk_downward { walked: |_, s| s.loops.iter().flatten().rev().position(|&count| count > 0).map_or(500, |at| at + 1) }
    walk_back_first { walked: |_, s| s.loops.iter().rev().flatten().position(|&count| count > 0).map_or(500, |at| at + 1) }
    walk_by_columns { walked: |_, s| (0..500).position(|at| s.loops[at % 2][at / 2] > 0).map_or(500, |at| at + 1) }
    single_loop_passed { walked: |_, s| s.loops.iter().flatten().position(|&count| count > 1).map_or(500, |at| at + 1) }
    looked_in_a_byte { walked(r, s): looked => looked & 0xff }
    racking_walked_too { looked: |r, s| r.walked(s) }
    racking_counted { looked(r, s): _ if s.racking != 0 => 1 }
    length_of_slice { length_given(r, number, size, slice): _ if number == DONE => slice }
    length_when_refused { length_given: |_, _, size, _| size }
    length_of_refused_slice { length_given(r, number, size, slice): _ if number != DONE => slice }
    list_of_nine { listed: |_, s, list| list.iter_mut().zip(&s.carriers).for_each(|(entry, carrier)| *entry = *carrier);
        list_number(r, foul, count): NO_BENCH if count == 9 => DONE }
    list_of_eleven { list_number(r, foul, count): DONE if count == 10 => NO_BENCH }
    list_room_first { list_number(r, foul, count): FOUL_STATE if count < 10 => NO_BENCH }
    list_count_in_32_bits { list_number: |r, foul, count| right::list_number(r, foul, count & 0xffff_ffff) }
    tenth_not_written { listed: |_, s, list| list[..9].copy_from_slice(&s.carriers[..9]) }
    eleventh_lost { listed(r, s, list) then list[10..].iter_mut().take(1).for_each(|entry| *entry = Default::default()) }
    later_cleared { listed(r, s, list) then list[10..].fill(Default::default()) }
    list_reversed { listed(r, s, list) then list[..10].reverse() }
    list_of_the_active { listed: |_, s, list|
        list.iter_mut().zip(s.carriers.iter().filter(|c| c.active == 1)).for_each(|(entry, carrier)| *entry = *carrier) }
    list_of_carrier_1 { listed: |_, s, list| list[..10].fill(s.carriers[0]) }
    active_side_exchanged { listed(r, s, list) of s: s.carriers.iter_mut().for_each(|c| (c.active, c.side) = (c.side, c.active)) }
}

/// A family: the extents of some records with one edge off by one, each edge one more and one less.
fn off_by_one(family: String, about: impl Fn(&Record, i32) -> bool + Copy + 'static) -> impl Iterator<Item = Misreading> {
    let edges = ["left", "right", "low", "high"].into_iter().enumerate();
    edges.flat_map(|edge| [(edge, -1, "one less"), (edge, 1, "one more")]).map(move |((edge, named), by, told)| {
        let mut rules = Rules::right();
        rules.extent = Box::new(move |r, x, racking| {
            let mut extent = right::extent(r, x, racking);
            if about(x, racking) {
                *[&mut extent.halves.0, &mut extent.halves.1, &mut extent.layers.0, &mut extent.layers.1][edge] += by;
            }
            extent
        });
        Misreading { name: format!("extent of {family}: {named} {told}"), rules, at: Some(Entry::Tie) }
    })
}

fn families() -> Vec<Misreading> {
    let mut all = vec![];
    for kind in DROP..=PLATED_KNIT {
        for bed in [Front, Back] {
            all.extend(off_by_one(format!("kind {kind}, {bed:?}"), move |x, _| x.kind == kind && x.needle.bed == bed));
        }
        all.extend(off_by_one(format!("kind {kind}, odd rackings"), move |x, racking| x.kind == kind && racking % 2 != 0));
        for way in [Left, Right].into_iter().filter(|_| kind >= IN) {
            all.extend(off_by_one(format!("kind {kind}, {way:?}"), move |x, _| x.kind == kind && x.direction == way));
        }
    }
    for at in -8..=8 {
        all.extend(off_by_one(format!("racking {at}"), move |_, racking| racking == at));
    }
    for k in 1..=CARRIERS {
        all.extend(off_by_one(format!("carrier {k}"), move |x, _| x.carriers().contains(&k)));
    }
    all
}
