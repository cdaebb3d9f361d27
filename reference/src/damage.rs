//! Every way to damage a book that a refusal number names.

use crate::book::HEAD_BYTES;
use crate::cuts;
use crate::draft::{Column, Draft};
use crate::random::Random;
use crate::table::{Refusal, MAX_GRADES, MAX_OBLIGORS, MILLION};

/// The refusal number that the damage alone leads to, and the damage.
pub type Way = (Refusal, fn(&mut Random, &mut Draft));

pub const WAYS: [Way; 28] = [
    (2, shorten_below_head),
    (2, misstate_length),
    (2, cut_unstated),
    (2, lengthen_unstated),
    (3, misstate_raters),
    (3, end_within_offsets),
    (4, misname_rater),
    (31, any_offset_misstated),
    (31, any_table_elsewhere),
    (32, end_behind_offsets),
    (32, any_header_cut),
    (32, any_rows_cut),
    (32, any_count_past_end),
    (6, grade_count_outside),
    (6, forty_one_grades),
    (7, odd_kind),
    (7, odd_zero_bytes),
    (33, cuts::leave_over),
    (33, cuts::leave_rows),
    (8, defaults_above_obligors),
    (8, defaults_of_nobody),
    (10, announced_above),
    (34, announced_below),
    (34, announced_swapped),
    (9, all_grades_empty),
    (11, one_obligor_too_many),
    (11, wrapping_row),
    (11, wrapping_total),
];

/// The numbers of `WAYS` in the order in which load comes to them first.
pub const LOAD_ORDER: [Refusal; 13] = [2, 3, 4, 31, 32, 6, 7, 33, 8, 10, 34, 9, 11];

/// Grade counts outside 1 to 40.
pub(crate) const COUNTS_OUTSIDE: [u8; 4] = [0, 41, 42, 255];
pub(crate) const COUNTS_ABOVE: [u8; 3] = [41, 42, 255];
pub(crate) const ODD_KINDS: [u8; 4] = [2, 3, 128, 255];
pub(crate) const ODD_ZERO_BYTES: [[u8; 2]; 4] = [[1, 0], [0, 1], [255, 255], [0, 128]];

/// A way to damage, each refusal number as often as the others.
pub fn any_way(random: &mut Random) -> Way {
    let number = random.pick(&LOAD_ORDER);
    way_to(random, number)
}

/// A way to damage that leads to this number.
pub(crate) fn way_to(random: &mut Random, number: Refusal) -> Way {
    let ways: Vec<Way> = WAYS.into_iter().filter(|way| way.0 == number).collect();
    random.pick(&ways)
}

/// The ways of this number and of those that load comes to after it.
pub fn ways_from(number: Refusal) -> Vec<Way> {
    let before = LOAD_ORDER.iter().take_while(|&&early| early != number);
    let before: Vec<&Refusal> = before.collect();
    let not_before = |way: &Way| !before.contains(&&way.0);
    WAYS.into_iter().filter(not_before).collect()
}

fn shorten_below_head(random: &mut Random, draft: &mut Draft) {
    draft.bytes.truncate(random.index(HEAD_BYTES));
}

fn misstate_length(random: &mut Random, draft: &mut Draft) {
    let length = draft.bytes.len() as u16;
    let stated = random.pick(&[
        length.wrapping_add(1),
        length.wrapping_sub(1),
        length
            .swap_bytes()
            .wrapping_add(u16::from(length.is_multiple_of(257))),
        length ^ 0x8000,
        if length == 0 { 1 } else { 0 },
    ]);
    draft.put(2, &stated.to_le_bytes());
}

fn cut_unstated(random: &mut Random, draft: &mut Draft) {
    let length = draft.bytes.len();
    let shorter = match random.chance(50) {
        true => length.saturating_sub(1),
        false => random.index(length.max(1)),
    };
    draft.bytes.truncate(shorter);
}

fn lengthen_unstated(random: &mut Random, draft: &mut Draft) {
    let more = random.pick(&[1, 2, 12, 500]);
    draft.bytes.extend(vec![0; more]);
}

fn misstate_raters(random: &mut Random, draft: &mut Draft) {
    let raters: u16 = random.pick(&[0, 17, 18, 256, 257, 65_535]);
    draft.put(0, &raters.to_le_bytes());
}

fn end_within_offsets(random: &mut Random, draft: &mut Draft) {
    let length = HEAD_BYTES + random.index(2 * draft.raters());
    draft.bytes.truncate(length);
    draft.restate_length();
}

fn misname_rater(random: &mut Random, draft: &mut Draft) {
    let raters = draft.raters() as u32;
    draft.rater = random.pick(&[0, raters + 1, raters + 256, 65_536, 65_537, u32::MAX]);
}

fn end_behind_offsets(_: &mut Random, draft: &mut Draft) {
    let length = HEAD_BYTES + 2 * draft.raters();
    draft.bytes.truncate(length);
    draft.restate_length();
}

fn any_table_elsewhere(random: &mut Random, draft: &mut Draft) {
    let index = random.index(draft.raters());
    cuts::start_elsewhere(random, draft, index);
}

fn any_offset_misstated(random: &mut Random, draft: &mut Draft) {
    let index = random.index(draft.raters());
    cuts::misstate_offset(random, draft, index);
}

fn any_rows_cut(random: &mut Random, draft: &mut Draft) {
    let index = random.index(draft.raters());
    cuts::cut_rows(random, draft, index);
}

fn any_header_cut(random: &mut Random, draft: &mut Draft) {
    let index = random.index(draft.raters());
    cuts::cut_header(random, draft, index);
}

fn any_count_past_end(random: &mut Random, draft: &mut Draft) {
    let index = random.index(draft.raters());
    cuts::count_past_end(random, draft, index);
}

fn grade_count_outside(random: &mut Random, draft: &mut Draft) {
    let index = random.index(draft.raters());
    damage_layout(random, draft, index, 6);
}

/// Damages the layout at the table of this index, if the number is one of a table's layout. No byte
/// is put in.
pub(crate) fn damage_layout(random: &mut Random, draft: &mut Draft, index: usize, number: Refusal) {
    let start = draft.start(index);
    match number {
        31 => cuts::misstate_offset(random, draft, index),
        32 => cuts::run_past_end(random, draft, index),
        6 => draft.put(start, &[random.pick(&COUNTS_OUTSIDE)]),
        7 if random.chance(50) => draft.put(start + 1, &[random.pick(&ODD_KINDS)]),
        7 => draft.put(start + 2, &random.pick(&ODD_ZERO_BYTES)),
        _ => (),
    }
}

/// Lengthens the last table to 41 true rows.
fn forty_one_grades(_: &mut Random, draft: &mut Draft) {
    let last = draft.raters() - 1;
    let more = MAX_GRADES + 1 - draft.grade_count(last);
    for _ in 0..more {
        draft.bytes.extend([1, 0, 0, 0, 0, 0, 0, 0, 0, 0, 0, 0]);
    }
    draft.put(draft.start(last), &[MAX_GRADES as u8 + 1]);
    draft.restate_length();
}

fn odd_kind(random: &mut Random, draft: &mut Draft) {
    let index = random.index(draft.raters());
    let kind = random.pick(&ODD_KINDS);
    draft.put(draft.start(index) + 1, &[kind]);
}

fn odd_zero_bytes(random: &mut Random, draft: &mut Draft) {
    let index = random.index(draft.raters());
    let bytes = random.pick(&ODD_ZERO_BYTES);
    draft.put(draft.start(index) + 2, &bytes);
}

/// A random row of the table to be loaded.
fn any_row(random: &mut Random, draft: &Draft) -> usize {
    random.index(draft.grade_count(draft.loaded()))
}

pub(crate) fn put_number(draft: &mut Draft, grade: usize, column: Column, number: u32) {
    let at = draft.column(draft.loaded(), grade, column);
    draft.put(at, &number.to_le_bytes());
}

pub(crate) fn get_number(draft: &Draft, grade: usize, column: Column) -> u32 {
    draft.number(draft.column(draft.loaded(), grade, column))
}

pub(crate) fn set_kind(draft: &mut Draft, kind: u8) {
    draft.put(draft.start(draft.loaded()) + 1, &[kind]);
}

fn defaults_above_obligors(random: &mut Random, draft: &mut Draft) {
    let grade = any_row(random, draft);
    let obligors = get_number(draft, grade, Column::First);
    let defaults = random.pick(&[obligors.saturating_add(1), u32::MAX]);
    set_kind(draft, 0);
    put_number(draft, grade, Column::Defaults, defaults);
}

/// Kind 0 with no obligor and a default: 8, for all that the grade may be empty.
fn defaults_of_nobody(random: &mut Random, draft: &mut Draft) {
    let grade = any_row(random, draft);
    set_kind(draft, 0);
    put_number(draft, grade, Column::First, 0);
    put_number(draft, grade, Column::Defaults, 1);
}

fn all_grades_empty(_: &mut Random, draft: &mut Draft) {
    for grade in 0..draft.grade_count(draft.loaded()) {
        put_number(draft, grade, Column::First, 0);
        put_number(draft, grade, Column::Defaults, 0);
    }
}

fn announced_above(random: &mut Random, draft: &mut Draft) {
    let grade = any_row(random, draft);
    put_rate_above(random, draft, grade);
}

pub(crate) fn put_rate_above(random: &mut Random, draft: &mut Draft, grade: usize) {
    let announced = random.pick(&[MILLION as u32 + 1, MILLION as u32 + 1, u32::MAX]);
    put_number(draft, grade, Column::Announced, announced);
}

/// A rate below that of the row before, in any row but the first.
fn announced_below(random: &mut Random, draft: &mut Draft) {
    have_second_row(draft);
    let grade = 1 + random.index(draft.grade_count(draft.loaded()) - 1);
    if get_number(draft, grade - 1, Column::Announced) == 0 {
        let before = random.pick(&[1, 2, MILLION as u32]);
        put_number(draft, grade - 1, Column::Announced, before);
    }
    // A row that was cut away has no rate.
    let most = get_number(draft, grade - 1, Column::Announced).saturating_sub(1);
    let any = random.between(0, most.into()) as u32;
    let announced = random.pick(&[most, most, any, 0]);
    put_number(draft, grade, Column::Announced, announced);
}

/// Two rates exchanged, of which the better grade had the lower one.
fn announced_swapped(random: &mut Random, draft: &mut Draft) {
    let count = draft.grade_count(draft.loaded());
    let rate = |grade| get_number(draft, grade, Column::Announced);
    let pairs: Vec<(usize, usize)> = (0..count)
        .flat_map(|worse| (0..worse).map(move |better| (better, worse)))
        .filter(|&(better, worse)| rate(better) < rate(worse))
        .collect();
    if pairs.is_empty() {
        return announced_below(random, draft);
    }
    let (better, worse) = random.pick(&pairs);
    let rates = (rate(better), rate(worse));
    put_number(draft, better, Column::Announced, rates.1);
    put_number(draft, worse, Column::Announced, rates.0);
}

/// A table of one grade gets another one, with nobody in it; the offsets tell it.
fn have_second_row(draft: &mut Draft) {
    let index = draft.loaded();
    if draft.grade_count(index) == 1 {
        draft.add_grade(index);
        put_number(draft, 1, Column::First, 0);
        draft.restate_offsets(index + 1);
    }
}

/// N becomes 1,000,001, the smallest number above the limit.
fn one_obligor_too_many(random: &mut Random, draft: &mut Draft) {
    let index = draft.loaded();
    let kind = draft.bytes.get(draft.start(index) + 1).copied();
    let mut obligors = 0;
    for grade in 0..draft.grade_count(index) {
        obligors += u64::from(get_number(draft, grade, Column::First));
        if kind == Some(1) {
            obligors += u64::from(get_number(draft, grade, Column::Defaults));
        }
    }
    let more = (MAX_OBLIGORS + 1).saturating_sub(obligors);
    let grade = any_row(random, draft);
    let first = u64::from(get_number(draft, grade, Column::First));
    put_number(draft, grade, Column::First, (first + more) as u32);
}

/// A row whose n, as a 32-bit number, would be small again.
fn wrapping_row(random: &mut Random, draft: &mut Draft) {
    let grade = any_row(random, draft);
    let defaults = random.pick(&[0, 1, 2, 100]);
    set_kind_for_any_defaults(draft);
    put_number(draft, grade, Column::First, u32::MAX);
    put_number(draft, grade, Column::Defaults, defaults);
}

/// Rows whose n add up to a small number again, as a 32-bit number.
fn wrapping_total(random: &mut Random, draft: &mut Draft) {
    let count = draft.grade_count(draft.loaded());
    let half = 1 << 31;
    set_kind_for_any_defaults(draft);
    match random.chance(50) {
        true => put_number(draft, 0, Column::Defaults, u32::MAX),
        false => put_number(draft, 0, Column::First, half),
    }
    put_number(draft, count - 1, Column::First, half);
}

/// Kind 1, so that no row has too many defaults.
fn set_kind_for_any_defaults(draft: &mut Draft) {
    set_kind(draft, 1);
}
