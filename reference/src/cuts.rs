//! Books cut wrong, as R-2 tells the faults apart: a table that starts elsewhere than where the
//! one before ended, a table that runs past the end, bytes after the last table. Done to a sound
//! book, each leads to its number at the table that the caller names.

use crate::book::{ROW_BYTES, TABLE_HEAD_BYTES};
use crate::draft::Draft;
use crate::random::Random;
use crate::script::MAX_BOOK_LENGTH;
use crate::table::MAX_GRADES;

/// Damage at the table of this index.
type CutAt = fn(&mut Random, &mut Draft, usize);

/// Ways to make a table start elsewhere, each as often as its number says: the first table, and one
/// behind another.
const FIRST_ELSEWHERE: &[(u64, CutAt)] = &[(3, misstate_offset), (1, leave_gap)];
const LATER_ELSEWHERE: &[(u64, CutAt)] = &[
    (4, misstate_offset),
    (2, leave_gap),
    (2, lose_bytes_before),
    (2, miscount_before),
    (2, regrade_before),
    (1, paste_before),
    (1, lose_table_before),
];
/// Those that leave all tables whole.
const LATER_ELSEWHERE_WHOLE: &[(u64, CutAt)] =
    &[(3, misstate_offset), (1, leave_gap), (2, regrade_before)];

/// 31.
pub fn start_elsewhere(random: &mut Random, draft: &mut Draft, index: usize) {
    let later = LATER_ELSEWHERE;
    let way = random.weighted(if index == 0 { FIRST_ELSEWHERE } else { later });
    way(random, draft, index);
}

/// 31; all tables stay whole, so that one of them can run past the end besides.
pub(crate) fn start_elsewhere_whole(random: &mut Random, draft: &mut Draft, index: usize) {
    let later = LATER_ELSEWHERE_WHOLE;
    let way = random.weighted(if index == 0 { FIRST_ELSEWHERE } else { later });
    way(random, draft, index);
}

pub fn misstate_offset(random: &mut Random, draft: &mut Draft, index: usize) {
    let start = draft.start(index);
    let other = draft.start(random.index(draft.raters()));
    let mut offsets = vec![
        start.saturating_sub(1),
        start + 1,
        start.saturating_sub(ROW_BYTES),
        start + ROW_BYTES,
        start ^ 0x100,
        other,
        draft.bytes.len(),
        0,
        65_535,
    ];
    offsets.retain(|&offset| offset != start);
    draft.put_offset(index, random.pick(&offsets));
}

/// The offsets tell truly where the tables stand, but bytes that are no table's stand between.
fn leave_gap(random: &mut Random, draft: &mut Draft, index: usize) {
    let gap = random.pick(&[1, 2, 4, 12, 16]);
    let byte = random.pick(&[0, 1, 255]);
    draft.insert(draft.start(index), &vec![byte; gap]);
    draft.restate_offsets(index);
}

/// The offsets tell truly where the tables stand, but the last row of the one before is torn.
fn lose_bytes_before(random: &mut Random, draft: &mut Draft, index: usize) {
    let lost = random.pick(&[1, 2, 4, ROW_BYTES]);
    let start = draft.start(index);
    draft.remove(start.saturating_sub(lost), start);
    draft.restate_offsets(index);
}

/// The table before counts more or fewer grades than it has rows, and still ends in the book.
fn miscount_before(random: &mut Random, draft: &mut Draft, index: usize) {
    let ends_in_book = |end: usize| end <= draft.bytes.len();
    match wrong_count(random, draft, index - 1, ends_in_book) {
        Some(count) => draft.put_grade_count(index - 1, count),
        None => misstate_offset(random, draft, index),
    }
}

/// A grade count within 1 to 40 that is not the count of the rows and gives such an end; the one
/// nearest to the count of the rows, or any.
fn wrong_count(
    random: &mut Random,
    draft: &Draft,
    index: usize,
    wanted: impl Fn(usize) -> bool,
) -> Option<usize> {
    let right = draft.grade_count(index);
    let counts: Vec<usize> = (1..=MAX_GRADES)
        .filter(|&count| count != right && wanted(draft.end_with(index, count)))
        .collect();
    let nearest = counts.iter().copied().min_by_key(|n| n.abs_diff(right))?;
    let any = random.pick(&counts);
    Some(random.pick(&[nearest, any]))
}

/// The table before has a grade more or fewer, and the offsets are as they were.
fn regrade_before(random: &mut Random, draft: &mut Draft, index: usize) {
    match draft.grade_count(index - 1) {
        1 => draft.add_grade(index - 1),
        MAX_GRADES => draft.drop_grade(index - 1),
        _ if random.chance(50) => draft.add_grade(index - 1),
        _ => draft.drop_grade(index - 1),
    }
}

/// A table of another size stands where the one before stood, and the offsets are as they were.
fn paste_before(random: &mut Random, draft: &mut Draft, index: usize) {
    let size = draft.grade_count(index - 1);
    let others: Vec<usize> = (0..draft.raters())
        .filter(|&other| draft.grade_count(other) != size)
        .collect();
    if others.is_empty() {
        return misstate_offset(random, draft, index);
    }
    let pasted = draft.table(random.pick(&others));
    draft.insert(draft.start(index - 1), &pasted);
}

/// The table before is gone, and the offsets are as they were.
fn lose_table_before(random: &mut Random, draft: &mut Draft, index: usize) {
    if draft.grade_count(index - 1) == draft.grade_count(index) {
        // This table would end just where it is said to start.
        return misstate_offset(random, draft, index);
    }
    draft.remove(draft.start(index - 1), draft.end(index - 1));
}

/// 32.
pub fn run_past_end(random: &mut Random, draft: &mut Draft, index: usize) {
    let way = random.pick(&[cut_header as CutAt, cut_rows, count_past_end]);
    way(random, draft, index);
}

/// Cuts at the start of a table or within its header, and with it all tables behind it.
pub fn cut_header(random: &mut Random, draft: &mut Draft, index: usize) {
    let left = random.index(TABLE_HEAD_BYTES);
    cut_header_to(draft, index, left);
}

/// Leaves so many bytes of the header.
pub(crate) fn cut_header_to(draft: &mut Draft, index: usize, left: usize) {
    draft.bytes.truncate(draft.start(index) + left);
    draft.restate_length();
}

/// Cuts behind the header or within the rows of a table, and with them all tables behind it.
pub fn cut_rows(random: &mut Random, draft: &mut Draft, index: usize) {
    let rows = draft.start(index) + TABLE_HEAD_BYTES;
    let within = rows + random.index(ROW_BYTES * draft.grade_count(index));
    let cut = random.pick(&[rows, within, within, draft.end(index) - 1]);
    draft.bytes.truncate(cut);
    draft.restate_length();
}

/// The table counts so many grades that it would end behind the book.
pub fn count_past_end(random: &mut Random, draft: &mut Draft, index: usize) {
    match past_end_count(random, draft, index) {
        Some(count) => draft.put_grade_count(index, count),
        // Even 40 grades end within the book.
        None => cut_rows(random, draft, index),
    }
}

/// As `count_past_end`, of a short book: no byte is lost.
pub(crate) fn count_past_short_end(random: &mut Random, draft: &mut Draft, index: usize) {
    let count = past_end_count(random, draft, index);
    draft.put_grade_count(index, count.expect("40 grades end behind a short book"));
}

fn past_end_count(random: &mut Random, draft: &Draft, index: usize) -> Option<usize> {
    let ends_behind_book = |end: usize| end > draft.bytes.len();
    wrong_count(random, draft, index, ends_behind_book)
}

/// How many bytes the book lacks for the rows that the table's header counts.
pub(crate) fn missing_bytes(draft: &Draft, index: usize) -> usize {
    stated_end(draft, index).saturating_sub(draft.bytes.len())
}

/// Where the table ends by the grade count of its header; by its rows if that count is cut off.
pub(crate) fn stated_end(draft: &Draft, index: usize) -> usize {
    let stated = draft.bytes.get(draft.start(index));
    let count = stated.map_or(draft.grade_count(index), |&count| count.into());
    draft.end_with(index, count)
}

/// 33.
pub fn leave_over(random: &mut Random, draft: &mut Draft) {
    if random.chance(67) {
        return leave_few(random, draft);
    }
    append(draft, &draft.bytes.clone());
}

/// 33; a short book stays short.
pub(crate) fn leave_few(random: &mut Random, draft: &mut Draft) {
    let pasted = draft.table(random.index(draft.raters()));
    // A table that was cut is not there to be pasted.
    if pasted.is_empty() || random.chance(50) {
        let count = random.pick(&[1, 1, 2, 3, 4, 11, 12, 13, 16]);
        return leave_bytes(random, draft, count);
    }
    append(draft, &pasted);
}

/// A book that was pasted together several times would become longer than a script can lend.
fn append(draft: &mut Draft, bytes: &[u8]) {
    draft.bytes.extend(bytes);
    draft.bytes.truncate(MAX_BOOK_LENGTH as usize);
    draft.restate_length();
}

pub(crate) fn leave_bytes(random: &mut Random, draft: &mut Draft, count: usize) {
    let byte = random.pick(&[0, 1, 255]);
    append(draft, &vec![byte; count]);
}

/// The last table counts fewer grades than it has rows.
pub fn leave_rows(random: &mut Random, draft: &mut Draft) {
    let last = draft.raters() - 1;
    match draft.grade_count(last) {
        1 => leave_bytes(random, draft, ROW_BYTES),
        right => draft.put_grade_count(last, 1 + random.index(right - 1)),
    }
}
