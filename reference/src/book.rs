//! The book: the file format that holds the tables of 1 to 16 raters. A rater, in document 01, is
//! whoever sorted the obligors into grades; each rater owns one table of the book.

use crate::table::{Grade, Refusal, Table, MAX_GRADES, MAX_OBLIGORS, MILLION};

pub const MAX_RATERS: usize = 16;
/// Number of raters and length of the book.
pub const HEAD_BYTES: usize = 4;
/// Grade count, kind of first column, two zero bytes.
pub const TABLE_HEAD_BYTES: usize = 4;
/// First column, defaults, announced rate.
pub const ROW_BYTES: usize = 12;

/// Reads the table of one rater, or finds the refusal number of the first check that fails: the
/// whole layout first (2 to 4, 6, 7, 31 to 33), then the rows of this rater only (8 to 11, 34).
pub fn read(book: &[u8], rater: u32) -> Result<Table, Refusal> {
    let raters = count_raters(book)?;
    if rater < 1 || rater as usize > raters {
        return Err(4);
    }
    let starts = check_layout(book, raters)?;
    read_table(book, starts[rater as usize - 1])
}

/// Reads the tables of all raters. Request R-7 of document 02: "The layout of the whole book is
/// checked first as in load, without 1, 21 and 4. Then come the row checks, 9 and 11 of each rater
/// in book order."
pub fn read_all(book: &[u8]) -> Result<Vec<Table>, Refusal> {
    let raters = count_raters(book)?;
    let starts = check_layout(book, raters)?;
    let tables = starts.into_iter().map(|start| read_table(book, start));
    tables.collect()
}

/// Refusals 2 and 3.
fn count_raters(book: &[u8]) -> Result<usize, Refusal> {
    if book.len() < HEAD_BYTES || two_bytes(book, 2) != book.len() {
        return Err(2);
    }
    let raters = two_bytes(book, 0);
    if !(1..=MAX_RATERS).contains(&raters) || book.len() < HEAD_BYTES + 2 * raters {
        return Err(3);
    }
    Ok(raters)
}

/// Refusals 31, 32, 6, 7, 32 table by table, then 33: R-2's numbers stand where document 01 has 5,
/// which is never given. Answers the tables' starts.
fn check_layout(book: &[u8], raters: usize) -> Result<Vec<usize>, Refusal> {
    let mut starts = Vec::new();
    let mut end = HEAD_BYTES + 2 * raters;
    for index in 0..raters {
        let start = two_bytes(book, HEAD_BYTES + 2 * index);
        if start != end {
            return Err(31);
        }
        end = check_table(book, start)?;
        starts.push(start);
    }
    if end != book.len() {
        return Err(33);
    }
    Ok(starts)
}

/// Refusals 32 (header), 6, 7, 32 (rows) of one table. Answers where it ends.
fn check_table(book: &[u8], start: usize) -> Result<usize, Refusal> {
    if start + TABLE_HEAD_BYTES > book.len() {
        return Err(32);
    }
    let grades = book[start] as usize;
    if !(1..=MAX_GRADES).contains(&grades) {
        return Err(6);
    }
    if book[start + 1] > 1 || book[start + 2] != 0 || book[start + 3] != 0 {
        return Err(7);
    }
    let end = start + TABLE_HEAD_BYTES + ROW_BYTES * grades;
    if end > book.len() {
        return Err(32);
    }
    Ok(end)
}

/// Refusals 8, 10, 34 row by row, then 9, then 11: R-4 has moved 9 out of the rows, to where it is
/// known whether all grades are empty.
fn read_table(book: &[u8], start: usize) -> Result<Table, Refusal> {
    let grade_count = book[start] as usize;
    let kind = book[start + 1];
    let mut grades: Vec<Grade> = Vec::new();
    for index in 0..grade_count {
        let row = start + TABLE_HEAD_BYTES + ROW_BYTES * index;
        let grade = read_row(book, row, kind)?;
        // "A rate below that of the row before is 34." The first row has none before it.
        if index > 0 && grade.announced < grades[index - 1].announced {
            return Err(34);
        }
        grades.push(grade);
    }
    let table = Table { grades };
    if !table.grades.iter().any(Grade::is_occupied) {
        return Err(9);
    }
    if table.obligors() > MAX_OBLIGORS {
        return Err(11);
    }
    Ok(table)
}

/// Refusals 8, 10.
fn read_row(book: &[u8], row: usize, kind: u8) -> Result<Grade, Refusal> {
    let obligors = obligors_of_row(book, row, kind);
    let defaults = four_bytes(book, row + 4);
    let announced = four_bytes(book, row + 8);
    if kind == 0 && defaults > obligors {
        return Err(8);
    }
    if announced > MILLION {
        return Err(10);
    }
    Ok(Grade {
        obligors,
        defaults,
        announced,
    })
}

/// Kind of first column and n of each grade, of a book whose layout is sound; its rows need not be.
pub fn obligors(book: &[u8], rater: u32) -> (u8, Vec<u64>) {
    let start = stated_start(book, rater);
    let kind = book[start + 1];
    let of_row = |row| obligors_of_row(book, row, kind);
    (kind, row_starts(book, start).map(of_row).collect())
}

/// The announced rate of each grade, of a book whose layout is sound; its rows need not be.
pub fn announced(book: &[u8], rater: u32) -> Vec<u64> {
    let rows = row_starts(book, stated_start(book, rater));
    rows.map(|row| four_bytes(book, row + 8)).collect()
}

fn stated_start(book: &[u8], rater: u32) -> usize {
    two_bytes(book, HEAD_BYTES + 2 * (rater as usize - 1))
}

/// Where the rows of the table start that starts here.
fn row_starts(book: &[u8], start: usize) -> impl Iterator<Item = usize> {
    let grade_count = book[start] as usize;
    (0..grade_count).map(move |index| start + TABLE_HEAD_BYTES + ROW_BYTES * index)
}

/// Kind 1 gives survivors in the first column. The sum is a true sum: u64 does not wrap here.
fn obligors_of_row(book: &[u8], row: usize, kind: u8) -> u64 {
    let first_column = four_bytes(book, row);
    match kind {
        0 => first_column,
        _ => first_column + four_bytes(book, row + 4),
    }
}

fn two_bytes(book: &[u8], at: usize) -> usize {
    book[at] as usize + 256 * book[at + 1] as usize
}

fn four_bytes(book: &[u8], at: usize) -> u64 {
    two_bytes(book, at) as u64 + 65_536 * two_bytes(book, at + 2) as u64
}

/// The book of kind 0 that holds these tables, in this order.
pub fn write(tables: &[&Table]) -> Vec<u8> {
    let with_kind: Vec<(&Table, u8)> = tables.iter().map(|&table| (table, 0)).collect();
    write_kinds(&with_kind)
}

/// A book whose tables have the kinds given with them.
pub fn write_kinds(tables: &[(&Table, u8)]) -> Vec<u8> {
    let mut start = HEAD_BYTES + 2 * tables.len();
    let mut offsets = Vec::new();
    let mut bodies = Vec::new();
    for &(table, kind) in tables {
        let body = table_bytes(table, kind);
        offsets.extend((start as u16).to_le_bytes());
        start += body.len();
        bodies.extend(body);
    }
    let mut book = Vec::new();
    book.extend((tables.len() as u16).to_le_bytes());
    book.extend((start as u16).to_le_bytes());
    book.extend(offsets);
    book.extend(bodies);
    book
}

fn table_bytes(table: &Table, kind: u8) -> Vec<u8> {
    let mut bytes = vec![table.grades.len() as u8, kind, 0, 0];
    for grade in &table.grades {
        let first_column = match kind {
            0 => grade.obligors,
            _ => grade.survivors(),
        };
        for number in [first_column, grade.defaults, grade.announced] {
            bytes.extend((number as u32).to_le_bytes());
        }
    }
    bytes
}
