//! A book in the making: its bytes, and where its tables stand, so that single fields can be
//! changed.

use crate::book::{self, HEAD_BYTES, MAX_RATERS, ROW_BYTES, TABLE_HEAD_BYTES};
use crate::population::any_table;
use crate::random::Random;
use crate::table::Table;

#[derive(Clone, Debug)]
pub struct Draft {
    pub bytes: Vec<u8>,
    /// The rater to be loaded, 1 to R while undamaged.
    pub rater: u32,
    /// Start and grade count of each table.
    tables: Vec<(usize, usize)>,
}

/// The columns of a row.
#[derive(Clone, Copy)]
pub enum Column {
    First,
    Defaults,
    Announced,
}

impl Draft {
    /// A valid book of these tables, each of a random kind.
    pub fn of_tables(random: &mut Random, tables: &[Table], rater: u32) -> Draft {
        let with_kinds: Vec<(&Table, u8)> = tables
            .iter()
            .map(|table| (table, random.between(0, 1) as u8))
            .collect();
        let mut start = HEAD_BYTES + 2 * tables.len();
        let mut spans = Vec::new();
        for table in tables {
            spans.push((start, table.grades.len()));
            start += TABLE_HEAD_BYTES + ROW_BYTES * table.grades.len();
        }
        Draft {
            bytes: book::write_kinds(&with_kinds),
            rater,
            tables: spans,
        }
    }

    /// A valid book of tables of at most 2 grades. Any table of it would end behind it with 40
    /// grades, also if it is 28 bytes longer (`cuts::leave_few`): 16 raters have 484 bytes, and
    /// the first one's 40 grades would end at 520.
    pub(crate) fn short(random: &mut Random, raters: usize) -> Draft {
        let most_grades = random.pick(&[1, 2]);
        let tables = any_tables(random, raters, most_grades);
        Draft::of_tables(random, &tables, 1)
    }

    /// A valid book of 1 to 16 raters in which one of them has this table.
    pub fn around(random: &mut Random, table: &Table) -> Draft {
        let raters = any_rater_count(random);
        let mut tables: Vec<Table> = (1..raters).map(|_| any_table(random)).collect();
        let index = random.index(raters);
        tables.insert(index, table.clone());
        Draft::of_tables(random, &tables, index as u32 + 1)
    }

    pub fn raters(&self) -> usize {
        self.tables.len()
    }

    /// The index of the table to be loaded.
    pub fn loaded(&self) -> usize {
        self.rater.clamp(1, self.raters() as u32) as usize - 1
    }

    pub fn start(&self, index: usize) -> usize {
        self.tables[index].0
    }

    pub fn grade_count(&self, index: usize) -> usize {
        self.tables[index].1
    }

    /// Where the table would end if it had so many grades.
    pub(crate) fn end_with(&self, index: usize, grade_count: usize) -> usize {
        self.start(index) + TABLE_HEAD_BYTES + ROW_BYTES * grade_count
    }

    pub(crate) fn end(&self, index: usize) -> usize {
        self.end_with(index, self.grade_count(index))
    }

    /// The bytes of a table; none if the book does not hold it whole.
    pub(crate) fn table(&self, index: usize) -> Vec<u8> {
        let bytes = self.bytes.get(self.start(index)..self.end(index));
        bytes.unwrap_or_default().to_vec()
    }

    pub fn column(&self, index: usize, grade: usize, column: Column) -> usize {
        self.start(index) + TABLE_HEAD_BYTES + ROW_BYTES * grade + 4 * column as usize
    }

    /// Overwrites bytes; what would lie beyond the end is dropped.
    pub fn put(&mut self, at: usize, bytes: &[u8]) {
        for (offset, &byte) in bytes.iter().enumerate() {
            if let Some(old) = self.bytes.get_mut(at + offset) {
                *old = byte;
            }
        }
    }

    pub(crate) fn put_offset(&mut self, index: usize, offset: usize) {
        self.put(HEAD_BYTES + 2 * index, &(offset as u16).to_le_bytes());
    }

    #[cfg(test)]
    pub(crate) fn stated_start(&self, index: usize) -> usize {
        let at = HEAD_BYTES + 2 * index;
        u16::from_le_bytes([self.bytes[at], self.bytes[at + 1]]).into()
    }

    /// States where this table and those behind it stand now.
    pub(crate) fn restate_offsets(&mut self, first: usize) {
        for index in first..self.raters() {
            self.put_offset(index, self.start(index));
        }
    }

    /// Puts bytes in; tables from there on stand further back, which the offsets do not tell.
    pub(crate) fn insert(&mut self, at: usize, bytes: &[u8]) {
        let at = at.min(self.bytes.len());
        self.bytes.splice(at..at, bytes.iter().copied());
        for table in self.tables.iter_mut().filter(|table| table.0 >= at) {
            table.0 += bytes.len();
        }
        self.restate_length();
    }

    /// Takes bytes out; tables behind them move up, which the offsets do not tell.
    pub(crate) fn remove(&mut self, from: usize, to: usize) {
        let length = self.bytes.len();
        self.bytes.drain(from.min(length)..to.min(length));
        for table in self.tables.iter_mut().filter(|table| table.0 >= to) {
            table.0 -= to - from;
        }
        self.restate_length();
    }

    /// Adds a grade of one obligor to a table; the offsets behind it stay as they were.
    pub(crate) fn add_grade(&mut self, index: usize) {
        self.insert(self.end(index), &[1, 0, 0, 0, 0, 0, 0, 0, 0, 0, 0, 0]);
        self.tables[index].1 += 1;
        self.restate_grade_count(index);
    }

    /// Takes the last grade from a table; the offsets behind it stay as they were.
    pub(crate) fn drop_grade(&mut self, index: usize) {
        self.remove(self.end(index) - ROW_BYTES, self.end(index));
        self.tables[index].1 -= 1;
        self.restate_grade_count(index);
    }

    fn restate_grade_count(&mut self, index: usize) {
        self.put_grade_count(index, self.grade_count(index));
    }

    /// States a grade count; the rows stay as they are.
    pub(crate) fn put_grade_count(&mut self, index: usize, grade_count: usize) {
        self.put(self.start(index), &[grade_count as u8]);
    }

    /// Reads a 4-byte number; 0 if the book ends before.
    pub fn number(&self, at: usize) -> u32 {
        let bytes = self.bytes.get(at..at + 4);
        bytes.map_or(0, |b| u32::from_le_bytes([b[0], b[1], b[2], b[3]]))
    }

    /// States the length that the book has now.
    pub fn restate_length(&mut self) {
        let length = self.bytes.len() as u16;
        self.put(2, &length.to_le_bytes());
    }
}

/// Tables of at most so many grades.
pub(crate) fn any_tables(random: &mut Random, raters: usize, most_grades: usize) -> Vec<Table> {
    let mut tables: Vec<Table> = (0..raters).map(|_| any_table(random)).collect();
    for table in &mut tables {
        table.grades.truncate(most_grades);
        if table.obligors() == 0 {
            table.grades[0].obligors = 1;
        }
    }
    tables
}

fn any_rater_count(random: &mut Random) -> usize {
    let (low, high) = random.weighted(&[
        (5, (1, 1)),
        (4, (2, 3)),
        (2, (4, MAX_RATERS as u64)),
        (1, (MAX_RATERS as u64, MAX_RATERS as u64)),
    ]);
    random.between(low, high) as usize
}
