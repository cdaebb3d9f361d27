//! Pooling: the monotone regression of the default rates on the occupied grades, with weights n,
//! by the min-max formula. The pooled rate of grade i is the largest over a <= i of the smallest
//! over b >= i of the rate of the joined grades a to b. An empty grade has no rate: request R-4 of
//! document 02 says whose numbers pool repeats for it.

use crate::table::{Grade, Table};
use std::cmp::Ordering;

/// Defaults over obligors, not reduced.
#[derive(Clone, Copy, Debug, PartialEq, Eq)]
pub struct Rate {
    pub defaults: u64,
    pub obligors: u64,
}

impl Rate {
    /// Compares two rates by value, by cross-multiplication.
    pub fn compare(&self, other: &Rate) -> Ordering {
        let left = self.defaults as u128 * other.obligors as u128;
        let right = other.defaults as u128 * self.obligors as u128;
        left.cmp(&right)
    }

    pub fn survivors(&self) -> u64 {
        self.obligors - self.defaults
    }
}

/// The rate of neighbouring grades whose counts are joined.
fn joined(grades: &[Grade]) -> Rate {
    Rate {
        defaults: grades.iter().map(|grade| grade.defaults).sum(),
        obligors: grades.iter().map(|grade| grade.obligors).sum(),
    }
}

/// The min-max formula for one grade.
fn pooled_rate(grades: &[Grade], index: usize) -> Rate {
    let smallest_from = |first: usize| {
        (index..grades.len())
            .map(|last| joined(&grades[first..=last]))
            .min_by(Rate::compare)
            .expect("the grade itself is an end")
    };
    (0..=index)
        .map(smallest_from)
        .max_by(Rate::compare)
        .expect("the grade itself is a start")
}

/// A block: a maximal run of occupied grades with equal pooled rate, counts joined. Empty grades
/// may stand between them and belong to no block.
#[derive(Clone, Copy, Debug, PartialEq, Eq)]
pub struct Block {
    /// Both occupied, counted among all grades of the table.
    pub first: usize,
    pub last: usize,
    pub rate: Rate,
}

/// Which grades of the table are occupied, counted from 0 among all of them.
fn occupied(table: &Table) -> Vec<usize> {
    (0..table.grades.len())
        .filter(|&index| table.grades[index].is_occupied())
        .collect()
}

/// The blocks of a table, best first.
pub fn blocks(table: &Table) -> Vec<Block> {
    let indices = occupied(table);
    let grades: Vec<Grade> = indices.iter().map(|&index| table.grades[index]).collect();
    let rates: Vec<Rate> = (0..grades.len())
        .map(|index| pooled_rate(&grades, index))
        .collect();
    let mut blocks = Vec::new();
    let mut first = 0;
    for last in 0..grades.len() {
        let ends_here =
            last + 1 == grades.len() || rates[last].compare(&rates[last + 1]) != Ordering::Equal;
        if ends_here {
            blocks.push(Block {
                first: indices[first],
                last: indices[last],
                rate: joined(&grades[first..=last]),
            });
            first = last + 1;
        }
    }
    blocks
}

/// The grade whose numbers pool writes for this one: the grade itself if it is occupied, else the
/// next better occupied one, else, if none is better, the best occupied one.
fn spoken_for(table: &Table, index: usize) -> usize {
    let occupied = occupied(table);
    if occupied.contains(&index) {
        return index;
    }
    let better = occupied.iter().copied().filter(|&other| other < index);
    let best = occupied.iter().copied().min();
    better.max().or(best).expect("a loaded table has obligors")
}

/// The smallest b from 0 to 13 with rate at most 100 times 2^b ppm; 14 if there is none.
pub fn band(rate: &Rate) -> u32 {
    let ceiling = |band: u32| Rate {
        defaults: 100 << band,
        obligors: 1_000_000,
    };
    (0..14)
        .find(|&band| rate.compare(&ceiling(band)) != Ordering::Greater)
        .unwrap_or(14)
}

/// What pool writes: block defaults, block obligors and band of each grade, empty ones too.
pub fn pool(table: &Table) -> Vec<u32> {
    let blocks = blocks(table);
    let mut numbers = Vec::new();
    for index in 0..table.grades.len() {
        let grade = spoken_for(table, index);
        let its_own = |block: &&Block| (block.first..=block.last).contains(&grade);
        let block = blocks.iter().find(its_own);
        let rate = block.expect("every occupied grade is in a block").rate;
        numbers.push(rate.defaults as u32);
        numbers.push(rate.obligors as u32);
        numbers.push(band(&rate));
    }
    numbers
}

/// The table whose grades are the blocks, best first: no grade of it is empty.
pub fn pooled_scale(table: &Table) -> Table {
    let rows: Vec<(u64, u64)> = blocks(table)
        .iter()
        .map(|block| (block.rate.obligors, block.rate.defaults))
        .collect();
    Table::of_rows(&rows)
}
