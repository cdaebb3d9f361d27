//! Pairs of raters over the same obligors: the same D and the same S, sorted into grades in two
//! ways, so that every verdict occurs often. Also pairs that compare has to refuse.

use crate::pooling::pooled_scale;
use crate::population::{announce, any_grade_count, any_table, shares, sort_by_rate};
use crate::random::Random;
use crate::table::{Table, MAX_GRADES, MAX_OBLIGORS};
use std::cmp::Ordering;

/// A table with at least one default and one survivor.
pub fn mixed_outcomes(random: &mut Random) -> Table {
    loop {
        let table = any_table(random);
        if table.defaults() > 0 && table.survivors() > 0 {
            return table;
        }
    }
}

/// Two raters over the same obligors, in either order.
pub fn same_obligors(random: &mut Random) -> (Table, Table) {
    if random.chance(30) {
        return two_coarsenings(random, MAX_OBLIGORS / 2);
    }
    let mut base = mixed_outcomes(random);
    if random.chance(50) {
        sort_by_rate(&mut base);
    }
    let other = partner(random, &base);
    match random.chance(50) {
        true => (base, other),
        false => (other, base),
    }
}

/// Two raters who each lump together other grades of one rising scale: these cross often. At most
/// so many defaults, and so many survivors.
pub(crate) fn two_coarsenings(random: &mut Random, most: u64) -> (Table, Table) {
    let most = random.pick(&[20, 300, most]);
    let (defaults, survivors) = (random.between(5, most), random.between(5, most));
    let parts = random.pick(&[4, 8, 20, MAX_GRADES]);
    let mut fine = partition(random, defaults, survivors, parts);
    sort_by_rate(&mut fine);
    let mut tables = [coarser(random, &fine), coarser(random, &fine)];
    for table in &mut tables {
        announce(random, table);
    }
    let [first, second] = tables;
    (first, second)
}

/// Another rater's table over the obligors of this one.
pub fn partner(random: &mut Random, base: &Table) -> Table {
    let maker: fn(&mut Random, &Table) -> Table = random.weighted(&[
        (2, same as fn(&mut Random, &Table) -> Table),
        (1, |_, base| pooled_scale(base)),
        (1, split_evenly),
        (2, coarser),
        (2, finer),
        (2, sorted),
        (2, permuted),
        (6, other_partition),
        (9, sorted_partition),
        (4, nudged),
        (9, sorted_and_nudged),
    ]);
    let mut table = maker(random, base);
    announce(random, &mut table);
    table
}

/// A table that costs as much at all prices.
pub(crate) fn equal_partner(random: &mut Random, base: &Table) -> Table {
    match random.between(0, 2) {
        0 => base.clone(),
        1 => pooled_scale(base),
        _ => split_evenly(random, base),
    }
}

/// Two raters whose D or S differ by one.
pub fn other_obligors(random: &mut Random) -> (Table, Table) {
    let base = mixed_outcomes(random);
    let mut other = nudged(random, &base);
    let index = random.index(other.grades.len());
    let grade = &mut other.grades[index];
    match random.between(0, 2) {
        // One more default, one more survivor, or a survivor who defaulted.
        0 => (grade.obligors, grade.defaults) = (grade.obligors + 1, grade.defaults + 1),
        1 => grade.obligors += 1,
        _ => grade.defaults = grade.obligors.min(grade.defaults + 1),
    }
    match random.chance(50) {
        true => (base, other),
        false => (other, base),
    }
}

/// Two raters of whom at least one saw only survivors or only defaults.
pub fn one_sided(random: &mut Random) -> (Table, Table) {
    let mut tables = [any_table(random), any_table(random)];
    let sides = random.pick(&[[0, 1], [1, 0], [0, 2], [2, 0], [1, 2], [2, 1]]);
    for (table, side) in tables.iter_mut().zip(sides) {
        for grade in &mut table.grades {
            grade.defaults = [0, grade.obligors, grade.defaults][side];
        }
    }
    let [first, second] = tables;
    (first, second)
}

fn same(_: &mut Random, base: &Table) -> Table {
    base.clone()
}

fn sorted(_: &mut Random, base: &Table) -> Table {
    let mut table = base.clone();
    sort_by_rate(&mut table);
    table
}

fn permuted(random: &mut Random, base: &Table) -> Table {
    let mut table = base.clone();
    match random.chance(50) {
        true => random.shuffle(&mut table.grades),
        false => {
            let index = random.index(table.grades.len());
            let next = (index + 1) % table.grades.len();
            table.grades.swap(index, next);
        }
    }
    table
}

/// Splits even grades into two of the same rate, as far as 40 grades allow: an equal table of
/// another look.
fn split_evenly(random: &mut Random, base: &Table) -> Table {
    let mut rows = Vec::new();
    for (index, grade) in base.grades.iter().enumerate() {
        let left = base.grades.len() - index;
        let even = grade.obligors % 2 == 0 && grade.defaults % 2 == 0;
        if even && rows.len() + left < MAX_GRADES && random.chance(80) {
            let half = (grade.obligors / 2, grade.defaults / 2);
            rows.extend([half, half]);
        } else {
            rows.push((grade.obligors, grade.defaults));
        }
    }
    Table::of_rows(&rows)
}

/// Joins some neighbours.
pub(crate) fn coarser(random: &mut Random, base: &Table) -> Table {
    let mut rows: Vec<(u64, u64)> = Vec::new();
    let percent = random.pick(&[10, 30, 30, 30, 60, 100]);
    for grade in &base.grades {
        match rows.last_mut() {
            Some(last) if random.chance(percent) => {
                last.0 += grade.obligors;
                last.1 += grade.defaults;
            }
            _ => rows.push((grade.obligors, grade.defaults)),
        }
    }
    Table::of_rows(&rows)
}

/// Splits some grades in two at random, the better part first.
fn finer(random: &mut Random, base: &Table) -> Table {
    split(random, base, |one, other| one.cmp(&other))
}

/// Splits some grades in two at random, the worse part first: if the rates of the base rise, an
/// equal table of another look.
pub(crate) fn split_falling(random: &mut Random, base: &Table) -> Table {
    split(random, base, |one, other| other.cmp(&one))
}

/// Splits some grades in two at random, their rates, to one denominator, in this order.
fn split(random: &mut Random, base: &Table, order: fn(u64, u64) -> Ordering) -> Table {
    let mut rows = Vec::new();
    for (index, grade) in base.grades.iter().enumerate() {
        let left = base.grades.len() - index;
        let defaults = random.between(0, grade.defaults);
        let part = defaults + random.between(0, grade.survivors());
        let rest = grade.obligors - part;
        if part == 0 || rest == 0 || rows.len() + left >= MAX_GRADES || random.chance(30) {
            rows.push((grade.obligors, grade.defaults));
            continue;
        }
        let mut parts = [(part, defaults), (rest, grade.defaults - defaults)];
        parts.sort_by(|one, other| order(one.1 * other.0, other.1 * one.0));
        rows.extend(parts);
    }
    Table::of_rows(&rows)
}

/// These defaults and survivors, sorted at random into at most so many grades, seldom with empty
/// ones among them.
pub(crate) fn partition(
    random: &mut Random,
    defaults: u64,
    survivors: u64,
    most_grades: usize,
) -> Table {
    let bad = shares(random, defaults, most_grades);
    let good = shares(random, survivors, most_grades);
    let keeps_empty = random.chance(15);
    let rows: Vec<(u64, u64)> = bad
        .into_iter()
        .zip(good)
        .map(|(bad, good)| (bad + good, bad))
        .filter(|row| keeps_empty || row.0 > 0)
        .collect();
    Table::of_rows(&rows)
}

/// Another random partition of the same defaults and survivors.
fn other_partition(random: &mut Random, base: &Table) -> Table {
    let grade_count = any_grade_count(random);
    partition(random, base.defaults(), base.survivors(), grade_count)
}

fn sorted_partition(random: &mut Random, base: &Table) -> Table {
    let table = other_partition(random, base);
    sorted(random, &table)
}

/// Moves a few defaults and survivors from grade to grade: the envelopes differ by little.
fn nudged(random: &mut Random, base: &Table) -> Table {
    let mut table = base.clone();
    for _ in 0..random.between(1, 4) {
        move_one(random, &mut table);
    }
    table
}

/// Moves a default or a survivor from one grade to another; now and then nobody is there to move.
pub(crate) fn move_one(random: &mut Random, table: &mut Table) {
    let from = random.index(table.grades.len());
    let to = random.index(table.grades.len());
    let of_default = random.chance(50);
    let leaves = table.grades[from];
    let present = match of_default {
        true => leaves.defaults,
        false => leaves.survivors(),
    };
    if present > 0 {
        table.grades[from].obligors -= 1;
        table.grades[from].defaults -= u64::from(of_default);
        table.grades[to].obligors += 1;
        table.grades[to].defaults += u64::from(of_default);
    }
}

fn sorted_and_nudged(random: &mut Random, base: &Table) -> Table {
    let table = sorted(random, base);
    nudged(random, &table)
}
