//! Courses that a table takes by events, request R-8 of document 02, and tables that can take them.

use crate::partners::mixed_outcomes;
use crate::population::{announce, any_grade_count, any_table, positive_shares};
use crate::random::Random;
use crate::table::{Grade, Table, MAX_GRADES, MAX_OBLIGORS};
use std::fmt;

#[derive(Clone, Copy, Debug, PartialEq, Eq, PartialOrd, Ord)]
pub enum Course {
    AnyGrades,
    OneGrade,
    FortyGrades,
    Refilled,
    IntoEmpty,
    NoSurvivors,
    NoDefaults,
    DownToOne,
    Full,
    Blocks,
    Verdicts,
    BothPlaces,
    LoadedAnew,
    LoadedBack,
}

use Course::*;

pub const EVERY_COURSE: [Course; 14] = [
    AnyGrades,
    OneGrade,
    FortyGrades,
    Refilled,
    IntoEmpty,
    NoSurvivors,
    NoDefaults,
    DownToOne,
    Full,
    Blocks,
    Verdicts,
    BothPlaces,
    LoadedAnew,
    LoadedBack,
];

/// Those that any table can take, whatever events came before.
pub(crate) const ON_ANY_TABLE: [Course; 9] = [
    AnyGrades, AnyGrades, Refilled, IntoEmpty, Blocks, Verdicts, Verdicts, BothPlaces, LoadedBack,
];

/// The limits of a table and the verdicts have more turns: there are several of them.
pub(crate) fn courses_in_turn() -> Vec<Course> {
    [
        &EVERY_COURSE[..],
        &[DownToOne, Full, Full, Verdicts, Verdicts],
    ]
    .concat()
}

impl fmt::Display for Course {
    fn fmt(&self, out: &mut fmt::Formatter) -> fmt::Result {
        out.write_str(match self {
            AnyGrades => "any events at any grades",
            OneGrade => "events of a table of 1 grade",
            FortyGrades => "events of a table of 40 grades",
            Refilled => "a grade empties and fills again",
            IntoEmpty => "survivors enter empty grades",
            NoSurvivors => "defaults until no survivor is left",
            NoDefaults => "removals until no default is left",
            DownToOne => "down to the last obligor",
            Full => "up to 1000000 obligors",
            Blocks => "blocks join and split",
            Verdicts => "firms change grades, the verdict turns",
            BothPlaces => "events in both places by turns",
            LoadedAnew => "cleared and loaded anew",
            LoadedBack => "written and loaded back",
        })
    }
}

impl Course {
    /// A table for it.
    pub fn table(self, random: &mut Random) -> Table {
        let mut table = match self {
            OneGrade => small_grades(random, 1),
            FortyGrades => small_grades(random, MAX_GRADES),
            Refilled | BothPlaces => few_grades(random),
            IntoEmpty => with_empty(random),
            NoSurvivors | NoDefaults | DownToOne => few_obligors(random),
            Full => full(random),
            Blocks => near_rates(random),
            Verdicts => with_both(random),
            LoadedBack => mixed_outcomes(random),
            AnyGrades | LoadedAnew => any_table(random),
        };
        announce(random, &mut table);
        table
    }
}

/// Grades of at most this many survivors and as many defaults; somebody is in one of them.
fn grades_up_to(random: &mut Random, grade_count: usize, most: u64) -> Table {
    let row = |random: &mut Random| {
        let (survivors, defaults) = (random.between(0, most), random.between(0, most));
        (survivors + defaults, defaults)
    };
    let mut rows: Vec<(u64, u64)> = (0..grade_count).map(|_| row(random)).collect();
    let occupied = random.index(grade_count);
    rows[occupied].0 += 1;
    Table::of_rows(&rows)
}

pub(crate) fn small_grades(random: &mut Random, grade_count: usize) -> Table {
    let most = random.pick(&[1, 3, 9]);
    grades_up_to(random, grade_count, most)
}

fn few_grades(random: &mut Random) -> Table {
    let grade_count = random.between(2, 6) as usize;
    grades_up_to(random, grade_count, 3)
}

/// So few firms that one of them can turn a verdict; some survive, some default.
fn with_both(random: &mut Random) -> Table {
    loop {
        let table = few_grades(random);
        if table.defaults() > 0 && table.survivors() > 0 {
            return table;
        }
    }
}

/// Half the grades at least are empty.
fn with_empty(random: &mut Random) -> Table {
    let grade_count = any_grade_count(random).max(2);
    let mut table = small_grades(random, grade_count);
    let mut order: Vec<usize> = (0..grade_count).collect();
    random.shuffle(&mut order);
    for &index in &order[..grade_count / 2] {
        (table.grades[index].obligors, table.grades[index].defaults) = (0, 0);
    }
    if table.obligors() == 0 {
        table.grades[order[grade_count / 2]].obligors = 1;
    }
    table
}

/// 1 to 8 obligors.
fn few_obligors(random: &mut Random) -> Table {
    let grade_count = random.pick(&[1, 2, 3, 3, 5, MAX_GRADES]);
    let mut rows = vec![(0, 0); grade_count];
    for _ in 0..random.between(1, 8) {
        let row = &mut rows[random.index(grade_count.min(6))];
        row.0 += 1;
        row.1 += random.between(0, 1);
    }
    Table::of_rows(&rows)
}

/// 1,000,000 obligors or up to 2 fewer, in one or several large grades; most of the others are
/// small or empty.
fn full(random: &mut Random) -> Table {
    let obligors = MAX_OBLIGORS - random.pick(&[0, 0, 1, 2]);
    let grade_count = random.pick(&[1, 3, 4, 8, MAX_GRADES]);
    let mut sizes: Vec<u64> = (0..grade_count)
        .map(|_| random.pick(&[0, 0, 1, 5]))
        .collect();
    let large = random.between(1, 2.min(grade_count as u64)) as usize;
    let small: u64 = sizes[large..].iter().sum();
    sizes.splice(..large, positive_shares(random, obligors - small, large));
    random.shuffle(&mut sizes);
    let row = |size: u64| (size, random.pick(&[0, 1.min(size), size / 2, size]));
    let rows: Vec<(u64, u64)> = sizes.into_iter().map(row).collect();
    Table::of_rows(&rows)
}

/// Rates that one firm more or less makes equal or different.
fn near_rates(random: &mut Random) -> Table {
    let (obligors, defaults) = (random.between(2, 9), random.between(1, 8));
    let defaults = defaults.min(obligors - 1);
    let grade = |random: &mut Random| {
        let survivors = obligors - defaults + random.between(0, 2) - 1;
        let defaults = defaults + random.between(0, 2) - 1;
        (survivors + defaults, defaults)
    };
    let grade_count = random.between(2, 8);
    let mut rows: Vec<(u64, u64)> = (0..grade_count).map(|_| grade(random)).collect();
    rows[0].0 += 1;
    Table::of_rows(&rows)
}

/// A grade of a table, counted from 1, of which this is true.
pub(crate) fn grade_where(
    random: &mut Random,
    table: &Table,
    is_such: impl Fn(&Grade) -> bool,
) -> Option<u32> {
    let grades = (1..).zip(&table.grades);
    let such: Vec<u32> = grades
        .filter(|(_, grade)| is_such(grade))
        .map(|(index, _)| index)
        .collect();
    (!such.is_empty()).then(|| random.pick(&such))
}
