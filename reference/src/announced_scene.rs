//! The scene "announced rates out of step", for request R-5 of document 02: tables whose announced
//! rates never fall, and tables in which one does, with other faults before, beside and behind it.

use crate::announced::{
    all_equal, any_size, dip, few_rises, from_none_to_all, in_step, peak, rising, steps_of_one,
    whole_size, with_fall, FALLS,
};
use crate::cuts::leave_over;
use crate::damage::{get_number, put_number, put_rate_above, set_kind, way_to};
use crate::draft::{any_tables, Column, Draft};
use crate::generate::Generator;
use crate::population::any_table;
use crate::random::Random;
use crate::script::Call;
use crate::table::{Table, MILLION};
use std::fmt;

/// The announced rates of a table, and what else is wrong with it.
#[derive(Clone, Copy, Debug, PartialEq, Eq, PartialOrd, Ord)]
pub enum Rates {
    /// Loads, as all up to `Border`.
    AllEqual,
    EqualNeighbours,
    StepsOfOne,
    FromNoneToAll,
    OneGrade,
    EmptyInStep,
    OtherRaters,
    Border,
    /// 34, as all up to `TooMany`.
    SecondRow,
    MiddleRow,
    LastRow,
    ByOne,
    ByWhole,
    FromAllToNone,
    NotBelowFirst,
    OneTooLow,
    OneTooHigh,
    Swapped,
    UpsideDown,
    AtEmpty,
    BehindEmpty,
    /// For all that 9 is true of it.
    AllEmpty,
    /// For all that 11 is true of it.
    TooMany,
    /// 8
    DefaultsBefore,
    /// 8, in the row of the fall.
    DefaultsBeside,
    /// 34
    DefaultsBehind,
    /// 10
    AboveBefore,
    /// 10: only behind another one can a rate above be a fall.
    AboveTwice,
    /// 10
    AboveMost,
    /// 34
    AboveBehind,
    /// 33
    BytesFollow,
}

use Rates::*;

pub fn every_rates() -> Vec<Rates> {
    [
        &[AllEqual, EqualNeighbours, StepsOfOne, FromNoneToAll][..],
        &[OneGrade, EmptyInStep, OtherRaters, Border],
        &[SecondRow, MiddleRow, LastRow, ByOne, ByWhole],
        &[FromAllToNone, NotBelowFirst, OneTooLow, OneTooHigh],
        &[Swapped, UpsideDown, AtEmpty, BehindEmpty],
        &[AllEmpty, TooMany],
        &[DefaultsBefore, DefaultsBeside, DefaultsBehind],
        &[AboveBefore, AboveTwice, AboveMost, AboveBehind],
        &[BytesFollow],
    ]
    .concat()
}

/// Empty grades have more turns: each can stand in any row.
pub(crate) fn rates_in_turn() -> Vec<Rates> {
    [every_rates(), vec![AtEmpty, BehindEmpty, BehindEmpty]].concat()
}

impl fmt::Display for Rates {
    fn fmt(&self, out: &mut fmt::Formatter) -> fmt::Result {
        out.write_str(match self {
            AllEqual => "all equal",
            EqualNeighbours => "equal neighbours",
            StepsOfOne => "steps of 1 ppm",
            FromNoneToAll => "from 0 to 1000000",
            OneGrade => "a single one",
            EmptyInStep => "rising, also at an empty grade",
            OtherRaters => "in step; those of other raters fall",
            Border => "in step; a fall from table to table",
            SecondRow => "a fall in the second row",
            MiddleRow => "a fall in a middle row",
            LastRow => "a fall in the last row",
            ByOne => "a fall by 1 ppm",
            ByWhole => "a fall by a multiple of 2^16 ppm",
            FromAllToNone => "a fall from 1000000 to 0",
            NotBelowFirst => "a fall, but not below the first row",
            OneTooLow => "one row too low",
            OneTooHigh => "one row too high",
            Swapped => "two of them exchanged",
            UpsideDown => "upside down",
            AtEmpty => "a fall at an empty grade",
            BehindEmpty => "a fall behind an empty grade",
            AllEmpty => "a fall, all grades empty",
            TooMany => "a fall, too many obligors",
            DefaultsBefore => "too many defaults, then a fall",
            DefaultsBeside => "too many defaults and a fall in a row",
            DefaultsBehind => "a fall, then too many defaults",
            AboveBefore => "a rate above, then a fall",
            AboveTwice => "a rate above, then a lower one above",
            AboveMost => "the highest rate, then one above",
            AboveBehind => "a fall, then a rate above",
            BytesFollow => "a fall, bytes behind the last table",
        })
    }
}

impl Rates {
    /// A book with such a table, which is the one to be loaded.
    pub fn book(self, random: &mut Random) -> Draft {
        match self {
            OtherRaters => others_fall(random),
            Border => fall_at_border(random),
            _ => self.around_table(random),
        }
    }

    fn around_table(self, random: &mut Random) -> Draft {
        let mut table = match self {
            OneGrade => any_tables(random, 1, 1).remove(0),
            _ => table_of(random, self.fewest_grades()),
        };
        let count = table.grades.len();
        let row = self.row(random, count);
        self.leave_grades(random, &mut table, row);
        table.announce(&self.rates(random, count, row));
        let mut draft = Draft::around(random, &table);
        self.add_fault(random, &mut draft, row);
        draft
    }

    fn fewest_grades(self) -> usize {
        match self {
            AllEqual | StepsOfOne => 1,
            EqualNeighbours | MiddleRow | BehindEmpty => 4,
            SecondRow | LastRow | NotBelowFirst | OneTooLow | OneTooHigh => 3,
            AtEmpty | DefaultsBehind | AboveBehind => 3,
            _ => 2,
        }
    }

    /// The index of the row whose rate falls, if one does.
    fn row(self, random: &mut Random, count: usize) -> usize {
        let last = count.max(2) - 1;
        let (from, to) = match self {
            SecondRow => (1, 1),
            MiddleRow => (2, last - 1),
            LastRow => (last, last),
            NotBelowFirst | OneTooHigh => (2, last),
            OneTooLow | DefaultsBehind | AboveBehind => (1, last - 1),
            _ => (1, last),
        };
        let between = match to - from {
            0 | 1 => from,
            apart => from + 1 + random.index(apart - 1),
        };
        random.pick(&[from, between, to])
    }

    /// Takes everybody out of the grades that have to be empty.
    fn leave_grades(self, random: &mut Random, table: &mut Table, row: usize) {
        match self {
            AtEmpty => leave_grade(random, table, row, row - 1),
            BehindEmpty => leave_grade(random, table, row - 1, row),
            EmptyInStep => leave_one_of(random, table, row),
            SecondRow | MiddleRow | LastRow | ByOne if random.chance(60) => {
                leave_one_of(random, table, row);
            }
            AllEmpty => *table = Table::of_rows(&vec![(0, 0); table.grades.len()]),
            _ => (),
        }
    }

    fn rates(self, random: &mut Random, count: usize, row: usize) -> Vec<u64> {
        let mut rates = match self {
            AllEqual => all_equal(random, count),
            EqualNeighbours => few_rises(random, count),
            StepsOfOne => steps_of_one(random, count),
            FromNoneToAll => from_none_to_all(random, count),
            EmptyInStep | Swapped | UpsideDown => rising(random, count),
            _ => in_step(random, count),
        };
        match self {
            Swapped => rates.swap(random.index(row), row),
            UpsideDown => rates.reverse(),
            _ => self.fall(random, &mut rates, row),
        }
        rates
    }

    fn fall(self, random: &mut Random, rates: &mut [u64], row: usize) {
        let fall = random.pick(&FALLS);
        let by = any_size(random);
        match self {
            AllEqual | EqualNeighbours | StepsOfOne | FromNoneToAll | OneGrade => (),
            EmptyInStep | AboveTwice | AboveMost => (),
            ByOne => fall(rates, row, 1),
            ByWhole => fall(rates, row, whole_size(random)),
            FromAllToNone => fall(rates, row, MILLION),
            OneTooLow | AtEmpty => dip(rates, row, by),
            OneTooHigh | BehindEmpty => peak(rates, row, by),
            NotBelowFirst => {
                fall(rates, row, by);
                let lowest = rates[1..].iter().min().copied();
                rates[0] = random.between(0, lowest.unwrap_or(0));
            }
            _ => fall(rates, row, by),
        }
    }

    fn add_fault(self, random: &mut Random, draft: &mut Draft, row: usize) {
        let before = random.index(row);
        let behind = draft.grade_count(draft.loaded()).saturating_sub(row + 1);
        let later = row + 1 + random.index(behind.max(1));
        match self {
            DefaultsBefore => put_defaults_above(random, draft, before),
            DefaultsBeside => put_defaults_above(random, draft, row),
            DefaultsBehind => put_defaults_above(random, draft, later),
            AboveBefore => put_rate_above(random, draft, before),
            AboveBehind => put_rate_above(random, draft, later),
            AboveTwice => {
                let higher = random.pick(&[MILLION as u32 + 2, u32::MAX]);
                put_number(draft, row - 1, Column::Announced, higher);
                put_number(draft, row, Column::Announced, MILLION as u32 + 1);
            }
            AboveMost => {
                put_number(draft, row - 1, Column::Announced, MILLION as u32);
                put_rate_above(random, draft, row);
            }
            TooMany => way_to(random, 11).1(random, draft),
            BytesFollow => leave_over(random, draft),
            _ => (),
        }
    }
}

/// A valid table of at least so many grades.
fn table_of(random: &mut Random, fewest_grades: usize) -> Table {
    loop {
        let table = any_table(random);
        if table.grades.len() >= fewest_grades {
            return table;
        }
    }
}

/// Nobody is in this grade or in the one before it.
fn leave_one_of(random: &mut Random, table: &mut Table, row: usize) {
    match random.chance(50) {
        true => leave_grade(random, table, row, row - 1),
        false => leave_grade(random, table, row - 1, row),
    }
}

/// Nobody is in one grade and somebody in the other; now and then nobody in all the rest.
fn leave_grade(random: &mut Random, table: &mut Table, empty: usize, occupied: usize) {
    let alone = random.chance(30);
    for (index, grade) in table.grades.iter_mut().enumerate() {
        if index == empty || alone && index != occupied {
            (grade.obligors, grade.defaults) = (0, 0);
        }
    }
    let kept = &mut table.grades[occupied];
    kept.obligors = kept.obligors.max(1);
}

/// Defaults above obligors in this row and no other, of kind 0.
fn put_defaults_above(random: &mut Random, draft: &mut Draft, row: usize) {
    state_obligors(draft);
    let obligors = get_number(draft, row, Column::First);
    let defaults = random.pick(&[obligors + 1, u32::MAX]);
    put_number(draft, row, Column::Defaults, defaults);
}

/// Makes the table to be loaded one of kind 0, of the same counts.
fn state_obligors(draft: &mut Draft) {
    let index = draft.loaded();
    let kind = u32::from(draft.bytes[draft.start(index) + 1]);
    for row in 0..draft.grade_count(index) {
        let defaults = get_number(draft, row, Column::Defaults);
        let obligors = get_number(draft, row, Column::First) + kind * defaults;
        put_number(draft, row, Column::First, obligors);
    }
    set_kind(draft, 0);
}

/// All tables have a fall, save the one to be loaded.
fn others_fall(random: &mut Random) -> Draft {
    let many = 2 + random.index(15);
    let raters = random.pick(&[2, 2, 3, many]);
    let mut tables: Vec<Table> = (0..raters).map(|_| falling_table(random)).collect();
    let index = random.index(raters);
    tables[index] = any_table(random);
    Draft::of_tables(random, &tables, index as u32 + 1)
}

fn falling_table(random: &mut Random) -> Table {
    let mut table = table_of(random, 2);
    let count = table.grades.len();
    let row = 1 + random.index(count - 1);
    table.announce(&with_fall(random, count, row));
    table
}

/// Two tables, each in step, the second of which starts below where the first ends.
fn fall_at_border(random: &mut Random) -> Draft {
    let mut tables = [any_table(random), any_table(random)];
    let [first, second] = tables.each_ref().map(|table| table.grades.len());
    let rates = with_fall(random, first + second, first);
    tables[0].announce(&rates[..first]);
    tables[1].announce(&rates[first..]);
    let rater = random.pick(&[1, 2]);
    Draft::of_tables(random, &tables, rater)
}

impl Generator {
    /// What is loaded is asked about its rates; where nothing is, the place is still empty.
    pub(crate) fn out_of_step(&mut self) {
        for _ in 0..3 {
            let rates = self.next_rates();
            let draft = rates.book(&mut self.random);
            let place = self.random.pick(&[1, 2]);
            self.empty(place);
            self.load_rates(place, draft, rates);
            if !self.desk.is_loaded(place) {
                self.ask_empty(place);
            }
            if self.desk.is_loaded(place) {
                self.ask_loaded(place);
            }
        }
    }

    /// Now and then another load follows, which is refused by its place alone.
    fn ask_loaded(&mut self, place: u32) {
        self.emit(Call::Brier { place });
        if self.random.chance(30) {
            let length = self.write_length();
            self.emit(Call::Write { length });
        }
        if self.random.chance(30) {
            let table = falling_table(&mut self.random);
            let draft = Draft::around(&mut self.random, &table);
            let no_room = self.random.pick(&[place, place, 0, 3]);
            self.load(no_room, draft);
        }
    }

    /// A question to a place that a refused load has left empty; now and then a load follows that
    /// is accepted.
    fn ask_empty(&mut self, place: u32) {
        let length = self.random.pick(&[0, 3, 120]);
        let (u, v) = (self.any_price(), self.any_price());
        let question = match self.random.between(0, 5) {
            0 => Call::Brier { place },
            1 => Call::Pool { place, length },
            2 => Call::Measures { place },
            3 => Call::Spread { place },
            4 => Call::Cheapest { place, u, v },
            _ => Call::Clear { place },
        };
        self.emit(question);
        if self.random.chance(20) {
            let table = any_table(&mut self.random);
            let draft = Draft::around(&mut self.random, &table);
            self.load(place, draft);
        }
    }
}
