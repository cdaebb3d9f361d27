//! Pairs of raters of different books, for request R-6 of document 02: "Two lenders merge and want
//! their scales compared although the books differ in size." Two tables that the second comparison
//! takes.

use crate::empty_scene::{every_pattern, with_other_empty, without_empty};
use crate::partners::{
    coarser, equal_partner, mixed_outcomes, move_one, other_obligors, partition, same_obligors,
    two_coarsenings,
};
use crate::population::{announce, any_grade_count, shares, sort_by_rate};
use crate::random::Random;
use crate::shares::MAX_OBLIGORS_ON_SHARES;
use crate::table::{Table, MAX_GRADES};
use std::fmt;

/// What the tables of two lenders are to each other.
#[derive(Clone, Copy, Debug, PartialEq, Eq, PartialOrd, Ord)]
pub enum Lenders {
    AnyTwo,
    FarApart,
    EqualTotals,
    OneApart,
    SameDefaults,
    SameSurvivors,
    /// Equal, as the next one.
    Multiple,
    FactorsApart,
    OneMoved,
    OneMore,
    Coarser,
    Coarsenings,
    MostInFirst,
    MostInSecond,
    MostInBoth,
    HighestPrices,
    FortyGrades,
    EmptyGrades,
    OneDefault,
    OneSurvivor,
    OneGrade,
    /// Equal: both scales are noise.
    OneBlock,
    NearlyEqual,
    /// Crossing.
    CornerAbove,
    /// The scale with the later corner is at least as good, as in the next one.
    CornerBelow,
    CornerOnRay,
}

use Lenders::*;

pub fn every_lenders() -> Vec<Lenders> {
    [
        &[AnyTwo, FarApart, EqualTotals, OneApart][..],
        &[SameDefaults, SameSurvivors],
        &[Multiple, FactorsApart, OneMoved, OneMore],
        &[Coarser, Coarsenings],
        &[MostInFirst, MostInSecond, MostInBoth, HighestPrices],
        &[FortyGrades, EmptyGrades],
        &[OneDefault, OneSurvivor, OneGrade, OneBlock],
        &[NearlyEqual, CornerAbove, CornerBelow, CornerOnRay],
    ]
    .concat()
}

/// Curves that cross by little have more turns: their verdict hangs on the highest prices.
pub(crate) fn lenders_in_turn() -> Vec<Lenders> {
    [every_lenders(), vec![CornerAbove, CornerAbove]].concat()
}

impl fmt::Display for Lenders {
    fn fmt(&self, out: &mut fmt::Formatter) -> fmt::Result {
        out.write_str(match self {
            AnyTwo => "any two",
            FarApart => "10 obligors at most and 90000 at least",
            EqualTotals => "equal D and S",
            OneApart => "one default or survivor more",
            SameDefaults => "equal D, other S",
            SameSurvivors => "equal S, other D",
            Multiple => "one a multiple of the other",
            FactorsApart => "defaults times one factor, survivors times another",
            OneMoved => "multiples, one obligor moved",
            OneMore => "multiples, one obligor more",
            Coarser => "multiples of a scale and a coarser one",
            Coarsenings => "multiples of two coarser scales",
            MostInFirst => "100000 obligors in place 1",
            MostInSecond => "100000 obligors in place 2",
            MostInBoth => "100000 obligors in both places",
            HighestPrices => "few blocks, D and S 50000 or nearly",
            FortyGrades => "40 grades each",
            EmptyGrades => "empty grades",
            OneDefault => "a single default",
            OneSurvivor => "a single survivor",
            OneGrade => "a single grade",
            OneBlock => "a single block each",
            NearlyEqual => "one obligor of 90000 and more",
            CornerAbove => "a corner just above the other's first leg",
            CornerBelow => "a corner just below the other's first leg",
            CornerOnRay => "a corner on the other's first leg",
        })
    }
}

impl Lenders {
    /// The tables of places 1 and 2.
    pub fn tables(self, random: &mut Random) -> [Table; 2] {
        let mut tables = self.any_order(random);
        let has_order = [MostInFirst, MostInSecond].contains(&self);
        if !has_order && random.chance(50) {
            tables.reverse();
        }
        for table in &mut tables {
            announce(random, table);
        }
        tables
    }

    fn any_order(self, random: &mut Random) -> [Table; 2] {
        match self {
            AnyTwo => [sound(random), sound(random)],
            FarApart => [few(random), many(random)],
            EqualTotals => sound_pair(random, same_obligors),
            OneApart => sound_pair(random, other_obligors),
            SameDefaults => one_total(random, |same, other| (same, other)),
            SameSurvivors => one_total(random, |same, other| (other, same)),
            Multiple => multiple(random),
            FactorsApart => factors_apart(random),
            OneMoved => one_moved(random),
            OneMore => one_more(random),
            Coarser => fine_and_coarser(random),
            Coarsenings => two_of_one_scale(random),
            MostInFirst => [most(random), sound(random)],
            MostInSecond => [sound(random), most(random)],
            MostInBoth => [most(random), most(random)],
            HighestPrices => highest_prices(random),
            FortyGrades => [(); 2].map(|()| any_forty_grades(random)),
            EmptyGrades => empty_grades(random),
            OneDefault => single(random, |one, others| (one, others)),
            OneSurvivor => single(random, |one, others| (others, one)),
            OneGrade => [one_grade(random), sound(random)],
            OneBlock => [one_block(random), one_block(random)],
            NearlyEqual => nearly_equal(random),
            CornerAbove | CornerBelow => near_corners(random, self),
            CornerOnRay => corner_on_ray(random),
        }
    }
}

/// The second comparison takes it.
fn is_sound(table: &Table) -> bool {
    let obligors = table.obligors();
    table.defaults() > 0 && table.survivors() > 0 && obligors <= MAX_OBLIGORS_ON_SHARES
}

/// A table that the second comparison takes.
pub fn sound(random: &mut Random) -> Table {
    of_at_most(random, MAX_OBLIGORS_ON_SHARES)
}

/// A sound table of at most so many obligors.
fn of_at_most(random: &mut Random, most: u64) -> Table {
    loop {
        let table = mixed_outcomes(random);
        if table.obligors() <= most {
            return table;
        }
    }
}

fn sound_pair(random: &mut Random, pair: fn(&mut Random) -> (Table, Table)) -> [Table; 2] {
    loop {
        let tables = <[Table; 2]>::from(pair(random));
        if tables.iter().all(is_sound) {
            return tables;
        }
    }
}

/// These defaults and survivors in any number of grades; mostly the rates rise.
pub(crate) fn scale_of(random: &mut Random, (defaults, survivors): (u64, u64)) -> Table {
    let grades = any_grade_count(random);
    let mut table = partition(random, defaults, survivors, grades);
    if random.chance(70) {
        sort_by_rate(&mut table);
    }
    table
}

/// D and S of so many obligors, both at least 1.
pub(crate) fn totals(random: &mut Random, obligors: u64) -> (u64, u64) {
    let any = random.between(1, obligors - 1);
    let defaults = random.pick(&[1, any, any, any, obligors / 2, obligors - 1]);
    (defaults, obligors - defaults)
}

/// D and S of a sound table of any size.
fn any_totals(random: &mut Random) -> (u64, u64) {
    let most = random.pick(&[10, 200, 5_000, MAX_OBLIGORS_ON_SHARES]);
    let obligors = random.between(2, most);
    totals(random, obligors)
}

fn few(random: &mut Random) -> Table {
    let obligors = random.between(2, 10);
    let totals = totals(random, obligors);
    scale_of(random, totals)
}

fn many(random: &mut Random) -> Table {
    let obligors = random.between(90_000, MAX_OBLIGORS_ON_SHARES);
    let totals = totals(random, obligors);
    scale_of(random, totals)
}

fn most(random: &mut Random) -> Table {
    let totals = totals(random, MAX_OBLIGORS_ON_SHARES);
    scale_of(random, totals)
}

/// D and S, one of which is given and the other one not.
type Totals = fn(u64, u64) -> (u64, u64);

/// One total is that of both tables, the other is not.
fn one_total(random: &mut Random, totals: Totals) -> [Table; 2] {
    let most = random.pick(&[5, 300, MAX_OBLIGORS_ON_SHARES - 2]);
    let same = random.between(1, most);
    let others = random.pick(&[2, 300, MAX_OBLIGORS_ON_SHARES]);
    let others = others.min(MAX_OBLIGORS_ON_SHARES - same);
    let other = random.between(1, others);
    let another = 1 + (other + random.between(0, others - 2)) % others;
    [other, another].map(|other| scale_of(random, totals(same, other)))
}

/// One of one kind, in one table or in both, and any number of the other kind.
fn single(random: &mut Random, totals: Totals) -> [Table; 2] {
    let mut one_of_many = || {
        let most = random.pick(&[1, 20, 1_000, MAX_OBLIGORS_ON_SHARES - 1]);
        let any = random.between(1, most);
        let others = random.pick(&[any, most]);
        scale_of(random, totals(1, others))
    };
    let tables = [one_of_many(), one_of_many()];
    match random.chance(60) {
        true => [tables[0].clone(), sound(random)],
        false => tables,
    }
}

/// The table with each grade's defaults and survivors times these factors.
pub fn times(table: &Table, (by_defaults, by_survivors): (u64, u64)) -> Table {
    let mut table = table.clone();
    for grade in &mut table.grades {
        let survivors = grade.survivors() * by_survivors;
        grade.defaults *= by_defaults;
        grade.obligors = grade.defaults + survivors;
    }
    table
}

fn any_factor(random: &mut Random, most: u64) -> u64 {
    let (few, any) = (random.between(1, most.min(5)), random.between(1, most));
    random.pick(&[few, any, most])
}

/// Factors for the defaults and the survivors of a sound table that leave it sound.
fn factors(random: &mut Random, table: &Table) -> (u64, u64) {
    let (defaults, survivors) = (table.defaults(), table.survivors());
    let by_defaults = any_factor(random, (MAX_OBLIGORS_ON_SHARES - survivors) / defaults);
    let left = MAX_OBLIGORS_ON_SHARES - by_defaults * defaults;
    (by_defaults, any_factor(random, left / survivors))
}

fn multiple(random: &mut Random) -> [Table; 2] {
    let most = random.pick(&[20, 1_000, MAX_OBLIGORS_ON_SHARES / 2]);
    let base = of_at_most(random, most);
    let most = MAX_OBLIGORS_ON_SHARES / base.obligors();
    let any = random.between(2, most);
    let factor = random.pick(&[2, 3, any, most]).min(most);
    [equal_partner(random, &base), times(&base, (factor, factor))]
}

fn factors_apart(random: &mut Random) -> [Table; 2] {
    let base = of_at_most(random, 2_000);
    loop {
        let [first, second] = [factors(random, &base), factors(random, &base)];
        if first.0 * second.1 != first.1 * second.0 {
            let base = equal_partner(random, &base);
            return [times(&base, first), times(&base, second)];
        }
    }
}

fn one_moved(random: &mut Random) -> [Table; 2] {
    loop {
        let base = of_at_most(random, 2_000);
        let multiple = times(&base, factors(random, &base));
        let mut other = multiple.clone();
        move_one(random, &mut other);
        if other != multiple {
            return [base, other];
        }
    }
}

fn one_more(random: &mut Random) -> [Table; 2] {
    loop {
        let base = of_at_most(random, 2_000);
        let mut other = times(&base, factors(random, &base));
        add_one(random, &mut other);
        if is_sound(&other) && base.occupied() > 1 {
            return [base, other];
        }
    }
}

/// One more default or survivor in a grade.
fn add_one(random: &mut Random, table: &mut Table) {
    let index = random.index(table.grades.len());
    let grade = &mut table.grades[index];
    grade.obligors += 1;
    grade.defaults += random.between(0, 1);
}

fn fine_and_coarser(random: &mut Random) -> [Table; 2] {
    let mut fine = of_at_most(random, 2_000);
    sort_by_rate(&mut fine);
    let coarse = coarser(random, &fine);
    [fine, coarse].map(|table| times(&table, factors(random, &table)))
}

fn two_of_one_scale(random: &mut Random) -> [Table; 2] {
    let tables = <[Table; 2]>::from(two_coarsenings(random, 1_000));
    tables.map(|table| times(&table, factors(random, &table)))
}

/// DS, the highest break-even price, is as high as it can be, or nearly.
fn highest_prices(random: &mut Random) -> [Table; 2] {
    let table = |random: &mut Random| {
        let totals = random.pick(&[
            (50_000, 50_000),
            (50_000, 50_000),
            (49_999, 50_001),
            (50_001, 49_999),
            (49_999, 50_000),
        ]);
        let grades = random.pick(&[1, 2, 2, 3, 4]);
        let mut table = partition(random, totals.0, totals.1, grades);
        sort_by_rate(&mut table);
        table
    };
    [table(random), table(random)]
}

fn any_forty_grades(random: &mut Random) -> Table {
    let obligors = random.pick(&[80, 1_000, MAX_OBLIGORS_ON_SHARES]);
    let totals = totals(random, obligors);
    forty_grades(random, totals)
}

pub(crate) fn forty_grades(random: &mut Random, (defaults, survivors): (u64, u64)) -> Table {
    let bad = shares(random, defaults, MAX_GRADES);
    let good = shares(random, survivors, MAX_GRADES);
    let rows: Vec<(u64, u64)> = bad.iter().zip(good).map(|(d, s)| (d + s, *d)).collect();
    let mut table = Table::of_rows(&rows);
    if random.chance(80) {
        sort_by_rate(&mut table);
    }
    table
}

/// Empty grades in both, in one, or other ones in each.
fn empty_grades(random: &mut Random) -> [Table; 2] {
    let patterns = every_pattern();
    let table = loop {
        let pattern = &patterns[random.index(patterns.len())];
        let table = pattern.table(random);
        if is_sound(&table) {
            break table;
        }
    };
    let other = match random.between(0, 3) {
        0 => without_empty(&table),
        1 => with_other_empty(random, &table),
        2 => sound(random),
        _ => table.clone(),
    };
    let factors = factors(random, &other);
    [table, times(&other, factors)]
}

fn one_grade(random: &mut Random) -> Table {
    let (defaults, survivors) = any_totals(random);
    Table::of_rows(&[(defaults + survivors, defaults)])
}

/// Rates that fall, or a single one.
fn one_block(random: &mut Random) -> Table {
    let totals = any_totals(random);
    let mut table = scale_of(random, totals);
    sort_by_rate(&mut table);
    table.grades.reverse();
    table
}

/// One obligor more, or in another grade.
fn nearly_equal(random: &mut Random) -> [Table; 2] {
    loop {
        let mut base = many(random);
        sort_by_rate(&mut base);
        let mut other = base.clone();
        match random.chance(50) {
            true => move_one(random, &mut other),
            false => add_one(random, &mut other),
        }
        if other != base && is_sound(&other) {
            return [base, other];
        }
    }
}

/// A table of two grades, the worse of which has these defaults and survivors. The curve of its
/// shares has two legs, which meet at the worse grade's shares.
pub(crate) fn two_legs((defaults, survivors): (u64, u64), worse: (u64, u64)) -> Table {
    let better = (defaults - worse.0, survivors - worse.1);
    Table::of_rows(&[
        (better.0 + better.1, better.0),
        (worse.0 + worse.1, worse.0),
    ])
}

/// First legs whose slopes, yS/xD, differ by little more than a²c²/n⁴: n²/(n² - a²) and
/// (n² - c²)/(n² - d²), where a² + c² = d². The steeper one ends before the other one does, and the
/// curves cross, or behind it.
fn near_corners(random: &mut Random, lenders: Lenders) -> [Table; 2] {
    let triples = [(3, 4, 5), (4, 3, 5), (5, 12, 13), (12, 5, 13), (8, 15, 17)];
    let (a, c, d) = random.pick(&triples);
    let any = random.between(50, 49_980);
    let n = random.pick(&[50, any, 49_980, 49_980]);
    let flat = two_legs((n + a, n), (n, n - a));
    let steep = match lenders {
        CornerAbove => two_legs((n + d, n + c), (n - c, n - d)),
        _ => two_legs((n + d, n - c), (n + c, n - d)),
    };
    [flat, steep]
}

/// The other one's first leg ends halfway.
fn corner_on_ray(random: &mut Random) -> [Table; 2] {
    let (n, a) = (2 * random.between(10, 12_000), 2 * random.between(1, 8));
    let totals = (n + a, n);
    let longer = two_legs(totals, (n, n - a));
    let shorter = two_legs(totals, (n / 2, (n - a) / 2));
    let factors = random.pick(&[(1, 1), (2, 1), (1, 2), (2, 2)]);
    [longer, times(&shorter, factors)]
}
