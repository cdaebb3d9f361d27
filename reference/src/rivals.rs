//! Books of raters over the same obligors, for request R-7 of document 02: "Committees choose among
//! all raters of a book, not two." Any two of them can be compared.

use crate::book::MAX_RATERS;
use crate::empty_scene::{every_pattern, with_other_empty};
use crate::lenders::{forty_grades, scale_of, totals, two_legs};
use crate::lumping::{
    all, beaten_by_one, chain, crossing, fewer, followers, keeping, rising_scale, some_of, Borders,
};
use crate::partners::{equal_partner, mixed_outcomes, move_one, partner, split_falling};
use crate::population::{announce, sort_by_rate};
use crate::random::Random;
use crate::table::{Table, MAX_GRADES, MAX_OBLIGORS};
use std::fmt;

/// What the raters of a book are to each other.
#[derive(Clone, Copy, Debug, PartialEq, Eq, PartialOrd, Ord)]
pub enum Rivals {
    /// A single rater.
    Alone,
    AnyPartners,
    Partitions,
    Moved,
    /// All are listed.
    AllEqual,
    /// Each is better than the next, as in the two behind it in other orders: one is listed.
    BestFirst,
    BestLast,
    BestAnywhere,
    /// Two are listed.
    TwoEqualBest,
    /// One is better than all others, however these stand to each other.
    OneBest,
    /// All are listed but one.
    OneBehind,
    /// All are listed.
    Crossing,
    /// All are listed.
    CrossingTwins,
    /// All are listed but one, whom a single other one beats.
    BeatenByOne,
    /// Crossing, each with others behind it.
    Followers,
    Lumped,
    FortyGrades,
    EmptyGrades,
    MostObligors,
    OneDefault,
    OneSurvivor,
    /// All are listed: all scales are noise.
    OneBlock,
    /// Some of a single grade.
    OneGrade,
    NearlyEqual,
    /// Two legs each, whose corners are next to each other: all are listed.
    CornersCross,
    /// The one with the first corner is listed, as in the next one.
    CornersBelow,
    CornersOnLeg,
}

use Rivals::*;

pub fn every_rivals() -> Vec<Rivals> {
    [
        &[Alone, AnyPartners, Partitions, Moved][..],
        &[AllEqual, BestFirst, BestLast, BestAnywhere],
        &[TwoEqualBest, OneBest, OneBehind],
        &[Crossing, CrossingTwins, BeatenByOne, Followers, Lumped],
        &[FortyGrades, EmptyGrades, MostObligors],
        &[OneDefault, OneSurvivor, OneBlock, OneGrade],
        &[NearlyEqual, CornersCross, CornersBelow, CornersOnLeg],
    ]
    .concat()
}

impl fmt::Display for Rivals {
    fn fmt(&self, out: &mut fmt::Formatter) -> fmt::Result {
        out.write_str(match self {
            Alone => "a single rater",
            AnyPartners => "any partners of one table",
            Partitions => "any partitions of D and S",
            Moved => "one scale, a few obligors moved",
            AllEqual => "all equal",
            BestFirst => "each better than the next",
            BestLast => "each better than the one before",
            BestAnywhere => "one above the other, in any order",
            TwoEqualBest => "two equal ones better than all others",
            OneBest => "one better than all others",
            OneBehind => "all equal but one, who is worse",
            Crossing => "every two cross",
            CrossingTwins => "crossing, each with an equal one",
            BeatenByOne => "crossing, and one whom one of them beats",
            Followers => "crossing, each with others behind it",
            Lumped => "any coarser ones of one scale",
            FortyGrades => "40 grades",
            EmptyGrades => "empty grades in all of them",
            MostObligors => "1000000 obligors",
            OneDefault => "one default",
            OneSurvivor => "one survivor",
            OneBlock => "all a single block",
            OneGrade => "some of a single grade",
            NearlyEqual => "a few obligors of 900000 and more moved",
            CornersCross => "corners next to each other, crossing",
            CornersBelow => "corners below the first one's second leg",
            CornersOnLeg => "corners on the first one's second leg",
        })
    }
}

impl Rivals {
    /// The tables of a book, in its order.
    pub fn tables(self, random: &mut Random) -> Vec<Table> {
        let raters = self.rater_count(random);
        let mut tables = match self.kept(random, raters) {
            Some((scale, kept)) => looked_at(random, &scale, &kept),
            None => self.of_same_totals(random, raters),
        };
        if ![BestFirst, BestLast].contains(&self) {
            random.shuffle(&mut tables);
        }
        for table in &mut tables {
            announce(random, table);
        }
        tables
    }

    fn rater_count(self, random: &mut Random) -> usize {
        let (fewest, most) = match self {
            Alone => (1, 1),
            TwoEqualBest | OneBest | OneBehind | BeatenByOne => (3, MAX_RATERS),
            CrossingTwins | Followers => (4, MAX_RATERS),
            // Comparing more of them takes long.
            FortyGrades => (2, 4),
            _ => (2, MAX_RATERS),
        };
        let any = fewest + random.index(most - fewest + 1);
        random.weighted(&[(3, fewest), (2, most.min(fewest + 1)), (3, any), (1, most)])
    }

    /// A scale, and the borders of it that each rater keeps, where these say who is better.
    fn kept(self, random: &mut Random, raters: usize) -> Option<(Table, Vec<Borders>)> {
        let few = raters.max(6) + random.index(6);
        let most = if raters < 6 { MAX_GRADES - 1 } else { few };
        let count = random.pick(&[few, few, few, most]);
        let any = some_of(random, all(count), raters.max(count / 2));
        let mut less =
            |raters| -> Vec<Borders> { (0..raters).map(|_| fewer(random, any)).collect() };
        let kept = match self {
            AllEqual => vec![any; raters],
            TwoEqualBest => [vec![any; 2], less(raters - 2)].concat(),
            OneBest => [vec![any], less(raters - 1)].concat(),
            OneBehind => [vec![any; raters - 1], less(1)].concat(),
            BestFirst | BestAnywhere => chain(random, any, raters),
            BestLast => chain(random, any, raters).into_iter().rev().collect(),
            Crossing => crossing(random, all(count), raters),
            CrossingTwins => {
                let crossing = crossing(random, all(count), raters / 2);
                crossing.iter().cycle().take(raters).copied().collect()
            }
            BeatenByOne => beaten_by_one(random, all(count), raters),
            Followers => followers(random, all(count), raters),
            Lumped => less(raters),
            _ => return None,
        };
        Some((rising_scale(random, count + 1), kept))
    }

    fn of_same_totals(self, random: &mut Random, raters: usize) -> Vec<Table> {
        match self {
            Alone => vec![mixed_outcomes(random)],
            AnyPartners => {
                let base = mixed_outcomes(random);
                partners_of(random, raters, base)
            }
            EmptyGrades => with_empty_grades(random, raters),
            CornersCross | CornersBelow | CornersOnLeg => self.corners(random, raters),
            Moved | NearlyEqual => {
                let totals = self.totals(random);
                moved(random, raters, totals)
            }
            _ => {
                let totals = self.totals(random);
                (0..raters).map(|_| self.table(random, totals)).collect()
            }
        }
    }

    /// D and S of all of them.
    fn totals(self, random: &mut Random) -> (u64, u64) {
        let most = random.pick(&[10, 200, 5_000, MAX_OBLIGORS]);
        let any = random.between(2, most);
        match self {
            OneDefault => (1, any - 1),
            OneSurvivor => (any - 1, 1),
            MostObligors => totals(random, MAX_OBLIGORS),
            NearlyEqual => {
                let obligors = random.between(900_000, MAX_OBLIGORS);
                totals(random, obligors)
            }
            FortyGrades => totals(random, most.max(80)),
            _ => totals(random, any),
        }
    }

    fn table(self, random: &mut Random, totals: (u64, u64)) -> Table {
        let mut table = match self {
            FortyGrades => forty_grades(random, totals),
            OneGrade if random.chance(40) => Table::of_rows(&[(totals.0 + totals.1, totals.0)]),
            _ => scale_of(random, totals),
        };
        if self == OneBlock {
            sort_by_rate(&mut table);
            table.grades.reverse();
        }
        table
    }

    /// Corners that catch x + 1 and turn away x, for neighbouring x: the slopes of the first legs
    /// fall by 1/(x(x + 1)). The next corner is above the second leg where D is at most S, on it
    /// where D is S + 1, and below it where D is larger, as far as corners are above the diagonal.
    fn corners(self, random: &mut Random, raters: usize) -> Vec<Table> {
        let most = MAX_OBLIGORS / 2 - 50;
        let any = random.between(200, most);
        let survivors = random.pick(&[200, any, most, most]);
        let apart = random.pick(&[2, 2, 3, 5]);
        let (defaults, beyond) = match self {
            CornersCross => (survivors - random.pick(&[0, 1, 50]), survivors - 50),
            CornersOnLeg => (survivors + 1, survivors - 50),
            _ => (survivors + apart, survivors / apart),
        };
        let highest = beyond - MAX_RATERS as u64;
        let any = random.between(1, highest);
        let lost = random.pick(&[any, highest]);
        let corner = |lost: u64| two_legs((defaults, survivors), (lost + 1, lost));
        (lost..).take(raters).map(corner).collect()
    }
}

/// The tables of raters who keep these borders of a scale, each in any look.
fn looked_at(random: &mut Random, scale: &Table, kept: &[Borders]) -> Vec<Table> {
    let tables = kept.iter().map(|&kept| keeping(scale, kept));
    tables.map(|table| other_look(random, table)).collect()
}

/// A table that costs as much at all prices.
fn other_look(random: &mut Random, table: Table) -> Table {
    let has_room = table.grades.len() < MAX_GRADES;
    match random.between(0, 5) {
        0 | 1 => equal_partner(random, &table),
        2 | 3 => split_falling(random, &table),
        4 if has_room => with_other_empty(random, &table),
        _ => table,
    }
}

/// A table, and others over its obligors.
fn partners_of(random: &mut Random, raters: usize, mut base: Table) -> Vec<Table> {
    if random.chance(50) {
        sort_by_rate(&mut base);
    }
    let others: Vec<Table> = (1..raters).map(|_| partner(random, &base)).collect();
    [vec![base], others].concat()
}

/// Partners of a table with empty grades, each with some.
fn with_empty_grades(random: &mut Random, raters: usize) -> Vec<Table> {
    let patterns = every_pattern();
    let base = loop {
        let table = patterns[random.index(patterns.len())].table(random);
        if table.defaults() > 0 && table.survivors() > 0 {
            break table;
        }
    };
    let mut tables = partners_of(random, raters, base);
    for table in &mut tables {
        let occupied = table.occupied();
        if occupied == table.grades.len() && occupied < MAX_GRADES {
            *table = with_other_empty(random, table);
        }
    }
    tables
}

/// One rising scale, in which each rater but one has moved a few obligors.
fn moved(random: &mut Random, raters: usize, totals: (u64, u64)) -> Vec<Table> {
    let mut base = scale_of(random, totals);
    sort_by_rate(&mut base);
    let mut tables = vec![base; raters];
    for table in &mut tables[1..] {
        for _ in 0..random.pick(&[1, 1, 2, 4]) {
            move_one(random, table);
        }
    }
    tables
}
