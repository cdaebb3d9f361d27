//! The scene "raters of different books", for request R-6 of document 02: tables that the second
//! comparison takes, and places of which one at least holds none of these.

use crate::draft::Draft;
use crate::generate::Generator;
use crate::lenders::scale_of;
use crate::population::announce;
use crate::random::Random;
use crate::script::Call;
use crate::shares::MAX_OBLIGORS_ON_SHARES;
use crate::table::{Table, MAX_OBLIGORS};
use std::fmt;

/// What a place holds, as far as the second comparison asks for it.
#[derive(Clone, Copy, Debug, PartialEq, Eq, PartialOrd, Ord)]
pub enum Holds {
    /// 22
    Nothing,
    /// 23
    NoDefaults,
    /// 24
    NoSurvivors,
    /// 35
    TooMany,
    /// 23, for all that 35 is true of it.
    TooManyNoDefaults,
    /// 24, for all that 35 is true of it.
    TooManyNoSurvivors,
    Sound,
}

use Holds::*;

pub const EVERY_HOLDS: [Holds; 7] = [
    Nothing,
    NoDefaults,
    NoSurvivors,
    TooMany,
    TooManyNoDefaults,
    TooManyNoSurvivors,
    Sound,
];

/// What places 1 and 2 hold, where one of them at least is not sound.
pub fn every_fault() -> Vec<[Holds; 2]> {
    let first = EVERY_HOLDS.into_iter();
    let pairs = first.flat_map(|first| EVERY_HOLDS.map(|second| [first, second]));
    pairs.filter(|places| *places != [Sound; 2]).collect()
}

/// The limit has more turns: tables are of any size beyond it.
pub(crate) fn faults_in_turn() -> Vec<[Holds; 2]> {
    let beyond = [[TooMany, Sound], [Sound, TooMany], [TooMany, TooMany]];
    [every_fault(), beyond.to_vec(), beyond.to_vec()].concat()
}

impl fmt::Display for Holds {
    fn fmt(&self, out: &mut fmt::Formatter) -> fmt::Result {
        out.write_str(match self {
            Nothing => "nothing",
            NoDefaults => "no defaults",
            NoSurvivors => "no survivors",
            TooMany => "too many",
            TooManyNoDefaults => "too many, no defaults",
            TooManyNoSurvivors => "too many, no survivors",
            Sound => "sound",
        })
    }
}

impl Holds {
    pub fn of(table: Option<&Table>) -> Holds {
        let Some(table) = table else { return Nothing };
        let too_many = table.obligors() > MAX_OBLIGORS_ON_SHARES;
        match (table.defaults(), table.survivors(), too_many) {
            (0, _, false) => NoDefaults,
            (0, _, true) => TooManyNoDefaults,
            (_, 0, false) => NoSurvivors,
            (_, 0, true) => TooManyNoSurvivors,
            (_, _, true) => TooMany,
            (_, _, false) => Sound,
        }
    }

    /// A table for such a place; none for an empty one.
    pub fn table(self, random: &mut Random) -> Option<Table> {
        let too_many = [TooMany, TooManyNoDefaults, TooManyNoSurvivors].contains(&self);
        let (fewest, most) = match too_many {
            true => (MAX_OBLIGORS_ON_SHARES + 1, MAX_OBLIGORS),
            false => (2, MAX_OBLIGORS_ON_SHARES),
        };
        let any = random.between(fewest, most);
        let obligors = match too_many {
            true => random.pick(&[fewest, fewest, any, most]),
            false => random.pick(&[fewest, any, most, most]),
        };
        let some = random.between(1, obligors - 1);
        let defaults = match self {
            Nothing => return None,
            NoDefaults | TooManyNoDefaults => 0,
            NoSurvivors | TooManyNoSurvivors => obligors,
            TooMany | Sound => random.pick(&[1, some, some, obligors - 1]),
        };
        let mut table = scale_of(random, (defaults, obligors - defaults));
        announce(random, &mut table);
        Some(table)
    }
}

impl Generator {
    pub(crate) fn other_books(&mut self) {
        match self.random.chance(75) {
            true => self.two_lenders(),
            false => self.faulty_places(),
        }
    }

    /// Tables of equal totals have a verdict of the first comparison too; others are refused there
    /// now and then.
    fn two_lenders(&mut self) {
        let lenders = self.next_lenders();
        let [first, second] = lenders.tables(&mut self.random);
        let totals = [&first, &second].map(|table| (table.defaults(), table.survivors()));
        self.load_pair((first, second));
        let compares_both = totals[0] == totals[1] || self.random.chance(20);
        let compares_first = compares_both && self.random.chance(50);
        if compares_first {
            self.emit(Call::Compare);
        }
        self.compare_lenders(lenders);
        if compares_both && !compares_first {
            self.emit(Call::Compare);
        }
    }

    /// Each refusal is followed by a question that shows the desk.
    fn faulty_places(&mut self) {
        for _ in 0..4 {
            let holds = self.next_fault();
            for (place, holds) in [(1, holds[0]), (2, holds[1])] {
                self.hold(place, holds);
            }
            self.emit(Call::CompareShares);
            self.show_desk();
        }
    }

    /// What is there already mostly stays.
    fn hold(&mut self, place: u32, holds: Holds) {
        if Holds::of(self.desk.table(place).ok()) == holds && self.random.chance(70) {
            return;
        }
        self.empty(place);
        if let Some(table) = holds.table(&mut self.random) {
            let draft = Draft::around(&mut self.random, &table);
            self.load(place, draft);
        }
    }

    pub(crate) fn show_desk(&mut self) {
        let length = self.desk.book_length().unwrap_or(46) as u32;
        let place = self.random.pick(&[1, 2]);
        let question = match self.random.between(0, 5) {
            0 => Call::Brier { place },
            1 => Call::Measures { place },
            2 => Call::Compare,
            _ => Call::Write { length },
        };
        self.emit(question);
    }
}
