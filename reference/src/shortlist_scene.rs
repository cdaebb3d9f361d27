//! The scene "shortlist of a whole book", for request R-7 of document 02: books whose raters can
//! all be compared, and books with faults of one rater, of two, or of the whole.

use crate::book::MAX_RATERS;
use crate::damage::{damage_layout, way_to};
use crate::draft::Draft;
use crate::generate::Generator;
use crate::lenders::{scale_of, totals};
use crate::population::announce;
use crate::random::Random;
use crate::script::{Call, MAX_LENT_NUMBERS};
use crate::shortlist::listed;
use crate::table::{Refusal, Table, MAX_OBLIGORS};
use std::fmt;

/// When the checks come to a fault of a rater.
#[derive(Clone, Copy, Debug, PartialEq, Eq, PartialOrd, Ord)]
pub enum Stage {
    /// 31, 32, 6, 7
    Layout,
    /// 8, 10, 34
    Rows,
    /// 9
    AllEmpty,
    /// 11
    TooMany,
    /// 23
    NoDefaults,
    /// 24
    NoSurvivors,
    /// 25
    OtherTotals,
}

use Stage::*;

pub const EVERY_STAGE: [Stage; 7] = [
    Layout,
    Rows,
    AllEmpty,
    TooMany,
    NoDefaults,
    NoSurvivors,
    OtherTotals,
];

/// The faults that a single rater can have.
pub const OF_A_RATER: [Refusal; 12] = [31, 32, 6, 7, 8, 10, 34, 9, 11, 23, 24, 25];
/// The faults of the book as a whole.
pub const OF_THE_BOOK: [Refusal; 3] = [2, 3, 33];

impl Stage {
    fn numbers(self) -> &'static [Refusal] {
        match self {
            Layout => &[31, 32, 6, 7],
            Rows => &[8, 10, 34],
            AllEmpty => &[9],
            TooMany => &[11],
            NoDefaults => &[23],
            NoSurvivors => &[24],
            OtherTotals => &[25],
        }
    }
}

impl fmt::Display for Stage {
    fn fmt(&self, out: &mut fmt::Formatter) -> fmt::Result {
        out.write_str(match self {
            Layout => "layout",
            Rows => "rows",
            AllEmpty => "all grades empty",
            TooMany => "too many obligors",
            NoDefaults => "no defaults",
            NoSurvivors => "no survivors",
            OtherTotals => "other totals",
        })
    }
}

/// What is wrong with a book, and in whom.
#[derive(Clone, Copy, Debug, PartialEq, Eq, PartialOrd, Ord)]
pub enum Fault {
    InLast(Refusal),
    BeforeLast(Refusal),
    /// In an earlier rater, and in a later one.
    InTwo(Stage, Stage),
    OfBook(Refusal),
    /// And of any rater besides, but not of the layout.
    OfBookAndRater(Refusal),
}

use Fault::*;

pub fn every_fault() -> Vec<Fault> {
    let two = EVERY_STAGE.map(|one| EVERY_STAGE.map(|other| InTwo(one, other)));
    [
        &OF_A_RATER.map(InLast)[..],
        &OF_A_RATER.map(BeforeLast),
        two.as_flattened(),
        &OF_THE_BOOK.map(OfBook),
        &OF_THE_BOOK.map(OfBookAndRater),
    ]
    .concat()
}

/// A book with faults.
pub struct Faulty {
    pub book: Vec<u8>,
    pub raters: usize,
    /// Raters, counted from 0, and their faults' numbers.
    pub of_raters: Vec<(usize, Refusal)>,
    pub of_book: Option<Refusal>,
}

impl Fault {
    pub fn book(self, random: &mut Random) -> Faulty {
        let any = 3 + random.index(MAX_RATERS - 2);
        let raters = random.weighted(&[(2, 1), (4, 2), (4, 3), (4, any), (1, MAX_RATERS)]);
        let raters = raters.max(self.fewest_raters());
        let of_raters = self.of_raters(random, raters);
        let of_book = match self {
            OfBook(number) | OfBookAndRater(number) => Some(number),
            _ => None,
        };
        let book = with_faults(random, raters, &of_raters, of_book);
        Faulty {
            book,
            raters,
            of_raters,
            of_book,
        }
    }

    fn fewest_raters(self) -> usize {
        match self {
            // Two whose totals are not those of the others may be the only ones.
            InTwo(OtherTotals, OtherTotals) => 3,
            BeforeLast(_) | InTwo(..) | InLast(25) | OfBookAndRater(_) => 2,
            InLast(_) | OfBook(_) => 1,
        }
    }

    fn of_raters(self, random: &mut Random, raters: usize) -> Vec<(usize, Refusal)> {
        let last = raters - 1;
        let before = |random: &mut Random, later: usize| match random.chance(50) {
            true => 0,
            false => random.index(later),
        };
        match self {
            InLast(number) => vec![(last, number)],
            BeforeLast(number) => vec![(before(random, last), number)],
            InTwo(one, other) => {
                let any = 1 + random.index(last);
                let later = random.pick(&[any, last]);
                let [one, other] = [one, other].map(|stage| random.pick(stage.numbers()));
                vec![(before(random, later), one), (later, other)]
            }
            OfBook(_) => vec![],
            OfBookAndRater(_) => vec![(random.index(raters), random.pick(&OF_A_RATER[4..]))],
        }
    }
}

/// A book of so many raters with these faults. The layout is damaged last, since a grade more would
/// put the offsets right.
fn with_faults(
    random: &mut Random,
    raters: usize,
    of_raters: &[(usize, Refusal)],
    of_book: Option<Refusal>,
) -> Vec<u8> {
    let tables = tables_with(random, raters, of_raters);
    let mut draft = Draft::of_tables(random, &tables, 1);
    for &(index, number) in of_raters {
        if [8, 10, 34, 9, 11].contains(&number) {
            draft.rater = index as u32 + 1;
            way_to(random, number).1(random, &mut draft);
        }
    }
    for &(index, number) in of_raters {
        damage_layout(random, &mut draft, index, number);
    }
    if let Some(number) = of_book {
        damage_book(random, &mut draft, number);
    }
    draft.bytes
}

/// Now and then with another fault of the book besides, which the checks come to later.
fn damage_book(random: &mut Random, draft: &mut Draft, number: Refusal) {
    let later: &[Refusal] = match number {
        2 => &[3, 33],
        3 => &[33],
        _ => &[],
    };
    if !later.is_empty() && random.chance(60) {
        let besides = random.pick(later);
        way_to(random, besides).1(random, draft);
    }
    way_to(random, number).1(random, draft);
}

/// Tables of the same totals, save where these faults are of the totals.
fn tables_with(random: &mut Random, raters: usize, of_raters: &[(usize, Refusal)]) -> Vec<Table> {
    let most = random.pick(&[10, 200, 5_000, MAX_OBLIGORS - 1]);
    let obligors = random.between(2, most);
    let totals = totals(random, obligors);
    let mut of_all = vec![totals; raters];
    for &(index, number) in of_raters {
        of_all[index] = faulty_totals(random, totals, number);
    }
    let table = |totals| {
        let mut table = scale_of(random, totals);
        announce(random, &mut table);
        table
    };
    of_all.into_iter().map(table).collect()
}

/// D and S of a rater with this fault, among others who have these.
fn faulty_totals(random: &mut Random, totals: (u64, u64), number: Refusal) -> (u64, u64) {
    let (defaults, survivors) = totals;
    let obligors = random.pick(&[1, defaults, survivors, defaults + survivors]);
    match number {
        23 => (0, obligors),
        24 => (obligors, 0),
        25 => other_totals(random, totals),
        // The totals of a rater who is refused before play no part.
        _ if random.chance(30) => {
            let besides = random.pick(&[23, 24, 25]);
            faulty_totals(random, totals, besides)
        }
        _ => totals,
    }
}

/// One more, one of one kind for one of the other, exchanged, or alike in their last 16 bits.
fn other_totals(random: &mut Random, (defaults, survivors): (u64, u64)) -> (u64, u64) {
    let mut others = vec![
        (defaults + 1, survivors),
        (defaults, survivors + 1),
        (defaults + 1, survivors - 1),
        (defaults - 1, survivors + 1),
        (survivors, defaults),
        (defaults + 65_536, survivors),
        (defaults, survivors + 65_536),
    ];
    let may_be = |&(d, s): &(u64, u64)| d > 0 && s > 0 && d + s <= MAX_OBLIGORS;
    others.retain(|other| may_be(other) && *other != (defaults, survivors));
    random.pick(&others)
}

impl Generator {
    /// The desk plays no part: what is on it stays, and is shown now and then.
    pub(crate) fn whole_book(&mut self) {
        match self.random.chance(60) {
            true => self.rival_raters(),
            false => self.faulty_books(),
        }
        if self.random.chance(50) {
            self.show_desk();
        }
    }

    /// Into a buffer that is long enough, and now and then into one that is too short, often just
    /// long enough for those who are listed.
    fn rival_raters(&mut self) {
        for _ in 0..2 {
            let rivals = self.next_rivals();
            let tables = rivals.tables(&mut self.random);
            let raters = tables.len() as u32;
            let book = Draft::of_tables(&mut self.random, &tables, 1).bytes;
            let mut lengths = vec![self.long_buffer(raters)];
            if self.random.chance(50) {
                let listed = listed(&tables).len() as u32;
                lengths.push(self.short_buffer(raters, listed));
            }
            self.random.shuffle(&mut lengths);
            for length in lengths {
                self.list_rivals(length, book.clone(), rivals);
            }
        }
    }

    fn long_buffer(&mut self, raters: u32) -> u32 {
        let any = self.random.between(raters.into(), MAX_LENT_NUMBERS.into()) as u32;
        let most = raters.max(MAX_RATERS as u32);
        self.random.weighted(&[
            (5, raters),
            (2, raters + 1),
            (1, most),
            (1, any),
            (1, MAX_LENT_NUMBERS),
        ])
    }

    fn short_buffer(&mut self, raters: u32, listed: u32) -> u32 {
        let for_listed = listed.min(raters - 1);
        let any = self.random.index(raters as usize) as u32;
        self.random
            .pick(&[0, for_listed, for_listed, raters - 1, raters - 1, any])
    }

    fn faulty_books(&mut self) {
        for _ in 0..5 {
            let fault = self.next_fault_of_book();
            let faulty = fault.book(&mut self.random);
            let length = match self.random.chance(50) {
                true => self.long_buffer(faulty.raters as u32),
                false => self.short_buffer(faulty.raters as u32, 1),
            };
            self.list_faulty(length, faulty.book, fault);
        }
    }

    /// Now and then the shortlist of a book that load has been lent.
    pub(crate) fn list_now_and_then(&mut self, book: &[u8]) {
        if self.random.chance(10) {
            self.list(book);
        }
    }

    pub(crate) fn list(&mut self, book: &[u8]) {
        let length = self.random.pick(&[0, 1, 15, 16, 16]);
        let book = book.to_vec();
        self.emit(Call::Shortlist { length, book });
    }

    /// Now and then the shortlist of the two that the first comparison is about.
    pub(crate) fn list_places(&mut self) {
        let tables = [1, 2].map(|place| self.desk.table(place).cloned());
        if let ([Ok(first), Ok(second)], true) = (tables, self.random.chance(25)) {
            let book = Draft::of_tables(&mut self.random, &[first, second], 1).bytes;
            let length = self.random.pick(&[1, 2, 2, 2, 3]);
            self.emit(Call::Shortlist { length, book });
        }
    }

    /// Any raters, or raters over the obligors of a place.
    pub(crate) fn any_shortlist(&mut self) {
        let place = self.random.pick(&[1, 2]);
        let raters = 1 + self.random.index(4);
        let tables: Vec<Table> = (0..raters).map(|_| self.partner_of(place)).collect();
        let book = Draft::of_tables(&mut self.random, &tables, 1).bytes;
        let length = self.random.pick(&[raters as u32 - 1, raters as u32, 16]);
        self.emit(Call::Shortlist { length, book });
    }
}
