//! The calls on a desk.

use crate::answer::{Cutoff, Grade, Measures, PooledGrade, Price, Spread};
use crate::fraction::Fraction;
use crate::place::Place;
use crate::refusal::{Refusal, UnknownNumber};
use crate::sys::{self, Desk, Rows};
use crate::table::{self, Table};
use crate::verdict::Verdict;
use crate::{BOOK_BYTES, POOL_NUMBERS};
use std::fmt;
use std::slice;

/// What a refusal number says; 0 is acceptance.
fn accepted(number: u32) -> Result<(), Refusal> {
    match number {
        0 => Ok(()),
        _ => Err(Refusal::try_from(number).unwrap_or_else(|unknown| not_proved(unknown))),
    }
}

/// The number and what the call wrote.
pub(crate) fn answered<T: Default>(call: impl FnOnce(&mut T) -> u32) -> Result<T, Refusal> {
    let mut answer = T::default();
    accepted(call(&mut answer))?;
    Ok(answer)
}

/// The verdict that a comparison wrote.
fn judged(compare: impl FnOnce(&mut sys::Verdict) -> u32) -> Result<Verdict, Refusal> {
    let verdict = answered(compare)?;
    Ok(Verdict::try_from(verdict).unwrap_or_else(|unknown| not_proved(unknown)))
}

/// The library of this version is proved to answer nothing of the kind.
fn not_proved(unknown: UnknownNumber) -> ! {
    panic!("the library that was linked is not the proved one: {unknown}")
}

impl Desk {
    /// Fills an empty place with the table of a rater, counted from 1, of a book: a file in the byte
    /// format of `BOOK.md` (in `share/doc/desk` where installed, `docs` in the sources). The table
    /// says itself whether its first column counts obligors or survivors.
    ///
    /// ```
    /// use desk::{Desk, Place, Refusal, Table};
    ///
    /// let book = Table::book(&[Table::by_obligors().grade(5, 2, 400_000).grade(1, 1, 1_000_000)])?;
    /// let mut desk = Desk::empty();
    /// desk.load(Place::First, &book, 1)?;
    /// assert_eq!(desk.load(Place::First, &book, 1), Err(Refusal::Loaded));
    /// assert_eq!(desk.load(Place::Second, &book, 2), Err(Refusal::Rater));
    /// # Ok::<(), desk::Refusal>(())
    /// ```
    ///
    /// # Errors
    ///
    /// 21 ([`Refusal::Loaded`]), 2 ([`Refusal::Length`]), 3 ([`Refusal::Raters`]),
    /// 4 ([`Refusal::Rater`]); then table by table 31 ([`Refusal::TableStart`]),
    /// 32 ([`Refusal::TableEnd`]) of its header, 6 ([`Refusal::Grades`]), 7 ([`Refusal::Kind`]),
    /// 32 ([`Refusal::TableEnd`]) of its rows; then 33 ([`Refusal::Leftover`]); then row by row of
    /// this rater 8 ([`Refusal::Defaults`]), 10 ([`Refusal::Announced`]),
    /// 34 ([`Refusal::FallingRate`]); then 9 ([`Refusal::NoObligors`]) where all of them are empty;
    /// then 11 ([`Refusal::Obligors`]). Where a table is not in its place, or bytes follow the last,
    /// [`WrongCut::find`](crate::WrongCut::find) says at which table and byte.
    pub fn load(&mut self, place: Place, book: &[u8], rater: u32) -> Result<(), Refusal> {
        accepted(sys::load(self, place.into(), book, rater))
    }

    /// Fills an empty place with a table in memory.
    ///
    /// ```
    /// use desk::{Desk, Place, Refusal, Table};
    ///
    /// let mut desk = Desk::empty();
    /// desk.load_table(Place::First, &Table::by_obligors().grade(5, 2, 400_000))?;
    /// let upside_down = Table::by_obligors().grade(2, 5, 400_000);
    /// assert_eq!(desk.load_table(Place::Second, &upside_down), Err(Refusal::Defaults));
    /// assert_eq!(desk.load_table(Place::First, &upside_down), Err(Refusal::Loaded));
    /// # Ok::<(), desk::Refusal>(())
    /// ```
    ///
    /// # Errors
    ///
    /// As [`load`](Desk::load) of a book with this table: 21 ([`Refusal::Loaded`]),
    /// 6 ([`Refusal::Grades`]); then row by row 8 ([`Refusal::Defaults`]) (by obligors only),
    /// 10 ([`Refusal::Announced`]), 34 ([`Refusal::FallingRate`]); then 9 ([`Refusal::NoObligors`])
    /// where all are empty; then 11 ([`Refusal::Obligors`]).
    pub fn load_table(&mut self, place: Place, table: &Table) -> Result<(), Refusal> {
        self.load(place, &table::bytes(slice::from_ref(table)), 1)
    }

    /// Empties a loaded place.
    ///
    /// ```
    /// use desk::{Desk, Place, Table};
    ///
    /// let mut desk = Desk::empty();
    /// desk.load_table(Place::First, &Table::by_obligors().grade(5, 2, 400_000))?;
    /// desk.clear(Place::First)?;
    /// assert_eq!(desk, Desk::empty());
    /// # Ok::<(), desk::Refusal>(())
    /// ```
    ///
    /// # Errors
    ///
    /// 22 ([`Refusal::Empty`]).
    pub fn clear(&mut self, place: Place) -> Result<(), Refusal> {
        accepted(sys::clear(self, place.into()))
    }

    /// Books a survivor that enters a grade, counted from 1, of the table in a place: one obligor more.
    /// The grade may be empty. Of this event and of the three others: announced rates, the other
    /// grades and the other place are kept, and every answer from then on is about the table as it
    /// stands, [`grades`](Desk::grades) and [`pool`](Desk::pool) among them.
    ///
    /// ```
    /// use desk::{Desk, Place, Refusal, Table};
    ///
    /// let mut desk = Desk::empty();
    /// desk.load_table(Place::First, &Table::by_obligors().grade(5, 2, 400_000).grade(0, 0, 1_000_000))?;
    /// desk.survivor_enters(Place::First, 2)?;
    /// let obligors: Vec<u32> = desk.grades(Place::First).map(|grade| grade.obligors).collect();
    /// assert_eq!(obligors, [5, 1]);
    /// assert_eq!(desk.survivor_enters(Place::First, 3), Err(Refusal::NoGrade));
    /// # Ok::<(), desk::Refusal>(())
    /// ```
    ///
    /// # Errors
    ///
    /// 22 ([`Refusal::Empty`]), 36 ([`Refusal::NoGrade`]), 38 ([`Refusal::FullTable`]) where the table
    /// has [`MAX_OBLIGORS`](crate::MAX_OBLIGORS), in whatever grades they are.
    pub fn survivor_enters(&mut self, place: Place, grade: u32) -> Result<(), Refusal> {
        accepted(sys::survivor_enters(self, place.into(), grade))
    }

    /// Books a survivor that leaves a grade, counted from 1, of the table in a place: one obligor fewer.
    ///
    /// ```
    /// use desk::{Desk, Place, Refusal, Table};
    ///
    /// let mut desk = Desk::empty();
    /// desk.load_table(Place::First, &Table::by_obligors().grade(1, 0, 400_000).grade(1, 0, 1_000_000))?;
    /// desk.survivor_leaves(Place::First, 1)?;
    /// assert_eq!(desk.survivor_leaves(Place::First, 1), Err(Refusal::NoFirm), "nobody is left there");
    /// assert_eq!(desk.survivor_leaves(Place::First, 2), Err(Refusal::NoFirm), "the last of the table");
    /// # Ok::<(), desk::Refusal>(())
    /// ```
    ///
    /// # Errors
    ///
    /// 22 ([`Refusal::Empty`]), 36 ([`Refusal::NoGrade`]), 37 ([`Refusal::NoFirm`]) where the grade has
    /// no survivor or the table no other obligor.
    pub fn survivor_leaves(&mut self, place: Place, grade: u32) -> Result<(), Refusal> {
        accepted(sys::survivor_leaves(self, place.into(), grade))
    }

    /// Books a survivor of a grade, counted from 1, of the table in a place that defaults: one default
    /// more, and as many obligors. The table's last obligor may default.
    ///
    /// ```
    /// use desk::{Desk, Place, Refusal, Table};
    ///
    /// let mut desk = Desk::empty();
    /// desk.load_table(Place::First, &Table::by_obligors().grade(10, 1, 0).grade(20, 4, 0))?;
    /// desk.survivor_defaults(Place::First, 1)?;
    /// let blocks = desk.pool(Place::First)?.into_iter().map(|grade| (grade.defaults, grade.obligors));
    /// assert_eq!(blocks.collect::<Vec<_>>(), [(6, 30), (6, 30)], "rates that are equal are joined");
    /// # Ok::<(), desk::Refusal>(())
    /// ```
    ///
    /// # Errors
    ///
    /// 22 ([`Refusal::Empty`]), 36 ([`Refusal::NoGrade`]), 37 ([`Refusal::NoFirm`]) where the grade has
    /// no survivor.
    pub fn survivor_defaults(&mut self, place: Place, grade: u32) -> Result<(), Refusal> {
        accepted(sys::survivor_defaults(self, place.into(), grade))
    }

    /// Books a defaulted firm that is removed from a grade, counted from 1, of the table in a place: one
    /// obligor and one default fewer.
    ///
    /// ```
    /// use desk::{Desk, Grade, Place, Refusal, Table};
    ///
    /// let mut desk = Desk::empty();
    /// desk.load_table(Place::First, &Table::by_obligors().grade(5, 1, 400_000))?;
    /// desk.defaulted_removed(Place::First, 1)?;
    /// let grade = Grade { obligors: 4, defaults: 0, announced: 400_000 };
    /// assert_eq!(desk.grades(Place::First).collect::<Vec<_>>(), [grade]);
    /// assert_eq!(desk.defaulted_removed(Place::First, 1), Err(Refusal::NoFirm));
    /// # Ok::<(), desk::Refusal>(())
    /// ```
    ///
    /// # Errors
    ///
    /// 22 ([`Refusal::Empty`]), 36 ([`Refusal::NoGrade`]), 37 ([`Refusal::NoFirm`]) where the grade has
    /// no defaulted firm or the table no other obligor.
    pub fn defaulted_removed(&mut self, place: Place, grade: u32) -> Result<(), Refusal> {
        accepted(sys::defaulted_removed(self, place.into(), grade))
    }

    /// For each grade of the table in a place, best first, the block that pooling puts it into. An
    /// empty grade, without obligors, is in none: the next better occupied grade is repeated for it,
    /// or the best occupied one if none is better. Which grades are empty, [`grades`](Desk::grades)
    /// tells.
    ///
    /// ```
    /// use desk::{Desk, Place, Table};
    ///
    /// let rows = [(10, 2, 100_000), (10, 1, 150_000), (20, 4, 200_000)];
    /// let mut desk = Desk::empty();
    /// desk.load_table(Place::First, &Table::by_obligors().grades(rows))?;
    /// let rates: Vec<_> = desk.pool(Place::First)?.into_iter().map(|grade| grade.rate().written()).collect();
    /// assert_eq!(rates, [(3, 20), (3, 20), (4, 20)]);
    ///
    /// let ends_empty = Table::by_obligors().grade(0, 0, 0).grades(rows).grade(0, 0, 1_000_000);
    /// desk.load_table(Place::Second, &ends_empty)?;
    /// let rates: Vec<_> = desk.pool(Place::Second)?.into_iter().map(|grade| grade.rate().written()).collect();
    /// assert_eq!(rates, [(3, 20), (3, 20), (3, 20), (4, 20), (4, 20)]);
    /// # Ok::<(), desk::Refusal>(())
    /// ```
    ///
    /// # Errors
    ///
    /// 22 ([`Refusal::Empty`]).
    pub fn pool(&self, place: Place) -> Result<Vec<PooledGrade>, Refusal> {
        let mut numbers = [0; POOL_NUMBERS];
        self.pool_into(place, &mut numbers)?;
        let pooled = |number: &[u32]| PooledGrade {
            defaults: number[0],
            obligors: number[1],
            band: number[2],
        };
        let grades = self.grades(place).len();
        Ok(numbers.chunks(3).take(grades).map(pooled).collect())
    }

    /// The same as three numbers a grade, empty ones too, in memory that is lent: block defaults, block
    /// obligors, band. Further numbers are kept. [`POOL_NUMBERS`] are enough for any table.
    ///
    /// ```
    /// use desk::{Desk, Place, Table};
    ///
    /// let mut desk = Desk::empty();
    /// desk.load_table(Place::First, &Table::by_obligors().grade(10, 2, 0).grade(20, 4, 0))?;
    /// let mut numbers = [7; 7];
    /// desk.pool_into(Place::First, &mut numbers)?;
    /// assert_eq!(numbers, [6, 30, 11, 6, 30, 11, 7]);
    /// # Ok::<(), desk::Refusal>(())
    /// ```
    ///
    /// # Errors
    ///
    /// 22 ([`Refusal::Empty`]), 13 ([`Refusal::Buffer`]).
    pub fn pool_into(&self, place: Place, numbers: &mut [u32]) -> Result<(), Refusal> {
        accepted(sys::pool(self, place.into(), numbers))
    }

    /// The cheapest cutoff of the table in a place; among equals, the smallest.
    ///
    /// ```
    /// use desk::{Cutoff, Desk, Place, Price, Table};
    ///
    /// let mut desk = Desk::empty();
    /// desk.load_table(Place::First, &Table::by_obligors().grade(5, 2, 400_000).grade(1, 1, 1_000_000))?;
    /// let cheapest = desk.cheapest(Place::First, Price { u: 1, v: 3 })?;
    /// assert_eq!(cheapest, Cutoff { cutoff: 1, cost: 2 });
    /// # Ok::<(), desk::Refusal>(())
    /// ```
    ///
    /// # Errors
    ///
    /// 22 ([`Refusal::Empty`]), 12 ([`Refusal::Price`]).
    pub fn cheapest(&self, place: Place, price: Price) -> Result<Cutoff, Refusal> {
        answered(|answer| sys::cheapest(self, place.into(), price.u, price.v, answer))
    }

    /// Which of the two scales over the same obligors is at least as good as the other.
    ///
    /// ```
    /// use desk::{Desk, Place, Table, Verdict};
    ///
    /// let mut desk = Desk::empty();
    /// desk.load_table(Place::First, &Table::by_obligors().grade(5, 2, 400_000).grade(1, 1, 1_000_000))?;
    /// desk.load_table(Place::Second, &Table::by_survivors().grade(2, 0, 0).grade(1, 3, 750_000))?;
    /// assert!(matches!(desk.compare()?, Verdict::Crossing { .. }));
    /// # Ok::<(), desk::Refusal>(())
    /// ```
    ///
    /// # Errors
    ///
    /// 22 ([`Refusal::Empty`]), 23 ([`Refusal::NoDefaults`]), 24 ([`Refusal::NoSurvivors`]),
    /// 25 ([`Refusal::Unlike`]).
    ///
    /// # Panics
    ///
    /// Never with the proved library, which answers one of the four verdicts.
    pub fn compare(&self) -> Result<Verdict, Refusal> {
        judged(|answer| sys::compare(self, answer))
    }

    /// Which of the two scales is at least as good on shares, for scales over different books: D and S
    /// may differ. A cutoff costs u(D - y)/D + vx/S, where it turns away y defaults and x survivors:
    /// u is the price of missing all defaults of the table, v that of turning away all its survivors.
    /// Where neither D nor S differs, it is the verdict of [`compare`](Desk::compare), but for the
    /// prices that it carries: up to [`MAX_PRICE_ON_SHARES`](crate::MAX_PRICE_ON_SHARES), and not for
    /// [`cheapest`](Desk::cheapest), whose prices are of single obligors.
    ///
    /// ```
    /// use desk::{Desk, Place, Refusal, Table, Verdict};
    ///
    /// let mut desk = Desk::empty();
    /// desk.load_table(Place::First, &Table::by_obligors().grade(5, 2, 400_000).grade(1, 1, 1_000_000))?;
    /// desk.load_table(Place::Second, &Table::by_survivors().grade(4, 0, 0).grade(2, 6, 750_000))?;
    /// assert_eq!(desk.compare(), Err(Refusal::Unlike), "3 defaults, and 6");
    /// assert!(matches!(desk.compare_shares()?, Verdict::Crossing { .. }));
    /// # Ok::<(), desk::Refusal>(())
    /// ```
    ///
    /// # Errors
    ///
    /// 22 ([`Refusal::Empty`]), 23 ([`Refusal::NoDefaults`]), 24 ([`Refusal::NoSurvivors`]),
    /// 35 ([`Refusal::LargeTable`]).
    ///
    /// # Panics
    ///
    /// Never with the proved library, which answers one of the four verdicts.
    pub fn compare_shares(&self) -> Result<Verdict, Refusal> {
        judged(|answer| sys::compare_shares(self, answer))
    }

    /// D, S and the curve measures of the table in a place.
    ///
    /// ```
    /// use desk::{Desk, Place, Table};
    ///
    /// let mut desk = Desk::empty();
    /// desk.load_table(Place::First, &Table::by_obligors().grade(5, 2, 400_000).grade(1, 1, 1_000_000))?;
    /// assert_eq!(desk.measures(Place::First)?.gini.to_string(), "0.333333 (3/9)");
    /// # Ok::<(), desk::Refusal>(())
    /// ```
    ///
    /// # Errors
    ///
    /// 22 ([`Refusal::Empty`]), 23 ([`Refusal::NoDefaults`]), 24 ([`Refusal::NoSurvivors`]).
    pub fn measures(&self, place: Place) -> Result<Measures, Refusal> {
        answered(|answer| sys::measures(self, place.into(), answer))
    }

    /// The Brier score of the announced rates: their mean squared difference from the outcomes.
    ///
    /// ```
    /// use desk::{Desk, Place, Table};
    ///
    /// let mut desk = Desk::empty();
    /// desk.load_table(Place::First, &Table::by_obligors().grade(2, 1, 500_000))?;
    /// assert_eq!(format!("{:.2}", desk.brier(Place::First)?), "0.25 (500000000000/2000000000000)");
    /// # Ok::<(), desk::Refusal>(())
    /// ```
    ///
    /// # Errors
    ///
    /// 22 ([`Refusal::Empty`]).
    pub fn brier(&self, place: Place) -> Result<Fraction, Refusal> {
        answered(|answer| sys::brier(self, place.into(), answer))
    }

    /// The spread of the outcomes, in all and within the blocks.
    ///
    /// ```
    /// use desk::{Desk, Place, Table};
    ///
    /// let mut desk = Desk::empty();
    /// desk.load_table(Place::First, &Table::by_obligors().grade(5, 2, 400_000).grade(1, 1, 1_000_000))?;
    /// assert_eq!(format!("{:.1}", desk.spread(Place::First)?), "1.5 in all, 1.2 within the blocks");
    /// # Ok::<(), desk::Refusal>(())
    /// ```
    ///
    /// # Errors
    ///
    /// 22 ([`Refusal::Empty`]).
    pub fn spread(&self, place: Place) -> Result<Spread, Refusal> {
        answered(|answer| sys::spread(self, place.into(), answer))
    }

    /// The loaded tables, the first place's before the second's, as a book of obligors.
    ///
    /// ```
    /// use desk::{Desk, Place, Table};
    ///
    /// let mut desk = Desk::empty();
    /// desk.load_table(Place::Second, &Table::by_survivors().grade(1, 3, 750_000))?;
    /// assert_eq!(desk.write()?, Table::book(&[Table::by_obligors().grade(4, 3, 750_000)])?);
    /// # Ok::<(), desk::Refusal>(())
    /// ```
    ///
    /// # Errors
    ///
    /// 22 ([`Refusal::Empty`]), where both places are empty.
    pub fn write(&self) -> Result<Vec<u8>, Refusal> {
        let mut book = vec![0; BOOK_BYTES];
        let length = self.write_into(&mut book)?;
        book.truncate(length);
        Ok(book)
    }

    /// The same in memory that is lent, with the book's length. Further bytes are kept.
    /// [`BOOK_BYTES`] are enough for any desk.
    ///
    /// ```
    /// use desk::{Desk, Place, Table};
    ///
    /// let mut desk = Desk::empty();
    /// desk.load_table(Place::First, &Table::by_obligors().grade(4, 3, 750_000))?;
    /// let mut book = [0; desk::BOOK_BYTES];
    /// let length = desk.write_into(&mut book)?;
    /// assert_eq!(book[..length], desk.write()?);
    /// # Ok::<(), desk::Refusal>(())
    /// ```
    ///
    /// # Errors
    ///
    /// 22 ([`Refusal::Empty`]), where both places are empty; 13 ([`Refusal::Buffer`]).
    pub fn write_into(&self, book: &mut [u8]) -> Result<usize, Refusal> {
        answered(|written| sys::write(self, book, written))
    }

    /// Whether a place holds a table.
    ///
    /// ```
    /// use desk::{Desk, Place, Table};
    ///
    /// let mut desk = Desk::empty();
    /// desk.load_table(Place::First, &Table::by_obligors().grade(4, 3, 750_000))?;
    /// assert!(desk.is_loaded(Place::First) && !desk.is_loaded(Place::Second));
    /// # Ok::<(), desk::Refusal>(())
    /// ```
    #[must_use]
    pub fn is_loaded(&self, place: Place) -> bool {
        self.rows(place).loaded != 0
    }

    /// The grades of the table in a place as it stands, best first; none if it is empty.
    ///
    /// ```
    /// use desk::{Desk, Grade, Place, Table};
    ///
    /// let mut desk = Desk::empty();
    /// desk.load_table(Place::First, &Table::by_survivors().grade(1, 3, 750_000))?;
    /// let grade = Grade { obligors: 4, defaults: 3, announced: 750_000 };
    /// assert_eq!(desk.grades(Place::First).collect::<Vec<_>>(), [grade]);
    /// assert_eq!(desk.grades(Place::Second).len(), 0);
    /// # Ok::<(), desk::Refusal>(())
    /// ```
    #[must_use]
    pub fn grades(&self, place: Place) -> impl ExactSizeIterator<Item = Grade> + '_ {
        let rows = self.rows(place);
        (0..rows.grades as usize).map(|index| Grade {
            obligors: rows.obligors[index],
            defaults: rows.defaults[index],
            announced: rows.announced[index],
        })
    }

    fn rows(&self, place: Place) -> &Rows {
        match place {
            Place::First => self.first(),
            Place::Second => self.second(),
        }
    }
}

impl Default for Desk {
    fn default() -> Desk {
        Desk::empty()
    }
}

/// The tables in the two places.
impl fmt::Debug for Desk {
    fn fmt(&self, out: &mut fmt::Formatter) -> fmt::Result {
        let grades = |place| self.grades(place).collect::<Vec<Grade>>();
        out.debug_struct("Desk")
            .field("first", &grades(Place::First))
            .field("second", &grades(Place::Second))
            .finish()
    }
}
