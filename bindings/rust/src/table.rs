//! Counts in memory, laid out as a book. The library's load judges them; here are only bytes.

use crate::answer::Grade;
use crate::place::Place;
use crate::refusal::Refusal;
use crate::sys::Desk;
use crate::{GRADES, RATERS};

/// The grade table of one rater, made in memory, best grade first.
///
/// Which of two counts stands first in each row is said by name: [`by_obligors`](Table::by_obligors)
/// where it is everybody in the grade, the defaulted included, and
/// [`by_survivors`](Table::by_survivors) where the defaulted are left out.
///
/// ```
/// use desk::{Desk, Place, Table};
///
/// let first = Table::by_obligors().grade(5, 2, 400_000).grade(1, 1, 1_000_000);
/// let second = Table::by_survivors().grade(3, 2, 400_000).grade(0, 1, 1_000_000);
/// let mut desk = Desk::empty();
/// desk.load_table(Place::First, &first)?;
/// desk.load_table(Place::Second, &second)?;
/// assert!(desk.grades(Place::First).eq(desk.grades(Place::Second)));
/// # Ok::<(), desk::Refusal>(())
/// ```
///
/// No table is made of bare rows, since survivors taken for obligors can make the losing scale win
/// while every figure still looks right. Here the first scale is the cheaper one at these prices:
///
/// ```
/// use desk::{Desk, Place, Price, Refusal, Table};
///
/// fn costs(begun: fn() -> Table) -> Result<(i64, i64), Refusal> {
///     let mut desk = Desk::empty();
///     desk.load_table(Place::First, &begun().grade(4, 1, 0).grade(1, 1, 0))?;
///     desk.load_table(Place::Second, &begun().grade(2, 0, 0).grade(3, 2, 0))?;
///     let cheapest = |place| desk.cheapest(place, Price { u: 3, v: 2 });
///     Ok((cheapest(Place::First)?.cost, cheapest(Place::Second)?.cost))
/// }
/// assert_eq!(costs(Table::by_survivors), Ok((5, 6)), "which is true of these counts");
/// assert_eq!(costs(Table::by_obligors), Ok((3, 2)), "which is not");
/// ```
///
/// Grades may be empty, that is without obligors, as long as one is occupied. Empty ones add nothing to
/// any count and are numbered with the others.
///
/// ```
/// use desk::{Desk, Place, Refusal, Table};
///
/// let top_is_empty = Table::by_obligors().grade(0, 0, 100).grade(5, 2, 400_000);
/// let mut desk = Desk::empty();
/// desk.load_table(Place::First, &top_is_empty)?;
/// assert_eq!(desk.grades(Place::First).len(), 2);
/// let all_are_empty = Table::by_obligors().grade(0, 0, 100).grade(0, 0, 400_000);
/// assert_eq!(desk.load_table(Place::Second, &all_are_empty), Err(Refusal::NoObligors));
/// # Ok::<(), desk::Refusal>(())
/// ```
///
/// Announced rates may stay the same from one grade to the next, empty ones included, but not fall:
/// Brier would score two that were swapped as if they had been announced so.
///
/// ```
/// use desk::{Desk, Place, Refusal, Table};
///
/// let mut desk = Desk::empty();
/// desk.load_table(Place::First, &Table::by_obligors().grade(5, 0, 400).grade(0, 0, 400).grade(5, 2, 90_000))?;
/// let swapped = Table::by_obligors().grade(5, 0, 400).grade(0, 0, 90_000).grade(5, 2, 400);
/// assert_eq!(desk.load_table(Place::Second, &swapped), Err(Refusal::FallingRate));
/// # Ok::<(), desk::Refusal>(())
/// ```
///
/// A table is judged where it is loaded or made a book of, by the library's own load. Two tables are
/// equal if they are written alike, with the same first column; whether two hold the same grades is
/// seen where they are loaded.
#[derive(Clone, Debug, PartialEq, Eq, Hash)]
#[must_use = "a table does nothing until it is loaded or made a book of"]
pub struct Table {
    counts: Counts,
    rows: Vec<[u32; 3]>,
}

/// What the first number of a row counts; the kind of a table in a book.
#[derive(Clone, Copy, Debug, PartialEq, Eq, Hash)]
enum Counts {
    Obligors = 0,
    Survivors = 1,
}

impl Table {
    /// A table whose rows begin with the obligors of a grade: everybody in it, the defaulted
    /// included.
    ///
    /// ```
    /// use desk::Table;
    ///
    /// // 5 obligors, of whom 2 defaulted and 3 survived; 40% were announced
    /// let table = Table::by_obligors().grade(5, 2, 400_000);
    /// assert_ne!(table, Table::by_survivors().grade(5, 2, 400_000));
    /// ```
    pub const fn by_obligors() -> Table {
        Table::of(Counts::Obligors)
    }

    /// A table whose rows begin with the survivors of a grade: the defaulted are left out.
    ///
    /// ```
    /// use desk::Table;
    ///
    /// // 3 survivors and 2 defaults, which are 5 obligors; 40% were announced
    /// let table = Table::by_survivors().grade(3, 2, 400_000);
    /// assert_ne!(table, Table::by_obligors().grade(3, 2, 400_000));
    /// ```
    pub const fn by_survivors() -> Table {
        Table::of(Counts::Survivors)
    }

    const fn of(counts: Counts) -> Table {
        let rows = Vec::new();
        Table { counts, rows }
    }

    /// Adds the next grade, worse than those before: its obligors or survivors, as the table was
    /// begun, its defaults, and its announced default rate in ppm (0.5% is 5000), not below that of
    /// the grade before.
    ///
    /// ```
    /// use desk::{Desk, Place, Table};
    ///
    /// let mut desk = Desk::empty();
    /// desk.load_table(Place::First, &Table::by_survivors().grade(2, 0, 0).grade(1, 3, 750_000))?;
    /// let obligors: Vec<u32> = desk.grades(Place::First).map(|grade| grade.obligors).collect();
    /// assert_eq!(obligors, [2, 4]);
    /// # Ok::<(), desk::Refusal>(())
    /// ```
    pub fn grade(mut self, count: u32, defaults: u32, announced: u32) -> Table {
        self.rows.push([count, defaults, announced]);
        self
    }

    /// Adds grades, each as in [`grade`](Table::grade).
    ///
    /// ```
    /// use desk::Table;
    ///
    /// let rows = vec![(5, 2, 400_000), (1, 1, 1_000_000)];
    /// let table = Table::by_obligors().grades(rows.iter().copied());
    /// assert_eq!(table, Table::by_obligors().grade(5, 2, 400_000).grade(1, 1, 1_000_000));
    /// ```
    pub fn grades(mut self, rows: impl IntoIterator<Item = (u32, u32, u32)>) -> Table {
        self.extend(rows);
        self
    }

    /// The book of 1 to 16 raters with these tables, in this order and with the first columns that
    /// they were made with. `BOOK.md` (in `share/doc/desk` where installed, `docs` in the sources) has
    /// the format.
    ///
    /// ```
    /// use desk::{Desk, Place, Refusal, Table};
    ///
    /// let first = Table::by_obligors().grade(5, 2, 400_000).grade(1, 1, 1_000_000);
    /// let second = Table::by_survivors().grade(2, 0, 0).grade(1, 3, 750_000);
    /// let book = Table::book(&[first, second])?;
    /// let mut desk = Desk::empty();
    /// desk.load(Place::First, &book, 2)?;
    /// assert_eq!(desk.grades(Place::First).len(), 2);
    ///
    /// assert_eq!(Table::book(&[]), Err(Refusal::Raters));
    /// # Ok::<(), desk::Refusal>(())
    /// ```
    ///
    /// # Errors
    ///
    /// What load of the book refuses, tried for each rater: 3 ([`Refusal::Raters`]) for no table or
    /// more than [`RATERS`]; then, table by table, 6 ([`Refusal::Grades`]); then, table by table,
    /// 8 ([`Refusal::Defaults`]) (by obligors only), 10 ([`Refusal::Announced`]) and
    /// 34 ([`Refusal::FallingRate`]) row by row, 9 ([`Refusal::NoObligors`]) where all of them are
    /// empty, and 11 ([`Refusal::Obligors`]).
    pub fn book(tables: &[Table]) -> Result<Vec<u8>, Refusal> {
        let book = bytes(tables);
        for rater in (1..).take(tables.len().max(1)) {
            Desk::empty().load(Place::First, &book, rater)?;
        }
        Ok(book)
    }

    /// The table as it stands in a book. A count of grades that none may have is said without rows,
    /// so that load finds nothing else wrong.
    fn append(&self, bytes: &mut Vec<u8>) {
        let grades = self.rows.len();
        let rows = if (1..=GRADES).contains(&grades) {
            grades
        } else {
            0
        };
        bytes.push(u8::try_from(grades).unwrap_or(u8::MAX));
        bytes.extend([self.counts as u8, 0, 0]);
        let numbers = self.rows[..rows].iter().flatten();
        bytes.extend(numbers.flat_map(|number| number.to_le_bytes()));
    }
}

/// The bytes of a book. A number of tables that none may have is said without tables, so that load
/// finds nothing else wrong.
pub(crate) fn bytes(tables: &[Table]) -> Vec<u8> {
    let raters = tables.len();
    let tables = if raters <= RATERS { tables } else { &[] };
    let start = HEAD + OFFSET * tables.len();
    let (mut offsets, mut bodies) = (Vec::new(), Vec::new());
    for table in tables {
        offsets.extend(two_bytes(start + bodies.len()));
        table.append(&mut bodies);
    }
    let head = [two_bytes(raters), two_bytes(start + bodies.len())];
    [head.concat(), offsets, bodies].concat()
}

/// Bytes before the offsets.
pub(crate) const HEAD: usize = 4;
/// Bytes that say where a table starts.
pub(crate) const OFFSET: usize = 2;

/// The low byte first; the largest number for one that two bytes do not hold, which no book needs.
fn two_bytes(number: usize) -> [u8; 2] {
    u16::try_from(number).unwrap_or(u16::MAX).to_le_bytes()
}

/// Adds grades, each as in [`Table::grade`]: what the first number counts was said when the table
/// was begun.
impl Extend<(u32, u32, u32)> for Table {
    fn extend<T: IntoIterator<Item = (u32, u32, u32)>>(&mut self, rows: T) {
        let numbers = |(count, defaults, announced)| [count, defaults, announced];
        self.rows.extend(rows.into_iter().map(numbers));
    }
}

/// A table by obligors: a [`Grade`] says by name which of its numbers they are.
///
/// ```
/// use desk::{Desk, Place, Table};
///
/// let mut desk = Desk::empty();
/// desk.load_table(Place::First, &Table::by_survivors().grade(1, 3, 750_000))?;
/// let held: Table = desk.grades(Place::First).collect();
/// assert_eq!(held, Table::by_obligors().grade(4, 3, 750_000));
/// # Ok::<(), desk::Refusal>(())
/// ```
impl FromIterator<Grade> for Table {
    fn from_iter<T: IntoIterator<Item = Grade>>(grades: T) -> Table {
        let row = |grade: Grade| (grade.obligors, grade.defaults, grade.announced);
        Table::by_obligors().grades(grades.into_iter().map(row))
    }
}
