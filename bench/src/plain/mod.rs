//! The yardstick: the library in plain, safe Rust, optimised by hand, with the algorithms, checks and answers of the proved one.
//! A call reads the desk where it lies; nothing is copied that need not be.
#![forbid(unsafe_code)]

mod book;
mod cutoff;
mod events;
mod measures;
mod pooling;
mod shortlist;
mod spread;
mod verdict;

pub use cutoff::Cheapest;
pub use measures::{Fraction, Measures};
pub use shortlist::shortlist;
pub use spread::Spread;
pub use verdict::Verdict;

/// The most grades of a table.
const GRADES: usize = 40;
/// The most raters of a book.
const RATERS: usize = 16;
/// The most obligors of a table; also the highest price and the whole in ppm.
const MILLION: u32 = 1_000_000;
/// The most obligors of a table that is compared on shares.
const MOST_ON_SHARES: u32 = 100_000;

/// Document 01's number for a refusal.
pub type Refusal = u32;

/// Room for one table. Empty, it is all zeros.
#[derive(Clone, Copy)]
struct Rows {
    obligors: [u32; GRADES],
    defaults: [u32; GRADES],
    announced: [u32; GRADES],
    grades: usize,
    loaded: bool,
}

impl Rows {
    const EMPTY: Rows = Rows {
        obligors: [0; GRADES],
        defaults: [0; GRADES],
        announced: [0; GRADES],
        grades: 0,
        loaded: false,
    };

    fn table(&self) -> Result<Table<'_>, Refusal> {
        if !self.loaded {
            return Err(22);
        }
        Ok(Table {
            obligors: &self.obligors[..self.grades],
            defaults: &self.defaults[..self.grades],
            announced: &self.announced[..self.grades],
        })
    }
}

/// What pool writes of a grade: the defaults and the obligors of its block, and its band.
type Numbers = [u32; 3];

/// A table and its pooled list, or nothing but zeros.
#[derive(Clone, Copy)]
struct Place {
    rows: Rows,
    pooled: [Numbers; GRADES],
}

impl Place {
    const EMPTY: Place = Place {
        rows: Rows::EMPTY,
        pooled: [[0; 3]; GRADES],
    };

    fn table(&self) -> Result<Table<'_>, Refusal> {
        self.rows.table()
    }

    fn pooled(&self) -> Result<Pooled<'_>, Refusal> {
        Ok(Pooled {
            table: self.table()?,
            list: &self.pooled[..self.rows.grades],
        })
    }

    /// Makes the pooled list anew.
    fn renew(&mut self) -> Result<(), Refusal> {
        pooling::pool(&self.rows.table()?, &mut self.pooled[..self.rows.grades]);
        Ok(())
    }
}

/// A table in a place, best grade first; the three columns are of one length.
#[derive(Clone, Copy)]
struct Table<'a> {
    obligors: &'a [u32],
    defaults: &'a [u32],
    announced: &'a [u32],
}

impl Table<'_> {
    fn grades(&self) -> usize {
        self.obligors.len()
    }

    /// Obligors and defaults of each grade.
    fn counts(&self) -> impl DoubleEndedIterator<Item = (u32, u32)> + ExactSizeIterator + '_ {
        self.obligors.iter().copied().zip(self.defaults.iter().copied())
    }

    fn totals(&self) -> Totals {
        Totals {
            obligors: self.obligors.iter().sum(),
            defaults: self.defaults.iter().sum(),
        }
    }
}

/// A table and the numbers that pool writes of its grades.
#[derive(Clone, Copy)]
struct Pooled<'a> {
    table: Table<'a>,
    list: &'a [Numbers],
}

/// N and D.
#[derive(Clone, Copy, Default, PartialEq)]
struct Totals {
    obligors: u32,
    defaults: u32,
}

/// That each table has a default, and that each has a survivor.
fn check_outcomes(totals: &[Totals]) -> Result<(), Refusal> {
    if totals.iter().any(|of| of.defaults == 0) {
        return Err(23);
    }
    if totals.iter().any(|of| of.defaults == of.obligors) {
        return Err(24);
    }
    Ok(())
}

fn check_same(totals: &[Totals]) -> Result<(), Refusal> {
    if totals.iter().any(|of| *of != totals[0]) {
        return Err(25);
    }
    Ok(())
}

#[derive(Clone, Copy)]
pub struct Desk {
    first: Place,
    second: Place,
}

impl Desk {
    pub fn empty() -> Desk {
        Desk {
            first: Place::EMPTY,
            second: Place::EMPTY,
        }
    }

    fn place(&self, place: u32) -> Result<&Place, Refusal> {
        match place {
            1 => Ok(&self.first),
            2 => Ok(&self.second),
            _ => Err(1),
        }
    }

    fn place_mut(&mut self, place: u32) -> Result<&mut Place, Refusal> {
        match place {
            1 => Ok(&mut self.first),
            2 => Ok(&mut self.second),
            _ => Err(1),
        }
    }

    pub fn load(&mut self, place: u32, book: &[u8], rater: u32) -> Result<(), Refusal> {
        let place = self.place_mut(place)?;
        if place.rows.loaded {
            return Err(21);
        }
        book::read(book, rater, &mut place.rows)?;
        place.renew()
    }

    pub fn clear(&mut self, place: u32) -> Result<(), Refusal> {
        let place = self.place_mut(place)?;
        if !place.rows.loaded {
            return Err(22);
        }
        *place = Place::EMPTY;
        Ok(())
    }

    pub fn pool(&self, place: u32, numbers: &mut [u32]) -> Result<(), Refusal> {
        let list = self.place(place)?.pooled()?.list.as_flattened();
        numbers.get_mut(..list.len()).ok_or(13u32)?.copy_from_slice(list);
        Ok(())
    }

    pub fn cheapest(&self, place: u32, u: u32, v: u32) -> Result<Cheapest, Refusal> {
        let table = self.place(place)?.table()?;
        if u > MILLION || v > MILLION {
            return Err(12);
        }
        Ok(cutoff::cheapest(&table, u, v))
    }

    /// Both tables, each with a default and a survivor, and their totals.
    fn both(&self) -> Result<([Pooled<'_>; 2], [Totals; 2]), Refusal> {
        let both = [self.first.pooled()?, self.second.pooled()?];
        let totals = both.map(|pooled| pooled.table.totals());
        check_outcomes(&totals)?;
        Ok((both, totals))
    }

    pub fn compare(&self) -> Result<Verdict, Refusal> {
        let (both, totals) = self.both()?;
        check_same(&totals)?;
        Ok(verdict::judge(both.map(|pooled| pooled.list)))
    }

    pub fn compare_shares(&self) -> Result<Verdict, Refusal> {
        let (both, totals) = self.both()?;
        if totals.iter().any(|of| of.obligors > MOST_ON_SHARES) {
            return Err(35);
        }
        Ok(verdict::judge_shares(both.map(|pooled| pooled.list), totals))
    }

    pub fn measures(&self, place: u32) -> Result<Measures, Refusal> {
        measures::measures(&self.place(place)?.table()?)
    }

    pub fn brier(&self, place: u32) -> Result<Fraction, Refusal> {
        Ok(measures::brier(&self.place(place)?.table()?))
    }

    pub fn spread(&self, place: u32) -> Result<Spread, Refusal> {
        Ok(spread::spread(&self.place(place)?.pooled()?))
    }

    pub fn write(&self, book: &mut [u8]) -> Result<usize, Refusal> {
        match (self.first.table(), self.second.table()) {
            (Ok(first), Ok(second)) => book::write(&[first, second], book),
            (Ok(table), _) | (_, Ok(table)) => book::write(&[table], book),
            _ => Err(22),
        }
    }
}
