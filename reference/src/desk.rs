//! The desk: document 01's name for what the calls work on. It has two places, 1 and 2; a place
//! is empty or holds the table of one rater. Every call refuses in the documents' order.

use crate::answer::Answer;
use crate::cutoff::{cheapest, verdict, Price, Verdict};
use crate::events::{after, Event};
use crate::measures::{brier, measures, Measures};
use crate::script::Call;
use crate::shares::{verdict_on_shares, MAX_OBLIGORS_ON_SHARES};
use crate::shortlist::shortlist;
use crate::spread::{spread, Spread};
use crate::table::{check_outcomes, check_same_totals, Refusal, Table, MILLION};
use crate::{book, pooling};

/// What `replay` sets each number lent to pool or shortlist to.
pub const LENT_NUMBER: u32 = 0xAAAA_AAAA;
/// What `replay` sets each byte lent to write to.
pub const LENT_BYTE: u8 = 0xAA;

#[derive(Clone, Debug, Default, PartialEq, Eq)]
pub struct Desk {
    places: [Option<Table>; 2],
}

impl Desk {
    /// Both places empty.
    pub fn fresh() -> Desk {
        Desk::default()
    }

    /// Carries out one call of a script.
    pub fn call(&mut self, call: &Call) -> Answer {
        match *call {
            Call::Load {
                place,
                rater,
                ref book,
            } => Answer::Load(self.load(place, rater, book)),
            Call::Clear { place } => Answer::Clear(self.clear(place)),
            Call::Pool { place, length } => self.answer_pool(place, length),
            Call::Cheapest { place, u, v } => Answer::Cheapest(self.cheapest(place, u, v)),
            Call::Compare => Answer::Compare(self.compare()),
            Call::CompareShares => Answer::CompareShares(self.compare_shares()),
            Call::Measures { place } => Answer::Measures(self.measures(place)),
            Call::Brier { place } => Answer::Brier(self.brier(place)),
            Call::Spread { place } => Answer::Spread(self.spread(place)),
            Call::Write { length } => self.answer_write(length),
            Call::Shortlist { length, ref book } => answer_shortlist(length, book),
            Call::Event {
                event,
                place,
                grade,
            } => Answer::Event(event, self.event(event, place, grade)),
        }
    }

    fn answer_pool(&self, place: u32, length: u32) -> Answer {
        let mut lent = vec![LENT_NUMBER; length as usize];
        Answer::Pool(self.pool(place, &mut lent), lent)
    }

    fn answer_write(&self, length: u32) -> Answer {
        let mut lent = vec![LENT_BYTE; length as usize];
        Answer::Write(self.write(&mut lent), lent)
    }

    /// 1, 21, then the book.
    pub fn load(&mut self, place: u32, rater: u32, book: &[u8]) -> Result<(), Refusal> {
        let index = place_index(place)?;
        if self.places[index].is_some() {
            return Err(21);
        }
        self.places[index] = Some(book::read(book, rater)?);
        Ok(())
    }

    /// 1, 22.
    pub fn clear(&mut self, place: u32) -> Result<(), Refusal> {
        self.table(place)?;
        self.places[place_index(place)?] = None;
        Ok(())
    }

    /// Request R-8 of document 02: 1, 22, then what the table says.
    pub fn event(&mut self, event: Event, place: u32, grade: u32) -> Result<(), Refusal> {
        let after = after(self.table(place)?, event, grade)?;
        self.places[place_index(place)?] = Some(after);
        Ok(())
    }

    /// 1, 22, 13.
    pub fn pool(&self, place: u32, lent: &mut [u32]) -> Result<(), Refusal> {
        let numbers = pooling::pool(self.table(place)?);
        if lent.len() < numbers.len() {
            return Err(13);
        }
        lent[..numbers.len()].copy_from_slice(&numbers);
        Ok(())
    }

    /// 1, 22, 12.
    pub fn cheapest(&self, place: u32, u: u32, v: u32) -> Result<(u32, u64), Refusal> {
        let table = self.table(place)?;
        let price = Price {
            missed_default: u.into(),
            lost_survivor: v.into(),
        };
        if price.missed_default > MILLION || price.lost_survivor > MILLION {
            return Err(12);
        }
        Ok(cheapest(table, &price))
    }

    /// What both comparisons test: 22 for place 1, then for place 2; 23 for either; 24 for either.
    fn both_tables(&self) -> Result<[&Table; 2], Refusal> {
        let tables = [self.table(1)?, self.table(2)?];
        check_outcomes(&tables)?;
        Ok(tables)
    }

    /// What both comparisons test; 25.
    pub fn compare(&self) -> Result<Verdict, Refusal> {
        let tables = self.both_tables()?;
        check_same_totals(&tables)?;
        Ok(verdict(tables[0], tables[1]))
    }

    /// Request R-6 of document 02: what both comparisons test; 35 for either.
    pub fn compare_shares(&self) -> Result<Verdict, Refusal> {
        let tables = self.both_tables()?;
        if tables
            .iter()
            .any(|table| table.obligors() > MAX_OBLIGORS_ON_SHARES)
        {
            return Err(35);
        }
        Ok(verdict_on_shares(tables[0], tables[1]))
    }

    /// 1, 22, 23, 24.
    pub fn measures(&self, place: u32) -> Result<Measures, Refusal> {
        let table = self.table(place)?;
        check_outcomes(&[table])?;
        Ok(measures(table))
    }

    /// 1, 22.
    pub fn brier(&self, place: u32) -> Result<(u64, u64), Refusal> {
        self.table(place).map(brier)
    }

    /// 1, 22.
    pub fn spread(&self, place: u32) -> Result<Spread, Refusal> {
        self.table(place).map(spread)
    }

    /// 22 if both places are empty, 13.
    pub fn write(&self, lent: &mut [u8]) -> Result<usize, Refusal> {
        let tables: Vec<&Table> = self.places.iter().flatten().collect();
        if tables.is_empty() {
            return Err(22);
        }
        let book = book::write(&tables);
        if lent.len() < book.len() {
            return Err(13);
        }
        lent[..book.len()].copy_from_slice(&book);
        Ok(book.len())
    }

    /// The table in a place: 1, 22.
    pub fn table(&self, place: u32) -> Result<&Table, Refusal> {
        self.places[place_index(place)?].as_ref().ok_or(22)
    }

    pub fn is_loaded(&self, place: u32) -> bool {
        self.table(place).is_ok()
    }

    /// The bytes that write needs at present; none if both places are empty.
    pub fn book_length(&self) -> Option<usize> {
        let tables: Vec<&Table> = self.places.iter().flatten().collect();
        (!tables.is_empty()).then(|| book::write(&tables).len())
    }
}

/// "The desk plays no part."
fn answer_shortlist(length: u32, book: &[u8]) -> Answer {
    let mut lent = vec![LENT_NUMBER; length as usize];
    Answer::Shortlist(shortlist(book, &mut lent), lent)
}

fn place_index(place: u32) -> Result<usize, Refusal> {
    match place {
        1 => Ok(0),
        2 => Ok(1),
        _ => Err(1),
    }
}
