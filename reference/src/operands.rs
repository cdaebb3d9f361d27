//! The operands of generated calls: places, prices and lengths of lent buffers.

use crate::cutoff::cutoffs;
use crate::generate::Generator;
use crate::script::{MAX_LENT_NUMBERS, MAX_WRITE_LENGTH};
use crate::table::MILLION;

impl Generator {
    /// Mostly a place that exists.
    pub fn any_place(&mut self) -> u32 {
        let wrong = self.random.pick(&[0, 3, 257, 65_537, 65_538, u32::MAX]);
        self.random.weighted(&[(10, 1), (10, 2), (1, wrong)])
    }

    /// Buffers for pool: none, one too short, exact, longer, longest, enough for the occupied
    /// grades.
    pub fn pool_length(&mut self, place: u32) -> u32 {
        let table = self.desk.table(place);
        let grades = table.map_or(3, |table| table.grades.len());
        let occupied = table.map_or(3, |table| table.occupied());
        let exact = 3 * grades as u32;
        let any = self.random.between(0, MAX_LENT_NUMBERS as u64) as u32;
        self.random.weighted(&[
            (1, 0),
            (3, exact - 1),
            (6, exact),
            (3, exact + 1),
            (1, grades as u32),
            (1, 3 * occupied as u32),
            (1, MAX_LENT_NUMBERS),
            (1, any),
        ])
    }

    /// Buffers for write: none, one too short, exact, longer, longest.
    pub fn write_length(&mut self) -> u32 {
        let exact = self.desk.book_length().unwrap_or(46) as u32;
        let any = self.random.between(0, 2_000) as u32;
        self.random.weighted(&[
            (2, 0),
            (6, exact - 1),
            (12, exact),
            (6, exact + 1),
            (1, MAX_WRITE_LENGTH),
            (3, any),
        ])
    }

    /// Prices of all sizes, and prices at which two cutoffs of the table cost the same.
    pub fn prices(&mut self, place: u32) -> (u32, u32) {
        if self.random.chance(35) {
            if let Some(prices) = self.break_even_prices(place) {
                return prices;
            }
        }
        (self.any_price(), self.any_price())
    }

    pub fn any_price(&mut self) -> u32 {
        let most = self.random.pick(&[10, 1_000, MILLION]);
        let any = self.random.between(0, most) as u32;
        self.random.weighted(&[
            (2, 0),
            (2, 1),
            (10, any),
            (2, MILLION as u32 - 1),
            (3, MILLION as u32),
            (1, MILLION as u32 + 1),
            (1, u32::MAX),
        ])
    }

    pub fn break_even_prices(&mut self, place: u32) -> Option<(u32, u32)> {
        let cutoffs = cutoffs(self.desk.table(place).ok()?);
        let milder = self.random.index(cutoffs.len() - 1);
        let stricter = cutoffs[self
            .random
            .between(milder as u64 + 1, cutoffs.len() as u64 - 1)
            as usize];
        let milder = cutoffs[milder];
        let (u, v) = (stricter.lost - milder.lost, stricter.caught - milder.caught);
        Some((u as u32, v as u32))
    }
}
