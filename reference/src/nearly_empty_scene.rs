//! The scene "all grades empty, or nearly", for request R-4 of document 02: tables that load has to
//! tell from one whose grades are all empty, and that one itself.

use crate::damage::{put_number, put_rate_above, set_kind};
use crate::draft::{Column, Draft};
use crate::generate::Generator;
use crate::population::{announce, any_grade_count};
use crate::random::Random;
use crate::script::Call;
use crate::table::{Table, MAX_GRADES, MAX_OBLIGORS};
use std::fmt;

/// Tables whose grades are all empty, save for what the name says. A default without an obligor
/// (of kind 0) and a rate above the highest one are faults of their row.
#[derive(Clone, Copy, Debug, PartialEq, Eq, PartialOrd, Ord)]
pub enum Rows {
    /// 9
    Nothing,
    /// 8
    Default,
    /// 10
    Rate,
    /// 8, in the same row or an earlier one.
    DefaultThenRate,
    /// 10, in an earlier row.
    RateThenDefault,
    /// Loads, as the next two without a number.
    Obligors,
    /// 8
    ObligorsAndDefault,
    /// 10, with obligors in one row or in two.
    ObligorsAndRate,
    /// Of kind 1: nobody in the first column, but defaults are obligors.
    AllDefaulted,
    /// 1,000,000 of them.
    MostObligors,
    /// 11
    OneTooMany,
    /// 11: 2^32 obligors in one row or in two, none as a 32-bit number.
    Wrapped,
}

pub fn every_rows() -> Vec<Rows> {
    vec![
        Rows::Nothing,
        Rows::Default,
        Rows::Rate,
        Rows::DefaultThenRate,
        Rows::RateThenDefault,
        Rows::Obligors,
        Rows::ObligorsAndDefault,
        Rows::ObligorsAndRate,
        Rows::AllDefaulted,
        Rows::MostObligors,
        Rows::OneTooMany,
        Rows::Wrapped,
    ]
}

impl fmt::Display for Rows {
    fn fmt(&self, out: &mut fmt::Formatter) -> fmt::Result {
        out.write_str(match self {
            Rows::Nothing => "nothing else",
            Rows::Default => "a default of nobody",
            Rows::Rate => "a rate above",
            Rows::DefaultThenRate => "a default of nobody, then a rate above",
            Rows::RateThenDefault => "a rate above, then a default of nobody",
            Rows::Obligors => "obligors",
            Rows::ObligorsAndDefault => "obligors, a default of nobody",
            Rows::ObligorsAndRate => "obligors, a rate above",
            Rows::AllDefaulted => "defaults without survivors, kind 1",
            Rows::MostObligors => "1000000 obligors",
            Rows::OneTooMany => "1000001 obligors",
            Rows::Wrapped => "2^32 obligors",
        })
    }
}

impl Rows {
    /// A book with such a table, which is the one to be loaded.
    pub fn book(self, random: &mut Random) -> Draft {
        let fewest = match self {
            Rows::RateThenDefault | Rows::ObligorsAndDefault => 2,
            _ => 1,
        };
        let any = any_grade_count(random);
        let grade_count = random.pick(&[1, 2, any, any, MAX_GRADES]).max(fewest);
        let mut table = Table::of_rows(&vec![(0, 0); grade_count]);
        announce(random, &mut table);
        let mut draft = Draft::around(random, &table);
        self.fill(random, &mut draft, grade_count);
        draft
    }

    fn fill(self, random: &mut Random, draft: &mut Draft, grade_count: usize) {
        let last = grade_count - 1;
        let any = random.index(grade_count);
        let row = random.pick(&[0, any, last]);
        // One at the end of the table, and one before it if there are two.
        let earlier = random.index(last.max(1));
        match self {
            Rows::Nothing => (),
            Rows::Default => put_default(random, draft, row),
            Rows::Rate => put_rate_above(random, draft, row),
            Rows::DefaultThenRate => {
                put_default(random, draft, earlier);
                let later = random.pick(&[earlier, last]);
                put_rate_above(random, draft, later);
            }
            Rows::RateThenDefault => {
                put_rate_above(random, draft, earlier);
                put_default(random, draft, last);
            }
            Rows::Obligors => put_obligors(random, draft, row),
            Rows::ObligorsAndDefault => {
                let rows = random.pick(&[[earlier, last], [last, earlier]]);
                put_obligors(random, draft, rows[0]);
                put_default(random, draft, rows[1]);
            }
            Rows::ObligorsAndRate => {
                // Of two rows there may be more than 1,000,000, which load comes to later.
                put_obligors(random, draft, row);
                let other = random.pick(&[row, earlier]);
                put_obligors(random, draft, other);
                let wrong = random.pick(&[earlier, last]);
                put_rate_above(random, draft, wrong);
            }
            Rows::AllDefaulted => {
                set_kind(draft, 1);
                let defaults = random.pick(&[1, 2, 100, MAX_OBLIGORS as u32]);
                put_number(draft, row, Column::Defaults, defaults);
            }
            Rows::MostObligors => put_total(random, draft, [earlier, last], MAX_OBLIGORS),
            Rows::OneTooMany => put_total(random, draft, [earlier, last], MAX_OBLIGORS + 1),
            Rows::Wrapped => put_wrapped(random, draft, [earlier, last]),
        }
    }
}

/// A default without an obligor, which only kind 0 has.
fn put_default(random: &mut Random, draft: &mut Draft, row: usize) {
    set_kind(draft, 0);
    let defaults = random.pick(&[1, 1, 5, u32::MAX]);
    put_number(draft, row, Column::Defaults, defaults);
}

fn put_obligors(random: &mut Random, draft: &mut Draft, row: usize) {
    let obligors = random.pick(&[1, 1, 7, MAX_OBLIGORS as u32]);
    put_number(draft, row, Column::First, obligors);
}

/// So many obligors in these two rows together, or in the later one.
fn put_total(random: &mut Random, draft: &mut Draft, rows: [usize; 2], obligors: u64) {
    let part = random.pick(&[0, 1, obligors / 2]);
    put_number(draft, rows[0], Column::First, part as u32);
    let rest = match rows[0] == rows[1] {
        true => obligors,
        false => obligors - part,
    };
    put_number(draft, rows[1], Column::First, rest as u32);
}

fn put_wrapped(random: &mut Random, draft: &mut Draft, rows: [usize; 2]) {
    let half = 1 << 31;
    if rows[0] != rows[1] && random.chance(50) {
        put_number(draft, rows[0], Column::First, half);
        put_number(draft, rows[1], Column::First, half);
        return;
    }
    set_kind(draft, 1);
    let (survivors, defaults) = random.pick(&[(half, half), (u32::MAX, 1), (1, u32::MAX)]);
    put_number(draft, rows[1], Column::First, survivors);
    put_number(draft, rows[1], Column::Defaults, defaults);
}

impl Generator {
    /// Tables of empty grades, with faults of their rows and with few others; those that load are
    /// pooled.
    pub(crate) fn nearly_empty(&mut self) {
        for _ in 0..2 {
            let rows = self.next_rows();
            let draft = rows.book(&mut self.random);
            let place = self.random.pick(&[1, 2]);
            self.empty(place);
            self.load_rows(place, draft, rows);
            if self.desk.is_loaded(place) {
                let length = self.pool_length(place);
                self.emit(Call::Pool { place, length });
            }
        }
    }
}
