//! Cutoffs, prices and the verdict between two raters.

use crate::table::Table;
use std::cmp::Ordering;

/// The price of a missed default (u) and of a survivor turned away (v).
#[derive(Clone, Copy, Debug, PartialEq, Eq)]
pub struct Price {
    pub missed_default: u64,
    pub lost_survivor: u64,
}

/// What turning away the g worst grades leads to.
#[derive(Clone, Copy, Debug, PartialEq, Eq)]
pub struct Cutoff {
    /// y
    pub caught: u64,
    /// D - y
    pub missed: u64,
    /// x
    pub lost: u64,
}

impl Cutoff {
    /// u(D - y) + vx. Prices and counts are at most a million each, so that u64 is wide enough.
    pub fn cost(&self, price: &Price) -> u64 {
        price.missed_default * self.missed + price.lost_survivor * self.lost
    }
}

/// All cutoffs of a table; the one at index g turns away the g worst grades.
pub fn cutoffs(table: &Table) -> Vec<Cutoff> {
    let grade_count = table.grades.len();
    let cutoff = |turned_away: usize| {
        let worst = &table.grades[grade_count - turned_away..];
        let caught = worst.iter().map(|grade| grade.defaults).sum();
        Cutoff {
            caught,
            missed: table.defaults() - caught,
            lost: worst.iter().map(|grade| grade.survivors()).sum(),
        }
    };
    (0..=grade_count).map(cutoff).collect()
}

/// The lower envelope of the cutoffs' costs at one price.
fn envelope(cutoffs: &[Cutoff], price: &Price) -> u64 {
    let costs = cutoffs.iter().map(|cutoff| cutoff.cost(price));
    costs.min().expect("cutoff 0 always exists")
}

/// The cheapest cost of a table.
pub fn cheapest_cost(table: &Table, price: &Price) -> u64 {
    envelope(&cutoffs(table), price)
}

/// g and cost of the cheapest cutoff; among equals, the smallest g.
pub fn cheapest(table: &Table, price: &Price) -> (u32, u64) {
    let cutoffs = cutoffs(table);
    let cost = envelope(&cutoffs, price);
    let turned_away = cutoffs
        .iter()
        .position(|cutoff| cutoff.cost(price) == cost)
        .expect("the envelope is the cost of a cutoff");
    (turned_away as u32, cost)
}

/// Which of two raters is at least as good at all prices.
#[derive(Clone, Copy, Debug, PartialEq, Eq)]
pub enum Verdict {
    Equal,
    /// The first is at least as good; at this price the second costs more.
    First(Price),
    /// The second is at least as good; at this price the first costs more.
    Second(Price),
    /// Neither is: at the first price the first costs more, at the second price the second.
    Crossing(Price, Price),
}

/// The prices at which two cutoffs of one table cost the same: u(D - y) + vx = u(D - y') + vx'
/// holds where u : v is as x' - x to y' - y. Every bend of the envelope is such a direction.
pub(crate) fn break_even_prices(cutoffs: &[Cutoff]) -> Vec<Price> {
    let mut prices = Vec::new();
    for (turned_away, milder) in cutoffs.iter().enumerate() {
        for stricter in &cutoffs[turned_away + 1..] {
            prices.push(Price {
                missed_default: stricter.lost - milder.lost,
                lost_survivor: stricter.caught - milder.caught,
            });
        }
    }
    prices
}

/// Compares the exact lower envelopes of two tables with the same D and the same S.
///
/// Along each ray of prices both envelopes grow in proportion, so that the directions decide.
/// Sort the break-even directions of both tables. Between two neighbours neither envelope bends:
/// there their difference is linear in (u, v), and has the sign of its ends. Beyond the outermost
/// ones lie u = 0 and v = 0, where both envelopes are 0. Hence: if one table costs more at any
/// price at all, it costs more at one of the break-even directions, which are whole numbers of at
/// most a million.
pub fn verdict(first: &Table, second: &Table) -> Verdict {
    let (first, second) = (cutoffs(first), cutoffs(second));
    let mut prices = break_even_prices(&first);
    prices.extend(break_even_prices(&second));
    verdict_of_costs(&prices, |price| {
        envelope(&first, price).cmp(&envelope(&second, price))
    })
}

/// The verdict, where the prices at which one of the two costs more are among these if there are
/// any: how the first's cheapest cost stands to the second's at each of them.
pub(crate) fn verdict_of_costs(prices: &[Price], costs: impl Fn(&Price) -> Ordering) -> Verdict {
    let orders: Vec<Ordering> = prices.iter().map(costs).collect();
    let price_where = |order: Ordering| {
        let index = orders.iter().position(|&found| found == order);
        index.map(|index| prices[index])
    };
    match (price_where(Ordering::Greater), price_where(Ordering::Less)) {
        (None, None) => Verdict::Equal,
        (None, Some(second_dearer)) => Verdict::First(second_dearer),
        (Some(first_dearer), None) => Verdict::Second(first_dearer),
        (Some(first_dearer), Some(second_dearer)) => Verdict::Crossing(first_dearer, second_dearer),
    }
}
