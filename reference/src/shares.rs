//! Raters of different books, request R-6 of document 02: "A second comparison works on shares: a
//! cutoff costs u(D − y)/D + vx/S. It gives the same four verdicts, under the same meaning over all
//! whole-number prices." D and S are the table's own.

use crate::cutoff::{break_even_prices, cutoffs, verdict_of_costs, Cutoff, Price, Verdict};
use crate::table::Table;
use std::cmp::Ordering;

/// "It takes tables of at most 100,000 obligors".
pub const MAX_OBLIGORS_ON_SHARES: u64 = 100_000;
/// "The pairs carried have prices up to 2,500,000,000."
pub const MAX_PRICE_ON_SHARES: u64 = 2_500_000_000;

/// Not reduced, compared by value.
#[derive(Clone, Copy, Debug)]
pub struct Fraction {
    numerator: u128,
    denominator: u128,
}

impl Fraction {
    /// The denominator is at least 1.
    pub fn of(numerator: u64, denominator: u64) -> Fraction {
        Fraction {
            numerator: numerator.into(),
            denominator: denominator.into(),
        }
    }

    fn plus(&self, other: &Fraction) -> Fraction {
        Fraction {
            numerator: self.numerator * other.denominator + other.numerator * self.denominator,
            denominator: self.denominator * other.denominator,
        }
    }
}

impl Ord for Fraction {
    fn cmp(&self, other: &Fraction) -> Ordering {
        let (one, another) = (
            self.numerator * other.denominator,
            other.numerator * self.denominator,
        );
        one.cmp(&another)
    }
}

impl PartialOrd for Fraction {
    fn partial_cmp(&self, other: &Fraction) -> Option<Ordering> {
        Some(self.cmp(other))
    }
}

impl PartialEq for Fraction {
    fn eq(&self, other: &Fraction) -> bool {
        self.cmp(other) == Ordering::Equal
    }
}

impl Eq for Fraction {}

/// The cutoffs of a table with defaults and survivors, and the totals that they have shares of.
struct Shares {
    /// D
    defaults: u64,
    /// S
    survivors: u64,
    cutoffs: Vec<Cutoff>,
}

impl Shares {
    fn of(table: &Table) -> Shares {
        Shares {
            defaults: table.defaults(),
            survivors: table.survivors(),
            cutoffs: cutoffs(table),
        }
    }

    /// u(D - y)/D + vx/S. With prices up to 2,500,000,000 and counts up to 100,000 the numerator is
    /// below 2^66 and DS below 2^32, so that u128 is wide enough for comparing two such costs.
    fn cost(&self, cutoff: &Cutoff, price: &Price) -> Fraction {
        let missed = Fraction::of(price.missed_default * cutoff.missed, self.defaults);
        let lost = Fraction::of(price.lost_survivor * cutoff.lost, self.survivors);
        missed.plus(&lost)
    }

    /// The lower envelope of the cutoffs' costs at one price.
    fn envelope(&self, price: &Price) -> Fraction {
        let costs = self.cutoffs.iter().map(|cutoff| self.cost(cutoff, price));
        costs.min().expect("cutoff 0 always exists")
    }

    /// The prices at which two cutoffs cost the same on shares. At Du and Sv a cutoff costs
    /// u(D - y) + vx, as much as it does in the first comparison at u and v.
    fn break_even_prices(&self) -> Vec<Price> {
        let prices = break_even_prices(&self.cutoffs).into_iter();
        let on_shares = |price: Price| Price {
            missed_default: self.defaults * price.missed_default,
            lost_survivor: self.survivors * price.lost_survivor,
        };
        prices.map(on_shares).collect()
    }
}

/// The cheapest cost of a table on shares.
pub fn cheapest_cost_on_shares(table: &Table, price: &Price) -> Fraction {
    Shares::of(table).envelope(price)
}

/// Compares the exact lower envelopes of two tables on shares. The break-even directions of both
/// decide, for the reasons given at `cutoff::verdict`: a cutoff's cost is linear in (u, v), and where
/// u = 0 or v = 0 both envelopes are 0, whatever D and S are. The prices are D(x' - x) and
/// S(y' - y), hence at most DS; as D + S is at most 100,000, that is at most 2,500,000,000.
pub fn verdict_on_shares(first: &Table, second: &Table) -> Verdict {
    let (first, second) = (Shares::of(first), Shares::of(second));
    let mut prices = first.break_even_prices();
    prices.extend(second.break_even_prices());
    verdict_of_costs(&prices, |price| {
        first.envelope(price).cmp(&second.envelope(price))
    })
}
