//! The curve measures, by counting pairs of one defaulted with one surviving obligor, and the
//! Brier score of the announced rates.

use crate::cutoff::cutoffs;
use crate::table::{Table, MILLION};

/// How many pairs the table orders rightly, wrongly, and not at all.
#[derive(Clone, Copy, Debug, PartialEq, Eq, Default)]
pub struct Pairs {
    /// C: the defaulted one stands in the worse grade.
    pub concordant: u64,
    /// X: the defaulted one stands in the better grade.
    pub discordant: u64,
    /// T: both stand in the same grade.
    pub tied: u64,
}

pub fn pairs(table: &Table) -> Pairs {
    let mut pairs = Pairs::default();
    for (of_defaulted, defaulted) in table.grades.iter().enumerate() {
        for (of_survivor, surviving) in table.grades.iter().enumerate() {
            let count = defaulted.defaults * surviving.survivors();
            match of_defaulted.cmp(&of_survivor) {
                std::cmp::Ordering::Greater => pairs.concordant += count,
                std::cmp::Ordering::Less => pairs.discordant += count,
                std::cmp::Ordering::Equal => pairs.tied += count,
            }
        }
    }
    pairs
}

/// Numerator and denominator, not reduced.
pub type Fraction = (i64, i64);

#[derive(Clone, Copy, Debug, PartialEq, Eq)]
pub struct Measures {
    pub defaults: u64,
    pub survivors: u64,
    pub gini: Fraction,
    pub roc: Fraction,
    pub cap: Fraction,
    /// Signed: negative where the curve, at its farthest from the diagonal, is below it.
    pub pietra: Fraction,
    /// The smallest g at which the curve is that far from the diagonal.
    pub pietra_cutoff: u32,
}

pub fn measures(table: &Table) -> Measures {
    let Pairs {
        concordant,
        discordant,
        tied,
    } = pairs(table);
    let excess = concordant as i64 - discordant as i64;
    let defaults = table.defaults() as i64;
    let survivors = table.survivors() as i64;
    let obligors = table.obligors() as i64;
    let (pietra_cutoff, height) = farthest_height(table);
    Measures {
        defaults: table.defaults(),
        survivors: table.survivors(),
        gini: (excess, defaults * survivors),
        roc: ((2 * concordant + tied) as i64, 2 * defaults * survivors),
        cap: (defaults * obligors + excess, 2 * defaults * obligors),
        pietra: (height, defaults * survivors),
        pietra_cutoff,
    }
}

/// yS - xD at each cutoff, from g 0 on: the height of the curve above the diagonal, times DS;
/// negative below it.
pub fn heights(table: &Table) -> Vec<i64> {
    let (defaults, survivors) = (table.defaults() as i64, table.survivors() as i64);
    cutoffs(table)
        .iter()
        .map(|cutoff| cutoff.caught as i64 * survivors - cutoff.lost as i64 * defaults)
        .collect()
}

/// Request R-1 of document 02: the smallest g at which yS - xD has its largest absolute size, and
/// that yS - xD, signed. Of equal sizes on either side of the diagonal g decides the sign.
fn farthest_height(table: &Table) -> (u32, i64) {
    let heights = heights(table);
    let sizes: Vec<u64> = heights.iter().map(|height| height.unsigned_abs()).collect();
    let largest = sizes.iter().max().expect("cutoff 0 always exists");
    let turned_away = sizes.iter().position(|size| size == largest);
    let turned_away = turned_away.expect("it is one of the sizes");
    (turned_away as u32, heights[turned_away])
}

/// The sum of d(1,000,000 - p)^2 + (n - d)p^2, over N times 10^12.
pub fn brier(table: &Table) -> (u64, u64) {
    let mut sum = 0;
    for grade in &table.grades {
        let (defaults, survivors) = (grade.defaults, grade.survivors());
        sum += defaults * (MILLION - grade.announced).pow(2);
        sum += survivors * grade.announced.pow(2);
    }
    (sum, table.obligors() * 1_000_000_000_000)
}
