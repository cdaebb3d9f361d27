//! Gini, the curve areas, Pietra and Brier.
use super::{Refusal, Table, MILLION};

#[derive(Clone, Copy, PartialEq, Debug)]
pub struct Fraction {
    pub numerator: i64,
    pub denominator: i64,
}

pub struct Measures {
    pub defaults: u32,
    pub survivors: u32,
    pub gini: Fraction,
    pub roc: Fraction,
    pub cap: Fraction,
    pub pietra: Fraction,
    pub cutoff: u32,
}

/// From the worst grade to the best: C - X, D and S.
fn count_pairs(table: &Table) -> (i64, u32, u32) {
    let (mut excess, mut defaults, mut survivors) = (0i64, 0u32, 0u32);
    for (n, d) in table.counts().rev() {
        let s = n - d;
        excess += i64::from(s) * i64::from(defaults) - i64::from(d) * i64::from(survivors);
        defaults += d;
        survivors += s;
    }
    (excess, defaults, survivors)
}

/// The y S - x D of largest absolute size over all cutoffs, signed, and the smallest cutoff that has it.
fn farthest(table: &Table, defaults: u32, survivors: u32) -> (i64, u32) {
    let obligors = i64::from(defaults) + i64::from(survivors);
    let (mut highest, mut lowest) = ((0i64, 0u32), (0i64, 0u32));
    let mut here = 0i64;
    for (turned, (n, d)) in (1..).zip(table.counts().rev()) {
        here += i64::from(d) * obligors - i64::from(n) * i64::from(defaults); // d S - s D
        if here > highest.0 {
            highest = (here, turned);
        }
        if here < lowest.0 {
            lowest = (here, turned);
        }
    }
    // Of equal sizes that of the smaller cutoff.
    if (highest.0, lowest.1) > (-lowest.0, highest.1) {
        highest
    } else {
        lowest
    }
}

pub fn measures(table: &Table) -> Result<Measures, Refusal> {
    let (excess, defaults, survivors) = count_pairs(table);
    if defaults == 0 {
        return Err(23);
    }
    if survivors == 0 {
        return Err(24);
    }
    let (height, cutoff) = farthest(table, defaults, survivors);
    let pairs = i64::from(defaults) * i64::from(survivors);
    let profile = i64::from(defaults) * i64::from(defaults + survivors);
    let fraction = |numerator, denominator| Fraction { numerator, denominator };
    Ok(Measures {
        defaults,
        survivors,
        gini: fraction(excess, pairs),
        roc: fraction(pairs + excess, 2 * pairs),
        cap: fraction(profile + excess, 2 * profile),
        pietra: fraction(height, pairs),
        cutoff,
    })
}

pub fn brier(table: &Table) -> Fraction {
    let square = |ppm: u32| u64::from(ppm) * u64::from(ppm);
    let (mut sum, mut obligors) = (0u64, 0u32);
    for ((n, d), &p) in table.counts().zip(table.announced) {
        sum += u64::from(d) * square(MILLION - p) + u64::from(n - d) * square(p);
        obligors += n;
    }
    Fraction {
        numerator: sum as i64,
        denominator: i64::from(obligors) * 1_000_000_000_000,
    }
}
