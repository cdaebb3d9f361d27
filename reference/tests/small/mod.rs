//! Small tables, on which all prices that matter can be tried.

// Each test takes from here what it needs.
#![allow(dead_code)]

use reference::cutoff::{Price, Verdict};
use reference::random::Random;
use reference::table::Table;
use std::cmp::Ordering;

/// A table of few obligors, some of its grades empty.
pub fn small_table(random: &mut Random, defaults: u64, survivors: u64) -> Table {
    let count = random.between(1, 5) as usize;
    let mut rows = vec![(0, 0); count];
    for person in 0..defaults + survivors {
        let row = &mut rows[random.index(count)];
        row.0 += 1;
        row.1 += u64::from(person < defaults);
    }
    Table::of_rows(&rows)
}

/// All prices up to the highest.
pub fn small_prices(highest: u64) -> impl Iterator<Item = Price> {
    let price = |missed_default, lost_survivor| Price {
        missed_default,
        lost_survivor,
    };
    (0..=highest).flat_map(move |u| (0..=highest).map(move |v| price(u, v)))
}

/// A comparison: how the first's cheapest cost stands to the second's, and the verdict.
pub struct Comparison {
    pub costs: fn(&Table, &Table, &Price) -> Ordering,
    pub verdict: fn(&Table, &Table) -> Verdict,
}

/// Verdicts on these pairs of tables are what trying all prices up to the highest says, and each of
/// the four kinds is met.
pub fn assert_all_prices_agree(
    pair: fn(&mut Random) -> [Table; 2],
    highest: u64,
    comparison: Comparison,
) {
    let mut seen = [0; 4];
    for seed in 0..4_000 {
        let [first, second] = pair(&mut Random::of_seed(seed));
        let (mut first_dearer, mut second_dearer) = (false, false);
        for price in small_prices(highest) {
            let costs = (comparison.costs)(&first, &second, &price);
            first_dearer |= costs == Ordering::Greater;
            second_dearer |= costs == Ordering::Less;
        }
        let found = match (comparison.verdict)(&first, &second) {
            Verdict::Equal => (false, false),
            Verdict::First(_) => (false, true),
            Verdict::Second(_) => (true, false),
            Verdict::Crossing(..) => (true, true),
        };
        assert_eq!(found, (first_dearer, second_dearer), "{first:?} {second:?}");
        seen[usize::from(found.0) + 2 * usize::from(found.1)] += 1;
    }
    assert!(seen.iter().all(|&times| times > 50), "{seen:?}");
}
