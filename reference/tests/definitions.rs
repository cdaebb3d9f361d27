//! The definitions once more, by still plainer means, on small random tables.

use reference::cutoff::{cheapest_cost, cutoffs, verdict, Verdict};
use reference::measures::{measures, pairs};
use reference::natural::Natural;
use reference::pooling::{blocks, pooled_scale, Rate};
use reference::random::Random;
use reference::spread::{lawful, spread};
use reference::table::Table;
use small::{assert_all_prices_agree, small_table, Comparison};
use std::cmp::Ordering;

mod small;

/// D and S are at most 8 each and at least 1.
#[test]
fn verdicts_agree_with_trying_all_small_prices() {
    let pair = |random: &mut Random| {
        let (defaults, survivors) = (random.between(1, 8), random.between(1, 8));
        [(); 2].map(|()| small_table(random, defaults, survivors))
    };
    let comparison = Comparison {
        costs: |first, second, price| {
            cheapest_cost(first, price).cmp(&cheapest_cost(second, price))
        },
        verdict,
    };
    assert_all_prices_agree(pair, 20, comparison);
}

/// Adjacent violators, joined until none is left. Empty grades are passed over.
fn joined_violators(table: &Table) -> Vec<Rate> {
    let mut rates: Vec<Rate> = Vec::new();
    for grade in table.grades.iter().filter(|grade| grade.obligors > 0) {
        let mut last = Rate {
            defaults: grade.defaults,
            obligors: grade.obligors,
        };
        while let Some(before) = rates.pop() {
            if before.compare(&last) == Ordering::Less {
                rates.push(before);
                break;
            }
            last.defaults += before.defaults;
            last.obligors += before.obligors;
        }
        rates.push(last);
    }
    rates
}

#[test]
fn pooling_agrees_with_joining_violators() {
    for seed in 0..3_000 {
        let table = reference::population::any_table(&mut Random::of_seed(seed));
        let rates: Vec<Rate> = blocks(&table).iter().map(|block| block.rate).collect();
        assert_eq!(rates, joined_violators(&table));
    }
}

#[test]
fn a_table_and_its_pooled_scale_are_equal() {
    for seed in 0..1_000 {
        let table = reference::population::any_table(&mut Random::of_seed(seed));
        assert_eq!(verdict(&table, &pooled_scale(&table)), Verdict::Equal);
    }
}

/// The obligors one by one: the index of the grade, and whether this one defaulted.
fn people(table: &Table) -> Vec<(usize, bool)> {
    let mut people = Vec::new();
    for (index, grade) in table.grades.iter().enumerate() {
        for person in 0..grade.obligors {
            people.push((index, person < grade.defaults));
        }
    }
    people
}

#[test]
fn pairs_agree_with_counting_obligors_one_by_one() {
    for seed in 0..500 {
        let mut random = Random::of_seed(seed);
        let table = small_table(&mut random, 7, 8);
        let people = people(&table);
        let mut counted = (0, 0, 0);
        for &(bad_grade, _) in people.iter().filter(|person| person.1) {
            for &(good_grade, _) in people.iter().filter(|person| !person.1) {
                counted.0 += u64::from(bad_grade > good_grade);
                counted.1 += u64::from(bad_grade < good_grade);
                counted.2 += u64::from(bad_grade == good_grade);
            }
        }
        let pairs = pairs(&table);
        assert_eq!(counted, (pairs.concordant, pairs.discordant, pairs.tied));
    }
}

/// yS - xD by going through the pairs: each one adds 1 if the cutoff turns away its defaulted
/// obligor, and takes 1 off if it turns away its surviving one.
fn height_by_pairs(table: &Table, turned_away: usize) -> i64 {
    let people = people(table);
    let accepted = table.grades.len() - turned_away;
    let mut height = 0;
    for &(bad_grade, _) in people.iter().filter(|person| person.1) {
        for &(good_grade, _) in people.iter().filter(|person| !person.1) {
            height += i64::from(bad_grade >= accepted) - i64::from(good_grade >= accepted);
        }
    }
    height
}

#[test]
fn pietra_is_the_first_of_the_heights_of_largest_size() {
    let mut seen = [0; 7];
    for seed in 0..4_000 {
        let mut random = Random::of_seed(seed);
        let (defaults, survivors) = (random.between(1, 8), random.between(1, 8));
        let table = small_table(&mut random, defaults, survivors);
        let heights: Vec<i64> = (0..=table.grades.len())
            .map(|turned_away| height_by_pairs(&table, turned_away))
            .collect();
        let measures = measures(&table);
        let cutoff = measures.pietra_cutoff as usize;
        let height = heights[cutoff];
        let pairs = (defaults * survivors) as i64;
        assert_eq!(measures.pietra, (height, pairs), "{table:?}");
        let (milder, stricter) = (&heights[..cutoff], &heights[cutoff + 1..]);
        assert!(
            milder.iter().all(|other| other.abs() < height.abs()),
            "{table:?}"
        );
        assert!(
            stricter.iter().all(|other| other.abs() <= height.abs()),
            "{table:?}"
        );
        for (times, is_seen) in seen.iter_mut().zip(pietra_kinds(height, stricter)) {
            *times += usize::from(is_seen);
        }
    }
    assert!(seen.iter().all(|&times| times > 50), "{seen:?}");
}

/// What a height of largest size can be, given those of the stricter cutoffs: on the diagonal,
/// above or below it, and from above or below as far from it on the other or the same side.
fn pietra_kinds(height: i64, stricter: &[i64]) -> [bool; 7] {
    let (above, below) = (height > 0, height < 0);
    let other_side = stricter.contains(&-height);
    let same_side = stricter.contains(&height);
    [
        height == 0,
        above,
        below,
        above && other_side,
        below && other_side,
        above && same_side,
        below && same_side,
    ]
}

#[test]
fn cutoffs_run_from_nobody_to_everybody() {
    let table = Table::of_rows(&[(5, 2), (1, 1)]);
    let catches: Vec<(u64, u64, u64)> = cutoffs(&table)
        .iter()
        .map(|cutoff| (cutoff.caught, cutoff.missed, cutoff.lost))
        .collect();
    assert_eq!(catches, [(0, 3, 0), (1, 2, 0), (3, 0, 3)]);
}

#[test]
fn own_spreads_are_lawful_and_distant_ones_are_not() {
    for seed in 0..2_000 {
        let table = reference::population::any_table(&mut Random::of_seed(seed));
        let own = spread(&table);
        let (total, residual) = (own.total.to_bits(), own.residual.to_bits());
        assert!(lawful(&table, total, residual), "{table:?}");
        let far = |float: f64, distance: f64| (float + distance).to_bits();
        assert!(!lawful(&table, far(own.total, 0.5f64.powi(34)), residual));
        assert!(!lawful(&table, total, far(own.residual, 0.5f64.powi(28))));
    }
}

#[test]
fn naturals_agree_with_wide_integers() {
    let mut random = Random::of_seed(5);
    for _ in 0..2_000 {
        let shift = random.between(0, 63);
        let (a, b) = (
            random.bits() >> shift,
            random.bits() >> random.between(0, 63),
        );
        let (one, other) = (Natural::from(a), Natural::from(b));
        let wide = |number: u128| {
            let high = Natural::from((number >> 64) as u64).doubled(64);
            high.add(&Natural::from(number as u64))
        };
        assert_eq!(one.cmp(&other), a.cmp(&b));
        assert_eq!(one.times(&other), wide(a as u128 * b as u128));
        assert_eq!(one.add(&other), wide(a as u128 + b as u128));
        assert_eq!(one.distance(&other), wide(a.abs_diff(b).into()));
        assert_eq!(one.doubled(37), wide((a as u128) << 37));
    }
}
