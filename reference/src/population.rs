//! Random tables of every size and kind.

use crate::announced::in_step;
use crate::pooling::Rate;
use crate::random::Random;
use crate::table::{Grade, Table, MAX_OBLIGORS};

/// A valid table of any size and kind.
pub fn any_table(random: &mut Random) -> Table {
    let maker: fn(&mut Random) -> Table = random.weighted(&[
        (12, mixed_table as fn(&mut Random) -> Table),
        (3, tied_table),
        (2, band_edge_table),
    ]);
    let mut table = maker(random);
    if random.chance(12) {
        empty_some(random, &mut table);
    }
    announce(random, &mut table);
    table
}

/// Nobody is left in some grades, but somebody in one at least.
fn empty_some(random: &mut Random, table: &mut Table) {
    let occupied = random.index(table.grades.len());
    let percent = random.pick(&[10, 50, 90]);
    for (index, grade) in table.grades.iter_mut().enumerate() {
        if index != occupied && random.chance(percent) {
            (grade.obligors, grade.defaults) = (0, 0);
        }
    }
}

/// Any sizes with any pattern of defaults.
fn mixed_table(random: &mut Random) -> Table {
    let grade_count = any_grade_count(random);
    let obligors = any_population(random, grade_count);
    let sizes = positive_shares(random, obligors, grade_count);
    let defaults = any_defaults(random, &sizes);
    let rows: Vec<(u64, u64)> = sizes.into_iter().zip(defaults).collect();
    Table::of_rows(&rows)
}

/// Few different default rates, so that equal neighbours are frequent.
fn tied_table(random: &mut Random) -> Table {
    let parts = random.between(1, 6);
    let row = |random: &mut Random| {
        let multiple = random.between(1, 9);
        (parts * multiple, random.between(0, parts) * multiple)
    };
    let grade_count = any_grade_count(random);
    let rows: Vec<(u64, u64)> = (0..grade_count).map(|_| row(random)).collect();
    Table::of_rows(&rows)
}

/// Default rates at the upper edges of the bands, and next to them.
fn band_edge_table(random: &mut Random) -> Table {
    let mut rows = Vec::new();
    for _ in 0..random.between(1, 8) {
        let defaults = 1 << random.between(0, 13);
        rows.push(random.pick(&[
            (10_000, defaults),
            (10_000, defaults + 1),
            (10_001, defaults),
            (9_999, defaults),
            (20_000, 2 * defaults),
            (20_000, 2 * defaults + 1),
        ]));
    }
    let mut table = Table::of_rows(&rows);
    if random.chance(60) {
        sort_by_rate(&mut table);
    }
    table
}

pub fn any_grade_count(random: &mut Random) -> usize {
    let (low, high) = random.weighted(&[
        (2, (1, 1)),
        (3, (2, 3)),
        (6, (2, 8)),
        (3, (9, 39)),
        (1, (40, 40)),
    ]);
    random.between(low, high) as usize
}

/// N: from one obligor in each grade up to the most there may be.
fn any_population(random: &mut Random, grade_count: usize) -> u64 {
    let fewest = grade_count as u64;
    let most = random.weighted(&[
        (1, fewest),
        (5, 3 * fewest),
        (5, 20 * fewest),
        (3, 100 * fewest),
        (3, MAX_OBLIGORS),
    ]);
    match random.chance(20) {
        true => most,
        false => random.between(fewest, most),
    }
}

/// Splits a total into parts of at least 0.
pub fn shares(random: &mut Random, total: u64, parts: usize) -> Vec<u64> {
    let most = match random.chance(20) {
        true => total / parts as u64,
        false => total,
    };
    let mut cuts: Vec<u64> = (1..parts).map(|_| random.between(0, most)).collect();
    cuts.sort_unstable();
    cuts.push(total);
    let mut before = 0;
    let mut shares = Vec::new();
    for cut in cuts {
        shares.push(cut - before);
        before = cut;
    }
    random.shuffle(&mut shares);
    shares
}

/// Splits a total into parts of at least 1.
pub fn positive_shares(random: &mut Random, total: u64, parts: usize) -> Vec<u64> {
    let mut shares = shares(random, total - parts as u64, parts);
    shares.iter_mut().for_each(|share| *share += 1);
    shares
}

/// Defaults of grades of these sizes.
fn any_defaults(random: &mut Random, sizes: &[u64]) -> Vec<u64> {
    let mut millis: Vec<u64> = sizes.iter().map(|_| random.between(0, 1_000)).collect();
    let constant = random.between(0, 1_000);
    let pattern = random.weighted(&[
        (4, "rising"),
        (1, "falling"),
        (4, "random"),
        (1, "constant"),
        (1, "none"),
        (1, "all"),
        (1, "none or all"),
        (2, "rare"),
        (2, "almost all"),
    ]);
    match pattern {
        "rising" => millis.sort_unstable(),
        "falling" => millis.sort_unstable_by(|a, b| b.cmp(a)),
        "constant" => millis.fill(constant),
        "none" => millis.fill(0),
        "all" => millis.fill(1_000),
        "none or all" => millis.iter_mut().for_each(|m| *m = *m / 501 * 1_000),
        _ => (),
    }
    let share = |(&size, milli): (&u64, u64)| match pattern {
        "rare" => (milli / 501).min(size),
        "almost all" => size - (milli / 501).min(size),
        _ => size * milli / 1_000,
    };
    sizes.iter().zip(millis).map(share).collect()
}

/// Fills in announced rates that never fall: R-5 has load test it.
pub fn announce(random: &mut Random, table: &mut Table) {
    let rates = in_step(random, table.grades.len());
    table.announce(&rates);
}

fn by_rate(one: &Grade, other: &Grade) -> std::cmp::Ordering {
    let rate = |grade: &Grade| Rate {
        defaults: grade.defaults,
        obligors: grade.obligors,
    };
    rate(one).compare(&rate(other))
}

/// Puts the occupied grades into the order of their default rates. Empty ones have no rate: they
/// stay where they are, and so do the announced rates, which are in step.
pub fn sort_by_rate(table: &mut Table) {
    let mut sorted = table.grades.clone();
    sorted.retain(Grade::is_occupied);
    sorted.sort_by(by_rate);
    let places = table.grades.iter_mut().filter(|grade| grade.is_occupied());
    for (place, grade) in places.zip(sorted) {
        (place.obligors, place.defaults) = (grade.obligors, grade.defaults);
    }
}
