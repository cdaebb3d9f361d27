//! Tables for Pietra, the largest distance of the curve from the diagonal on either side. A
//! height is the yS - xD of a cutoff; cutoffs count grades from the worst one.

use crate::measures::heights;
use crate::partners::mixed_outcomes;
use crate::population::{announce, any_grade_count, sort_by_rate};
use crate::random::Random;
use crate::table::{Grade, Table, MAX_GRADES, MAX_OBLIGORS};

/// A valid table with at least one default and one survivor.
pub fn table_for_pietra(random: &mut Random) -> Table {
    let maker: fn(&mut Random) -> Table = random.weighted(&[
        (2, upside_down as fn(&mut Random) -> Table),
        (7, several_peaks),
        (6, one_apart),
        (1, noise),
    ]);
    let mut table = maker(random);
    announce(random, &mut table);
    table
}

/// A rising scale with its best grade at the bottom.
fn upside_down(random: &mut Random) -> Table {
    let mut table = mixed_outcomes(random);
    sort_by_rate(&mut table);
    table.grades.reverse();
    table
}

/// Equally far from the diagonal at several cutoffs, above or below it, and nowhere farther.
fn several_peaks(random: &mut Random) -> Table {
    let peak_count = random.pick(&[2, 2, 2, 3, 4]);
    let grade_count = any_grade_count(random).max(peak_count + 1);
    let most = most_a_grade(grade_count).min(random.pick(&[1, 3, 20, MAX_OBLIGORS]));
    let peak = random.between(1, most) as i64;
    let smaller = |random: &mut Random| random.between(1, 2 * peak as u64 - 1) as i64 - peak;
    let mut heights: Vec<i64> = (1..grade_count).map(|_| smaller(random)).collect();
    let mut cutoffs: Vec<usize> = (0..heights.len()).collect();
    random.shuffle(&mut cutoffs);
    for &cutoff in &cutoffs[..peak_count] {
        heights[cutoff] = random.pick(&[peak, -peak]);
    }
    with_heights(random, &heights)
}

/// The same default rate in all grades: the curve is the diagonal.
fn noise(random: &mut Random) -> Table {
    let grade_count = any_grade_count(random);
    with_heights(random, &vec![0; grade_count - 1])
}

/// A size of heights and counts at which `with_heights` has room for so many grades.
fn most_a_grade(grade_count: usize) -> u64 {
    MAX_OBLIGORS / 4 / grade_count as u64
}

/// A table whose heights are in proportion to these, from cutoff 1 to the last but one.
///
/// While D = S, a grade takes the height up by its defaults and down by its survivors, in units
/// of D. Then the same multiple of all defaults, and another of all survivors, only changes the
/// unit.
fn with_heights(random: &mut Random, heights: &[i64]) -> Table {
    let most = most_a_grade(heights.len() + 1).min(random.pick(&[1, 1, 10, MAX_OBLIGORS]));
    let mut outcomes = Vec::new();
    let mut before = 0;
    for &height in heights.iter().chain(&[0]) {
        let rise = height - before;
        // As many of both leave the height as it is; without a rise, somebody has to be there.
        let both = random.between(u64::from(rise == 0), most);
        let (up, down) = (rise.max(0) as u64, (-rise).max(0) as u64);
        outcomes.push((up + both, down + both));
        before = height;
    }
    outcomes.reverse();
    let total: u64 = outcomes.iter().map(|outcome| outcome.0).sum();
    let room = (MAX_OBLIGORS / total).min(random.pick(&[2, 5, MAX_OBLIGORS]));
    let of_defaults = random.between(1, room - 1);
    let of_survivors = random.between(1, room - of_defaults);
    for (defaults, survivors) in &mut outcomes {
        *defaults *= of_defaults;
        *survivors *= of_survivors;
    }
    with_outcomes(&outcomes)
}

/// A table of grades with these defaults and survivors, the best first, without empty grades.
fn with_outcomes(outcomes: &[(u64, u64)]) -> Table {
    let rows: Vec<(u64, u64)> = outcomes
        .iter()
        .map(|&(defaults, survivors)| (defaults + survivors, defaults))
        .filter(|row| row.0 > 0)
        .collect();
    Table::of_rows(&rows)
}

/// The heights farthest above and below the diagonal differ in size by 1.
///
/// With YS - XD = 1, a cutoff that catches y and turns away x, and one that catches Y - y and
/// turns away X - x, have heights that add up to 1.
fn one_apart(random: &mut Random) -> Table {
    let (defaults, survivors, caught) = totals_with_height_one(random);
    let lost = caught * survivors / defaults;
    let (y, x) = (random.between(0, caught / 2), random.between(0, lost / 2));
    let mut outcomes = [
        (defaults - (caught - y), survivors - (lost - x)),
        (caught - 2 * y, lost - 2 * x),
        (y, x),
    ];
    if random.chance(50) {
        // Defaults for survivors and the reverse: below the diagonal for above it.
        outcomes = outcomes.map(|(defaults, survivors)| (survivors, defaults));
    }
    let table = with_outcomes(&outcomes);
    let attempts = random.pick(&[0, 2, 10, 100]);
    (0..attempts).fold(table, |table, _| split_within(random, table))
}

/// D, S, and a Y for which some X has YS - XD = 1.
fn totals_with_height_one(random: &mut Random) -> (u64, u64, u64) {
    let most = random.pick(&[6, 30, 1_000, MAX_OBLIGORS / 2]);
    loop {
        let (defaults, survivors) = (random.between(2, most), random.between(2, most));
        let caught = (1..defaults).find(|caught| caught * survivors % defaults == 1);
        if let Some(caught) = caught {
            return (defaults, survivors, caught);
        }
    }
}

/// How far below and above the diagonal the curve gets.
fn extremes(table: &Table) -> (Option<i64>, Option<i64>) {
    let heights = heights(table);
    (heights.iter().min().copied(), heights.iter().max().copied())
}

/// Splits a grade in two at random, unless there are 40 or that takes the curve farther from the
/// diagonal on either side.
fn split_within(random: &mut Random, table: Table) -> Table {
    let index = random.index(table.grades.len());
    let whole = table.grades[index];
    let defaults = random.between(0, whole.defaults);
    let obligors = defaults + random.between(0, whole.survivors());
    if obligors == 0 || obligors == whole.obligors || table.grades.len() == MAX_GRADES {
        return table;
    }
    let part = |obligors, defaults| Grade {
        obligors,
        defaults,
        ..whole
    };
    let parts = [
        part(obligors, defaults),
        part(whole.obligors - obligors, whole.defaults - defaults),
    ];
    let mut finer = table.clone();
    finer.grades.splice(index..=index, parts);
    if extremes(&finer) == extremes(&table) {
        finer
    } else {
        table
    }
}
