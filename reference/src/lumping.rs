//! Raters who lump together neighbouring grades of one scale, whose rates rise from grade to grade.
//! They stand to each other as the borders that they keep: all of the other one's and more is
//! better, the same ones are equal, and any others cross. For where one keeps a border its curve has
//! the scale's corner, and where it does not its curve runs below that corner.

use crate::partners::partition;
use crate::pooling::pooled_scale;
use crate::population::sort_by_rate;
use crate::random::Random;
use crate::table::{Table, MAX_GRADES, MAX_OBLIGORS};
use std::collections::BTreeSet;

/// Which borders of a scale a rater keeps: bit 0 for the one behind the best grade.
pub(crate) type Borders = u64;

/// All of so many borders.
pub(crate) fn all(count: usize) -> Borders {
    (1 << count) - 1
}

/// So many of these.
pub(crate) fn some_of(random: &mut Random, borders: Borders, count: usize) -> Borders {
    let mut bits: Vec<Borders> = (0..MAX_GRADES).map(|bit| 1 << bit).collect();
    bits.retain(|bit| borders & bit != 0);
    random.shuffle(&mut bits);
    bits.iter().take(count).sum()
}

/// Not all of these.
pub(crate) fn fewer(random: &mut Random, borders: Borders) -> Borders {
    let count = random.index(borders.count_ones() as usize);
    some_of(random, borders, count)
}

/// Each keeps fewer of these than the one before it.
pub(crate) fn chain(random: &mut Random, borders: Borders, raters: usize) -> Vec<Borders> {
    let mut counts: Vec<usize> = (0..=borders.count_ones() as usize).collect();
    random.shuffle(&mut counts);
    counts.truncate(raters);
    counts.sort_unstable();
    let mut kept = borders;
    let mut next = |count| {
        kept = some_of(random, kept, count);
        kept
    };
    counts.into_iter().rev().map(&mut next).collect()
}

/// Each keeps as many of these as the others, but not the same ones. There are more borders than
/// raters, or as many.
pub(crate) fn crossing(random: &mut Random, borders: Borders, raters: usize) -> Vec<Borders> {
    let count = 1 + random.index(borders.count_ones() as usize - 1);
    let mut found = BTreeSet::new();
    while found.len() < raters {
        found.insert(some_of(random, borders, count));
    }
    found.into_iter().collect()
}

/// The last one keeps fewer than exactly one of the others, which cross.
pub(crate) fn beaten_by_one(random: &mut Random, borders: Borders, raters: usize) -> Vec<Borders> {
    loop {
        let mut found = crossing(random, borders, raters - 1);
        let winner = random.pick(&found);
        let beaten = fewer(random, winner);
        let beats = |&&other: &&Borders| other & beaten == beaten;
        if found.iter().filter(beats).count() == 1 {
            found.push(beaten);
            return found;
        }
    }
}

/// Some cross, and each of the others keeps fewer than one of them.
pub(crate) fn followers(random: &mut Random, borders: Borders, raters: usize) -> Vec<Borders> {
    let leaders = 2 + random.index(raters - 3);
    let mut found = crossing(random, borders, leaders);
    while found.len() < raters {
        let leader = found[random.index(leaders)];
        found.push(fewer(random, leader));
    }
    found
}

/// A scale of so many grades whose rates rise.
pub(crate) fn rising_scale(random: &mut Random, grades: usize) -> Table {
    loop {
        let most = random.pick(&[40, 300, 5_000, MAX_OBLIGORS / 2]);
        let (defaults, survivors) = (random.between(5, most), random.between(5, most));
        let parts = random.pick(&[MAX_GRADES.min(grades + 5), MAX_GRADES]);
        let mut table = partition(random, defaults, survivors, parts);
        sort_by_rate(&mut table);
        let scale = pooled_scale(&table);
        if scale.grades.len() >= grades {
            let kept = some_of(random, all(scale.grades.len() - 1), grades - 1);
            return keeping(&scale, kept);
        }
    }
}

/// The scale without the borders that are not kept.
pub(crate) fn keeping(scale: &Table, kept: Borders) -> Table {
    let mut rows: Vec<(u64, u64)> = vec![];
    for (index, grade) in scale.grades.iter().enumerate() {
        match rows.last_mut() {
            Some(last) if kept >> (index - 1) & 1 == 0 => {
                last.0 += grade.obligors;
                last.1 += grade.defaults;
            }
            _ => rows.push((grade.obligors, grade.defaults)),
        }
    }
    Table::of_rows(&rows)
}

#[cfg(test)]
mod tests {
    use super::*;
    use crate::answer::verdict_name;
    use crate::cutoff::verdict;

    fn said_of(first: Borders, second: Borders) -> &'static str {
        match (first & !second, second & !first) {
            (0, 0) => "equal",
            (_, 0) => "first",
            (0, _) => "second",
            _ => "crossing",
        }
    }

    #[test]
    fn raters_stand_to_each_other_as_the_borders_that_they_keep() {
        let mut seen = std::collections::BTreeMap::new();
        for seed in 0..600 {
            let random = &mut Random::of_seed(seed);
            let grades = 2 + random.index(19);
            let scale = rising_scale(random, grades);
            assert_eq!(scale.grades.len(), grades);
            let borders = all(grades - 1);
            let count = random.index(grades);
            let one = some_of(random, borders, count);
            let [any, fewer] = [borders, one | 1].map(|borders| fewer(random, borders));
            for other in [one, any, fewer, borders, 0] {
                let found = verdict(&keeping(&scale, one), &keeping(&scale, other));
                assert_eq!(verdict_name(&found), said_of(one, other), "{seed}");
                *seen.entry(verdict_name(&found)).or_insert(0) += 1;
            }
        }
        assert!(seen.len() == 4 && seen.values().all(|&times| times > 100));
    }

    #[test]
    fn chains_and_crossings_are_what_they_say() {
        for seed in 0..600 {
            let random = &mut Random::of_seed(seed);
            let raters = 4 + random.index(13);
            let borders = all(raters + random.index(10));
            let chain = chain(random, borders, raters);
            let falls = chain
                .windows(2)
                .all(|two| said_of(two[0], two[1]) == "first");
            assert!(falls && chain.len() == raters, "{seed}");
            let crossing = crossing(random, borders, raters);
            let crosses = |&one: &Borders| {
                let others = crossing.iter().filter(|&&other| other != one);
                others.fold(0, |times, &other| {
                    times + usize::from(said_of(one, other) == "crossing")
                })
            };
            assert!(
                crossing.iter().all(|one| crosses(one) == raters - 1),
                "{seed}"
            );
            let beaten = beaten_by_one(random, borders, raters);
            let (last, others) = beaten.split_last().expect("at least 4");
            let beats = |other: &&Borders| said_of(**other, *last) == "first";
            assert_eq!(
                (beaten.len(), others.iter().filter(beats).count()),
                (raters, 1)
            );
            let with_followers = followers(random, borders, raters);
            assert_eq!(with_followers.len(), raters);
        }
    }
}
