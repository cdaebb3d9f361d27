//! Announced rates, best grade first: in step, and with a fall. Request R-5 of document 02: "equal
//! neighbours pass, a fall does not."

use crate::random::Random;
use crate::table::MILLION;

/// Rates that never fall, of every sort.
pub fn in_step(random: &mut Random, count: usize) -> Vec<u64> {
    let sort: fn(&mut Random, usize) -> Vec<u64> = random.weighted(&[
        (10, sorted as fn(&mut Random, usize) -> Vec<u64>),
        (2, all_equal),
        (2, few_rises),
        (2, steps_of_one),
        (3, rising),
        (1, from_none_to_all),
    ]);
    sort(random, count)
}

fn sorted(random: &mut Random, count: usize) -> Vec<u64> {
    let most = random.pick(&[1, 3, 1_000, MILLION, MILLION, MILLION]);
    let mut rates: Vec<u64> = (0..count).map(|_| random.between(0, most)).collect();
    rates.sort_unstable();
    rates
}

pub(crate) fn all_equal(random: &mut Random, count: usize) -> Vec<u64> {
    let any = random.between(0, MILLION);
    vec![random.pick(&[0, 1, any, any, MILLION]); count]
}

/// Mostly equal neighbours, and a rise or two where there is room.
pub(crate) fn few_rises(random: &mut Random, count: usize) -> Vec<u64> {
    let mut levels = [(); 3].map(|()| random.between(0, MILLION));
    levels.sort_unstable();
    let mut ends = [(); 2].map(|()| random.index(count));
    ends.sort_unstable();
    let level = |row: usize| ends.iter().filter(|&&end| end < row).count();
    (0..count).map(|row| levels[level(row)]).collect()
}

/// Each 1 ppm above the one before.
pub(crate) fn steps_of_one(random: &mut Random, count: usize) -> Vec<u64> {
    let highest = MILLION + 1 - count as u64;
    let any = random.between(0, highest);
    (random.pick(&[0, any, highest])..).take(count).collect()
}

/// Each above the one before.
pub(crate) fn rising(random: &mut Random, count: usize) -> Vec<u64> {
    let most = random.pick(&[3, 1_000, MILLION - count as u64]);
    let mut rates: Vec<u64> = (0..count).map(|_| random.between(0, most)).collect();
    rates.sort_unstable();
    (0..).zip(rates).map(|(row, rate)| rate + row).collect()
}

/// From 0 to 1,000,000.
pub(crate) fn from_none_to_all(random: &mut Random, count: usize) -> Vec<u64> {
    let mut rates = sorted(random, count);
    rates[0] = 0;
    rates[count - 1] = MILLION;
    rates
}

/// The rows, counted from 0, whose rate is below that of the row before.
pub fn falls(rates: &[u64]) -> Vec<usize> {
    let falls = |&row: &usize| rates[row] < rates[row - 1];
    (1..rates.len()).filter(falls).collect()
}

/// Puts a fall into rates that are in step: of this row, by so much, and nowhere else.
pub type Fall = fn(&mut [u64], usize, u64);

pub(crate) const FALLS: [Fall; 3] = [dip, peak, drop_from];

/// This row is too low; those behind it are not below those before it.
pub fn dip(rates: &mut [u64], row: usize, by: u64) {
    let before = rates[row - 1].max(by);
    rates[row - 1] = before;
    rates[row] = before - by;
    for rate in &mut rates[row + 1..] {
        *rate = before.max(*rate);
    }
}

/// The row before is too high; this one is not below those before that.
pub fn peak(rates: &mut [u64], row: usize, by: u64) {
    for rate in &mut rates[..=row] {
        *rate = (MILLION - by).min(*rate);
    }
    rates[row - 1] = rates[row] + by;
}

/// This row and those behind it are too low.
pub fn drop_from(rates: &mut [u64], row: usize, by: u64) {
    let before = rates[row - 1].max(by);
    let lower = rates[row] - (before - by);
    rates[row - 1] = before;
    for rate in &mut rates[row..] {
        *rate -= lower;
    }
}

/// Rates with a fall of this row alone.
pub(crate) fn with_fall(random: &mut Random, count: usize, row: usize) -> Vec<u64> {
    let mut rates = in_step(random, count);
    let fall = random.pick(&FALLS);
    fall(&mut rates, row, any_size(random));
    rates
}

/// By how much a rate falls: often by 1 ppm.
pub(crate) fn any_size(random: &mut Random) -> u64 {
    let any = random.between(1, MILLION);
    let whole = whole_size(random);
    random.weighted(&[(4, 1), (1, 2), (4, any), (2, whole), (1, MILLION)])
}

/// A multiple of 2^16: 16 bits do not tell such a fall from none.
pub(crate) fn whole_size(random: &mut Random) -> u64 {
    random.between(1, MILLION >> 16) << 16
}

#[cfg(test)]
mod tests {
    use super::*;

    #[test]
    fn falls_are_found_in_every_row_but_the_first() {
        assert_eq!(falls(&[]), []);
        assert_eq!(falls(&[7]), []);
        assert_eq!(falls(&[0, 5, 5, 6]), []);
        assert_eq!(falls(&[6, 5, 5, 4, 9, 8]), [1, 3, 5]);
    }

    #[test]
    fn every_sort_is_in_step() {
        let sorts = [
            in_step,
            sorted,
            all_equal,
            few_rises,
            steps_of_one,
            rising,
            from_none_to_all,
        ];
        for seed in 0..300 {
            let random = &mut Random::of_seed(seed);
            for (sort, count) in (1..=40).flat_map(|count| sorts.map(|sort| (sort, count))) {
                let rates = sort(random, count);
                assert_eq!(rates.len(), count);
                assert!(rates.iter().all(|&rate| rate <= MILLION), "{rates:?}");
                assert_eq!(falls(&rates), [], "{rates:?}");
            }
        }
    }

    #[test]
    fn the_sorts_are_what_they_say() {
        for seed in 0..300 {
            let random = &mut Random::of_seed(seed);
            let count = 2 + random.index(39);
            let rises = |rates: &[u64]| rates.windows(2).all(|two| two[0] < two[1]);
            assert!(rises(&rising(random, count)));
            let steps = steps_of_one(random, count);
            assert!(rises(&steps) && steps[count - 1] - steps[0] == count as u64 - 1);
            let equal = all_equal(random, count);
            assert!(equal.iter().all(|&rate| rate == equal[0]));
            let ends = from_none_to_all(random, count);
            assert_eq!((ends[0], ends[count - 1]), (0, MILLION));
            let mut levels = few_rises(random, count);
            levels.dedup();
            assert!(levels.len() <= 3, "{levels:?}");
        }
    }

    #[test]
    fn a_fall_is_of_its_row_by_so_much_and_nowhere_else() {
        for seed in 0..3_000 {
            let random = &mut Random::of_seed(seed);
            let count = 2 + random.index(39);
            let sound = in_step(random, count);
            let (row, by) = (1 + random.index(count - 1), any_size(random));
            for fall in FALLS {
                let mut rates = sound.clone();
                fall(&mut rates, row, by);
                assert!(rates.iter().all(|&rate| rate <= MILLION), "{rates:?}");
                assert_eq!(falls(&rates), [row], "{rates:?}");
                assert_eq!(rates[row - 1] - rates[row], by, "{rates:?}");
            }
        }
    }

    #[test]
    fn a_dip_is_one_row_too_low_and_a_peak_one_too_high() {
        let in_step = [0, 2, 5, 6];
        let with = |fall: Fall, row| {
            let mut rates = in_step;
            fall(&mut rates, row, 2);
            rates
        };
        assert_eq!(with(dip, 2), [0, 2, 0, 6]);
        assert_eq!(with(dip, 3), [0, 2, 5, 3]);
        assert_eq!(with(dip, 1), [2, 0, 5, 6]);
        assert_eq!(with(peak, 2), [0, 7, 5, 6]);
        assert_eq!(with(peak, 1), [4, 2, 5, 6]);
        assert_eq!(with(drop_from, 2), [0, 2, 0, 1]);
        assert_eq!(with(drop_from, 1), [2, 0, 3, 4]);
    }
}
