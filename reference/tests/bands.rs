//! The fourteen band limits of request R-3 of document 02, written out, and the scene that holds
//! other programs to them.

use reference::answer::Answer;
use reference::band_scene::{
    every_edge, joined_grades, rising_blocks, single_grade, Edge, Side, SIDES,
};
use reference::book;
use reference::compare::plan;
use reference::desk::Desk;
use reference::generate::Script;
use reference::pooling::{band, blocks, pool, Rate};
use reference::print::print;
use reference::random::Random;
use reference::script::Call;
use reference::table::Table;
use reference::tally::Tally;
use std::collections::BTreeMap;

/// In ppm.
const LIMITS: [u64; 14] = [
    100, 200, 400, 800, 1_600, 3_200, 6_400, 12_800, 25_600, 51_200, 102_400, 204_800, 409_600,
    819_200,
];

type Rates = [(u64, u64); 2];

/// Rates (d, n) above and below each limit, d times a million as close to n times the limit as it
/// gets without being equal, and n the smallest for which that is less than 1 ppm.
const CLOSE_OF_FEW: [Rates; 14] = [
    [(1, 9_999), (1, 10_001)],
    [(1, 4_999), (1, 5_001)],
    [(1, 2_499), (1, 2_501)],
    [(1, 1_249), (1, 1_251)],
    [(3, 1_874), (3, 1_876)],
    [(7, 2_187), (7, 2_188)],
    [(13, 2_031), (11, 1_719)],
    [(25, 1_953), (23, 1_797)],
    [(49, 1_914), (47, 1_836)],
    [(113, 2_207), (111, 2_168)],
    [(209, 2_041), (175, 1_709)],
    [(401, 1_958), (367, 1_792)],
    [(657, 1_604), (879, 2_146)],
    [(1_681, 2_052), (1_391, 1_698)],
];

/// The same with the largest n.
const CLOSE_OF_MANY: [Rates; 14] = [
    [(100, 999_999), (99, 990_001)],
    [(200, 999_999), (199, 995_001)],
    [(400, 999_999), (399, 997_501)],
    [(800, 999_999), (799, 998_751)],
    [(1_600, 999_999), (1_599, 999_376)],
    [(3_199, 999_687), (3_199, 999_688)],
    [(6_397, 999_531), (6_399, 999_844)],
    [(12_793, 999_453), (12_799, 999_922)],
    [(25_585, 999_414), (25_599, 999_961)],
    [(51_185, 999_707), (51_183, 999_668)],
    [(102_353, 999_541), (102_383, 999_834)],
    [(204_689, 999_458), (204_783, 999_917)],
    [(409_489, 999_729), (409_455, 999_646)],
    [(818_833, 999_552), (819_055, 999_823)],
];

fn band_of((defaults, obligors): (u64, u64)) -> usize {
    band(&Rate { defaults, obligors }) as usize
}

/// Above the limit, in ppm times the obligors; negative below it.
fn excess((defaults, obligors): (u64, u64), limit: u64) -> i64 {
    (defaults * 1_000_000) as i64 - (limit * obligors) as i64
}

/// The first limit in the list that the rate is not above.
fn listed_band(rate: (u64, u64)) -> usize {
    let within = |&limit: &u64| excess(rate, limit) <= 0;
    LIMITS.iter().position(within).unwrap_or(14)
}

#[test]
fn a_limit_belongs_to_its_band_and_1_ppm_more_to_the_next() {
    for (index, limit) in LIMITS.into_iter().enumerate() {
        assert_eq!(band_of((limit, 1_000_000)), index);
        assert_eq!(band_of((limit - 1, 1_000_000)), index);
        assert_eq!(band_of((limit + 1, 1_000_000)), index + 1);
    }
    for obligors in [1, 2, 9_999, 1_000_000] {
        assert_eq!(band_of((0, obligors)), 0);
        assert_eq!(band_of((obligors, obligors)), 14);
    }
}

#[test]
fn the_closest_rates_above_and_below() {
    for (index, limit) in LIMITS.into_iter().enumerate() {
        for [above, below] in [CLOSE_OF_FEW[index], CLOSE_OF_MANY[index]] {
            assert!((1..above.1 as i64).contains(&excess(above, limit)));
            assert!((1..below.1 as i64).contains(&-excess(below, limit)));
            assert_eq!(band_of(above), index + 1, "{above:?}");
            assert_eq!(band_of(below), index, "{below:?}");
        }
    }
}

/// The last number of defaults that is not above the limit, and the first that is.
#[test]
fn around_each_limit_with_any_number_of_obligors() {
    let few = 1..=3_000;
    let some = (3_000..=1_000_000).step_by(211);
    for obligors in few.chain(some).chain(999_000..=1_000_000) {
        for (index, limit) in LIMITS.into_iter().enumerate() {
            let last = limit * obligors / 1_000_000;
            let found = [last, last + 1].map(|defaults| band_of((defaults, obligors)));
            let listed = [last, last + 1].map(|defaults| listed_band((defaults, obligors)));
            assert_eq!(found, listed, "{last} of {obligors}");
            assert!(found[0] <= index && index < found[1]);
        }
    }
}

fn pooled_bands(rows: &[(u64, u64)]) -> Vec<u32> {
    let numbers = pool(&Table::of_rows(rows));
    numbers.chunks(3).map(|grade| grade[2]).collect()
}

#[test]
fn one_table_has_all_bands() {
    let at_limits = [0, 1, 2, 3, 4, 5, 6, 7, 8, 9, 10, 11, 12, 13];
    let next = at_limits.map(|band| band + 1);
    assert_eq!(
        pooled_bands(&LIMITS.map(|limit| (10_000, limit / 100))),
        at_limits
    );
    let above = CLOSE_OF_FEW.map(|[(defaults, obligors), _]| (obligors, defaults));
    assert_eq!(pooled_bands(&above), next);
    let below = CLOSE_OF_FEW.map(|[_, (defaults, obligors)]| (obligors, defaults));
    assert_eq!(pooled_bands(&below), at_limits);
}

#[test]
fn the_band_is_that_of_the_block() {
    // 100 ppm, and 0.01 ppm above and below it, joined from 200 ppm (band 1) and 0.
    assert_eq!(pooled_bands(&[(5_000, 1), (5_000, 0)]), [0, 0]);
    assert_eq!(pooled_bands(&[(5_000, 1), (4_999, 0)]), [1, 1]);
    assert_eq!(pooled_bands(&[(5_000, 1), (5_001, 0)]), [0, 0]);
    // 819,200 ppm, and less than 1 ppm above and below it, joined from rate 1 (band 14) and less.
    assert_eq!(pooled_bands(&[(125, 125), (500, 387)]), [13, 13]);
    assert_eq!(pooled_bands(&[(681, 681), (1_371, 1_000)]), [14, 14]);
    assert_eq!(pooled_bands(&[(391, 391), (1_307, 1_000)]), [13, 13]);
}

#[test]
fn the_printing_program_prints_these_bands() {
    let table = Table::of_rows(&[(10_000, 1), (9_999, 1), (625, 512), (2_052, 1_681)]);
    let printed = print(&book::write(&[&table]));
    let grades: Vec<&str> = printed.lines().take(4).collect();
    let expected = [
        "1 1 10000 0",
        "2 1 9999 1",
        "3 512 625 13",
        "4 1681 2052 14",
    ];
    assert_eq!(grades, expected);
}

/// By the list, not by what the scene says of itself.
fn is_on(side: Side, rate: (u64, u64), limit: u64) -> bool {
    let (excess, ppm) = (excess(rate, limit), rate.1 as i64);
    match side {
        Side::OneBelow => excess == -ppm,
        Side::Below => -ppm < excess && excess < 0,
        Side::At => excess == 0,
        Side::Above => 0 < excess && excess < ppm,
        Side::OneAbove => excess == ppm,
    }
}

fn is_edge(edge: Edge, rate: (u64, u64)) -> bool {
    is_on(edge.side, rate, LIMITS[edge.band as usize])
}

/// At most 1 ppm from a limit.
fn is_near(rate: (u64, u64)) -> bool {
    let near = |&limit: &u64| SIDES.iter().any(|&side| is_on(side, rate, limit));
    LIMITS.iter().any(near)
}

/// (d, n) of each block, best first.
fn block_rates(table: &Table) -> Vec<(u64, u64)> {
    let rate = |rate: Rate| (rate.defaults, rate.obligors);
    blocks(table).iter().map(|block| rate(block.rate)).collect()
}

#[test]
fn every_limit_has_every_side() {
    let edges = every_edge();
    assert_eq!(edges.len(), 14 * 5);
    for (index, &edge) in edges.iter().enumerate() {
        assert_eq!(edge.limit(), LIMITS[index / 5]);
        assert_eq!(
            (edge.band as usize, edge.side),
            (index / 5, SIDES[index % 5])
        );
    }
}

#[test]
fn tables_of_the_scene_have_the_rate_that_it_says() {
    for edge in every_edge() {
        for seed in 0..100 {
            let random = &mut Random::of_seed(seed);
            let single = single_grade(random, edge);
            let joined = joined_grades(random, edge);
            assert_eq!(single.grades.len(), 1);
            assert!(joined.grades.len() > 1);
            for table in [single, joined] {
                let rates = block_rates(&table);
                assert_eq!(rates.len(), 1, "{edge:?}, {seed}");
                assert!(is_edge(edge, rates[0]), "{edge:?}, {seed}");
                assert!(table.obligors() <= 1_000_000);
                assert_eq!(Edge::of(&blocks(&table)[0].rate), Some(edge));
            }
        }
    }
}

/// No grade of a block is as near to the limit as the block.
#[test]
fn joined_grades_are_not_near_a_limit_by_themselves() {
    for edge in every_edge() {
        for seed in 0..100 {
            let table = joined_grades(&mut Random::of_seed(seed), edge);
            for grade in &table.grades {
                let rate = (grade.defaults, grade.obligors);
                assert!(!is_near(rate), "{edge:?}, {seed}");
            }
        }
    }
}

#[test]
fn several_blocks_stand_apart_at_their_limits() {
    let mut edges = every_edge();
    edges.retain(|edge| matches!(edge.side, Side::Below | Side::At | Side::Above));
    for seed in 0..500 {
        let random = &mut Random::of_seed(seed);
        random.shuffle(&mut edges);
        let mut taken = edges[..random.between(2, 14) as usize].to_vec();
        taken.sort_unstable();
        let table = rising_blocks(random, &taken);
        let rates = block_rates(&table);
        assert_eq!(rates.len(), taken.len(), "{seed}");
        let mut pairs = taken.iter().zip(rates);
        assert!(pairs.all(|(&edge, rate)| is_edge(edge, rate)), "{seed}");
    }
}

#[test]
fn blocks_have_the_fewest_obligors_and_all_of_them() {
    for edge in every_edge() {
        let sizes = (0..400).map(|seed| single_grade(&mut Random::of_seed(seed), edge).obligors());
        let sizes: Vec<u64> = sizes.collect();
        let (fewest, most) = (sizes.iter().min().copied(), sizes.iter().max().copied());
        let few = CLOSE_OF_FEW[edge.band as usize].map(|rate| Some(rate.1));
        let many = CLOSE_OF_MANY[edge.band as usize].map(|rate| Some(rate.1));
        match edge.side {
            Side::OneBelow | Side::OneAbove => assert_eq!(fewest, Some(1_000_000)),
            Side::At => {
                let in_lowest_terms = [10_000, 5_000, 2_500, 1_250, 625][edge.band.min(4) as usize];
                assert_eq!((fewest, most), (Some(in_lowest_terms), Some(1_000_000)));
            }
            Side::Above => assert!(fewest <= few[0] && many[0] <= most),
            Side::Below => assert!(fewest <= few[1] && many[1] <= most),
        }
    }
}

/// Pools of the scene: by shape of the table, with an exact buffer and with a longer one.
#[test]
fn the_scene_loads_and_pools_every_shape() {
    let mut pools = BTreeMap::new();
    for seed in 0..200 {
        let script = Script::generate(seed, 100);
        let mut desk = Desk::fresh();
        for (call, &scene) in script.calls.iter().zip(&script.scenes) {
            let answer = desk.call(call);
            if scene != "at a band's limit" {
                continue;
            }
            assert_eq!(answer.refusal(), None, "seed {seed}, {call}");
            if let Call::Pool { place, length } = *call {
                let table = desk.table(place).expect("it was pooled");
                let grades = table.grades.len();
                let shape = (grades > 1, blocks(table).len() > 1);
                let times = pools.entry((shape, length as usize > 3 * grades));
                *times.or_insert(0) += 1;
            }
        }
    }
    assert_eq!(pools.len(), 6, "{pools:?}");
    assert!(pools.values().all(|&times| times > 20), "{pools:?}");
}

/// (d, n) of each block that a run pools, from the answers: neighbouring blocks never have the same
/// counts.
fn rates_of_run(seed: u64, calls: usize) -> Vec<(u64, u64)> {
    let mut rates = vec![];
    for (seed, calls) in plan(seed, calls) {
        let mut desk = Desk::fresh();
        for call in &Script::generate(seed, calls).calls {
            let (Answer::Pool(Ok(()), lent), Call::Pool { place, .. }) = (desk.call(call), call)
            else {
                continue;
            };
            let grades = desk.table(*place).map_or(0, |table| table.grades.len());
            let mut numbers: Vec<&[u32]> = lent.chunks(3).take(grades).collect();
            numbers.dedup();
            let rate = |block: &[u32]| (block[0].into(), block[1].into());
            rates.extend(numbers.into_iter().map(rate));
        }
    }
    rates
}

/// As many calls as the gate has for a seed.
#[test]
fn a_run_has_blocks_at_every_limit_and_beside_it() {
    for seed in [1, 2, 3] {
        let tally = Tally::of_run(seed, 15_000).markdown();
        let rates = rates_of_run(seed, 15_000);
        for (band, limit) in LIMITS.into_iter().enumerate() {
            let count = |side| {
                rates
                    .iter()
                    .filter(|&&rate| is_on(side, rate, limit))
                    .count()
            };
            let [one_below, below, at, above, one_above] = SIDES.map(count);
            let row = format!(
                "| {limit} ppm | {band} | {one_below} | {below} | {at} | {above} | {one_above} |\n"
            );
            assert!(tally.contains(&row), "seed {seed}: {row}");
            assert!(below >= 3 && at >= 3 && above >= 3, "seed {seed}: {row}");
            assert!(one_below >= 1 && one_above >= 1, "seed {seed}: {row}");
        }
    }
}

#[test]
fn a_run_has_rates_of_every_kind_far_from_the_limits() {
    let far_kind = |&rate: &(u64, u64)| match rate {
        (0, _) => "rate 0",
        (defaults, obligors) if defaults == obligors => "rate 1",
        rate if listed_band(rate) == 14 => "above the highest limit",
        _ => "between 0 and the highest limit",
    };
    for seed in [1, 2, 3] {
        let tally = Tally::of_run(seed, 15_000).markdown();
        let mut times = BTreeMap::new();
        let rates = rates_of_run(seed, 15_000);
        for rate in rates.iter().filter(|&&rate| !is_near(rate)) {
            *times.entry(far_kind(rate)).or_insert(0) += 1;
        }
        assert_eq!(times.len(), 4, "seed {seed}: {times:?}");
        for (kind, times) in times {
            let row = format!("\n| {kind} | {times} |\n");
            assert!(tally.contains(&row), "seed {seed}: {row}");
        }
    }
}
