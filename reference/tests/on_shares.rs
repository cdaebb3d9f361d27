//! R-6 of document 02: "A second comparison works on shares: a cutoff costs u(D − y)/D + vx/S. It
//! gives the same four verdicts, under the same meaning over all whole-number prices." Worked out by
//! hand, then by plainer means on random tables.

use desks::desk_with;
use reference::answer::{verdict_name, verdict_prices};
use reference::cutoff::{cutoffs, verdict, Price, Verdict};
use reference::desk::Desk;
use reference::lenders::{sound, times};
use reference::partners::{mixed_outcomes, same_obligors};
use reference::pooling::pooled_scale;
use reference::population::sort_by_rate;
use reference::random::Random;
use reference::script::{decode, Call};
use reference::shares::{cheapest_cost_on_shares, verdict_on_shares, Fraction};
use reference::table::Table;
use small::{assert_all_prices_agree, small_table, Comparison};
use std::cmp::Ordering;

mod desks;
mod small;

/// D 5, S 15. Cutoff 1 catches 4 of 5 defaults and turns away 6 of 15 survivors.
const A: [(u64, u64); 2] = [(10, 1), (10, 4)];
/// D 2, S 4. Cutoff 1 catches 1 of 2 defaults and turns away 1 of 4 survivors.
const B: [(u64, u64); 2] = [(4, 1), (2, 1)];
/// D 2, S 8. Cutoff 1 catches 1 of 2 defaults and turns away 1 of 8 survivors.
const C: [(u64, u64); 2] = [(8, 1), (2, 1)];

fn rows(rows: &[(u64, u64)]) -> Table {
    Table::of_rows(rows)
}

fn price(missed_default: u64, lost_survivor: u64) -> Price {
    Price {
        missed_default,
        lost_survivor,
    }
}

/// The answer of the call to a desk that holds these tables, which it leaves as it was.
fn answer(tables: [Option<&Table>; 2]) -> Result<Verdict, u32> {
    let desk = desk_with(tables);
    let mut asked = desk.clone();
    let line = asked.call(&Call::CompareShares).line();
    assert_eq!(asked, desk);
    let answer = desk.compare_shares();
    let expected = match answer {
        Ok(verdict) => format!("compare_shares ok {}", verdict_name(&verdict)),
        Err(number) => format!("compare_shares refused {number}"),
    };
    assert!(line.starts_with(&expected), "{line}");
    answer
}

fn kind(first: &Table, second: &Table) -> &'static str {
    let verdict = answer([Some(first), Some(second)]).expect("accepted");
    let exchanged = answer([Some(second), Some(first)]).expect("accepted");
    let kinds = [verdict, exchanged].map(|verdict| verdict_name(&verdict));
    let sides = [
        ["equal", "equal"],
        ["crossing", "crossing"],
        ["first", "second"],
        ["second", "first"],
    ];
    assert!(sides.contains(&kinds), "{kinds:?}");
    kinds[0]
}

fn refusal(first: &Table, second: &Table) -> Option<u32> {
    answer([Some(first), Some(second)]).err()
}

#[test]
fn a_cutoff_costs_its_shares() {
    let cost = |table: &[(u64, u64)], u, v| cheapest_cost_on_shares(&rows(table), &price(u, v));
    // u, u/5 + 6v/15 and v: 3, 3/5 + 12/15 = 7/5 and 2.
    assert!(cost(&A, 3, 2) == Fraction::of(7, 5));
    // 1, 1/5 + 18/15 = 7/5 and 3; then 7, 7/5 + 6/15 = 9/5 and 1.
    assert!(cost(&A, 1, 3) == Fraction::of(1, 1));
    assert!(cost(&A, 7, 1) == Fraction::of(1, 1));
    // u/2 + v/4: 3/2 + 2/4 = 2, not below 2. u/2 + v/8: 3/2 + 2/8 = 7/4.
    assert!(cost(&B, 3, 2) == Fraction::of(2, 1));
    assert!(cost(&C, 3, 2) == Fraction::of(7, 4));
    for free in [price(0, 0), price(5, 0), price(0, 5)] {
        for table in [A, B, C].map(|table| rows(&table)) {
            assert!(cheapest_cost_on_shares(&table, &free) == Fraction::of(0, 1));
        }
    }
}

#[test]
fn fractions_are_compared_by_value() {
    for (one, other, order) in [
        ((1, 2), (2, 4), Ordering::Equal),
        ((0, 7), (0, 1), Ordering::Equal),
        ((1, 3), (1, 2), Ordering::Less),
        ((2, 3), (3, 5), Ordering::Greater),
        ((u64::MAX, u64::MAX - 1), (1, 1), Ordering::Greater),
        (
            (u64::MAX, u64::MAX - 1),
            (u64::MAX - 1, u64::MAX - 2),
            Ordering::Less,
        ),
    ] {
        let [one, other] = [one, other].map(|(top, bottom)| Fraction::of(top, bottom));
        assert_eq!(one.cmp(&other), order, "{one:?} {other:?}");
        assert_eq!(one == other, order == Ordering::Equal);
        assert_eq!(other.partial_cmp(&one), Some(order.reverse()));
    }
}

#[test]
fn worked_verdicts() {
    // B's corner (1/4, 1/2) is on A's first leg, from (0, 0) to (2/5, 4/5); at u 1, v 1 they cost
    // 1/5 + 2/5 and 1/2 + 1/4, at u 1, v 2 both cost 1.
    assert_eq!(kind(&rows(&A), &rows(&B)), "first");
    // C's corner (1/8, 1/2) is above it, A's corner above C's second leg: at u 1, v 3 they cost 1
    // and 1/2 + 3/8, at u 1, v 1 they cost 3/5 and 1/2 + 1/8.
    assert_eq!(kind(&rows(&A), &rows(&C)), "crossing");
    // C's x is half of B's: u/2 + v/8 against u/2 + v/4.
    assert_eq!(kind(&rows(&C), &rows(&B)), "first");
    // Twice A's defaults and three times its survivors: 8 of 10 and 18 of 45.
    assert_eq!(kind(&rows(&A), &rows(&[(29, 2), (26, 8)])), "equal");
    // One grade: u or v. B's cutoff 1 saves u/2 - v/4.
    assert_eq!(kind(&rows(&B), &rows(&[(3, 2)])), "first");
    assert_eq!(kind(&rows(&[(100, 1)]), &rows(&[(3, 2)])), "equal");
    // Upside down: cutoff 1 of (2, 2), (2, 0) catches none and turns away all.
    assert_eq!(kind(&rows(&[(2, 2), (2, 0)]), &rows(&[(7, 3)])), "equal");
}

#[test]
fn worked_tables_of_document_01_keep_their_verdicts_in_other_sizes() {
    let [fine, coarse] = [&[(2, 0), (2, 1), (2, 2)][..], &[(3, 1), (3, 2)]].map(rows);
    let [first, second] = [&[(5, 2), (1, 1)][..], &[(2, 0), (4, 3)]].map(rows);
    let e = rows(&[(30, 2), (18, 4), (15, 10), (16, 14), (21, 20)]);
    for factors in [(1, 1), (2, 2), (1, 7), (900, 1), (1_000, 1_000)] {
        assert_eq!(kind(&times(&fine, factors), &coarse), "first");
        assert_eq!(kind(&fine, &times(&coarse, factors)), "first");
        assert_eq!(kind(&times(&first, factors), &second), "crossing");
        assert_eq!(kind(&first, &times(&second, factors)), "crossing");
        assert_eq!(kind(&e, &times(&e, factors)), "equal");
    }
}

/// u(D - y) S D'S' + vx D D'S', the least of all cutoffs: the cost over the product of all four
/// totals.
fn scaled_cost(table: &Table, other: &Table, price: &Price) -> u128 {
    let wide = |count: u64| u128::from(count);
    let (defaults, survivors) = (wide(table.defaults()), wide(table.survivors()));
    let others = wide(other.defaults()) * wide(other.survivors());
    let cost = |cutoff: &reference::cutoff::Cutoff| {
        wide(price.missed_default) * wide(cutoff.missed) * survivors * others
            + wide(price.lost_survivor) * wide(cutoff.lost) * defaults * others
    };
    cutoffs(table).iter().map(cost).min().expect("cutoff 0")
}

fn scaled_costs(first: &Table, second: &Table, price: &Price) -> Ordering {
    scaled_cost(first, second, price).cmp(&scaled_cost(second, first, price))
}

/// The costs at each pair carried differ as said, and its prices are up to 2,500,000,000.
fn assert_pairs_show(first: &Table, second: &Table) {
    let verdict = verdict_on_shares(first, second);
    let costs = |price: &Price| scaled_costs(first, second, price);
    let prices = verdict_prices(&verdict);
    let expected = match verdict {
        Verdict::Equal => vec![],
        Verdict::First(_) => vec![Ordering::Less],
        Verdict::Second(_) => vec![Ordering::Greater],
        Verdict::Crossing(..) => vec![Ordering::Greater, Ordering::Less],
    };
    let found: Vec<Ordering> = prices.iter().map(costs).collect();
    assert_eq!(found, expected, "{first:?} {second:?}");
    for price in prices {
        assert!(price.missed_default.max(price.lost_survivor) <= 2_500_000_000);
    }
}

#[test]
fn pairs_carried_show_what_they_have_to() {
    for seed in 0..1_500 {
        let random = &mut Random::of_seed(seed);
        let [mut first, mut second] = [sound(random), sound(random)];
        assert_pairs_show(&first, &second);
        sort_by_rate(&mut first);
        sort_by_rate(&mut second);
        assert_pairs_show(&first, &second);
    }
}

/// D and S are at most 4, hence the break-even prices at most 16.
#[test]
fn verdicts_agree_with_trying_all_small_prices() {
    let pair = |random: &mut Random| {
        [(); 2].map(|()| {
            let (defaults, survivors) = (random.between(1, 4), random.between(1, 4));
            small_table(random, defaults, survivors)
        })
    };
    let comparison = Comparison {
        costs: scaled_costs,
        verdict: verdict_on_shares,
    };
    assert_all_prices_agree(pair, 16, comparison);
}

/// With D' times the one's defaults and D times the other's, and S' and S times the survivors, both
/// have the same totals, and the first comparison has a say.
#[test]
fn verdicts_are_those_of_the_first_comparison_brought_to_common_totals() {
    let mut seen = [0; 4];
    for seed in 0..4_000 {
        let random = &mut Random::of_seed(seed);
        let mut tables = [mixed_outcomes(random), mixed_outcomes(random)];
        if tables.iter().any(|table| table.obligors() > 10_000) {
            continue;
        }
        if seed % 2 == 0 {
            tables.iter_mut().for_each(sort_by_rate);
        }
        let [first, second] = tables;
        let totals = |table: &Table| (table.defaults(), table.survivors());
        let large = [
            times(&first, totals(&second)),
            times(&second, totals(&first)),
        ];
        let expected = verdict_name(&verdict(&large[0], &large[1]));
        assert_eq!(kind(&first, &second), expected, "{first:?} {second:?}");
        let kinds = ["equal", "first", "second", "crossing"];
        seen[kinds
            .iter()
            .position(|&kind| kind == expected)
            .expect("one")] += 1;
    }
    assert!(seen.iter().all(|&times| times > 50), "{seen:?}");
}

/// "On tables with equal totals it must agree in verdict with the first comparison."
#[test]
fn equal_totals_have_the_verdict_of_the_first_comparison() {
    let mut seen = std::collections::BTreeMap::new();
    for seed in 0..4_000 {
        let (first, second) = same_obligors(&mut Random::of_seed(seed));
        let desk = desk_with([Some(&first), Some(&second)]);
        let by_counts = verdict_name(&desk.compare().expect("accepted"));
        match first.obligors() {
            0..=100_000 => {
                assert_eq!(kind(&first, &second), by_counts);
                *seen.entry(by_counts).or_insert(0) += 1;
            }
            _ => assert_eq!(desk.compare_shares(), Err(35)),
        }
    }
    assert!(seen.len() == 4 && seen.values().all(|&times| times > 200));
}

#[test]
fn multiples_are_equal_whatever_the_factors() {
    for seed in 0..1_000 {
        let random = &mut Random::of_seed(seed);
        let table = loop {
            let table = sound(random);
            if table.obligors() <= 1_000 {
                break table;
            }
        };
        let [one, other] = [(); 2].map(|()| (random.between(1, 100), random.between(1, 100)));
        let (one, other) = (times(&table, one), times(&table, other));
        assert_eq!(kind(&one, &other), "equal", "{one:?} {other:?}");
        assert_eq!(kind(&one, &pooled_scale(&other)), "equal");
    }
}

#[test]
fn one_obligor_in_a_hundred_thousand_counts() {
    // 40,000 of 50,000 defaults caught, 10,000 of 50,000 survivors turned away.
    let half = rows(&[(50_000, 10_000), (50_000, 40_000)]);
    for (other, verdict) in [
        // A default more in the worse grade, a survivor more there.
        ([(49_999, 9_999), (50_001, 40_001)], "second"),
        ([(49_999, 10_000), (50_001, 40_000)], "first"),
        // One obligor less: 10,000 of 49,999 survivors turned away; 40,000 of 49,999 defaults
        // caught, or 39,999 of them.
        ([(49_999, 10_000), (50_000, 40_000)], "first"),
        ([(49_999, 9_999), (50_000, 40_000)], "second"),
        ([(50_000, 10_000), (49_999, 39_999)], "first"),
        // 4 of 5 and 1 of 5.
        ([(5, 1), (5, 4)], "equal"),
    ] {
        assert_eq!(kind(&half, &rows(&other)), verdict, "{other:?}");
    }
}

/// Slopes of first legs, yS/xD, that 64-bit floats cannot tell apart.
#[test]
fn corners_near_the_other_ones_first_leg() {
    let n = 49_980;
    // n²/(n² - 9): D n + 3, S n, of which n and n - 3 in the worse grade.
    let flat = rows(&[(6, 3), (2 * n - 3, n)]);
    // (n² - 16)/(n² - 25), steeper by 144/((n² - 9)(n² - 25)): D n + 5, S n + 4, of which n - 4 and
    // n - 5, shares less than flat's; then D n + 5, S n - 4, of which n + 4 and n - 5, shares more.
    let steep_and_short = rows(&[(18, 9), (2 * n - 9, n - 4)]);
    let steep_and_long = rows(&[(2, 1), (2 * n - 1, n + 4)]);
    assert_eq!(kind(&flat, &steep_and_short), "crossing");
    assert_eq!(kind(&flat, &steep_and_long), "second");
    // On the first leg: half of flat's n and n - 2 in the worse grade, of D n + 2 and S n.
    let flat = rows(&[(4, 2), (2 * n - 2, n)]);
    let on_it = rows(&[(n + 3, n / 2 + 2), (n - 1, n / 2)]);
    assert_eq!(kind(&flat, &on_it), "first");
}

/// All numbers as large as they can be: overflow would stop the test.
#[test]
fn the_largest_numbers_do_not_overflow() {
    let highest = price(2_500_000_000, 2_500_000_000);
    for (defaults, survivors) in [(50_000, 50_000), (1, 99_999), (99_999, 1), (49_999, 50_001)] {
        let one = rows(&[(defaults + survivors, defaults)]);
        assert!(cheapest_cost_on_shares(&one, &highest) == Fraction::of(2_500_000_000, 1));
        let best = rows(&[(survivors, 0), (defaults, defaults)]);
        assert!(cheapest_cost_on_shares(&best, &highest) == Fraction::of(0, 1));
        assert_eq!(kind(&best, &one), "first");
        assert_pairs_show(&best, &one);
    }
    // 40 grades whose rates rise: defaults 0, 1, .. 39 times 64 and survivors the other way round.
    let mut steps: Vec<(u64, u64)> = (0..40).map(|grade| (39 * 64, grade * 64)).collect();
    steps[39] = (39 * 64 + 80, 39 * 64 + 80);
    steps[0] = (39 * 64 + 80, 0);
    let steps = rows(&steps);
    assert_eq!((steps.defaults(), steps.survivors()), (50_000, 50_000));
    let mut others = steps.clone();
    others.grades[20].defaults += 1;
    assert_eq!(kind(&steps, &others), "crossing");
    assert_eq!(kind(&steps, &steps), "equal");
    assert_pairs_show(&steps, &others);
    // D and S of 50,000 and a single grade: 50,000 times 50,000 is the only break-even price.
    let one = rows(&[(100_000, 50_000)]);
    let answer = answer([Some(&steps), Some(&one)]).expect("accepted");
    assert!(matches!(answer, Verdict::First(_)));
}

/// "It takes tables of at most 100,000 obligors".
#[test]
fn at_most_100000_obligors() {
    let of = |obligors: u64| rows(&[(obligors - 1, 0), (1, 1)]);
    for taken in [2, 99_999, 100_000] {
        for other in [2, 99_999, 100_000] {
            assert_eq!(refusal(&of(taken), &of(other)), None);
        }
        for large in [100_001, 165_536, 999_999, 1_000_000] {
            assert_eq!(refusal(&of(taken), &of(large)), Some(35));
            assert_eq!(refusal(&of(large), &of(taken)), Some(35));
            assert_eq!(refusal(&of(large), &of(large)), Some(35));
        }
    }
    // Obligors, be they defaults or survivors, in one grade or in forty, with and without empty ones.
    for (rows_of_most, rows_of_more) in [
        (vec![(100_000, 1)], vec![(100_001, 1)]),
        (vec![(100_000, 99_999)], vec![(100_001, 100_000)]),
        (vec![(2_500, 7); 40], {
            let mut more = vec![(2_500, 7); 40];
            more[39] = (2_501, 7);
            more
        }),
        (
            vec![(0, 0), (50_000, 1), (0, 0), (50_000, 50_000)],
            vec![(0, 0), (50_001, 1), (0, 0), (50_000, 50_000)],
        ),
    ] {
        let (most, more) = (rows(&rows_of_most), rows(&rows_of_more));
        assert_eq!(refusal(&most, &rows(&A)), None);
        assert_eq!(refusal(&rows(&A), &most), None);
        assert_eq!(refusal(&most, &most), None);
        assert_eq!(refusal(&more, &rows(&A)), Some(35));
        assert_eq!(refusal(&rows(&A), &more), Some(35));
        assert_eq!(refusal(&more, &most), Some(35));
        assert_eq!(refusal(&most, &more), Some(35));
    }
}

/// "tests 22, 23 and 24 as the first does. A larger table is refused with 35 after 24". A row for
/// what is in place 1, a column for place 2: nothing, only survivors, only defaults, 100,001
/// obligors, 100,001 survivors, 100,001 defaults, A.
#[test]
fn refusals_stand_in_order_for_either_place() {
    let tables = [
        None,
        Some(rows(&[(3, 0)])),
        Some(rows(&[(3, 3)])),
        Some(rows(&[(100_001, 1)])),
        Some(rows(&[(100_001, 0)])),
        Some(rows(&[(100_001, 100_001)])),
        Some(rows(&A)),
    ];
    let expected = [
        [22, 22, 22, 22, 22, 22, 22],
        [22, 23, 23, 23, 23, 23, 23],
        [22, 23, 24, 24, 23, 24, 24],
        [22, 23, 24, 35, 23, 24, 35],
        [22, 23, 23, 23, 23, 23, 23],
        [22, 23, 24, 24, 23, 24, 24],
        [22, 23, 24, 35, 23, 24, 0],
    ];
    for (first, numbers) in tables.iter().zip(expected) {
        for (second, number) in tables.iter().zip(numbers) {
            let answer = answer([first.as_ref(), second.as_ref()]);
            assert_eq!(answer.err().unwrap_or(0), number, "{first:?} {second:?}");
        }
    }
}

/// "25 has no use here", and 35 none in the first comparison.
#[test]
fn other_totals_are_taken_and_the_first_comparison_is_as_it_was() {
    for (other, number) in [
        (vec![(10, 1), (10, 4)], None),
        (vec![(10, 1), (11, 5)], Some(25)),
        (vec![(10, 1), (11, 4)], Some(25)),
        (vec![(10, 1), (10, 5)], Some(25)),
        (vec![(29, 2), (26, 8)], Some(25)),
    ] {
        let (a, other) = (rows(&A), rows(&other));
        let desk = desk_with([Some(&a), Some(&other)]);
        assert_eq!(desk.compare().err(), number, "{other:?}");
        assert_eq!(refusal(&a, &other), None, "{other:?}");
    }
    let large = rows(&[(600_000, 1), (400_000, 2)]);
    let desk = desk_with([Some(&large), Some(&large)]);
    assert_eq!(desk.compare(), Ok(Verdict::Equal));
    assert_eq!(desk.compare_shares(), Err(35));
    let other = rows(&[(600_000, 1), (300_000, 2)]);
    let desk = desk_with([Some(&large), Some(&other)]);
    assert_eq!(desk.compare(), Err(25));
    assert_eq!(desk.compare_shares(), Err(35));
}

/// Empty grades and announced rates have no part in it.
#[test]
fn empty_grades_and_announced_rates_do_not_count() {
    let with_empty = rows(&[(0, 0), (10, 1), (0, 0), (0, 0), (10, 4), (0, 0)]);
    let mut announced = with_empty.clone();
    announced.announce(&[0, 5, 5, 9, 800_000, 1_000_000]);
    for table in [&with_empty, &announced] {
        assert_eq!(kind(table, &rows(&A)), "equal");
        assert_eq!(kind(table, &rows(&B)), "first");
        assert_eq!(kind(table, &rows(&C)), "crossing");
    }
}

#[test]
fn operation_10_has_no_operands() {
    assert_eq!(Call::CompareShares.encode(), [10, 0, 0, 0]);
    let numbers = |numbers: &[u32]| -> Vec<u8> {
        let bytes = numbers.iter().flat_map(|number| number.to_le_bytes());
        bytes.collect()
    };
    let both = vec![Call::CompareShares, Call::Compare];
    assert_eq!(decode(&numbers(&[10, 5])), (both.clone(), false));
    assert_eq!(decode(&numbers(&[10, 5, 12, 5])), (both, true));
    assert_eq!(decode(&numbers(&[256 + 10])), (vec![], true));
    assert_eq!(decode(&[10, 0, 0]), (vec![], true));
}

#[test]
fn lines_are_those_of_compare() {
    let line = |tables: [&[(u64, u64)]; 2]| {
        let tables = tables.map(rows);
        let mut desk = desk_with([Some(&tables[0]), Some(&tables[1])]);
        desk.call(&Call::CompareShares).line()
    };
    let is = |line: String, start: &str, prices: usize| {
        let rest = line.strip_prefix(start).map(|rest| rest.split(' '));
        let prices_in_line = rest.map(|words| words.skip(1).map(str::parse::<u32>));
        let found = prices_in_line.and_then(|words| words.collect::<Result<Vec<_>, _>>().ok());
        found.is_some_and(|found| found.len() == prices)
    };
    assert_eq!(line([&A, &A]), "compare_shares ok equal");
    assert!(is(line([&A, &B]), "compare_shares ok first", 2));
    assert!(is(line([&B, &A]), "compare_shares ok second", 2));
    assert!(is(line([&A, &C]), "compare_shares ok crossing", 4));
    assert_eq!(line([&A, &[(1, 0)]]), "compare_shares refused 23");
    assert_eq!(line([&[(1, 1)], &A]), "compare_shares refused 24");
    assert_eq!(line([&A, &[(100_001, 1)]]), "compare_shares refused 35");
    let line = Desk::fresh().call(&Call::CompareShares).line();
    assert_eq!(line, "compare_shares refused 22");
}
