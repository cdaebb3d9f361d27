//! Document 02, R-6: scales over different books, compared on shares. The prices that a verdict
//! carries are held to what they cost by definition, in whole numbers.

mod common;

use common::{Rows, desk_with};
use desk::{
    MAX_OBLIGORS, MAX_OBLIGORS_ON_SHARES, MAX_PRICE, MAX_PRICE_ON_SHARES, Place, Price, Refusal,
    Verdict,
};

const COARSE: Rows = &[(3, 1), (3, 2)];
const COARSE_TWICE: Rows = &[(6, 2), (6, 4)];
const FINE: Rows = &[(2, 0), (2, 1), (2, 2)];
const WORST_APART: Rows = &[(5, 2), (1, 1)];
const BEST_APART_TWICE: Rows = &[(4, 0), (8, 6)];
/// Two curves that cross, of 50,000 defaults each, 50,000 and 49,999 survivors.
const STEEP: Rows = &[(43_100, 100), (56_900, 49_900)];
const SHALLOW: Rows = &[(69_000, 20_000), (30_999, 30_000)];

/// D and S.
fn totals(rows: Rows) -> (u128, u128) {
    let defaults: u32 = rows.iter().map(|row| row.1).sum();
    let obligors: u32 = rows.iter().map(|row| row.0).sum();
    (defaults.into(), (obligors - defaults).into())
}

/// What the cheapest cutoff costs on shares, u(D - y)/D + vx/S, as a numerator over DS.
fn cost(rows: Rows, price: Price) -> u128 {
    let (defaults, survivors) = totals(rows);
    let costs = (0..=rows.len()).map(|kept| {
        let (missed, accepted) = totals(&rows[..kept]);
        let turned_away = survivors - accepted;
        u128::from(price.u) * missed * survivors + u128::from(price.v) * turned_away * defaults
    });
    costs.min().expect("a cutoff that turns away nobody")
}

/// Whether one scale costs more than another at these prices, which are as high as said at most.
fn dearer(one: Rows, other: Rows, price: Price) -> bool {
    let whole = |rows: Rows| totals(rows).0 * totals(rows).1;
    price.u.max(price.v) <= MAX_PRICE_ON_SHARES
        && cost(one, price) * whole(other) > cost(other, price) * whole(one)
}

/// The verdict on shares: its prices show it, and with the places exchanged it is the other's. By
/// counts it is the same, or, where D or S differ, none.
fn verdict(first: Rows, second: Rows) -> Verdict {
    let desk = desk_with(Some(first), Some(second));
    let found = desk.compare_shares().expect("two books");
    let (first_dearer, second_dearer) = (found.first_dearer(), found.second_dearer());
    assert!(first_dearer.is_none_or(|price| dearer(first, second, price)));
    assert!(second_dearer.is_none_or(|price| dearer(second, first, price)));
    let at_least_as_good = |verdict: Verdict| {
        let first = verdict.first_at_least_as_good();
        (first, verdict.second_at_least_as_good())
    };
    let expected = at_least_as_good(found);
    let exchanged = desk_with(Some(second), Some(first)).compare_shares();
    let exchanged = exchanged.map(at_least_as_good);
    assert_eq!(exchanged, Ok((expected.1, expected.0)), "{first:?}");
    let by_counts = desk.compare().map(at_least_as_good);
    if totals(first) == totals(second) {
        assert_eq!(by_counts, Ok(expected), "{first:?} {second:?}");
    } else {
        assert_eq!(by_counts, Err(Refusal::Unlike), "{first:?} {second:?}");
    }
    found
}

fn refusal(first: Rows, second: Rows) -> Result<(), Refusal> {
    desk_with(Some(first), Some(second))
        .compare_shares()
        .map(drop)
}

#[test]
fn worked_verdicts() {
    assert_eq!(verdict(COARSE, COARSE_TWICE), Verdict::Equal);
    assert!(matches!(verdict(FINE, COARSE_TWICE), Verdict::First { .. }));
    assert!(matches!(
        verdict(COARSE_TWICE, FINE),
        Verdict::Second { .. }
    ));
    let crossing = verdict(WORST_APART, BEST_APART_TWICE);
    assert!(matches!(crossing, Verdict::Crossing { .. }));
}

/// Two of three defaults missed at 1, and at 3 a third of the survivors turned away.
#[test]
fn worked_costs() {
    let price = Price { u: 1, v: 3 };
    assert_eq!(cost(WORST_APART, price), 6, "of 9");
    assert_eq!(cost(BEST_APART_TWICE, price), 36, "of 36");
    assert!(dearer(BEST_APART_TWICE, WORST_APART, price));
    assert!(dearer(WORST_APART, BEST_APART_TWICE, Price { u: 1, v: 1 }));
}

#[test]
fn equal_totals_have_the_verdict_by_counts() {
    let bests: Rows = &[(2, 0), (4, 3)];
    let with_empty: Rows = &[(0, 0), (5, 2), (0, 0), (1, 1)];
    assert!(matches!(verdict(FINE, COARSE), Verdict::First { .. }));
    assert!(matches!(
        verdict(WORST_APART, bests),
        Verdict::Crossing { .. }
    ));
    assert_eq!(verdict(WORST_APART, with_empty), Verdict::Equal);
    assert_eq!(verdict(STEEP, STEEP), Verdict::Equal);
}

/// Shares of defaults and of survivors count apart, each in a book of its own size.
#[test]
fn one_factor_for_defaults_and_another_for_survivors() {
    for (by_defaults, by_survivors) in [(1, 7), (900, 1), (50, 1_000), (16_000, 16_000)] {
        let row = |&(obligors, defaults): &(u32, u32)| {
            let (more, rest) = (by_defaults * defaults, obligors - defaults);
            (more + by_survivors * rest, more)
        };
        let times = |rows: Rows| rows.iter().map(row).collect::<Vec<(u32, u32)>>();
        assert_eq!(verdict(COARSE, &times(COARSE)), Verdict::Equal);
        let found = verdict(&times(FINE), COARSE);
        assert!(matches!(found, Verdict::First { .. }), "{found}");
    }
}

/// Where a signed number of 32 bits would be negative. Which prices show a verdict is the library's
/// choice, and of these tables it takes such high ones: break-even prices as they are, not reduced.
#[test]
fn prices_above_2_to_the_31() {
    const SIGNED: u32 = u32::MAX / 2;
    let found = verdict(STEEP, SHALLOW);
    let Verdict::Crossing {
        first_dearer,
        second_dearer,
    } = found
    else {
        panic!("{found:?}");
    };
    assert!(first_dearer.v > SIGNED && second_dearer.u > SIGNED);
    let found = verdict(
        &[(50_001, 1), (49_999, 49_999)],
        &[(99_999, 49_999), (1, 1)],
    );
    let Verdict::First { second_dearer } = found else {
        panic!("{found:?}");
    };
    assert!(second_dearer.u > SIGNED && second_dearer.v > SIGNED);
}

/// The second curve is above the first by so little that no prices below 277,722,223 show it.
#[test]
fn prices_that_the_first_comparison_does_not_reach() {
    let flat: Rows = &[(6, 3), (99_987, 49_995)];
    let corner_above: Rows = &[(18, 9), (99_981, 49_991)];
    let price = verdict(flat, corner_above).first_dearer().expect("a pair");
    assert!(price.u >= 277_722_223 && price.v >= 277_722_223);
    assert!(price.u > MAX_PRICE);
    let desk = desk_with(Some(flat), Some(corner_above));
    for place in [Place::First, Place::Second] {
        assert_eq!(desk.cheapest(place, price), Err(Refusal::Price));
    }
}

#[test]
fn tables_of_100_000_obligors_at_most() {
    let most = MAX_OBLIGORS_ON_SHARES;
    let spread_out: Rows = &[(60_000, 1), (0, 0), (40_000, 2)];
    for taken in [&[(most, 1)], &[(most, most - 1)], spread_out] {
        assert_eq!(refusal(taken, COARSE), Ok(()));
        assert_eq!(refusal(COARSE, taken), Ok(()));
        assert_eq!(refusal(taken, taken), Ok(()));
    }
    let one_more: Rows = &[(60_000, 1), (0, 0), (40_001, 2)];
    for larger in [&[(most + 1, 1)], &[(MAX_OBLIGORS, 1)], one_more] {
        for (first, second) in [(larger, COARSE), (COARSE, larger), (larger, larger)] {
            assert_eq!(refusal(first, second), Err(Refusal::LargeTable));
        }
        // 24 and 23 of the other place come before it.
        for (other, expected) in [
            ((2, 2), Refusal::NoSurvivors),
            ((2, 0), Refusal::NoDefaults),
        ] {
            assert_eq!(refusal(larger, &[other]), Err(expected));
            assert_eq!(refusal(&[other], larger), Err(expected));
        }
        let compared = desk_with(Some(larger), Some(larger)).compare();
        assert_eq!(compared, Ok(Verdict::Equal), "by counts it is taken");
    }
}

#[test]
fn an_empty_place_comes_first_then_no_defaults() {
    let larger: Rows = &[(MAX_OBLIGORS_ON_SHARES + 1, 0)];
    for (first, second) in [
        (None, None),
        (None, Some(COARSE)),
        (Some(COARSE), None),
        (Some(larger), None),
        (None, Some(larger)),
    ] {
        let compared = desk_with(first, second).compare_shares();
        assert_eq!(compared, Err(Refusal::Empty));
    }
    assert_eq!(refusal(larger, &[(2, 2)]), Err(Refusal::NoDefaults));
    assert_eq!(refusal(&[(2, 2)], larger), Err(Refusal::NoDefaults));
}
