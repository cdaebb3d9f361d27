//! Fractions are ordered by value, and equality, order and hash agree.

use desk::Fraction;
use std::cmp::Ordering;
use std::collections::HashSet;
use std::hash::{DefaultHasher, Hash, Hasher};

fn fraction(numerator: i64, denominator: i64) -> Fraction {
    Fraction::new(numerator, denominator).expect("a positive denominator")
}

fn hash(fraction: Fraction) -> u64 {
    let mut hasher = DefaultHasher::new();
    fraction.hash(&mut hasher);
    hasher.finish()
}

/// Every fraction of small numbers, with its value in sixtieths.
fn small() -> Vec<(Fraction, i64)> {
    let of = |denominator| (-5..=5).map(move |numerator| (numerator, denominator));
    let written = (1..=6).flat_map(of);
    let valued = |(numerator, denominator)| {
        let sixtieths = numerator * (60 / denominator);
        (fraction(numerator, denominator), sixtieths)
    };
    written.map(valued).collect()
}

/// In ascending order of value, those of one value in one list.
fn extreme() -> Vec<Vec<Fraction>> {
    const LEAST: i64 = i64::MIN;
    const MOST: i64 = i64::MAX;
    let lists: [&[(i64, i64)]; 11] = [
        &[(LEAST, 1)],
        &[(LEAST + 1, 1)],
        &[(LEAST, 2), (LEAST / 2, 1)],
        &[(LEAST, MOST)],
        &[(-1, 1), (-MOST, MOST)],
        &[(-1, MOST)],
        &[(0, MOST), (0, 1)],
        &[(1, MOST)],
        &[(MOST - 2, MOST - 1)],
        &[(MOST - 1, MOST)],
        &[(MOST, MOST), (1, 1), (MOST - 1, MOST - 1)],
    ];
    let mut lists: Vec<Vec<Fraction>> = lists
        .iter()
        .map(|list| list.iter().map(|&(n, d)| fraction(n, d)).collect())
        .collect();
    lists.push(vec![fraction(MOST, MOST - 1)]);
    lists.push(vec![fraction(MOST, 1)]);
    lists
}

/// Sees two fractions compare as expected, by every way to compare them.
fn compares(one: Fraction, other: Fraction, expected: Ordering) {
    let both = format!("{one:?} {other:?}");
    assert_eq!(one.cmp(&other), expected, "{both}");
    assert_eq!(one.partial_cmp(&other), Some(expected), "{both}");
    assert_eq!(one == other, expected.is_eq(), "{both}");
    assert_eq!(one != other, expected.is_ne(), "{both}");
    assert_eq!(one < other, expected.is_lt(), "{both}");
    if expected.is_eq() {
        assert_eq!(hash(one), hash(other), "{both}");
    }
}

#[test]
fn small_fractions_are_ordered_by_value() {
    for (one, value) in small() {
        for (other, other_value) in small() {
            compares(one, other, value.cmp(&other_value));
        }
    }
}

#[test]
fn the_laws_of_an_order_hold() {
    let small: Vec<Fraction> = small().into_iter().map(|(fraction, _)| fraction).collect();
    for &a in &small {
        assert!(a == a && a <= a, "{a:?}");
        for &b in &small {
            assert_eq!(a.cmp(&b), b.cmp(&a).reverse(), "{a:?} {b:?}");
            let above = small.iter().filter(|&&c| a <= b && b <= c);
            above.for_each(|&c| assert!(a <= c, "{a:?} {b:?} {c:?}"));
        }
    }
}

#[test]
fn equal_fractions_are_one_key() {
    let values: HashSet<i64> = small().into_iter().map(|(_, value)| value).collect();
    let fractions: HashSet<Fraction> = small().into_iter().map(|(fraction, _)| fraction).collect();
    assert_eq!(fractions.len(), values.len());
    let hashes: HashSet<u64> = fractions.into_iter().map(hash).collect();
    assert_eq!(hashes.len(), values.len());
}

#[test]
fn the_largest_numbers_do_not_overflow() {
    let lists = extreme();
    for (rank, list) in lists.iter().enumerate() {
        for (other_rank, others) in lists.iter().enumerate() {
            for &one in list {
                for &other in others {
                    compares(one, other, rank.cmp(&other_rank));
                }
            }
        }
    }
}

#[test]
fn what_was_written_stays() {
    let gini = fraction(2050, 2500);
    assert_eq!((gini.numerator(), gini.denominator()), (2050, 2500));
    assert_eq!(gini.written(), (2050, 2500));
    assert_eq!(
        format!("{gini:?}"),
        "Fraction { numerator: 2050, denominator: 2500 }"
    );
    assert_eq!(Fraction::default().written(), (0, 1));
}

#[test]
fn only_a_positive_denominator_makes_a_fraction() {
    for denominator in [0, -1, i64::MIN] {
        assert!(Fraction::new(1, denominator).is_none());
    }
    assert!(Fraction::new(i64::MIN, 1).is_some());
}

#[test]
fn reduced_is_the_same_value_in_the_smallest_numbers() {
    for (fraction, _) in small() {
        let reduced = fraction.reduced();
        assert_eq!(reduced, fraction);
        let (numerator, denominator) = reduced.written();
        let divides = |by: &i64| numerator % by == 0 && denominator % by == 0;
        assert_eq!((2..=6).find(divides), None, "{fraction:?}");
    }
    let reduced = |n, d| fraction(n, d).reduced().written();
    assert_eq!(reduced(i64::MIN, 1 << 62), (-2, 1));
    assert_eq!(reduced(i64::MIN, i64::MAX), (i64::MIN, i64::MAX));
    assert_eq!(reduced(-i64::MAX, i64::MAX), (-1, 1));
    assert_eq!(reduced(0, i64::MAX), (0, 1));
}

#[test]
#[allow(
    clippy::cast_precision_loss,
    reason = "both are exact as floats, so that dividing them rounds once"
)]
fn a_small_fraction_is_the_quotient_of_floats() {
    for (fraction, _) in small() {
        let quotient = fraction.numerator() as f64 / fraction.denominator() as f64;
        assert_eq!(
            fraction.to_f64().to_bits(),
            (quotient + 0.0).to_bits(),
            "{fraction:?}"
        );
    }
}

/// The standard library reads a decimal as the nearest float: forty digits tell which that is,
/// unless a fraction lies within their error of the middle between two.
#[test]
fn a_large_fraction_is_the_nearest_float() {
    let mut state = 1_u64;
    let mut bits = || {
        state = state
            .wrapping_mul(6_364_136_223_846_793_005)
            .wrapping_add(1_442_695_040_888_963_407);
        i64::from_le_bytes((state ^ state >> 29).to_le_bytes())
    };
    for turn in 0..20_000 {
        let fraction = fraction(
            bits() >> (turn % 60),
            (bits() & i64::MAX) >> (turn % 57) | 1,
        );
        let decimal = format!("{fraction:.60}");
        let decimal = decimal.split(' ').next().expect("a word");
        assert_eq!(decimal.parse(), Ok(fraction.to_f64()), "{fraction:?}");
    }
    // The middle between two floats: the even one; a remainder decides it.
    let rounds = |n, d, float: f64| assert_eq!(fraction(n, d).to_f64().to_bits(), float.to_bits());
    rounds((1 << 54) + 2, 4, 4_503_599_627_370_496.5);
    rounds((1 << 53) + 1, 1, 9_007_199_254_740_992.0);
    rounds((1 << 53) + 3, 1, 9_007_199_254_740_996.0);
    rounds(3 * ((1 << 53) + 1) + 1, 3, 9_007_199_254_740_994.0);
    // Above the middle by 2^-53 of the denominator's reciprocal.
    rounds(
        2_944_064_902_354_560_203,
        1_849_897_281_939_139_295,
        1.591_474_797_599_826_2,
    );
    rounds(
        -3_637_267_013_527_244_192,
        2_241_844_888_877_521_059,
        -1.622_443_654_140_765_9,
    );
    rounds(i64::MIN, i64::MAX, -1.0);
}
