//! The spread record: two floats near exact fractions. Any answer within the bounds is right, so
//! this file holds both an answer of its own and the exact check of somebody else's.

use crate::natural::Natural;
use crate::pooling::{blocks, Rate};
use crate::table::Table;

/// Total, DS/N, and residual, the sum over blocks of defaults times survivors over obligors.
#[derive(Clone, Copy, Debug, PartialEq)]
pub struct Spread {
    pub total: f64,
    pub residual: f64,
}

/// The total is within 1/2^36, the bound included.
const TOTAL_BITS: u32 = 36;
/// The residual is within 1/2^29, the bound included.
const RESIDUAL_BITS: u32 = 29;

/// An answer of this version's own.
pub fn spread(table: &Table) -> Spread {
    let quotient =
        |rate: &Rate| rate.defaults as f64 * rate.survivors() as f64 / rate.obligors as f64;
    Spread {
        total: quotient(&whole(table)),
        residual: blocks(table)
            .iter()
            .map(|block| quotient(&block.rate))
            .sum(),
    }
}

/// Whether the two floats, given as their 64 bits, are lawful answers for the table.
pub fn lawful(table: &Table, total_bits: u64, residual_bits: u64) -> bool {
    let rates: Vec<Rate> = blocks(table).iter().map(|block| block.rate).collect();
    within(total_bits, &exact_sum(&[whole(table)]), TOTAL_BITS)
        && within(residual_bits, &exact_sum(&rates), RESIDUAL_BITS)
}

fn whole(table: &Table) -> Rate {
    Rate {
        defaults: table.defaults(),
        obligors: table.obligors(),
    }
}

/// A fraction of whole numbers of any size.
struct Exact {
    numerator: Natural,
    denominator: Natural,
}

/// The sum of defaults times survivors over obligors.
fn exact_sum(rates: &[Rate]) -> Exact {
    let mut sum = Exact {
        numerator: Natural::from(0),
        denominator: Natural::from(1),
    };
    for rate in rates {
        let obligors = Natural::from(rate.obligors);
        let product = Natural::from(rate.defaults * rate.survivors());
        let raised = sum.numerator.times(&obligors);
        sum.numerator = raised.add(&product.times(&sum.denominator));
        sum.denominator = sum.denominator.times(&obligors);
    }
    sum
}

/// Whether a float is a finite number, has no minus sign, and is within 1/2^bits of the fraction.
/// With the float being m 2^e: |m 2^e - p/q| <= 1/2^bits, multiplied by q, 2^bits and 2^-e.
fn within(float_bits: u64, exact: &Exact, bits: u32) -> bool {
    let Some((mantissa, exponent)) = parts(float_bits) else {
        return false;
    };
    let up = exponent.max(0) as u32;
    let down = (-exponent).max(0) as u32;
    let float = Natural::from(mantissa)
        .doubled(up)
        .times(&exact.denominator);
    let fraction = exact.numerator.doubled(down);
    float.distance(&fraction).doubled(bits) <= exact.denominator.doubled(down)
}

/// Mantissa m and exponent e of the float m 2^e; none if it is negative (or minus zero), infinite
/// or not a number.
fn parts(float_bits: u64) -> Option<(u64, i32)> {
    let negative = float_bits >> 63 == 1;
    let exponent = (float_bits >> 52 & 0x7ff) as i32;
    let mantissa = float_bits & ((1 << 52) - 1);
    match exponent {
        _ if negative => None,
        0x7ff => None,
        0 => Some((mantissa, -1074)),
        _ => Some((mantissa | 1 << 52, exponent - 1075)),
    }
}

#[cfg(test)]
mod tests {
    use super::*;

    fn half_within(float: f64, bits: u32) -> bool {
        let half = Rate {
            defaults: 1,
            obligors: 2,
        };
        within(float.to_bits(), &exact_sum(&[half]), bits)
    }

    #[test]
    fn the_bound_is_included_and_nothing_beyond_it() {
        for bits in [TOTAL_BITS, RESIDUAL_BITS] {
            let bound = 0.5f64.powi(bits as i32);
            let (high, low) = (0.5 + bound, 0.5 - bound);
            assert!(half_within(0.5, bits) && half_within(high, bits) && half_within(low, bits));
            assert!(!half_within(f64::from_bits(high.to_bits() + 1), bits));
            assert!(!half_within(f64::from_bits(low.to_bits() - 1), bits));
        }
    }

    #[test]
    fn only_finite_numbers_without_a_minus_sign_pass() {
        let nothing = exact_sum(&[]);
        assert!(within(0f64.to_bits(), &nothing, 29));
        assert!(within(1, &nothing, 29));
        for float in [-0.0, f64::NAN, f64::INFINITY, f64::MAX, -1e-300] {
            assert!(!within(float.to_bits(), &nothing, 29), "{float}");
        }
    }

    #[test]
    fn exact_sums_cross_multiply() {
        // 1 * 2 / 3 + 2 * 3 / 5 = 28 / 15
        let rates = [(1, 3), (2, 5)].map(|(defaults, obligors)| Rate { defaults, obligors });
        let sum = exact_sum(&rates);
        assert_eq!((sum.numerator, sum.denominator), (28.into(), 15.into()));
    }
}
