//! Exact fractions.

use crate::text::pad;
use std::cmp::Ordering;
use std::fmt;
use std::hash::{Hash, Hasher};
use std::ops::Rem;

/// An exact fraction, which remembers how it is written: not reduced.
///
/// Fractions are compared by value, so that 2050/2500 equals 41/50; [`written`](Fraction::written)
/// tells them apart. They print as a decimal, six places unless a precision asks for others, and as
/// written: the nearest decimal, of two equally near ones that further from 0.
///
/// ```
/// use desk::Fraction;
///
/// let gini = Fraction::new(2050, 2500).expect("a positive denominator");
/// let reduced = Fraction::new(41, 50).expect("a positive denominator");
/// assert_eq!(gini, reduced);
/// assert_ne!(gini.written(), reduced.written());
/// assert!(gini > Fraction::default(), "the default is 0/1");
/// assert_eq!(gini.to_string(), "0.820000 (2050/2500)");
/// assert_eq!(format!("{gini:.1}"), "0.8 (2050/2500)");
/// ```
#[repr(C)]
#[derive(Clone, Copy, Debug)]
pub struct Fraction {
    numerator: i64,
    denominator: i64, // at least 1
}

impl Fraction {
    /// A fraction as written; none where the denominator is below 1. It is an `Option` since that
    /// is all that can be wrong, and no [`Refusal`](crate::Refusal) says it.
    ///
    /// ```
    /// use desk::Fraction;
    ///
    /// assert_eq!(Fraction::new(-4, 4).map(Fraction::to_f64), Some(-1.0));
    /// assert_eq!(Fraction::new(1, 0), None);
    /// assert_eq!(Fraction::new(1, -4), None);
    /// ```
    #[must_use]
    pub const fn new(numerator: i64, denominator: i64) -> Option<Fraction> {
        if denominator < 1 {
            return None;
        }
        Some(Fraction {
            numerator,
            denominator,
        })
    }

    /// What stands above the line; may be negative.
    ///
    /// ```
    /// use desk::Fraction;
    ///
    /// assert_eq!(Fraction::new(-4, 6).map(Fraction::numerator), Some(-4));
    /// ```
    #[must_use]
    pub const fn numerator(self) -> i64 {
        self.numerator
    }

    /// What stands below the line; at least 1.
    ///
    /// ```
    /// use desk::Fraction;
    ///
    /// assert_eq!(Fraction::new(-4, 6).map(Fraction::denominator), Some(6));
    /// ```
    #[must_use]
    pub const fn denominator(self) -> i64 {
        self.denominator
    }

    /// Numerator and denominator as written; `==` does not tell 2050/2500 from 41/50, these do.
    ///
    /// ```
    /// use desk::Fraction;
    ///
    /// assert_eq!(Fraction::new(2050, 2500).map(Fraction::written), Some((2050, 2500)));
    /// ```
    #[must_use]
    pub const fn written(self) -> (i64, i64) {
        (self.numerator, self.denominator)
    }

    /// The same value in the smallest numbers.
    ///
    /// ```
    /// use desk::Fraction;
    ///
    /// let gini = Fraction::new(2050, 2500).expect("a positive denominator");
    /// assert_eq!(gini.reduced().written(), (41, 50));
    /// assert_eq!(gini.reduced(), gini);
    /// ```
    #[must_use]
    pub fn reduced(self) -> Fraction {
        // It divides the denominator, so neither it nor a quotient leaves the range.
        let divisor = common_divisor(self.denominator, self.numerator).abs();
        Fraction {
            numerator: self.numerator / divisor,
            denominator: self.denominator / divisor,
        }
    }

    /// The nearest `f64`; of two equally near ones the even one, as always with floats.
    ///
    /// ```
    /// use desk::Fraction;
    ///
    /// assert_eq!(Fraction::new(1, 3).map(Fraction::to_f64), Some(1.0 / 3.0));
    /// ```
    #[must_use]
    #[allow(clippy::cast_precision_loss, reason = "this cast is the one rounding")]
    pub fn to_f64(self) -> f64 {
        if self.numerator == 0 {
            return 0.0;
        }
        let above = u128::from(self.numerator.unsigned_abs());
        let below = u128::from(self.denominator.unsigned_abs());
        // Shifted up as far as it goes, above is at least 2^127, so the quotient is at least 2^64:
        // its last bit is far below the 53 that stay, and can say that a remainder is left.
        let shift = above.leading_zeros();
        let shifted = above << shift;
        let quotient = (shifted / below) | u128::from(shifted % below != 0);
        let power = f64::from_bits(u64::from(1023 - shift) << 52); // 2^-shift
        let size = quotient as f64 * power;
        if self.numerator < 0 { -size } else { size }
    }

    /// The nearest decimal with so many places, of two equally near ones that further from 0, and
    /// without a sign where it is 0.
    fn decimal(self, places: usize) -> String {
        let mut digits = Digits::of(self, places);
        if digits.half_or_more_is_left {
            digits.step_up();
        }
        let signed = self.numerator < 0 && digits.units.iter().any(|&digit| digit != 0);
        let point = digits.units.len() - places;
        let mut text = String::from(if signed { "-" } else { "" });
        for (place, digit) in digits.units.iter().enumerate() {
            text.push_str(if place == point { "." } else { "" });
            text.push(char::from(b'0' + digit));
        }
        text
    }
}

/// The decimal digits of a fraction's size, cut off behind so many places.
struct Digits {
    units: Vec<u8>,
    half_or_more_is_left: bool,
}

impl Digits {
    /// By long division, so that any number of places is exact.
    fn of(fraction: Fraction, places: usize) -> Digits {
        let below = u128::from(fraction.denominator.unsigned_abs());
        let above = u128::from(fraction.numerator.unsigned_abs());
        let whole = (above / below).to_string();
        let mut units: Vec<u8> = whole.bytes().map(|digit| digit - b'0').collect();
        let mut rest = above % below;
        for _ in 0..places {
            #[allow(
                clippy::cast_possible_truncation,
                reason = "a digit: the rest is below the divisor, so ten times it is below ten divisors"
            )]
            units.push((10 * rest / below) as u8);
            rest = 10 * rest % below;
        }
        Digits {
            units,
            half_or_more_is_left: 2 * rest >= below,
        }
    }

    /// One more in the last place.
    fn step_up(&mut self) {
        for digit in self.units.iter_mut().rev() {
            if *digit < 9 {
                *digit += 1;
                return;
            }
            *digit = 0;
        }
        self.units.insert(0, 1);
    }
}

/// The greatest number that divides both, or its negative; of 0 and a number, the number.
pub(crate) fn common_divisor<T>(one: T, other: T) -> T
where
    T: Copy + Default + PartialEq + Rem<Output = T>,
{
    if other == T::default() {
        one
    } else {
        common_divisor(other, one % other)
    }
}

/// 0/1.
impl Default for Fraction {
    fn default() -> Fraction {
        Fraction {
            numerator: 0,
            denominator: 1,
        }
    }
}

/// By value.
impl Ord for Fraction {
    fn cmp(&self, other: &Fraction) -> Ordering {
        let [one, two] = [self, other].map(|each| i128::from(each.numerator));
        let [below_one, below_two] = [self, other].map(|each| i128::from(each.denominator));
        (one * below_two).cmp(&(two * below_one))
    }
}

/// By value.
impl PartialOrd for Fraction {
    fn partial_cmp(&self, other: &Fraction) -> Option<Ordering> {
        Some(self.cmp(other))
    }
}

/// By value.
impl PartialEq for Fraction {
    fn eq(&self, other: &Fraction) -> bool {
        self.cmp(other).is_eq()
    }
}

impl Eq for Fraction {}

/// By value.
impl Hash for Fraction {
    fn hash<H: Hasher>(&self, state: &mut H) {
        self.reduced().written().hash(state);
    }
}

/// As a decimal and as written: `0.820000 (2050/2500)`. A precision is the number of places.
impl fmt::Display for Fraction {
    fn fmt(&self, out: &mut fmt::Formatter) -> fmt::Result {
        let decimal = self.decimal(out.precision().unwrap_or(PLACES));
        let (numerator, denominator) = self.written();
        pad(out, &format!("{decimal} ({numerator}/{denominator})"))
    }
}

/// Decimal places where none are asked for.
pub(crate) const PLACES: usize = 6;
