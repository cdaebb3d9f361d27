//! The verdict on two scales.

use crate::answer::Price;
use crate::refusal::UnknownNumber;
use crate::sys;
use crate::text::pad;
use std::fmt;

/// Which of two scales is at least as good: costs no more at its cheapest cutoff, at any prices.
/// Each case carries prices that show it.
///
/// ```
/// use desk::{Desk, Place, Table, Verdict};
///
/// let mut desk = Desk::empty();
/// desk.load_table(Place::First, &Table::by_obligors().grade(3, 0, 0).grade(3, 3, 1_000_000))?;
/// desk.load_table(Place::Second, &Table::by_obligors().grade(6, 3, 500_000))?;
/// let Verdict::First { second_dearer } = desk.compare()? else {
///     panic!("the first scale tells apart what the second does not");
/// };
/// let cost = |place| desk.cheapest(place, second_dearer).map(|cheapest| cheapest.cost);
/// assert!(cost(Place::Second)? > cost(Place::First)?);
/// # Ok::<(), desk::Refusal>(())
/// ```
///
/// A verdict prints in words.
///
/// ```
/// use desk::{Price, Verdict};
///
/// assert_eq!(
///     Verdict::First { second_dearer: Price { u: 500, v: 1000 } }.to_string(),
///     "the first is better than the second: it costs more at no prices, and less at some. \
///      At 1:2 the second costs more."
/// );
/// ```
#[derive(Clone, Copy, Debug, PartialEq, Eq, Hash)]
pub enum Verdict {
    /// Both are.
    Equal,
    /// The first is.
    First {
        /// Prices at which the second costs more.
        second_dearer: Price,
    },
    /// The second is.
    Second {
        /// Prices at which the first costs more.
        first_dearer: Price,
    },
    /// Neither is.
    Crossing {
        /// Prices at which the first costs more.
        first_dearer: Price,
        /// Prices at which the second costs more.
        second_dearer: Price,
    },
}

impl Verdict {
    /// Prices at which the first costs more, where there are any.
    ///
    /// ```
    /// use desk::{Price, Verdict};
    ///
    /// let price = Price { u: 3, v: 2 };
    /// assert_eq!(Verdict::Second { first_dearer: price }.first_dearer(), Some(price));
    /// assert_eq!(Verdict::First { second_dearer: price }.first_dearer(), None);
    /// ```
    #[must_use]
    pub const fn first_dearer(self) -> Option<Price> {
        match self {
            Verdict::Second { first_dearer } | Verdict::Crossing { first_dearer, .. } => {
                Some(first_dearer)
            }
            Verdict::Equal | Verdict::First { .. } => None,
        }
    }

    /// Prices at which the second costs more, where there are any.
    ///
    /// ```
    /// use desk::{Price, Verdict};
    ///
    /// let price = Price { u: 1, v: 3 };
    /// assert_eq!(Verdict::First { second_dearer: price }.second_dearer(), Some(price));
    /// assert_eq!(Verdict::Equal.second_dearer(), None);
    /// ```
    #[must_use]
    pub const fn second_dearer(self) -> Option<Price> {
        match self {
            Verdict::First { second_dearer } | Verdict::Crossing { second_dearer, .. } => {
                Some(second_dearer)
            }
            Verdict::Equal | Verdict::Second { .. } => None,
        }
    }

    /// Whether the first never costs more.
    ///
    /// ```
    /// use desk::{Price, Verdict};
    ///
    /// assert!(Verdict::Equal.first_at_least_as_good());
    /// assert!(!Verdict::Second { first_dearer: Price { u: 3, v: 2 } }.first_at_least_as_good());
    /// ```
    #[must_use]
    pub const fn first_at_least_as_good(self) -> bool {
        self.first_dearer().is_none()
    }

    /// Whether the second never costs more.
    ///
    /// ```
    /// use desk::{Price, Verdict};
    ///
    /// assert!(Verdict::Equal.second_at_least_as_good());
    /// assert!(!Verdict::First { second_dearer: Price { u: 1, v: 3 } }.second_at_least_as_good());
    /// ```
    #[must_use]
    pub const fn second_at_least_as_good(self) -> bool {
        self.second_dearer().is_none()
    }

    fn sentence(self) -> &'static str {
        match self {
            Verdict::Equal => {
                "the first and the second are equal: both cost the same at all prices."
            }
            Verdict::First { .. } => {
                "the first is better than the second: it costs more at no prices, and less at some."
            }
            Verdict::Second { .. } => {
                "the second is better than the first: it costs more at no prices, and less at some."
            }
            Verdict::Crossing { .. } => {
                "the first and the second cross: neither is better, each costs less than the other at some prices."
            }
        }
    }
}

/// Takes only the prices that the kind has; a kind above 3 is unknown.
impl TryFrom<sys::Verdict> for Verdict {
    type Error = UnknownNumber;

    fn try_from(verdict: sys::Verdict) -> Result<Verdict, UnknownNumber> {
        let sys::Verdict {
            kind,
            first_dearer,
            second_dearer,
        } = verdict;
        match kind {
            0 => Ok(Verdict::Equal),
            1 => Ok(Verdict::First { second_dearer }),
            2 => Ok(Verdict::Second { first_dearer }),
            3 => Ok(Verdict::Crossing {
                first_dearer,
                second_dearer,
            }),
            _ => Err(UnknownNumber::new(kind, "kind of a verdict")),
        }
    }
}

/// In words, with the prices that show it as reduced ratios u:v.
impl fmt::Display for Verdict {
    fn fmt(&self, out: &mut fmt::Formatter) -> fmt::Result {
        let shown = |name: &str, dearer: Option<Price>| match dearer {
            Some(price) => format!(" At {} {name} costs more.", price.reduced()),
            None => String::new(),
        };
        let first = shown("the first", self.first_dearer());
        let second = shown("the second", self.second_dearer());
        pad(out, &[self.sentence(), &first, &second].concat())
    }
}
