//! What the calls answer, laid out in memory as in `include/desk.h`, and how it prints.

use crate::fraction::{Fraction, PLACES, common_divisor};
use crate::text::pad;
use std::fmt;

/// What a missed default (u) and a survivor turned away (v) cost; on shares, all defaults missed and
/// all survivors turned away. Only their ratio matters for which scale is better.
///
/// ```
/// use desk::Price;
///
/// assert_eq!(Price { u: 3, v: 2 }.to_string(), "3:2");
/// ```
#[repr(C)]
#[derive(Clone, Copy, Debug, Default, PartialEq, Eq, Hash)]
pub struct Price {
    /// Of a missed default; on shares, of missing all.
    pub u: u32,
    /// Of a survivor turned away; on shares, of turning away all.
    pub v: u32,
}

impl Price {
    /// The same price ratio in the smallest numbers.
    ///
    /// ```
    /// use desk::Price;
    ///
    /// assert_eq!(Price { u: 6, v: 4 }.reduced(), Price { u: 3, v: 2 });
    /// assert_eq!(Price { u: 0, v: 0 }.reduced(), Price { u: 0, v: 0 });
    /// ```
    #[must_use]
    pub fn reduced(self) -> Price {
        let divisor = common_divisor(self.u, self.v).max(1);
        Price {
            u: self.u / divisor,
            v: self.v / divisor,
        }
    }
}

/// The ratio, as given: `3:2`.
impl fmt::Display for Price {
    fn fmt(&self, out: &mut fmt::Formatter) -> fmt::Result {
        pad(out, &format!("{}:{}", self.u, self.v))
    }
}

/// A cutoff with its cost.
///
/// ```
/// use desk::Cutoff;
///
/// assert_eq!(Cutoff { cutoff: 1, cost: 2 }.to_string(), "cutoff 1, cost 2");
/// ```
#[repr(C)]
#[derive(Clone, Copy, Debug, Default, PartialEq, Eq, Hash)]
pub struct Cutoff {
    /// How many of the worst grades are turned away, empty ones among them.
    pub cutoff: i64,
    /// u for each default not caught, v for each survivor turned away.
    pub cost: i64,
}

/// `cutoff 1, cost 2`.
impl fmt::Display for Cutoff {
    fn fmt(&self, out: &mut fmt::Formatter) -> fmt::Result {
        pad(out, &format!("cutoff {}, cost {}", self.cutoff, self.cost))
    }
}

/// How well a scale tells defaulted from surviving obligors.
///
/// ```
/// use desk::{Desk, Place, Table};
///
/// let mut desk = Desk::empty();
/// desk.load_table(Place::First, &Table::by_obligors().grade(5, 2, 400_000).grade(1, 1, 1_000_000))?;
/// let measures = desk.measures(Place::First)?;
/// assert_eq!(
///     format!("{measures:.2}"),
///     "Gini 0.33 (3/9), ROC area 0.67 (12/18), CAP area 0.58 (21/36), Pietra 0.33 (3/9) at cutoff 1; \
///      3 defaults, 3 survivors"
/// );
/// # Ok::<(), desk::Refusal>(())
/// ```
#[repr(C)]
#[derive(Clone, Copy, Debug, Default, PartialEq, Eq, Hash)]
pub struct Measures {
    /// D, at least 1.
    pub defaults: i64,
    /// S, at least 1.
    pub survivors: i64,
    /// The accuracy ratio: negative for a scale that is upside down.
    pub gini: Fraction,
    /// The area under the ROC curve.
    pub roc: Fraction,
    /// The area under the CAP curve.
    pub cap: Fraction,
    /// How far the ROC curve gets from the diagonal, over all cutoffs: its height above the diagonal
    /// where that is of largest absolute size, negative below it, as for a scale that is upside down.
    pub pietra: Fraction,
    /// The smallest cutoff at which it gets so far, on either side; it decides the sign.
    pub cutoff: i64,
}

/// All of them in one line, the fractions to as many places as the precision says.
impl fmt::Display for Measures {
    fn fmt(&self, out: &mut fmt::Formatter) -> fmt::Result {
        let places = out.precision().unwrap_or(PLACES);
        let [gini, roc, cap, pietra] = [self.gini, self.roc, self.cap, self.pietra]
            .map(|measure| format!("{measure:.places$}"));
        let curves = format!("Gini {gini}, ROC area {roc}, CAP area {cap}, Pietra {pietra}");
        let (cutoff, defaults, survivors) = (self.cutoff, self.defaults, self.survivors);
        let counts = format!("{defaults} defaults, {survivors} survivors");
        pad(out, &format!("{curves} at cutoff {cutoff}; {counts}"))
    }
}

/// How far the outcomes spread around their rates, summed over obligors.
///
/// ```
/// use desk::Spread;
///
/// let spread = Spread { total: 1.5, residual: 1.2 };
/// assert_eq!(spread.to_string(), "1.5 in all, 1.2 within the blocks");
/// ```
#[repr(C)]
#[derive(Clone, Copy, Debug, Default, PartialEq)]
pub struct Spread {
    /// DS/N, within 1/2^36.
    pub total: f64,
    /// The sum over blocks of block defaults times block survivors over block obligors, within 1/2^29.
    pub residual: f64,
}

/// Both numbers, to as many places as a precision says, else with all their digits.
impl fmt::Display for Spread {
    fn fmt(&self, out: &mut fmt::Formatter) -> fmt::Result {
        let [total, residual] = [self.total, self.residual].map(|number| match out.precision() {
            Some(places) => format!("{number:.places$}"),
            None => number.to_string(),
        });
        pad(
            out,
            &format!("{total} in all, {residual} within the blocks"),
        )
    }
}

/// A grade of a loaded table.
///
/// ```
/// use desk::Grade;
///
/// let grade = Grade { obligors: 4, defaults: 3, announced: 750_000 };
/// assert_eq!(grade.to_string(), "4 obligors = 1 survivors + 3 defaults, announced 750000 ppm");
/// ```
#[derive(Clone, Copy, Debug, PartialEq, Eq, Hash)]
pub struct Grade {
    /// n: the defaulted and the surviving; 0 for an empty grade.
    pub obligors: u32,
    /// d, at most n.
    pub defaults: u32,
    /// The announced default rate in ppm.
    pub announced: u32,
}

impl Grade {
    /// s = n - d; 0 for more defaults than obligors, which no loaded grade has.
    ///
    /// ```
    /// use desk::Grade;
    ///
    /// assert_eq!(Grade { obligors: 4, defaults: 3, announced: 750_000 }.survivors(), 1);
    /// ```
    #[must_use]
    pub const fn survivors(self) -> u32 {
        self.obligors.saturating_sub(self.defaults)
    }

    /// d/n: the default rate that was observed. An empty grade has none, which is another thing than
    /// a rate of 0; [`Desk::pool`](crate::Desk::pool) repeats for it the numbers of an occupied one.
    ///
    /// ```
    /// use desk::{Fraction, Grade};
    ///
    /// let grade = |obligors, defaults| Grade { obligors, defaults, announced: 750_000 };
    /// assert_eq!(grade(4, 3).rate().map(Fraction::written), Some((3, 4)));
    /// assert_eq!(grade(4, 0).rate().map(Fraction::written), Some((0, 4)));
    /// assert_eq!(grade(0, 0).rate(), None);
    /// ```
    #[must_use]
    pub fn rate(self) -> Option<Fraction> {
        Fraction::new(self.defaults.into(), self.obligors.into())
    }
}

/// `4 obligors = 1 survivors + 3 defaults, announced 750000 ppm`.
impl fmt::Display for Grade {
    fn fmt(&self, out: &mut fmt::Formatter) -> fmt::Result {
        let (obligors, survivors, defaults) = (self.obligors, self.survivors(), self.defaults);
        let counts = format!("{obligors} obligors = {survivors} survivors + {defaults} defaults");
        pad(out, &format!("{counts}, announced {} ppm", self.announced))
    }
}

/// The block of neighbouring grades that pooling puts a grade into, and the band of its rate; for an
/// empty grade, which is in none, those of the next better occupied grade, or of the best occupied
/// one if none is better.
///
/// ```
/// use desk::PooledGrade;
///
/// let pooled = PooledGrade { defaults: 3, obligors: 20, band: 11 };
/// assert_eq!(pooled.to_string(), "0.150000 (3/20), band 11");
/// ```
#[derive(Clone, Copy, Debug, PartialEq, Eq, Hash)]
pub struct PooledGrade {
    /// Defaults of the block.
    pub defaults: u32,
    /// Obligors of the block, at least 1.
    pub obligors: u32,
    /// The smallest b from 0 to 13 with a rate of at most 100 times 2^b ppm; 14 if none.
    pub band: u32,
}

impl PooledGrade {
    /// The default rate of the block, which is the pooled rate of the grade; 0/1 for a block
    /// without obligors, which pooling answers for no grade, empty or not.
    ///
    /// ```
    /// use desk::PooledGrade;
    ///
    /// let pooled = PooledGrade { defaults: 3, obligors: 20, band: 11 };
    /// assert_eq!(pooled.rate().written(), (3, 20));
    /// ```
    #[must_use]
    pub fn rate(self) -> Fraction {
        Fraction::new(self.defaults.into(), self.obligors.into()).unwrap_or_default()
    }
}

/// The rate, to as many places as the precision says, and the band.
impl fmt::Display for PooledGrade {
    fn fmt(&self, out: &mut fmt::Formatter) -> fmt::Result {
        let (rate, places) = (self.rate(), out.precision().unwrap_or(PLACES));
        pad(out, &format!("{rate:.places$}, band {}", self.band))
    }
}
