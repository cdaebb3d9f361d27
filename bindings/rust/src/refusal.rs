//! The refusals.

use crate::text::pad;
use std::error::Error;
use std::fmt;

macro_rules! refusals {
    ($($name:ident = $number:literal, $meaning:literal;)*) => {
        /// Why a call was refused, with the number for it: the numbers of `REFUSALS.md` (in
        /// `share/doc/desk` where installed, `docs` in the sources).
        ///
        /// ```
        /// use desk::{Desk, Refusal};
        ///
        /// let refused = Desk::empty().compare().expect_err("nothing is loaded");
        /// assert_eq!(refused, Refusal::Empty);
        /// assert_eq!(refused.to_string(), "refused 22: place empty");
        /// ```
        ///
        /// A `main` that returns it prints its name alone, by `Debug`; print it with `{}` for number
        /// and words.
        ///
        /// Refusals are ordered by number. The numbers of `include/desk.h` convert both ways; 0, which is acceptance there, and a
        /// number that no call answers are no refusals.
        ///
        /// ```
        /// use desk::Refusal;
        ///
        /// assert_eq!(Refusal::try_from(22), Ok(Refusal::Empty));
        /// assert_eq!(u32::from(Refusal::Empty), 22);
        /// let unknown = Refusal::try_from(14).expect_err("no call answers 14");
        /// assert_eq!(unknown.to_string(), "14 is not the number of a refusal");
        /// ```
        #[derive(Clone, Copy, Debug, PartialEq, Eq, PartialOrd, Ord, Hash)]
        #[non_exhaustive]
        pub enum Refusal {
            $(#[doc = concat!($number, ": ", $meaning, ".")] $name = $number,)*
        }

        impl Refusal {
            /// Every refusal, by its number.
            ///
            /// ```
            /// for refusal in desk::Refusal::ALL {
            ///     println!("{} {}", refusal.number(), refusal.meaning());
            /// }
            /// ```
            pub const ALL: &'static [Refusal] = &[$(Refusal::$name),*];

            /// What the refusal means, in words.
            ///
            /// ```
            /// assert_eq!(desk::Refusal::Unlike.meaning(), "D or S differ between the places (D: defaults, S: survivors)");
            /// ```
            #[must_use]
            pub const fn meaning(self) -> &'static str {
                match self {
                    $(Refusal::$name => $meaning,)*
                }
            }
        }
    };
}

refusals! {
    Place = 1, "place is not 1 or 2";
    Length = 2, "book under 4 bytes, or its stated length is not the length lent";
    Raters = 3, "R outside 1 to 16, or the book ends within the offsets (R: number of raters)";
    Rater = 4, "rater outside 1 to R (R: number of raters)";
    Grades = 6, "grade count outside 1 to 40";
    Kind = 7, "kind above 1, or the two bytes after it not zero";
    Defaults = 8, "defaults above obligors (kind 0)";
    NoObligors = 9, "all grades are empty (empty: without obligors)";
    Announced = 10, "announced above 1,000,000";
    Obligors = 11, "N above 1,000,000 (N: obligors of the table)";
    Price = 12, "a price above 1,000,000";
    Buffer = 13, "lent buffer too short";
    Loaded = 21, "place already loaded";
    Empty = 22, "place empty";
    NoDefaults = 23, "no defaults";
    NoSurvivors = 24, "no survivors";
    Unlike = 25, "D or S differ between the places (D: defaults, S: survivors)";
    TableStart = 31, "a table starts elsewhere than where the last one ended";
    TableEnd = 32, "a table runs past the end, in header or rows";
    Leftover = 33, "bytes after the last table";
    FallingRate = 34, "announced rate below that of the row before";
    LargeTable = 35, "N above 100,000 (compare on shares; N: obligors of the table)";
    NoGrade = 36, "grade outside the table";
    NoFirm = 37, "grade without such a firm, or a leaving or removal of the table's last obligor";
    FullTable = 38, "entry beyond 1,000,000 (obligors of the table)";
}

impl Refusal {
    /// Its number.
    ///
    /// ```
    /// assert_eq!(desk::Refusal::Unlike.number(), 25);
    /// ```
    #[must_use]
    pub const fn number(self) -> u32 {
        self as u32
    }
}

impl From<Refusal> for u32 {
    fn from(refusal: Refusal) -> u32 {
        refusal.number()
    }
}

impl TryFrom<u32> for Refusal {
    type Error = UnknownNumber;

    fn try_from(number: u32) -> Result<Refusal, UnknownNumber> {
        let mut all = Refusal::ALL.iter().copied();
        let unknown = UnknownNumber::new(number, "number of a refusal");
        all.find(|refusal| refusal.number() == number)
            .ok_or(unknown)
    }
}

/// The number and what it means: `refused 22: place empty`.
impl fmt::Display for Refusal {
    fn fmt(&self, out: &mut fmt::Formatter) -> fmt::Result {
        pad(
            out,
            &format!("refused {}: {}", self.number(), self.meaning()),
        )
    }
}

impl Error for Refusal {}

/// A number of the C interface that stands for nothing: neither for a refusal nor, where one was
/// asked for, for the kind of a verdict.
///
/// ```
/// use desk::{sys, Refusal, Verdict};
///
/// let unknown = Refusal::try_from(0).expect_err("0 is acceptance");
/// assert_eq!((unknown.number(), unknown.to_string().as_str()), (0, "0 is not the number of a refusal"));
/// let unknown = Verdict::try_from(sys::Verdict { kind: 4, ..Default::default() }).expect_err("kinds are 0 to 3");
/// assert_eq!(unknown.to_string(), "4 is not the kind of a verdict");
/// ```
#[derive(Clone, Copy, Debug, PartialEq, Eq, Hash)]
pub struct UnknownNumber {
    number: u32,
    what: &'static str,
}

impl UnknownNumber {
    pub(crate) const fn new(number: u32, what: &'static str) -> UnknownNumber {
        UnknownNumber { number, what }
    }

    /// The number.
    ///
    /// ```
    /// assert_eq!(desk::Refusal::try_from(99).map_err(|unknown| unknown.number()), Err(99));
    /// ```
    #[must_use]
    pub const fn number(self) -> u32 {
        self.number
    }
}

/// The number and what it is not: `14 is not the number of a refusal`.
impl fmt::Display for UnknownNumber {
    fn fmt(&self, out: &mut fmt::Formatter) -> fmt::Result {
        pad(out, &format!("{} is not the {}", self.number, self.what))
    }
}

impl Error for UnknownNumber {}
