//! The two places.

use crate::refusal::Refusal;
use crate::text::pad;
use std::fmt;

/// A place of a desk. Of two compared scales the first is the one in the first place.
///
/// ```
/// use desk::{Place, Refusal};
///
/// assert_eq!(Place::try_from(2), Ok(Place::Second));
/// assert_eq!(Place::try_from(3), Err(Refusal::Place));
/// assert_eq!(u32::from(Place::First), 1);
/// assert_eq!(Place::First.to_string(), "place 1");
/// ```
#[derive(Clone, Copy, Debug, PartialEq, Eq, PartialOrd, Ord, Hash)]
pub enum Place {
    /// Place 1.
    First = 1,
    /// Place 2.
    Second = 2,
}

impl From<Place> for u32 {
    fn from(place: Place) -> u32 {
        place as u32
    }
}

/// Refuses 1 ([`Refusal::Place`]) for what is not 1 or 2.
impl TryFrom<u32> for Place {
    type Error = Refusal;

    fn try_from(number: u32) -> Result<Place, Refusal> {
        match number {
            1 => Ok(Place::First),
            2 => Ok(Place::Second),
            _ => Err(Refusal::Place),
        }
    }
}

/// `place 1` or `place 2`.
impl fmt::Display for Place {
    fn fmt(&self, out: &mut fmt::Formatter) -> fmt::Result {
        pad(out, &format!("place {}", u32::from(*self)))
    }
}
