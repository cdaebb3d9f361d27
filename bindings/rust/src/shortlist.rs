//! The shortlist of a whole book.

use crate::RATERS;
use crate::desk::answered;
use crate::refusal::Refusal;
use crate::sys;

/// The raters of a book, counted from 1, for which no other rater of the book is better, in book
/// order. Better means at least as good, as [`Desk::compare`](crate::Desk::compare) has it, and not
/// the reverse. Of raters that are equal, all are listed or none. Every rater that is not listed is
/// beaten by a listed one, and the comparison of the two has prices that show it; so at least one is
/// listed.
///
/// ```
/// use desk::{Refusal, Table};
///
/// let coarse = Table::by_obligors().grades([(3, 1, 333_333), (3, 2, 666_667)]);
/// let fine = Table::by_obligors().grades([(2, 0, 0), (2, 1, 500_000), (2, 2, 1_000_000)]);
/// let same = Table::by_survivors().grades([(2, 0, 0), (1, 1, 500_000), (0, 2, 1_000_000)]);
/// let book = Table::book(&[coarse, fine.clone(), same])?;
/// assert_eq!(desk::shortlist(&book)?, [2, 3]);
///
/// let one_default_less = Table::by_obligors().grade(6, 2, 0);
/// let unlike = Table::book(&[fine, one_default_less])?;
/// assert_eq!(desk::shortlist(&unlike), Err(Refusal::Unlike));
/// # Ok::<(), desk::Refusal>(())
/// ```
///
/// # Errors
///
/// As [`shortlist_into`], but for its last.
pub fn shortlist(book: &[u8]) -> Result<Vec<u32>, Refusal> {
    let mut numbers = vec![0; RATERS];
    let listed = shortlist_into(book, &mut numbers)?;
    numbers.truncate(listed);
    Ok(numbers)
}

/// The same in memory that is lent, with how many are listed. Further numbers are kept. As many are
/// needed as the book has raters, however few are listed; [`RATERS`] are enough for any book.
///
/// ```
/// use desk::{Refusal, Table};
///
/// let coarse = Table::by_obligors().grades([(3, 1, 333_333), (3, 2, 666_667)]);
/// let fine = Table::by_obligors().grades([(2, 0, 0), (2, 1, 500_000), (2, 2, 1_000_000)]);
/// let book = Table::book(&[coarse, fine])?;
/// let mut numbers = [7; 3];
/// assert_eq!(desk::shortlist_into(&book, &mut numbers), Ok(1));
/// assert_eq!(numbers, [2, 7, 7]);
/// assert_eq!(desk::shortlist_into(&book, &mut numbers[..1]), Err(Refusal::Buffer));
/// # Ok::<(), desk::Refusal>(())
/// ```
///
/// # Errors
///
/// 2 ([`Refusal::Length`]), 3 ([`Refusal::Raters`]); then table by table 31 ([`Refusal::TableStart`]),
/// 32 ([`Refusal::TableEnd`]) of its header, 6 ([`Refusal::Grades`]), 7 ([`Refusal::Kind`]),
/// 32 ([`Refusal::TableEnd`]) of its rows; then 33 ([`Refusal::Leftover`]); then rater by rater: row
/// by row 8 ([`Refusal::Defaults`]), 10 ([`Refusal::Announced`]), 34 ([`Refusal::FallingRate`]), then
/// 9 ([`Refusal::NoObligors`]) where all rows are empty, 11 ([`Refusal::Obligors`]); then
/// 23 ([`Refusal::NoDefaults`]) for any rater, 24 ([`Refusal::NoSurvivors`]) for any,
/// 25 ([`Refusal::Unlike`]) between any two, 13 ([`Refusal::Buffer`]).
pub fn shortlist_into(book: &[u8], numbers: &mut [u32]) -> Result<usize, Refusal> {
    answered(|listed| sys::shortlist(book, numbers, listed))
}
