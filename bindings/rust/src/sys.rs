//! The functions of `include/desk.h`, with place numbers and refusal numbers as they are there, and
//! with references and slices for pointers. All but [`version`] return 0 where they accept, and have
//! then written their answer; else the number of a [`Refusal`](crate::Refusal), and have written
//! nothing.
//!
//! They are safe, whatever the numbers: the header asks for pointers that are not null to memory
//! that does not overlap, as references are, and for a desk that `desk_empty` made and only
//! `desk_load`, `desk_clear` and the four events changed, which the private fields of [`Desk`] see to.
//! This is the only file that may hold `unsafe`.
//!
//! ```
//! use desk::{sys, Cutoff, Desk, Table};
//!
//! let book = Table::book(&[Table::by_obligors().grade(5, 2, 400_000).grade(1, 1, 1_000_000)])?;
//! let mut desk = Desk::empty();
//! assert_eq!(sys::load(&mut desk, 1, &book, 1), 0);
//! assert_eq!(sys::load(&mut desk, 3, &book, 1), 1, "place is not 1 or 2");
//! let mut answer = Cutoff::default();
//! assert_eq!(sys::cheapest(&desk, 1, 1, 3, &mut answer), 0);
//! assert_eq!(answer, Cutoff { cutoff: 1, cost: 2 });
//! # Ok::<(), desk::Refusal>(())
//! ```

#![allow(
    unsafe_code,
    reason = "the functions of the library are declared and called here alone"
)]

use crate::answer::{Cutoff, Measures, Price, Spread};
use crate::fraction::Fraction;
use crate::{GRADES, POOL_NUMBERS, version};
use std::mem::{align_of, size_of};

/// What one place holds: its table as it stands, and the pooled list of it. The derived `==` compares
/// tables, since every number of a place follows from its table: entries behind those of the grades
/// are 0, and the list is what [`pool`] writes.
#[repr(C)]
#[derive(Clone, PartialEq, Eq, Hash)]
pub(crate) struct Rows {
    pub(crate) obligors: [u32; GRADES],
    pub(crate) defaults: [u32; GRADES],
    pub(crate) announced: [u32; GRADES],
    pub(crate) grades: u32,
    pub(crate) loaded: u32,
    pooled: [u32; POOL_NUMBERS],
}

/// Two places, each empty or holding the grade table of one rater.
///
/// ```
/// use desk::{Desk, Place, Table};
///
/// let mut desk = Desk::empty();
/// desk.load_table(Place::First, &Table::by_obligors().grade(5, 2, 400_000).grade(1, 1, 1_000_000))?;
/// desk.load_table(Place::Second, &Table::by_survivors().grade(2, 0, 0).grade(1, 3, 750_000))?;
/// println!("{}", desk.compare()?);
/// # Ok::<(), desk::Refusal>(())
/// ```
#[repr(C)]
#[derive(Clone, PartialEq, Eq, Hash)]
pub struct Desk {
    first: Rows,
    second: Rows,
}

impl Desk {
    /// A desk with both places empty.
    ///
    /// ```
    /// use desk::{Desk, Place};
    ///
    /// let desk = Desk::empty();
    /// assert!(!desk.is_loaded(Place::First) && !desk.is_loaded(Place::Second));
    /// ```
    ///
    /// # Panics
    ///
    /// Where the library is of another version than this crate, in words. Linking notices that
    /// before: the function asked for here has the version in its name.
    #[must_use]
    pub fn empty() -> Desk {
        version::check(library_is_this_version()).unwrap_or_else(|differs| panic!("{differs}"));
        let unset = Rows {
            obligors: [0; GRADES],
            defaults: [0; GRADES],
            announced: [0; GRADES],
            grades: 0,
            loaded: 0,
            pooled: [0; POOL_NUMBERS],
        };
        let mut desk = Desk {
            first: unset.clone(),
            second: unset,
        };
        desk_empty(&mut desk);
        desk
    }

    pub(crate) fn first(&self) -> &Rows {
        &self.first
    }

    pub(crate) fn second(&self) -> &Rows {
        &self.second
    }
}

/// A verdict as the header has it; [`crate::Verdict`] is made of it by `try_from`.
///
/// ```
/// use desk::{sys, Price, Verdict};
///
/// let second_dearer = Price { u: 1, v: 2 };
/// let verdict = sys::Verdict { kind: 1, second_dearer, ..Default::default() };
/// assert_eq!(Verdict::try_from(verdict), Ok(Verdict::First { second_dearer }));
/// ```
#[repr(C)]
#[derive(Clone, Copy, Debug, Default, PartialEq, Eq, Hash)]
pub struct Verdict {
    /// 0 equal, 1 first, 2 second, 3 crossing.
    pub kind: u32,
    /// Prices at which the first costs more; 0, 0 if there are none.
    pub first_dearer: Price,
    /// Prices at which the second costs more; 0, 0 if there are none.
    pub second_dearer: Price,
}

const fn is_laid_out<T>(size: usize, alignment: usize) -> bool {
    size_of::<T>() == size && align_of::<T>() == alignment
}

// No size leaves room for padding, so the fields stand where C has them.
const _: () = assert!(is_laid_out::<Rows>(968, 4) && is_laid_out::<Desk>(1936, 4));
const _: () = assert!(is_laid_out::<Price>(8, 4) && is_laid_out::<Verdict>(20, 4));
const _: () = assert!(is_laid_out::<Cutoff>(16, 8) && is_laid_out::<Spread>(16, 8));
const _: () = assert!(is_laid_out::<Fraction>(16, 8) && is_laid_out::<Measures>(88, 8));

unsafe extern "C" {
    safe fn desk_empty(desk: &mut Desk) -> u32;
    fn desk_load(desk: &mut Desk, place: u32, book: *const u8, length: usize, rater: u32) -> u32;
    fn desk_pool(desk: &Desk, place: u32, numbers: *mut u32, length: usize) -> u32;
    fn desk_write(desk: &Desk, book: *mut u8, length: usize, written: &mut usize) -> u32;
    fn desk_shortlist(
        book: *const u8,
        length: usize,
        numbers: *mut u32,
        room: usize,
        listed: &mut usize,
    ) -> u32;

    // A library of another version does not have this name.
    #[link_name = concat!("desk_library_is_version_", env!("CARGO_PKG_VERSION_MAJOR"))]
    safe fn library_is_this_version() -> u32;

    /// The version of the library.
    ///
    /// ```
    /// assert_eq!(desk::sys::version(), desk::VERSION);
    /// ```
    #[link_name = "desk_version"]
    #[must_use]
    pub safe fn version() -> u32;

    /// Empties a loaded place. Refuses 1, 22.
    ///
    /// ```
    /// use desk::{sys, Desk};
    ///
    /// let mut desk = Desk::empty();
    /// assert_eq!(sys::clear(&mut desk, 3), 1);
    /// assert_eq!(sys::clear(&mut desk, 2), 22);
    /// ```
    #[link_name = "desk_clear"]
    #[must_use = "a refused call does nothing"]
    pub safe fn clear(desk: &mut Desk, place: u32) -> u32;

    /// Books a survivor that enters a grade, counted from 1. Refuses 1, 22, 36, 38.
    ///
    /// ```
    /// use desk::{sys, Desk, Place, Table};
    ///
    /// let mut desk = Desk::empty();
    /// desk.load_table(Place::First, &Table::by_obligors().grade(5, 2, 400_000).grade(0, 0, 1_000_000))?;
    /// assert_eq!(sys::survivor_enters(&mut desk, 1, 2), 0);
    /// assert_eq!(sys::survivor_enters(&mut desk, 1, 3), 36);
    /// assert_eq!(desk.grades(Place::First).last().map(|grade| grade.obligors), Some(1));
    /// # Ok::<(), desk::Refusal>(())
    /// ```
    #[link_name = "desk_survivor_enters"]
    #[must_use = "a refused call does nothing"]
    pub safe fn survivor_enters(desk: &mut Desk, place: u32, grade: u32) -> u32;

    /// Books a survivor that leaves a grade, counted from 1. Refuses 1, 22, 36, 37.
    ///
    /// ```
    /// use desk::{sys, Desk, Place, Table};
    ///
    /// let mut desk = Desk::empty();
    /// desk.load_table(Place::First, &Table::by_obligors().grade(3, 2, 400_000))?;
    /// assert_eq!(sys::survivor_leaves(&mut desk, 1, 1), 0);
    /// assert_eq!(sys::survivor_leaves(&mut desk, 1, 1), 37, "both that are left have defaulted");
    /// # Ok::<(), desk::Refusal>(())
    /// ```
    #[link_name = "desk_survivor_leaves"]
    #[must_use = "a refused call does nothing"]
    pub safe fn survivor_leaves(desk: &mut Desk, place: u32, grade: u32) -> u32;

    /// Books a survivor of a grade, counted from 1, that defaults. Refuses 1, 22, 36, 37.
    ///
    /// ```
    /// use desk::{sys, Desk, Place, Table};
    ///
    /// let mut desk = Desk::empty();
    /// desk.load_table(Place::First, &Table::by_obligors().grade(3, 2, 400_000))?;
    /// assert_eq!(sys::survivor_defaults(&mut desk, 1, 1), 0);
    /// assert_eq!(sys::survivor_defaults(&mut desk, 1, 1), 37, "all three have defaulted");
    /// # Ok::<(), desk::Refusal>(())
    /// ```
    #[link_name = "desk_survivor_defaults"]
    #[must_use = "a refused call does nothing"]
    pub safe fn survivor_defaults(desk: &mut Desk, place: u32, grade: u32) -> u32;

    /// Books a defaulted firm that is removed from a grade, counted from 1. Refuses 1, 22, 36, 37.
    ///
    /// ```
    /// use desk::{sys, Desk, Place, Table};
    ///
    /// let mut desk = Desk::empty();
    /// desk.load_table(Place::First, &Table::by_obligors().grade(3, 1, 400_000))?;
    /// assert_eq!(sys::defaulted_removed(&mut desk, 1, 1), 0);
    /// assert_eq!(sys::defaulted_removed(&mut desk, 1, 1), 37, "both that are left survive");
    /// # Ok::<(), desk::Refusal>(())
    /// ```
    #[link_name = "desk_defaulted_removed"]
    #[must_use = "a refused call does nothing"]
    pub safe fn defaulted_removed(desk: &mut Desk, place: u32, grade: u32) -> u32;

    /// The cheapest cutoff, among equals the smallest. Refuses 1, 22, 12.
    ///
    /// ```
    /// use desk::{sys, Cutoff, Desk, Place, Table};
    ///
    /// let mut desk = Desk::empty();
    /// desk.load_table(Place::First, &Table::by_obligors().grade(5, 2, 400_000).grade(1, 1, 1_000_000))?;
    /// let mut answer = Cutoff::default();
    /// assert_eq!(sys::cheapest(&desk, 1, 1, 3, &mut answer), 0);
    /// assert_eq!(answer, Cutoff { cutoff: 1, cost: 2 });
    /// # Ok::<(), desk::Refusal>(())
    /// ```
    #[link_name = "desk_cheapest"]
    #[must_use = "a refused call writes no answer"]
    pub safe fn cheapest(desk: &Desk, place: u32, u: u32, v: u32, answer: &mut Cutoff) -> u32;

    /// Which scale is at least as good. Refuses 22, 23, 24, 25.
    ///
    /// ```
    /// use desk::{sys, Desk, Place, Table};
    ///
    /// let table = Table::by_obligors().grade(5, 2, 400_000).grade(1, 1, 1_000_000);
    /// let mut desk = Desk::empty();
    /// desk.load_table(Place::First, &table)?;
    /// desk.load_table(Place::Second, &table)?;
    /// let mut answer = sys::Verdict { kind: 9, ..Default::default() };
    /// assert_eq!(sys::compare(&desk, &mut answer), 0);
    /// assert_eq!(answer.kind, 0, "equal");
    /// # Ok::<(), desk::Refusal>(())
    /// ```
    #[link_name = "desk_compare"]
    #[must_use = "a refused call writes no answer"]
    pub safe fn compare(desk: &Desk, answer: &mut Verdict) -> u32;

    /// Which scale is at least as good on shares. Refuses 22, 23, 24, 35.
    ///
    /// ```
    /// use desk::{sys, Desk, Place, Table};
    ///
    /// let mut desk = Desk::empty();
    /// desk.load_table(Place::First, &Table::by_obligors().grade(3, 1, 0).grade(3, 2, 0))?;
    /// desk.load_table(Place::Second, &Table::by_obligors().grade(6, 2, 0).grade(6, 4, 0))?;
    /// let mut answer = sys::Verdict { kind: 9, ..Default::default() };
    /// assert_eq!(sys::compare(&desk, &mut answer), 25, "twice as many obligors");
    /// assert_eq!(sys::compare_shares(&desk, &mut answer), 0);
    /// assert_eq!(answer.kind, 0, "equal");
    /// # Ok::<(), desk::Refusal>(())
    /// ```
    #[link_name = "desk_compare_shares"]
    #[must_use = "a refused call writes no answer"]
    pub safe fn compare_shares(desk: &Desk, answer: &mut Verdict) -> u32;

    /// D, S and the four measures. Refuses 1, 22, 23, 24.
    ///
    /// ```
    /// use desk::{sys, Desk, Measures, Place, Table};
    ///
    /// let mut desk = Desk::empty();
    /// desk.load_table(Place::First, &Table::by_obligors().grade(5, 2, 400_000).grade(1, 1, 1_000_000))?;
    /// let mut answer = Measures::default();
    /// assert_eq!(sys::measures(&desk, 1, &mut answer), 0);
    /// assert_eq!(answer.gini.written(), (3, 9));
    /// # Ok::<(), desk::Refusal>(())
    /// ```
    #[link_name = "desk_measures"]
    #[must_use = "a refused call writes no answer"]
    pub safe fn measures(desk: &Desk, place: u32, answer: &mut Measures) -> u32;

    /// The Brier score of the announced rates. Refuses 1, 22.
    ///
    /// ```
    /// use desk::{sys, Desk, Fraction, Place, Table};
    ///
    /// let mut desk = Desk::empty();
    /// desk.load_table(Place::First, &Table::by_obligors().grade(2, 1, 500_000))?;
    /// let mut answer = Fraction::default();
    /// assert_eq!(sys::brier(&desk, 1, &mut answer), 0);
    /// assert_eq!(Some(answer), Fraction::new(1, 4));
    /// # Ok::<(), desk::Refusal>(())
    /// ```
    #[link_name = "desk_brier"]
    #[must_use = "a refused call writes no answer"]
    pub safe fn brier(desk: &Desk, place: u32, answer: &mut Fraction) -> u32;

    /// The spread. Refuses 1, 22.
    ///
    /// ```
    /// use desk::{sys, Desk, Place, Spread, Table};
    ///
    /// let mut desk = Desk::empty();
    /// desk.load_table(Place::First, &Table::by_obligors().grade(2, 1, 500_000))?;
    /// let mut answer = Spread::default();
    /// assert_eq!(sys::spread(&desk, 1, &mut answer), 0);
    /// assert_eq!(answer.total, 0.5);
    /// # Ok::<(), desk::Refusal>(())
    /// ```
    #[link_name = "desk_spread"]
    #[must_use = "a refused call writes no answer"]
    pub safe fn spread(desk: &Desk, place: u32, answer: &mut Spread) -> u32;
}

/// Fills an empty place with the table of a rater of a book. Refuses 1, 21, 2, 3, 4; table by
/// table 31, 32, 6, 7, 32; 33; of the rater's rows, one by one, 8, 10, 34; 9; 11.
///
/// ```
/// use desk::{sys, Desk, Table};
///
/// let book = Table::book(&[Table::by_survivors().grade(2, 0, 0).grade(1, 3, 750_000)])?;
/// let mut desk = Desk::empty();
/// assert_eq!(sys::load(&mut desk, 2, &book, 1), 0);
/// assert_eq!(sys::load(&mut desk, 2, &book, 1), 21);
/// assert_eq!(sys::load(&mut desk, 1, &book[1..], 1), 2);
/// # Ok::<(), desk::Refusal>(())
/// ```
#[must_use = "a refused call does nothing"]
pub fn load(desk: &mut Desk, place: u32, book: &[u8], rater: u32) -> u32 {
    // SAFETY: the slice lends as many bytes as it says, also none.
    unsafe { desk_load(desk, place, book.as_ptr(), book.len(), rater) }
}

/// Writes three numbers a grade, for an empty one those of the next better occupied grade or else of
/// the best occupied one, and keeps the further ones. Refuses 1, 22, 13.
///
/// ```
/// use desk::{sys, Desk, Place, Table};
///
/// let mut desk = Desk::empty();
/// desk.load_table(Place::First, &Table::by_obligors().grade(10, 2, 0).grade(20, 4, 0))?;
/// let mut numbers = [7; 7];
/// assert_eq!(sys::pool(&desk, 1, &mut numbers[..5]), 13);
/// assert_eq!(sys::pool(&desk, 1, &mut numbers), 0);
/// assert_eq!(numbers, [6, 30, 11, 6, 30, 11, 7]);
/// # Ok::<(), desk::Refusal>(())
/// ```
#[must_use = "a refused call writes nothing"]
pub fn pool(desk: &Desk, place: u32, numbers: &mut [u32]) -> u32 {
    // SAFETY: the slice lends as many numbers as it says, also none.
    unsafe { desk_pool(desk, place, numbers.as_mut_ptr(), numbers.len()) }
}

/// Writes the loaded tables as a book, keeps the further bytes, and says the book's length. Refuses
/// 22, 13.
///
/// ```
/// use desk::{sys, Desk, Place, Table};
///
/// let mut desk = Desk::empty();
/// desk.load_table(Place::First, &Table::by_obligors().grade(10, 2, 0).grade(20, 4, 0))?;
/// let (mut book, mut written) = ([0; desk::BOOK_BYTES], 0);
/// assert_eq!(sys::write(&desk, &mut book, &mut written), 0);
/// assert_eq!(written, 4 + 2 + 4 + 2 * 12);
/// # Ok::<(), desk::Refusal>(())
/// ```
#[must_use = "a refused call writes nothing"]
pub fn write(desk: &Desk, book: &mut [u8], written: &mut usize) -> u32 {
    // SAFETY: the slice lends as many bytes as it says, also none.
    unsafe { desk_write(desk, book.as_mut_ptr(), book.len(), written) }
}

/// Writes the raters of a book, counted from 1 and in book order, for which no other rater of it is
/// better, keeps the further numbers, and says how many are listed. Refuses 2, 3; table by table 31,
/// 32, 6, 7, 32; 33; rater by rater: of its rows, one by one, 8, 10, 34; 9; 11; then 23, 24, 25, 13.
///
/// ```
/// use desk::{sys, Table};
///
/// let coarse = Table::by_obligors().grade(3, 1, 0).grade(3, 2, 0);
/// let fine = Table::by_obligors().grade(2, 0, 0).grade(2, 1, 0).grade(2, 2, 0);
/// let book = Table::book(&[coarse, fine])?;
/// let (mut numbers, mut listed) = ([7; 3], 0);
/// assert_eq!(sys::shortlist(&book, &mut numbers[..1], &mut listed), 13, "for two raters");
/// assert_eq!(sys::shortlist(&book, &mut numbers, &mut listed), 0);
/// assert_eq!((numbers, listed), ([2, 7, 7], 1));
/// # Ok::<(), desk::Refusal>(())
/// ```
#[must_use = "a refused call writes nothing"]
pub fn shortlist(book: &[u8], numbers: &mut [u32], listed: &mut usize) -> u32 {
    // SAFETY: the slices lend as many bytes and numbers as they say, also none.
    unsafe {
        desk_shortlist(
            book.as_ptr(),
            book.len(),
            numbers.as_mut_ptr(),
            numbers.len(),
            listed,
        )
    }
}
