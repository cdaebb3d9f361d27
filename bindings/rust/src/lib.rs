//! Compares credit rating scales: a safe interface to the library that is proved in Rattle.
//!
//! A [`Desk`] has two places. Each is empty or holds the grade table of one rater: a [`Table`] made
//! in memory, or one of a book, a file in the byte format of `BOOK.md` (in `share/doc/desk` where
//! installed, `docs` in the sources). Either way a table says whether its first column counts
//! obligors or survivors: one taken for the other can make the losing scale win while every figure
//! still looks right. A scale is at least as good as another over the same obligors if its cheapest
//! cutoff costs no more, whatever a missed default and a survivor turned away may cost;
//! [`Desk::compare`] decides that, and shows prices where it does not hold. For scales over different
//! books [`Desk::compare_shares`] decides the same by shares of their defaults and survivors. Of all
//! raters of a book [`shortlist`] lists those for which no other one is better. Firms that come and go
//! are booked at a grade of a loaded table by four events: [`Desk::survivor_enters`],
//! [`Desk::survivor_leaves`], [`Desk::survivor_defaults`] and [`Desk::defaulted_removed`].
//!
//! ```
//! use desk::{Desk, Place, Table, Verdict};
//!
//! let mut desk = Desk::empty();
//! desk.load_table(Place::First, &Table::by_obligors().grade(5, 2, 400_000).grade(1, 1, 1_000_000))?;
//! desk.load_table(Place::Second, &Table::by_survivors().grade(2, 0, 0).grade(1, 3, 750_000))?;
//! let Verdict::Crossing { first_dearer, .. } = desk.compare()? else {
//!     panic!("each of these scales costs more at some prices");
//! };
//! let first = desk.cheapest(Place::First, first_dearer)?;
//! let second = desk.cheapest(Place::Second, first_dearer)?;
//! assert!(first.cost > second.cost);
//! # Ok::<(), desk::Refusal>(())
//! ```
//!
//! A call is accepted, or refused with a [`Refusal`], which leaves the desk and every buffer as
//! they were; of a book that is cut wrong, [`WrongCut`] says at which table and byte. No call on a
//! desk has state of its own, and none allocates, save those that return a `Vec` or take a
//! [`Table`]. Every answer prints in words or numbers; a width and an alignment are honoured, and a
//! precision is the number of decimal places.

mod answer;
mod desk;
mod fraction;
mod place;
mod refusal;
mod shortlist;
pub mod sys;
mod table;
mod text;
mod verdict;
mod version;
mod wrong_cut;

pub use answer::{Cutoff, Grade, Measures, PooledGrade, Price, Spread};
pub use fraction::Fraction;
pub use place::Place;
pub use refusal::{Refusal, UnknownNumber};
pub use shortlist::{shortlist, shortlist_into};
pub use sys::Desk;
pub use table::Table;
pub use verdict::Verdict;
pub use version::VERSION;
pub use wrong_cut::WrongCut;

/// The most grades of a table.
pub const GRADES: usize = 40;
/// The most raters of a book, and numbers enough for whatever shortlist there is of one.
pub const RATERS: usize = 16;
/// The most obligors of a table.
pub const MAX_OBLIGORS: u32 = 1_000_000;
/// The most obligors of a table that [`Desk::compare_shares`] takes.
pub const MAX_OBLIGORS_ON_SHARES: u32 = 100_000;
/// The highest price that [`Desk::cheapest`] takes and [`Desk::compare`] answers.
pub const MAX_PRICE: u32 = 1_000_000;
/// The highest price that [`Desk::compare_shares`] answers: above `i32::MAX`.
pub const MAX_PRICE_ON_SHARES: u32 = 2_500_000_000;
/// Numbers enough for whatever pooling a place writes.
pub const POOL_NUMBERS: usize = 3 * GRADES;
/// Bytes enough for whatever book a desk writes.
pub const BOOK_BYTES: usize = 976;
