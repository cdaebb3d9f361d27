//! Tables, books and desks for the tests.

use desk::{Desk, Place};
use reference::book;
use reference::table::Table;

/// The rows (n, d) of a table, best grade first; all announced rates are 0.
pub type Rows<'a> = &'a [(u64, u64)];

/// A book of obligors with one table.
pub fn book_of(rows: Rows) -> Vec<u8> {
    book::write(&[&Table::of_rows(rows)])
}

/// A desk with these tables, or with empty places.
pub fn desk_with(first: Option<Rows>, second: Option<Rows>) -> Desk {
    let mut desk = Desk::empty();
    for (place, rows) in [(Place::First, first), (Place::Second, second)] {
        if let Some(rows) = rows {
            desk.load(place, &book_of(rows), 1).expect("a valid book");
        }
    }
    desk
}
