//! Tables and desks for the tests.

use desk::{Desk, Place, Table};

/// The rows (n, d) of a table, best grade first; all announced rates are 0.
pub type Rows<'a> = &'a [(u32, u32)];

pub fn table_of(rows: Rows) -> Table {
    Table::by_obligors().grades(
        rows.iter()
            .map(|&(obligors, defaults)| (obligors, defaults, 0)),
    )
}

/// A desk with these tables, or with empty places.
pub fn desk_with(first: Option<Rows>, second: Option<Rows>) -> Desk {
    let mut desk = Desk::empty();
    for (place, rows) in [(Place::First, first), (Place::Second, second)] {
        if let Some(rows) = rows {
            desk.load_table(place, &table_of(rows))
                .expect("a valid table");
        }
    }
    desk
}
