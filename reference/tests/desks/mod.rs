//! Desks for tests.

use reference::book;
use reference::desk::Desk;
use reference::table::Table;

/// A desk with these tables in places 1 and 2; a place without one is empty.
pub fn desk_with(tables: [Option<&Table>; 2]) -> Desk {
    let mut desk = Desk::fresh();
    for (place, table) in (1..).zip(tables) {
        if let Some(table) = table {
            desk.load(place, 1, &book::write(&[table])).expect("valid");
        }
    }
    desk
}
