//! The desk as a Rust value.

mod common;

use common::{Rows, desk_with};
use desk::{BOOK_BYTES, Desk, GRADES, Grade, Place, Refusal, Table};
use std::collections::HashSet;
use std::error::Error;

const MIXED: Rows = &[(10, 2), (20, 4)];

#[test]
fn a_desk_starts_empty() {
    let desk = Desk::default();
    assert_eq!(desk, Desk::empty());
    assert!(!desk.is_loaded(Place::First) && !desk.is_loaded(Place::Second));
    assert_eq!(desk.grades(Place::First).len(), 0);
    assert_eq!(format!("{desk:?}"), "Desk { first: [], second: [] }");
}

#[test]
fn a_loaded_place_can_be_read() {
    let desk = desk_with(None, Some(MIXED));
    assert!(!desk.is_loaded(Place::First) && desk.is_loaded(Place::Second));
    let grades: Vec<Grade> = desk.grades(Place::Second).collect();
    let counts = |grade: &Grade| (grade.obligors, grade.defaults, grade.survivors());
    let counts: Vec<(u32, u32, u32)> = grades.iter().map(counts).collect();
    assert_eq!(counts, [(10, 2, 8), (20, 4, 16)]);
    assert!(format!("{desk:?}").contains("obligors: 20, defaults: 4"));
}

#[test]
fn a_copy_is_a_desk_of_its_own() {
    let desk = desk_with(Some(MIXED), Some(MIXED));
    let mut copy = desk.clone();
    assert_eq!(copy.clear(Place::First), Ok(()));
    assert!(desk.is_loaded(Place::First) && !copy.is_loaded(Place::First));
    assert_eq!(copy.clear(Place::Second), Ok(()));
    assert_eq!(copy, Desk::empty());
}

/// Nothing of an earlier, longer table is left where a shorter one is loaded.
#[test]
fn desks_with_the_same_tables_are_equal() {
    let mut desk = desk_with(Some(&[(25_000, 1); GRADES]), Some(MIXED));
    let long = desk.clone();
    assert_eq!(desk.clear(Place::First), Ok(()));
    let table: Table = long.grades(Place::Second).collect();
    assert_eq!(desk.load_table(Place::First, &table), Ok(()));
    let same = desk_with(Some(MIXED), Some(MIXED));
    assert_eq!(desk, same);
    assert_eq!(HashSet::from([desk, same, long]).len(), 2);
}

#[test]
fn a_written_book_loads_back() {
    let desk = desk_with(Some(MIXED), Some(&[(3, 1)]));
    let book = desk.write().expect("it is loaded");
    let mut again = Desk::empty();
    assert_eq!(again.load(Place::First, &book, 1), Ok(()));
    assert_eq!(again.load(Place::Second, &book, 2), Ok(()));
    assert_eq!(again, desk);
}

#[test]
fn the_largest_desk_fits_the_buffers() {
    let rows: Rows = &[(25_000, 1); GRADES];
    let desk = desk_with(Some(rows), Some(rows));
    assert_eq!(desk.write().map(|book| book.len()), Ok(BOOK_BYTES));
    assert_eq!(
        desk.pool(Place::Second).map(|pooled| pooled.len()),
        Ok(GRADES)
    );
}

#[test]
fn a_desk_may_move_between_threads() {
    let desk = desk_with(Some(MIXED), Some(MIXED));
    let shared = &desk;
    std::thread::scope(|scope| {
        let threads = [1, 2, 3, 4].map(|_| scope.spawn(|| shared.compare()));
        for thread in threads {
            assert_eq!(thread.join().ok(), Some(desk.compare()));
        }
    });
}

#[test]
fn a_refusal_is_an_error_in_words() {
    let refused = Desk::empty().compare().expect_err("nothing is loaded");
    assert_eq!((refused, refused.number()), (Refusal::Empty, 22));
    let error: Box<dyn Error> = refused.into();
    assert_eq!(error.to_string(), "refused 22: place empty");
}
