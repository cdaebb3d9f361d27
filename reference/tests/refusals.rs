//! Every refusal number of every call, and the cases in which the order of the checks decides.

use desks::desk_with;
use reference::book;
use reference::damage::{ways_from, LOAD_ORDER, WAYS};
use reference::desk::Desk;
use reference::draft::{Column, Draft};
use reference::population::any_table;
use reference::random::Random;
use reference::table::Table;

mod desks;

fn mixed() -> Table {
    Table::of_rows(&[(10, 2), (10, 1), (20, 4)])
}

fn good() -> Table {
    Table::of_rows(&[(3, 0)])
}

fn bad() -> Table {
    Table::of_rows(&[(3, 3)])
}

#[test]
fn every_damage_alone_leads_to_its_number() {
    for seed in 0..300 {
        let mut random = Random::of_seed(seed);
        for (index, &(number, damage)) in WAYS.iter().enumerate() {
            let table = any_table(&mut random);
            let mut draft = Draft::around(&mut random, &table);
            assert_eq!(book::read(&draft.bytes, draft.rater), Ok(table));
            damage(&mut random, &mut draft);
            let read = book::read(&draft.bytes, draft.rater);
            assert_eq!(read, Err(number), "seed {seed}, way {index}");
        }
    }
}

/// As many as a scene has, and never a book that is too long for a script.
#[test]
fn damages_can_meet_in_one_book() {
    for seed in 0..5_000 {
        let mut random = Random::of_seed(seed);
        let table = any_table(&mut random);
        let mut draft = Draft::around(&mut random, &table);
        let (mut cut, mut may_be_mended) = (false, false);
        for _ in 0..4 {
            let (number, damage) = random.pick(&WAYS);
            damage(&mut random, &mut draft);
            cut |= number == 32;
            // Bytes behind a table that was cut may be what it lacks.
            may_be_mended |= cut && number == 33;
        }
        assert!(draft.bytes.len() <= 65_535, "seed {seed}");
        let read = book::read(&draft.bytes, draft.rater);
        assert!(read.is_err() || may_be_mended, "seed {seed}");
    }
}

#[test]
fn every_number_of_a_book_has_its_ways() {
    let documents = [2, 3, 4, 6, 7, 8, 9, 10, 11, 31, 32, 33, 34];
    let mut numbers = LOAD_ORDER;
    numbers.sort_unstable();
    assert_eq!(numbers, documents);
    for number in documents {
        assert!(WAYS.iter().any(|way| way.0 == number), "{number}");
    }
    assert!(WAYS.iter().all(|way| documents.contains(&way.0)));
}

#[test]
fn ways_are_taken_from_a_point_of_the_load_order_on() {
    let numbers = |first| {
        let mut numbers: Vec<u32> = ways_from(first).iter().map(|way| way.0).collect();
        numbers.sort_unstable();
        numbers.dedup();
        numbers
    };
    assert_eq!(ways_from(2).len(), WAYS.len());
    assert_eq!(numbers(3), [3, 4, 6, 7, 8, 9, 10, 11, 31, 32, 33, 34]);
    assert_eq!(numbers(31), [6, 7, 8, 9, 10, 11, 31, 32, 33, 34]);
    assert_eq!(numbers(8), [8, 9, 10, 11, 34]);
    assert_eq!(numbers(34), [9, 11, 34]);
}

#[test]
fn load_tries_place_then_state_then_book() {
    let mut desk = desk_with([Some(&mixed()), None]);
    assert_eq!(desk.load(0, 0, &[]), Err(1));
    assert_eq!(desk.load(3, 0, &[]), Err(1));
    assert_eq!(desk.load(1, 0, &[]), Err(21));
    assert_eq!(desk.load(2, 0, &[]), Err(2));
    assert_eq!(desk.load(2, 0, &[0, 0, 4, 0]), Err(3));
    assert_eq!(desk.load(2, 0, &[1, 0, 5, 0, 0]), Err(3));
    assert_eq!(desk.load(2, 0, &[1, 0, 6, 0, 0, 0]), Err(4));
    assert_eq!(desk.load(2, 2, &[1, 0, 6, 0, 0, 0]), Err(4));
    assert_eq!(desk.load(2, 1, &[1, 0, 6, 0, 6, 0]), Err(32));
    assert_eq!(desk, desk_with([Some(&mixed()), None]));
}

/// A book of two tables, mixed and mixed, kind 0, with some bytes changed.
fn two_tables(changes: &[(usize, u8)]) -> Vec<u8> {
    let mut book = book::write(&[&mixed(), &mixed()]);
    for &(at, byte) in changes {
        book[at] = byte;
    }
    book
}

#[test]
fn layout_is_tried_table_by_table() {
    let read = |changes: &[(usize, u8)]| book::read(&two_tables(changes), 1);
    // The tables start at 8 and 48.
    assert_eq!(read(&[(8, 41), (9, 2)]), Err(6));
    assert_eq!(read(&[(9, 2), (48, 0)]), Err(7));
    assert_eq!(read(&[(8, 40), (9, 2)]), Err(7));
    assert_eq!(read(&[(8, 40), (48, 0)]), Err(32));
    assert_eq!(read(&[(8, 0), (6, 0)]), Err(6));
    assert_eq!(read(&[(6, 0), (48, 0)]), Err(31));
    assert_eq!(read(&[(4, 9), (8, 0)]), Err(31));
    assert_eq!(read(&[(48, 0), (49, 9)]), Err(6));
    assert_eq!(read(&[(48, 2), (51, 1)]), Err(7));
    // Rows of the rater loaded come after the whole layout, rows of others not at all.
    assert_eq!(read(&[(12, 1), (49, 2)]), Err(7));
    assert_eq!(read(&[(12, 1)]), Err(8));
    assert_eq!(read(&[(52, 1)]), Ok(mixed()));
    // The rates of the first rows stand at 20 and 60.
    assert_eq!(read(&[(20, 1), (49, 2)]), Err(7));
    assert_eq!(read(&[(20, 1)]), Err(34));
    assert_eq!(read(&[(60, 1)]), Ok(mixed()));
}

#[test]
fn rows_are_tried_one_after_the_other() {
    let mut random = Random::of_seed(1);
    let mut put = |changes: &[(usize, Column, u32)], kind: u8| {
        let mut draft = Draft::of_tables(&mut random, &[mixed()], 1);
        draft.put(draft.start(0) + 1, &[kind]);
        for &(grade, column, number) in changes {
            draft.put(draft.column(0, grade, column), &number.to_le_bytes());
        }
        book::read(&draft.bytes, 1)
    };
    use Column::*;
    assert_eq!(put(&[(0, First, 0), (0, Announced, u32::MAX)], 0), Err(8));
    assert_eq!(
        put(
            &[(0, First, 0), (0, Defaults, 0), (0, Announced, u32::MAX)],
            0
        ),
        Err(10)
    );
    assert_eq!(put(&[(0, Announced, 1_000_001), (1, First, 0)], 0), Err(10));
    assert_eq!(
        put(&[(0, First, 0), (0, Defaults, 0), (1, First, 0)], 0),
        Err(8)
    );
    assert_eq!(
        put(&[(0, First, 0), (0, Defaults, 0)], 0).map(|t| t.grades[0].obligors),
        Ok(0)
    );
    assert_eq!(
        put(&[(0, First, u32::MAX), (2, Announced, 1_000_001)], 1),
        Err(10)
    );
    assert_eq!(put(&[(0, First, u32::MAX), (0, Defaults, 1)], 1), Err(11));
    assert_eq!(
        put(&[(0, First, u32::MAX), (0, Defaults, u32::MAX)], 1),
        Err(11)
    );
    assert_eq!(put(&[(0, First, 1 << 31), (1, First, 1 << 31)], 1), Err(11));
    assert_eq!(
        put(&[(0, First, 0), (0, Defaults, 7)], 1).map(|t| t.grades[0].obligors),
        Ok(7)
    );
}

#[test]
fn calls_on_one_place() {
    let desk = desk_with([Some(&mixed()), None]);
    for place in [0, 3, u32::MAX] {
        assert_eq!(desk.clone().clear(place), Err(1));
        assert_eq!(desk.pool(place, &mut []), Err(1));
        assert_eq!(desk.cheapest(place, u32::MAX, 0), Err(1));
        assert_eq!(desk.brier(place), Err(1));
        assert_eq!(desk.spread(place), Err(1));
        assert_eq!(desk.measures(place), Err(1));
    }
    assert_eq!(desk.clone().clear(2), Err(22));
    assert_eq!(desk.pool(2, &mut []), Err(22));
    assert_eq!(desk.cheapest(2, u32::MAX, 0), Err(22));
    assert_eq!(desk.brier(2), Err(22));
    assert_eq!(desk.spread(2), Err(22));
    assert_eq!(desk.measures(2), Err(22));
    assert_eq!(desk.cheapest(1, 0, u32::MAX), Err(12));
    assert_eq!(desk_with([Some(&good()), None]).measures(1), Err(23));
    assert_eq!(desk_with([Some(&bad()), None]).measures(1), Err(24));
    let mut cleared = desk.clone();
    assert_eq!(cleared.clear(1), Ok(()));
    assert_eq!(cleared, Desk::fresh());
}

#[test]
fn buffers() {
    let desk = desk_with([Some(&mixed()), None]);
    let mut numbers = [7; 10];
    assert_eq!(desk.pool(1, &mut numbers[..8]), Err(13));
    assert_eq!(numbers, [7; 10]);
    assert_eq!(desk.pool(1, &mut numbers), Ok(()));
    assert_eq!(numbers, [3, 20, 11, 3, 20, 11, 4, 20, 11, 7]);
    let mut bytes = [7; 47];
    assert_eq!(Desk::fresh().write(&mut []), Err(22));
    assert_eq!(desk.write(&mut bytes[..45]), Err(13));
    assert_eq!(bytes, [7; 47]);
    assert_eq!(desk.write(&mut bytes), Ok(46));
    assert_eq!(bytes[..46], book::write(&[&mixed()]));
    assert_eq!(bytes[46], 7);
}

#[test]
fn compare_refuses_in_order() {
    fn compare(first: Option<&Table>, second: Option<&Table>) -> Option<u32> {
        desk_with([first, second]).compare().err()
    }
    let other = Table::of_rows(&[(10, 2), (10, 1), (21, 4)]);
    let third = Table::of_rows(&[(10, 2), (10, 1), (20, 3), (1, 0)]);
    assert_eq!(compare(None, None), Some(22));
    assert_eq!(compare(Some(&good()), None), Some(22));
    assert_eq!(compare(None, Some(&good())), Some(22));
    assert_eq!(compare(Some(&bad()), Some(&good())), Some(23));
    assert_eq!(compare(Some(&good()), Some(&bad())), Some(23));
    assert_eq!(compare(Some(&bad()), Some(&mixed())), Some(24));
    assert_eq!(compare(Some(&mixed()), Some(&bad())), Some(24));
    assert_eq!(compare(Some(&mixed()), Some(&other)), Some(25));
    assert_eq!(compare(Some(&third), Some(&mixed())), Some(25));
    assert_eq!(compare(Some(&mixed()), Some(&mixed())), None);
}

#[test]
fn a_written_book_gives_its_tables_back() {
    let desk = desk_with([Some(&good()), Some(&mixed())]);
    let mut bytes = [0; 100];
    let length = desk.write(&mut bytes).expect("long enough");
    assert_eq!(book::read(&bytes[..length], 1), Ok(good()));
    assert_eq!(book::read(&bytes[..length], 2), Ok(mixed()));
    let second_only = desk_with([None, Some(&mixed())]);
    let length = second_only.write(&mut bytes).expect("long enough");
    assert_eq!(book::read(&bytes[..length], 1), Ok(mixed()));
}
