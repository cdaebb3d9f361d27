//! R-8 of document 02: "a survivor enters, a survivor leaves, a survivor defaults, a defaulted firm
//! is removed." Worked out by hand, then by plainer means on random lists of events.

use desks::desk_with;
use reference::answer::{verdict_name, Answer};
use reference::book;
use reference::desk::Desk;
use reference::events::{after, Event, EVERY_EVENT};
use reference::pooling::{blocks, pool};
use reference::population::any_table;
use reference::random::Random;
use reference::script::{decode, Call};
use reference::table::Table;
use small::small_table;
use std::collections::BTreeMap;

use Event::*;

mod desks;
mod small;

type Rows<'a> = &'a [(u64, u64)];

/// Three grades, the middle one empty.
const THREE: Rows = &[(5, 2), (0, 0), (3, 3)];

fn rows(table: &Table) -> Vec<(u64, u64)> {
    let grades = table.grades.iter();
    grades
        .map(|grade| (grade.obligors, grade.defaults))
        .collect()
}

/// The table of these rows after an event.
fn booked(of: Rows, event: Event, grade: u32) -> Result<Vec<(u64, u64)>, u32> {
    after(&Table::of_rows(of), event, grade).map(|table| rows(&table))
}

#[test]
fn every_event_changes_the_counts_of_its_grade() {
    for (event, grade, expected) in [
        (SurvivorEnters, 1, [(6, 2), (0, 0), (3, 3)]),
        (SurvivorEnters, 2, [(5, 2), (1, 0), (3, 3)]),
        (SurvivorEnters, 3, [(5, 2), (0, 0), (4, 3)]),
        (SurvivorLeaves, 1, [(4, 2), (0, 0), (3, 3)]),
        (SurvivorDefaults, 1, [(5, 3), (0, 0), (3, 3)]),
        (DefaultedRemoved, 1, [(4, 1), (0, 0), (3, 3)]),
        (DefaultedRemoved, 3, [(5, 2), (0, 0), (2, 2)]),
    ] {
        assert_eq!(
            booked(THREE, event, grade),
            Ok(expected.to_vec()),
            "{event:?} {grade}"
        );
    }
}

#[test]
fn grades_are_counted_from_1() {
    for event in EVERY_EVENT {
        for grade in [0, 4, 5, 40, 41, 257, 65_537, (1 << 31) + 1, u32::MAX] {
            assert_eq!(booked(THREE, event, grade), Err(36), "{event:?} {grade}");
        }
        assert_ne!(booked(&[(2, 1)], event, 1), Err(36));
        assert_eq!(booked(&[(2, 1)], event, 2), Err(36));
        assert_ne!(booked(&[(2, 1); 40], event, 40), Err(36));
        assert_eq!(booked(&[(2, 1); 40], event, 41), Err(36));
    }
}

#[test]
fn a_grade_needs_such_a_firm() {
    for event in [SurvivorLeaves, SurvivorDefaults, DefaultedRemoved] {
        assert_eq!(booked(THREE, event, 2), Err(37), "{event:?}");
    }
    assert_eq!(booked(THREE, SurvivorLeaves, 3), Err(37));
    assert_eq!(booked(THREE, SurvivorDefaults, 3), Err(37));
    assert_eq!(booked(&[(1, 0), (7, 0)], DefaultedRemoved, 2), Err(37));
    // An entry needs none.
    assert_eq!(
        booked(&[(3, 3), (1, 0)], SurvivorEnters, 1),
        Ok(vec![(4, 3), (1, 0)])
    );
}

#[test]
fn the_last_obligor_may_default_but_not_go() {
    let survivor: Rows = &[(0, 0), (1, 0)];
    let defaulted: Rows = &[(0, 0), (1, 1)];
    assert_eq!(booked(survivor, SurvivorLeaves, 2), Err(37));
    assert_eq!(booked(survivor, DefaultedRemoved, 2), Err(37));
    assert_eq!(
        booked(survivor, SurvivorDefaults, 2),
        Ok(defaulted.to_vec())
    );
    assert_eq!(booked(defaulted, DefaultedRemoved, 2), Err(37));
    assert_eq!(booked(defaulted, SurvivorLeaves, 2), Err(37));
    assert_eq!(booked(defaulted, SurvivorDefaults, 2), Err(37));
    assert_eq!(
        booked(defaulted, SurvivorEnters, 1),
        Ok(vec![(1, 0), (1, 1)])
    );
    // The last of its grade is not the last of the table.
    assert_eq!(
        booked(&[(1, 0), (1, 1)], SurvivorLeaves, 1),
        Ok(vec![(0, 0), (1, 1)])
    );
    assert_eq!(
        booked(&[(1, 0), (1, 1)], DefaultedRemoved, 2),
        Ok(vec![(1, 0), (0, 0)])
    );
    // One goes of the two in a single grade.
    assert_eq!(booked(&[(2, 1)], SurvivorLeaves, 1), Ok(vec![(1, 1)]));
    assert_eq!(booked(&[(2, 1)], DefaultedRemoved, 1), Ok(vec![(1, 0)]));
}

/// By the obligors of the table, be the grade large, small or empty.
#[test]
fn nobody_enters_a_full_table() {
    let full: Rows = &[(999_990, 7), (10, 0), (0, 0)];
    for grade in 1..=3 {
        assert_eq!(booked(full, SurvivorEnters, grade), Err(38), "{grade}");
    }
    for event in EVERY_EVENT {
        assert_eq!(booked(full, event, 0), Err(36), "{event:?}");
        assert_eq!(booked(full, event, 4), Err(36), "{event:?}");
    }
    assert_eq!(
        booked(full, SurvivorDefaults, 1),
        Ok(vec![(999_990, 8), (10, 0), (0, 0)])
    );
    assert_eq!(
        booked(full, SurvivorLeaves, 2),
        Ok(vec![(999_990, 7), (9, 0), (0, 0)])
    );
    assert_eq!(
        booked(full, DefaultedRemoved, 1),
        Ok(vec![(999_989, 6), (10, 0), (0, 0)])
    );
    assert_eq!(booked(full, DefaultedRemoved, 2), Err(37));
    assert_eq!(booked(full, SurvivorLeaves, 3), Err(37));
    let nearly: Rows = &[(999_989, 7), (10, 0), (0, 0)];
    for (grade, expected) in [
        (1, [(999_990, 7), (10, 0), (0, 0)]),
        (2, [(999_989, 7), (11, 0), (0, 0)]),
        (3, [(999_989, 7), (10, 0), (1, 0)]),
    ] {
        assert_eq!(booked(nearly, SurvivorEnters, grade), Ok(expected.to_vec()));
    }
    // All defaulted is full, too.
    assert_eq!(
        booked(&[(1_000_000, 1_000_000)], SurvivorEnters, 1),
        Err(38)
    );
    assert_eq!(
        booked(&[(999_999, 999_999)], SurvivorEnters, 1),
        Ok(vec![(1_000_000, 999_999)])
    );
}

/// 1, then 22, then the grade, on places 1 and 2 alike.
#[test]
fn places_are_tried_before_grades() {
    let three = Table::of_rows(THREE);
    for loaded in [1, 2] {
        let tables = if loaded == 1 {
            [Some(&three), None]
        } else {
            [None, Some(&three)]
        };
        for event in EVERY_EVENT {
            let mut desk = desk_with(tables);
            for place in [0, 3, 257, 65_537, u32::MAX] {
                for grade in [0, 1, 2, 4, u32::MAX] {
                    assert_eq!(desk.event(event, place, grade), Err(1));
                }
            }
            for grade in [0, 1, 2, 4, u32::MAX] {
                assert_eq!(desk.event(event, 3 - loaded, grade), Err(22));
            }
            assert_eq!(desk.event(event, loaded, 0), Err(36));
            assert_eq!(desk.event(event, loaded, 4), Err(36));
            assert_eq!(desk, desk_with(tables), "a refused event changes nothing");
            assert_eq!(desk.event(event, loaded, 1), Ok(()));
            assert_eq!(desk.event(event, 3 - loaded, 1), Err(22));
        }
    }
    assert_eq!(Desk::fresh().event(SurvivorEnters, 1, 1), Err(22));
    assert_eq!(Desk::fresh().event(SurvivorEnters, 3, 1), Err(1));
}

#[test]
fn the_other_place_and_the_rates_stay() {
    let mut first = Table::of_rows(THREE);
    first.announce(&[100, 200, 300]);
    let mut second = Table::of_rows(&[(9, 4), (2, 1), (7, 7)]);
    second.announce(&[7, 7, 9]);
    for event in EVERY_EVENT {
        for place in [1, 2] {
            let mut desk = desk_with([Some(&first), Some(&second)]);
            assert_eq!(desk.event(event, place, 1), Ok(()));
            let table = desk.table(place).expect("loaded");
            let before = if place == 1 { &first } else { &second };
            assert_ne!(table, before);
            for (index, (grade, old)) in table.grades.iter().zip(&before.grades).enumerate() {
                assert_eq!(grade.announced, old.announced);
                assert_eq!(grade == old, index != 0);
            }
            let other = if place == 1 { &second } else { &first };
            assert_eq!(desk.table(3 - place), Ok(other), "{event:?} {place}");
        }
    }
}

/// Pool goes by the counts as they stand: 2/5 and 3/3, then one block, then again two.
#[test]
fn pool_follows_the_events() {
    let pooled = |desk: &Desk| {
        let mut numbers = [7; 10];
        desk.pool(1, &mut numbers).expect("accepted");
        assert_eq!(numbers[9], 7);
        numbers[..9].to_vec()
    };
    let mut desk = desk_with([Some(&Table::of_rows(THREE)), None]);
    assert_eq!(pooled(&desk), [2, 5, 12, 2, 5, 12, 3, 3, 14]);
    // 2/5, 0/1 and 3/3: the empty grade fills and is joined to the better one.
    assert_eq!(desk.event(SurvivorEnters, 1, 2), Ok(()));
    assert_eq!(pooled(&desk), [2, 6, 12, 2, 6, 12, 3, 3, 14]);
    // 2/5, 1/1 and 3/3
    assert_eq!(desk.event(SurvivorDefaults, 1, 2), Ok(()));
    assert_eq!(pooled(&desk), [2, 5, 12, 4, 4, 14, 4, 4, 14]);
    // 2/5, nobody and 3/3
    assert_eq!(desk.event(DefaultedRemoved, 1, 2), Ok(()));
    assert_eq!(pooled(&desk), [2, 5, 12, 2, 5, 12, 3, 3, 14]);
    // 5/5, nobody and 3/3
    for _ in 0..3 {
        assert_eq!(desk.event(SurvivorDefaults, 1, 1), Ok(()));
    }
    assert_eq!(pooled(&desk), [8, 8, 14, 8, 8, 14, 8, 8, 14]);
    // Nobody, nobody and 3/3
    for _ in 0..5 {
        assert_eq!(desk.event(DefaultedRemoved, 1, 1), Ok(()));
    }
    assert_eq!(pooled(&desk), [3, 3, 14, 3, 3, 14, 3, 3, 14]);
}

fn questions() -> Vec<Call> {
    let length = 120;
    let mut questions = vec![Call::Compare, Call::CompareShares];
    for place in [1, 2] {
        questions.extend([
            Call::Pool { place, length },
            Call::Cheapest { place, u: 3, v: 1 },
            Call::Measures { place },
            Call::Brier { place },
            Call::Spread { place },
        ]);
    }
    questions
}

/// Every question about a table that events have made is answered as about the same table loaded.
#[test]
fn a_table_made_by_events_is_a_table_loaded() {
    for seed in 0..300 {
        let random = &mut Random::of_seed(seed);
        let mut desk = desk_with([Some(&any_table(random)), Some(&any_table(random))]);
        for _ in 0..random.between(1, 40) {
            let place = random.pick(&[1, 2]);
            let grades = desk.table(place).expect("loaded").grades.len() as u64;
            let grade = random.between(1, grades) as u32;
            let event = random.pick(&EVERY_EVENT);
            let before = desk.clone();
            if desk.event(event, place, grade).is_err() {
                assert_eq!(desk, before);
            }
        }
        let tables = [1, 2].map(|place| desk.table(place).cloned().expect("loaded"));
        let mut loaded = Desk::fresh();
        let mut bytes = [0; 2_000];
        let length = desk.write(&mut bytes).expect("long enough");
        for place in [1, 2] {
            assert_eq!(loaded.load(place, place, &bytes[..length]), Ok(()));
        }
        assert_eq!(loaded, desk, "{seed}");
        for question in questions() {
            let [made, read] = [&mut desk, &mut loaded].map(|desk| desk.call(&question));
            assert_eq!(made, read, "{seed}: {question}");
        }
        assert_eq!(bytes[..length], book::write(&tables.each_ref()));
    }
}

/// Firms one by one: each has a grade and is a survivor or not. An event takes the first that is
/// such a one.
#[derive(Clone)]
struct Firms {
    grades: u32,
    firms: Vec<(u32, bool)>,
}

impl Firms {
    fn of(table: &Table) -> Firms {
        let mut firms = vec![];
        for (grade, row) in (1..).zip(&table.grades) {
            firms.extend((0..row.survivors()).map(|_| (grade, true)));
            firms.extend((0..row.defaults).map(|_| (grade, false)));
        }
        let grades = table.grades.len() as u32;
        Firms { grades, firms }
    }

    fn take(&mut self, event: Event, grade: u32) -> Result<(), u32> {
        if grade == 0 || grade > self.grades {
            return Err(36);
        }
        let such = (grade, event != DefaultedRemoved);
        let index = self.firms.iter().position(|&firm| firm == such);
        match (event, index) {
            (SurvivorEnters, _) => self.firms.push(such),
            (_, None) => return Err(37),
            (SurvivorDefaults, Some(index)) => self.firms[index].1 = false,
            _ if self.firms.len() == 1 => return Err(37),
            (_, Some(index)) => drop(self.firms.remove(index)),
        }
        Ok(())
    }

    fn rows(&self) -> Vec<(u64, u64)> {
        let count = |firm: (u32, bool)| self.firms.iter().filter(|&&f| f == firm).count() as u64;
        let row = |grade| {
            (
                count((grade, true)) + count((grade, false)),
                count((grade, false)),
            )
        };
        (1..=self.grades).map(row).collect()
    }
}

#[test]
fn lists_of_events_agree_with_firms_one_by_one() {
    let mut answers = BTreeMap::new();
    for seed in 0..300 {
        let random = &mut Random::of_seed(seed);
        let (defaults, survivors) = (random.between(0, 5), random.between(1, 5));
        let table = small_table(random, defaults, survivors);
        let mut firms = Firms::of(&table);
        let mut desk = desk_with([None, Some(&table)]);
        for _ in 0..100 {
            let event = random.pick(&EVERY_EVENT);
            let grade = random.between(0, table.grades.len() as u64 + 1) as u32;
            let answer = desk.event(event, 2, grade);
            assert_eq!(
                answer,
                firms.take(event, grade),
                "{seed}: {event:?} {grade}"
            );
            let table = desk.table(2).expect("loaded");
            assert_eq!(rows(table), firms.rows(), "{seed}");
            *answers.entry((event, answer.err())).or_insert(0) += 1;
        }
    }
    // An entry is never refused with 37, and here the table is never full.
    assert_eq!(answers.len(), 4 + 4 + 3, "{answers:?}");
    assert!(answers.values().all(|&times| times > 500), "{answers:?}");
}

/// What goes in comes out: an event and the one that undoes it.
#[test]
fn events_are_undone() {
    for seed in 0..500 {
        let table = any_table(&mut Random::of_seed(seed));
        for grade in 1..=table.grades.len() as u32 {
            if let Ok(entered) = after(&table, SurvivorEnters, grade) {
                assert_eq!(after(&entered, SurvivorLeaves, grade).as_ref(), Ok(&table));
                let defaulted = after(&entered, SurvivorDefaults, grade).expect("it survived");
                assert_eq!(
                    after(&defaulted, DefaultedRemoved, grade).as_ref(),
                    Ok(&table)
                );
                let size = entered.obligors();
                assert_eq!((size, defaulted.obligors()), (table.obligors() + 1, size));
            }
        }
    }
}

/// Table h of document 01 crosses; firms that change grades turn its verdict.
#[test]
fn the_verdict_follows_the_events() {
    let [first, second] = [&[(5, 2), (1, 1)][..], &[(2, 0), (4, 3)]].map(Table::of_rows);
    let mut desk = desk_with([Some(&first), Some(&second)]);
    let verdict = |desk: &Desk| desk.compare().map(|verdict| verdict_name(&verdict));
    assert_eq!(verdict(&desk), Ok("crossing"));
    assert_eq!(desk.event(SurvivorLeaves, 1, 1), Ok(()));
    assert_eq!(verdict(&desk), Err(25));
    assert_eq!(desk.event(SurvivorEnters, 1, 2), Ok(()));
    // (4, 2), (2, 1): one block
    assert_eq!(verdict(&desk), Ok("second"));
    for event in [SurvivorLeaves, SurvivorEnters] {
        assert_eq!(
            desk.event(event, 2, if event == SurvivorLeaves { 1 } else { 2 }),
            Ok(())
        );
    }
    // (1, 0), (5, 3)
    assert_eq!(verdict(&desk), Ok("second"));
    assert_eq!(desk.event(SurvivorLeaves, 2, 1), Ok(()));
    assert_eq!(desk.event(SurvivorEnters, 2, 2), Ok(()));
    // nobody, (6, 3)
    assert_eq!(verdict(&desk), Ok("equal"));
    assert_eq!(desk.event(DefaultedRemoved, 1, 1), Ok(()));
    assert_eq!(desk.event(SurvivorEnters, 1, 2), Ok(()));
    assert_eq!(verdict(&desk), Err(25));
    assert_eq!(desk.event(SurvivorDefaults, 1, 2), Ok(()));
    // (3, 1), (3, 2)
    assert_eq!(verdict(&desk), Ok("first"));
}

#[test]
fn clear_drops_what_events_have_made() {
    let three = Table::of_rows(THREE);
    let mut desk = desk_with([Some(&three), Some(&three)]);
    assert_eq!(desk.event(SurvivorEnters, 1, 2), Ok(()));
    assert_eq!(desk.clear(1), Ok(()));
    assert_eq!(desk, desk_with([None, Some(&three)]));
    assert_eq!(desk.event(SurvivorEnters, 1, 2), Err(22));
    assert_eq!(desk.load(1, 1, &book::write(&[&three])), Ok(()));
    assert_eq!(desk, desk_with([Some(&three), Some(&three)]));
    assert_eq!(desk.load(1, 1, &book::write(&[&three])), Err(21));
}

/// Thousands of events on one table; pooled by the formula, and block by block from neighbours.
#[test]
fn a_long_list_pools_as_its_counts_say() {
    let random = &mut Random::of_seed(8);
    let mut desk = desk_with([Some(&Table::of_rows(&[(3, 1); 9])), None]);
    let mut block_counts = BTreeMap::new();
    for _ in 0..5_000 {
        let grade = random.between(1, 9) as u32;
        let event = random.pick(&[
            SurvivorEnters,
            SurvivorEnters,
            SurvivorLeaves,
            SurvivorDefaults,
            DefaultedRemoved,
        ]);
        if desk.event(event, 1, grade).is_err() {
            continue;
        }
        let table = desk.table(1).expect("loaded");
        let mut numbers = [0; 27];
        assert_eq!(desk.pool(1, &mut numbers), Ok(()));
        assert_eq!(numbers.to_vec(), pool(&Table::of_rows(&rows(table))));
        assert_eq!(merged(table), spans(table));
        *block_counts.entry(blocks(table).len()).or_insert(0) += 1;
    }
    assert!(block_counts.len() >= 5, "{block_counts:?}");
}

/// Defaults and obligors of the blocks.
fn spans(table: &Table) -> Vec<(u64, u64)> {
    let blocks = blocks(table).into_iter();
    blocks
        .map(|block| (block.rate.defaults, block.rate.obligors))
        .collect()
}

/// The same, by joining neighbours until the rates rise.
fn merged(table: &Table) -> Vec<(u64, u64)> {
    let occupied = table.grades.iter().filter(|grade| grade.obligors > 0);
    let mut blocks: Vec<(u64, u64)> = occupied
        .map(|grade| (grade.defaults, grade.obligors))
        .collect();
    let falls = |two: &[(u64, u64)]| two[0].0 * two[1].1 >= two[1].0 * two[0].1;
    while let Some(at) = blocks.windows(2).position(falls) {
        let next = blocks.remove(at + 1);
        blocks[at] = (blocks[at].0 + next.0, blocks[at].1 + next.1);
    }
    blocks
}

#[test]
fn events_are_operations_12_to_15() {
    let script = |operation: u32| -> Vec<u8> {
        [operation, 2, 7]
            .iter()
            .flat_map(|n| n.to_le_bytes())
            .collect()
    };
    for (operation, event, name) in [
        (12, SurvivorEnters, "survivor_enters"),
        (13, SurvivorLeaves, "survivor_leaves"),
        (14, SurvivorDefaults, "survivor_defaults"),
        (15, DefaultedRemoved, "defaulted_removed"),
    ] {
        let call = Call::Event {
            event,
            place: 2,
            grade: 7,
        };
        assert_eq!(call.encode(), script(operation));
        assert_eq!(decode(&script(operation)), (vec![call.clone()], false));
        for length in 1..12 {
            assert_eq!(decode(&script(operation)[..length]), (vec![], true));
        }
        assert_eq!(call.to_string(), format!("{name} 2 7"));
        let line = |answer| Answer::Event(event, answer).line();
        assert_eq!(line(Ok(())), format!("{name} ok"));
        assert_eq!(line(Err(38)), format!("{name} refused 38"));
        assert_eq!(
            Desk::fresh().call(&call).line(),
            format!("{name} refused 22")
        );
    }
    for operation in [0, 16, 17, 12 + 256] {
        assert_eq!(decode(&script(operation)), (vec![], true));
    }
}
