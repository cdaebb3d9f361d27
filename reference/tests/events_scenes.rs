//! The scenes about R-8 of document 02 hold other programs to it: their tables are what they say, and
//! a run has every course, every check, and every limit from both sides.

use desks::desk_with;
use played::calls_of_scripts;
use reference::answer::Answer;
use reference::compare::plan;
use reference::courses::{Course, EVERY_COURSE};
use reference::desk::Desk;
use reference::events::{after, Event, EVERY_EVENT};
use reference::events_scene::LONG_LIST;
use reference::generate::{Script, MOST_OF_ALL_SCENES};
use reference::pooling::blocks;
use reference::random::Random;
use reference::script::Call;
use reference::spots::{Spot, EVERY_SPOT};
use reference::table::Table;
use reference::tally::Tally;
use std::collections::{BTreeMap, BTreeSet};
use tallied::cells;

use Course::*;
use Event::*;
use Spot::*;

mod desks;
mod played;
mod tallied;

const SCENE: &str = "firms that come and go";

/// Calls of one scene of scripts about events.
fn calls_of_events(scene: &str) -> Vec<(Call, Desk, Answer)> {
    calls_of_scripts(scene, (0..6).map(|seed| (seed, MOST_OF_ALL_SCENES + 1)))
}

fn said_of_table(course: Course, table: &Table) -> bool {
    let (grades, obligors) = (table.grades.len(), table.obligors());
    match course {
        OneGrade => grades == 1,
        FortyGrades => grades == 40,
        Refilled | BothPlaces => (2..=6).contains(&grades),
        IntoEmpty => 2 * table.occupied() <= grades + 1 && table.occupied() < grades,
        NoSurvivors | NoDefaults | DownToOne => obligors <= 8,
        Full => (999_998..=1_000_000).contains(&obligors),
        Blocks => table.occupied() >= 1 && grades >= 2,
        Verdicts | LoadedBack => table.defaults() > 0 && table.survivors() > 0,
        AnyGrades | LoadedAnew => obligors > 0,
    }
}

#[test]
fn tables_of_courses_are_what_they_say() {
    let names: BTreeSet<String> = EVERY_COURSE.iter().map(Course::to_string).collect();
    assert_eq!(names.len(), 14);
    for course in EVERY_COURSE {
        for seed in 0..400 {
            let table = course.table(&mut Random::of_seed(seed));
            assert!(said_of_table(course, &table), "{course}, {seed}: {table:?}");
            // It loads.
            desk_with([Some(&table), None]);
        }
    }
}

/// Full tables have large grades, small ones and empty ones; 1,000,000 obligors are the most common.
#[test]
fn full_tables_have_grades_of_all_sizes() {
    let mut times = [0; 4];
    for seed in 0..400 {
        let table = Full.table(&mut Random::of_seed(seed));
        let has = |is_such: fn(u64) -> bool| table.grades.iter().any(|g| is_such(g.obligors));
        let kinds = [
            has(|obligors| obligors == 0),
            has(|obligors| (1..=100).contains(&obligors)),
            has(|obligors| obligors > 100),
            table.obligors() == 1_000_000,
        ];
        for (times, kind) in times.iter_mut().zip(kinds) {
            *times += usize::from(kind);
        }
    }
    assert!(times.iter().all(|&times| times > 150), "{times:?}");
}

/// One event more or less decides about the blocks.
#[test]
fn near_rates_join_and_split() {
    let (mut joins, mut splits) = (0, 0);
    for seed in 0..200 {
        let table = Blocks.table(&mut Random::of_seed(seed));
        let now = blocks(&table).len();
        let events = (1..).take(table.grades.len());
        let events = events.flat_map(|grade| EVERY_EVENT.map(|event| (event, grade)));
        let counts: Vec<usize> = events
            .filter_map(|(event, grade)| after(&table, event, grade).ok())
            .map(|after| blocks(&after).len())
            .collect();
        joins += usize::from(counts.iter().any(|&count| count < now));
        splits += usize::from(counts.iter().any(|&count| count > now));
    }
    assert!(joins > 80 && splits > 80, "{joins} {splits}");
}

#[test]
fn spots_are_told_apart_at_the_limits() {
    let of = |rows: &[(u64, u64)], event, grade| {
        let table = Table::of_rows(rows);
        Spot::of(&desk_with([Some(&table), None]), event, 1, grade)
    };
    let fresh = Desk::fresh();
    assert_eq!(Spot::of(&fresh, SurvivorEnters, 0, 1), NoPlace);
    assert_eq!(Spot::of(&fresh, SurvivorEnters, 3, 41), NoPlaceNoGrade);
    assert_eq!(Spot::of(&fresh, SurvivorEnters, 3, 40), NoPlace);
    assert_eq!(Spot::of(&fresh, SurvivorEnters, 2, 40), EmptyPlace);
    assert_eq!(Spot::of(&fresh, SurvivorEnters, 2, 0), EmptyPlaceNoGrade);
    assert_eq!(of(&[(2, 1)], SurvivorEnters, 0), GradeZero);
    assert_eq!(of(&[(2, 1)], SurvivorEnters, 2), JustOutside);
    assert_eq!(of(&[(2, 1)], SurvivorEnters, 3), FarOutside);
    assert_eq!(of(&[(1, 1)], SurvivorEnters, 3), OutsideOfOne);
    assert_eq!(of(&[(1_000_000, 1)], SurvivorEnters, 0), OutsideOfFull);
    assert_eq!(of(&[(1, 1)], DefaultedRemoved, 1), LastObligor);
    assert_eq!(of(&[(1, 1)], SurvivorLeaves, 1), NoFirmOfOne);
    assert_eq!(of(&[(1, 0), (0, 0)], SurvivorLeaves, 2), NoFirmOfOne);
    let full = &[(999_899, 0), (100, 100), (1, 0), (0, 0)];
    assert_eq!(of(full, SurvivorEnters, 1), FullAtLarge);
    assert_eq!(of(full, SurvivorEnters, 2), FullAtSmall);
    assert_eq!(of(full, SurvivorEnters, 4), FullAtEmpty);
    assert_eq!(of(full, SurvivorLeaves, 2), NoFirm);
    assert_eq!(of(full, SurvivorLeaves, 3), FullAtSmall);
    let nearly = &[(999_898, 0), (101, 101), (0, 0)];
    assert_eq!(of(nearly, SurvivorEnters, 3), NearlyFull);
    assert_eq!(of(nearly, SurvivorLeaves, 2), NoFirm);
    assert_eq!(of(nearly, SurvivorLeaves, 3), EmptyGrade);
    assert_eq!(of(&[(2, 2), (1, 0)], SurvivorDefaults, 1), NoFirm);
    assert_eq!(of(&[(2, 2), (1, 0)], SurvivorDefaults, 2), OnlyInGrade);
    assert_eq!(of(&[(2, 1), (1, 0)], SurvivorDefaults, 1), OnlyOfKind);
    assert_eq!(of(&[(2, 2), (1, 0)], DefaultedRemoved, 1), Several);
}

/// The answer to an event that meets this, 0 if it is accepted: in the order 1, 22, 36, 37, 38.
fn number_of(spot: Spot, event: Event) -> u32 {
    match (spot, event) {
        (NoPlace | NoPlaceNoGrade, _) => 1,
        (EmptyPlace | EmptyPlaceNoGrade, _) => 22,
        (GradeZero | JustOutside | FarOutside | OutsideOfOne | OutsideOfFull, _) => 36,
        (FullAtEmpty | FullAtSmall | FullAtLarge, SurvivorEnters) => 38,
        (_, SurvivorEnters) => 0,
        (NoFirmOfOne | FullAtEmpty | EmptyGrade | NoFirm, _) => 37,
        (LastObligor, SurvivorLeaves | DefaultedRemoved) => 37,
        _ => 0,
    }
}

/// How often at least a run has an event that meets this: entries, leavings, defaults, removals.
fn fewest(spot: Spot) -> [usize; 4] {
    match spot {
        NoPlace | NoPlaceNoGrade | EmptyPlace | EmptyPlaceNoGrade => [2; 4],
        GradeZero | JustOutside | FarOutside => [1; 4],
        OutsideOfOne | OutsideOfFull => [1; 4],
        LastObligor => [0, 3, 3, 3],
        NoFirmOfOne => [3, 3, 3, 1],
        FullAtEmpty | FullAtSmall => [5, 0, 0, 0],
        FullAtLarge => [5, 1, 1, 0],
        NearlyFull => [5, 0, 0, 0],
        EmptyGrade => [20, 2, 2, 2],
        NoFirm => [20, 5, 10, 10],
        OnlyInGrade | OnlyOfKind => [10; 4],
        Several => [100; 4],
    }
}

/// As many calls as the gate has for a seed.
#[test]
fn a_run_has_every_check_and_every_limit() {
    for seed in [1, 2, 3] {
        let tally = Tally::of_run(seed, 15_000).markdown();
        for spot in EVERY_SPOT {
            let cells = cells(&tally, &format!("| {spot} | "));
            for ((event, cell), fewest) in EVERY_EVENT.iter().zip(cells).zip(fewest(spot)) {
                let answer = match number_of(spot, *event) {
                    0 => "ok: ".to_string(),
                    number => format!("{number}: "),
                };
                let times = cell
                    .strip_prefix(&answer)
                    .map_or(0, |times| times.parse().expect("there is no other answer"));
                let is_answered = cell.is_empty() || times > 0;
                assert!(is_answered, "seed {seed}: {spot}, {event:?}, {cell}");
                assert!(times >= fewest, "seed {seed}: {spot}, {event:?}, {times}");
            }
        }
    }
}

#[test]
fn a_run_has_every_course() {
    for seed in [1, 2, 3] {
        let tally = Tally::of_run(seed, 15_000).markdown();
        for course in EVERY_COURSE {
            let cells = cells(&tally, &format!("| {course} | "));
            let times: usize = cells[0].parse().unwrap_or(0);
            assert!(times >= 2, "seed {seed}: {course}, {times}");
        }
        for (change, fewest) in [
            ("fewer blocks", 30),
            ("more blocks", 30),
            ("as many blocks of other grades", 10),
            ("blocks of the same grades", 300),
        ] {
            let cells = cells(&tally, &format!("| {change} | "));
            let times: usize = cells[0].parse().unwrap_or(0);
            assert!(times >= fewest, "seed {seed}: {change}, {times}");
        }
    }
}

/// Each verdict turns into another and comes of another.
#[test]
fn a_run_turns_every_verdict() {
    let verdicts = ["equal", "first", "second", "crossing"];
    for seed in [1, 2, 3] {
        let tally = Tally::of_run(seed, 15_000).markdown();
        let mut turned = [[0; 2]; 4];
        for (row, before) in verdicts.iter().enumerate() {
            let cells = cells(&tally, &format!("| {before}, then | "));
            for (column, cell) in cells.iter().enumerate() {
                let times: usize = cell.parse().expect("a number");
                if row != column {
                    turned[row][0] += times;
                    turned[column][1] += times;
                }
            }
        }
        let often = turned.iter().flatten().all(|&times| times >= 3);
        assert!(often, "seed {seed}: {turned:?}");
    }
}

#[test]
fn a_run_asks_after_few_events_and_after_many() {
    for seed in [1, 2, 3] {
        let tally = Tally::of_run(seed, 15_000).markdown();
        for question in [
            "brier",
            "cheapest",
            "compare",
            "compare_shares",
            "measures",
            "pool",
            "spread",
            "write",
        ] {
            let cells = cells(&tally, &format!("| {question} after events | "));
            let times: Vec<usize> = cells.iter().map(|cell| cell.parse().unwrap_or(0)).collect();
            let is_often = times[0] + times[1] >= 10 && times[2] + times[3] >= 3;
            assert!(is_often, "seed {seed}: {question}, {times:?}");
        }
    }
}

/// Accepted events on a table from its load on, the most of one table of the script.
fn longest_list(script: &Script) -> usize {
    let mut desk = Desk::fresh();
    let (mut taken, mut longest) = ([0; 2], 0);
    for call in &script.calls {
        let is_accepted = desk.call(call).refusal().is_none();
        match *call {
            Call::Event { place, .. } if is_accepted => {
                taken[place as usize - 1] += 1;
                longest = longest.max(taken[place as usize - 1]);
            }
            Call::Load { place, .. } if is_accepted => taken[place as usize - 1] = 0,
            _ => (),
        }
    }
    longest
}

/// A run of the gate has a script about events besides its 15,000 calls; a short run has none.
#[test]
fn a_run_has_a_thousand_events_on_one_table() {
    for seed in [1, 2, 3] {
        let mut scripts = plan(seed, 15_000);
        let (last, calls) = scripts.pop().expect("there are scripts");
        assert_eq!(scripts.iter().map(|script| script.1).sum::<usize>(), 15_000);
        assert!(scripts.iter().all(|script| script.1 <= MOST_OF_ALL_SCENES));
        let longest = longest_list(&Script::generate(last, calls));
        assert!(longest >= 1_000, "seed {seed}: {longest}");
        let few = plan(seed, 2_000);
        assert_eq!(few.iter().map(|script| script.1).sum::<usize>(), 2_000);
    }
}

/// Half of a script about events is a list on one table.
#[test]
fn scripts_about_events_begin_with_a_long_list() {
    let length = |calls| {
        let script = Script::generate(4, calls);
        assert_eq!(script.calls.len(), calls);
        let is_listed = |scene: &&&str| **scene == LONG_LIST;
        script.scenes.iter().take_while(is_listed).count()
    };
    assert_eq!(length(MOST_OF_ALL_SCENES), 0);
    assert!((1_500..=1_700).contains(&length(MOST_OF_ALL_SCENES + 1)));
    assert!((4_000..=4_200).contains(&length(8_000)));
    assert!(longest_list(&Script::generate(4, 8_000)) > 2_500);
}

/// Every event is accepted and refused in the scene, on either place, with the other one loaded and
/// empty; each question is asked.
#[test]
fn the_scene_has_events_on_either_place() {
    let (mut events, mut questions) = (BTreeMap::new(), BTreeMap::new());
    for (call, desk, answer) in calls_of_events(SCENE) {
        match (call, answer) {
            (Call::Event { place, .. }, Answer::Event(event, answer)) if desk.is_loaded(place) => {
                let with_other = desk.is_loaded(3 - place);
                let kind = (event, place, with_other, answer.is_ok());
                *events.entry(kind).or_insert(0) += 1;
            }
            (call, _) => *questions.entry(call.name()).or_insert(0) += 1,
        }
    }
    assert_eq!(events.len(), 4 * 2 * 2 * 2);
    assert!(events.values().all(|&times| times >= 10), "{events:?}");
    assert!(
        questions.values().all(|&times| times >= 10),
        "{questions:?}"
    );
}

/// A place that is emptied by the way and loaded with the book that it had.
#[test]
fn the_scene_clears_and_loads_anew() {
    let mut times = 0;
    let mut last_load = BTreeMap::new();
    let mut changed = BTreeSet::new();
    for (call, desk, answer) in calls_of_events(SCENE) {
        match (&call, answer.refusal()) {
            (&Call::Event { place, .. }, None) => drop(changed.insert(place)),
            (Call::Load { place, rater, book }, None) => {
                let before = last_load.insert(*place, (*rater, book.clone()));
                let is_same = before.as_ref() == Some(&(*rater, book.clone()));
                times += usize::from(is_same && changed.remove(place));
                assert!(!desk.is_loaded(*place));
            }
            _ => (),
        }
    }
    assert!(times >= 5, "{times}");
}

#[test]
fn wandering_calls_have_events_among_them() {
    let mut times = [0; 2];
    for (call, _, answer) in calls_of_events("wandering among events") {
        if let Call::Event { .. } = call {
            times[usize::from(answer.refusal().is_some())] += 1;
        }
    }
    assert!(times.iter().all(|&times| times >= 30), "{times:?}");
}
