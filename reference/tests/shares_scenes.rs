//! The scene about R-6 of document 02 holds other programs to it: its tables are what they say, and
//! a run has all of them.

use desks::desk_with;
use played::calls_of;
use reference::answer::{verdict_name, Answer};
use reference::compare::plan;
use reference::desk::Desk;
use reference::empty_scene::without_empty;
use reference::generate::Script;
use reference::lenders::{every_lenders, Lenders};
use reference::pooling::blocks;
use reference::random::Random;
use reference::script::Call;
use reference::shares_scene::{every_fault, Holds, EVERY_HOLDS};
use reference::table::Table;
use reference::tally::Tally;
use std::collections::{BTreeMap, BTreeSet};
use tallied::cells;

use Holds::*;
use Lenders::*;

mod desks;
mod played;
mod tallied;

const SCENE: &str = "raters of different books";

fn totals(table: &Table) -> (u64, u64) {
    (table.defaults(), table.survivors())
}

/// Each kind of verdict that a case leads to.
fn verdicts_of(case: Lenders) -> &'static [&'static str] {
    match case {
        Multiple | FactorsApart | OneBlock => &["equal"],
        CornerAbove => &["crossing"],
        CornerBelow | CornerOnRay => &["first", "second"],
        // What catches more defaults at each cutoff, or turns away fewer survivors, does not cross.
        OneMoved | Coarser | OneGrade => &["equal", "first", "second"],
        _ => &["crossing", "equal", "first", "second"],
    }
}

#[test]
fn every_case_has_its_verdicts() {
    assert_eq!(every_lenders().iter().collect::<BTreeSet<_>>().len(), 26);
    for case in every_lenders() {
        let (mut verdicts, mut grade_counts) = (BTreeMap::new(), BTreeSet::new());
        for seed in 0..400 {
            let tables = case.tables(&mut Random::of_seed(seed));
            let desk = desk_with(tables.each_ref().map(Some));
            let verdict = desk.compare_shares();
            let verdict = verdict_name(&verdict.expect("the tables are sound"));
            *verdicts.entry(verdict).or_insert(0) += 1;
            grade_counts.extend(tables.each_ref().map(|table| table.grades.len()));
            if totals(&tables[0]) == totals(&tables[1]) {
                let by_counts = desk.compare().expect("the totals are equal");
                assert_eq!(verdict_name(&by_counts), verdict, "{case:?}, {seed}");
            }
        }
        let found: Vec<&str> = verdicts.keys().copied().collect();
        assert_eq!(found, verdicts_of(case), "{case:?}");
        let few = [CornerAbove, CornerBelow, CornerOnRay, HighestPrices];
        let most = grade_counts.last().copied();
        assert!(few.contains(&case) || most >= Some(20), "{case:?}");
    }
}

/// Whether the shares of all grades are the same, empty ones apart.
fn has_same_shares(first: &Table, second: &Table) -> bool {
    let shares = |table: &Table, other: &Table| -> Vec<(u64, u64)> {
        let grades = without_empty(table).grades.into_iter();
        let by = totals(other);
        let shares = grades.map(|grade| (grade.defaults * by.0, grade.survivors() * by.1));
        shares.collect()
    };
    shares(first, second) == shares(second, first)
}

fn said_of_totals(case: Lenders, tables: &[Table; 2]) -> bool {
    let [first, second] = tables.each_ref().map(totals);
    let obligors = tables.each_ref().map(Table::obligors);
    let (fewest, most) = (obligors[0].min(obligors[1]), obligors[0].max(obligors[1]));
    let together = [first, second];
    match case {
        FarApart => fewest <= 10 && most >= 90_000,
        EqualTotals => first == second,
        OneApart => first.0.abs_diff(second.0) <= 1 && first.1.abs_diff(second.1) <= 1,
        SameDefaults => first.0 == second.0 && first.1 != second.1,
        SameSurvivors => first.0 != second.0 && first.1 == second.1,
        Multiple => {
            let times = most / fewest;
            together.contains(&(first.0.min(second.0) * times, first.1.min(second.1) * times))
        }
        FactorsApart => first.0 * second.1 != second.0 * first.1,
        MostInFirst => obligors[0] == 100_000,
        MostInSecond => obligors[1] == 100_000,
        MostInBoth => obligors == [100_000; 2],
        HighestPrices => together
            .iter()
            .all(|total| total.0 * total.1 >= 2_499_950_000),
        NearlyEqual => fewest >= 90_000 && most - fewest <= 1,
        OneDefault => together.iter().any(|total| total.0 == 1),
        OneSurvivor => together.iter().any(|total| total.1 == 1),
        _ => true,
    }
}

fn said_of_grades(case: Lenders, tables: &[Table; 2]) -> bool {
    let [first, second] = tables;
    let counts = tables.each_ref().map(|table| table.grades.len());
    match case {
        FortyGrades => counts == [40; 2],
        EmptyGrades => tables
            .iter()
            .any(|table| table.occupied() < table.grades.len()),
        OneGrade => counts.contains(&1),
        OneBlock => tables.iter().all(|table| blocks(table).len() == 1),
        HighestPrices => counts.iter().all(|&count| count <= 4),
        FactorsApart => has_same_shares(first, second),
        OneMoved => !has_same_shares(first, second),
        OneMore => tables.iter().all(|table| table.occupied() > 1),
        CornerAbove | CornerBelow | CornerOnRay => {
            counts == [2; 2] && tables.iter().all(|table| blocks(table).len() == 2)
        }
        _ => true,
    }
}

#[test]
fn tables_of_the_scene_are_what_they_say() {
    for case in every_lenders() {
        for seed in 0..400 {
            let tables = case.tables(&mut Random::of_seed(seed));
            assert!(
                said_of_totals(case, &tables),
                "{case:?}, {seed}: {tables:?}"
            );
            assert!(
                said_of_grades(case, &tables),
                "{case:?}, {seed}: {tables:?}"
            );
        }
    }
}

/// The number that stands first in the order of the checks.
fn number_of(places: [Holds; 2]) -> u32 {
    let either = |kinds: &[Holds]| places.iter().any(|holds| kinds.contains(holds));
    match places {
        _ if either(&[Nothing]) => 22,
        _ if either(&[NoDefaults, TooManyNoDefaults]) => 23,
        _ if either(&[NoSurvivors, TooManyNoSurvivors]) => 24,
        _ if either(&[TooMany]) => 35,
        _ => 0,
    }
}

#[test]
fn every_two_places_lead_to_their_number() {
    assert_eq!(every_fault().len(), 48);
    for places in every_fault() {
        for seed in 0..60 {
            let random = &mut Random::of_seed(seed);
            let tables = places.map(|holds| holds.table(random));
            let desk = desk_with(tables.each_ref().map(Option::as_ref));
            let found = [1, 2].map(|place| Holds::of(desk.table(place).ok()));
            assert_eq!(found, places, "{seed}");
            let number = desk.compare_shares().err();
            assert_eq!(number, Some(number_of(places)), "{places:?}, {seed}");
        }
    }
}

#[test]
fn places_are_told_apart_at_the_limit() {
    let of = |rows: &[(u64, u64)]| Holds::of(Some(&Table::of_rows(rows)));
    assert_eq!(Holds::of(None), Nothing);
    assert_eq!(of(&[(100_000, 1)]), Sound);
    assert_eq!(of(&[(100_001, 1)]), TooMany);
    assert_eq!(of(&[(50_000, 0), (50_000, 0)]), NoDefaults);
    assert_eq!(of(&[(50_001, 0), (50_000, 0)]), TooManyNoDefaults);
    assert_eq!(of(&[(100_000, 100_000)]), NoSurvivors);
    assert_eq!(of(&[(100_001, 100_001)]), TooManyNoSurvivors);
    for holds in EVERY_HOLDS {
        let sizes: BTreeSet<u64> = (0..200)
            .filter_map(|seed| holds.table(&mut Random::of_seed(seed)))
            .map(|table| table.obligors())
            .collect();
        let expected: &[u64] = match holds {
            Nothing => &[],
            NoDefaults | NoSurvivors | Sound => &[2, 100_000],
            _ => &[100_001, 1_000_000],
        };
        assert!(expected.iter().all(|size| sizes.contains(size)), "{holds}");
    }
}

/// What the first comparison has a verdict of is compared both ways, in either order; the others
/// are refused by it now and then.
#[test]
fn the_scene_compares_equal_totals_both_ways() {
    let mut orders = BTreeMap::new();
    for two in calls_of(SCENE).windows(2) {
        let [(_, desk, one), (_, next_desk, other)] = two else {
            continue;
        };
        let (by_counts, on_shares, order) = match (one, other) {
            (Answer::Compare(one), Answer::CompareShares(other)) => (one, other, "first"),
            (Answer::CompareShares(other), Answer::Compare(one)) => (one, other, "second"),
            _ => continue,
        };
        if let (true, Ok(on_shares)) = (desk == next_desk, on_shares) {
            match by_counts {
                Ok(verdict) => assert_eq!(verdict_name(verdict), verdict_name(on_shares)),
                Err(number) => assert_eq!(*number, 25),
            }
            *orders.entry((order, by_counts.is_ok())).or_insert(0) += 1;
        }
    }
    assert!(
        orders.len() == 4 && orders.values().all(|&times| times > 10),
        "{orders:?}"
    );
}

#[test]
fn the_scene_asks_after_every_refusal() {
    let calls = calls_of(SCENE);
    let mut questions = BTreeMap::new();
    for two in calls.windows(2) {
        let [(call, desk, answer), (next, next_desk, shown)] = two else {
            continue;
        };
        // The last call of a script has none behind it.
        if *call != Call::CompareShares || answer.refusal().is_none() || desk != next_desk {
            continue;
        }
        *questions.entry(next.name()).or_insert(0) += 1;
        let is_empty = desk.book_length().is_none();
        if matches!(next, Call::Write { .. }) {
            assert_eq!(shown.refusal(), is_empty.then_some(22), "{next}");
        }
    }
    let names: Vec<_> = questions.keys().copied().collect();
    assert_eq!(
        names,
        ["brier", "compare", "measures", "write"],
        "{questions:?}"
    );
    assert!(questions.values().all(|&times| times > 30), "{questions:?}");
}

/// Scenes that compare two tables ask for both comparisons.
#[test]
fn other_scenes_compare_on_shares_too() {
    for scene in [
        "two raters, same obligors",
        "two raters, other obligors",
        "some grades empty",
        "write and load back",
        "wandering calls",
    ] {
        let mut times = [0; 2];
        for (_, _, answer) in calls_of(scene) {
            if let Answer::CompareShares(answer) = answer {
                times[usize::from(answer.is_err())] += 1;
            }
        }
        assert!(times.iter().all(|&times| times >= 5), "{scene}: {times:?}");
    }
}

/// As many calls as the gate has for a seed.
#[test]
fn a_run_has_every_case() {
    for seed in [1, 2, 3] {
        let tally = Tally::of_run(seed, 15_000).markdown();
        for case in every_lenders() {
            let cells = cells(&tally, &format!("| {case} | "));
            let times: Vec<usize> = cells.iter().map(|cell| cell.parse().unwrap_or(0)).collect();
            assert!(times[0] >= 3, "seed {seed}: {case}, {times:?}");
            assert_eq!(times[0], times[1..].iter().sum(), "seed {seed}: {case}");
            let kinds = ["equal", "first", "second", "crossing"];
            for (kind, &times) in kinds.iter().zip(&times[1..]) {
                let may_be = verdicts_of(case).contains(kind);
                assert!(times == 0 || may_be, "seed {seed}: {case}, {kind}");
            }
        }
    }
}

/// Calls of the second comparison by what the places hold and by the totals of what it takes: from
/// the desks, not by what the scene says of itself.
type Comparisons = (BTreeMap<[Holds; 2], usize>, BTreeMap<(bool, bool), usize>);

fn comparisons(seed: u64, calls: usize) -> Comparisons {
    let (mut places, mut totals_of) = Comparisons::default();
    for (seed, calls) in plan(seed, calls) {
        let mut desk = Desk::fresh();
        for call in &Script::generate(seed, calls).calls {
            let answer = desk.call(call);
            if *call != Call::CompareShares {
                continue;
            }
            let tables = [1, 2].map(|place| desk.table(place).ok());
            *places.entry(tables.map(Holds::of)).or_default() += 1;
            if let (None, [Some(first), Some(second)]) = (answer.refusal(), tables) {
                let (first, second) = (totals(first), totals(second));
                let equal = (first.0 == second.0, first.1 == second.1);
                *totals_of.entry(equal).or_default() += 1;
            }
        }
    }
    (places, totals_of)
}

#[test]
fn a_run_has_every_two_places_and_all_totals() {
    for seed in [1, 2, 3] {
        let tally = Tally::of_run(seed, 15_000).markdown();
        let (places, totals_of) = comparisons(seed, 15_000);
        for first in EVERY_HOLDS {
            let cells = cells(&tally, &format!("| {first} | 22: "));
            for (second, cell) in EVERY_HOLDS.into_iter().zip(&cells) {
                let times = places.get(&[first, second]).copied().unwrap_or(0);
                let answer = match number_of([first, second]) {
                    0 => "ok".to_string(),
                    number => number.to_string(),
                };
                let expected = format!("{answer}: {times}");
                // The start of the line has taken the first answer.
                let expected = expected.trim_start_matches("22: ");
                let found = cell.trim_start_matches("22: ");
                assert_eq!(found, expected, "seed {seed}: {first}, {second}");
                assert!(times >= 1, "seed {seed}: {first}, {second}");
            }
        }
        for (name, equal, least) in [
            ("D and S equal", (true, true), 100),
            ("D equal, S differ", (true, false), 10),
            ("S equal, D differ", (false, true), 10),
            ("D and S differ", (false, false), 50),
        ] {
            let cells = cells(&tally, &format!("| {name} | "));
            let times = totals_of.get(&equal).copied().unwrap_or(0);
            assert_eq!(cells[0], times.to_string(), "seed {seed}: {name}");
            assert!(times >= least, "seed {seed}: {name}, {times}");
            let has_all = cells.iter().all(|&cell| cell != "0");
            assert!(has_all || least < 50, "seed {seed}: {name}, {cells:?}");
        }
    }
}

/// Prices that need more than 31 bits are among those that decide.
#[test]
fn a_run_has_high_break_even_prices() {
    for seed in [1, 2, 3] {
        let tally = Tally::of_run(seed, 15_000).markdown();
        for price in [
            "2500000000",
            "2^31 and more",
            "above 1000000",
            "up to 1000000",
        ] {
            let cells = cells(&tally, &format!("| {price} | "));
            let times: usize = cells[0].parse().unwrap_or(0);
            assert!(times >= 4, "seed {seed}: {price}, {times}");
        }
    }
}
