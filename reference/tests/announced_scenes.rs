//! The scene about R-5 of document 02 holds other programs to it: its tables are what they say, and
//! a run has all of them. Tables of the other scenes never have a fall by accident.

use reference::announced::falls;
use reference::announced_scene::{every_rates, Rates};
use reference::book;
use reference::compare::plan;
use reference::desk::Desk;
use reference::draft::Draft;
use reference::generate::Script;
use reference::population::any_table;
use reference::random::Random;
use reference::script::Call;
use reference::tally::Tally;
use std::collections::{BTreeMap, BTreeSet};
use tallied::{cells, loads_of};

use Rates::*;

mod tallied;

const MILLION: u64 = 1_000_000;

/// 0 if it loads.
fn number_of(rates: Rates) -> u32 {
    match rates {
        AllEqual | EqualNeighbours | StepsOfOne | FromNoneToAll => 0,
        OneGrade | EmptyInStep | OtherRaters | Border => 0,
        DefaultsBefore | DefaultsBeside => 8,
        AboveBefore | AboveTwice | AboveMost => 10,
        BytesFollow => 33,
        _ => 34,
    }
}

/// Announced rates and obligors of the table to be loaded.
fn rows_of(draft: &Draft) -> (Vec<u64>, Vec<u64>) {
    let rates = book::announced(&draft.bytes, draft.rater);
    (rates, book::obligors(&draft.bytes, draft.rater).1)
}

#[test]
fn every_case_leads_to_its_number() {
    assert_eq!(every_rates().iter().collect::<BTreeSet<_>>().len(), 31);
    for case in every_rates() {
        let (mut kinds, mut grade_counts) = (BTreeSet::new(), BTreeSet::new());
        for seed in 0..1_000 {
            let draft = case.book(&mut Random::of_seed(seed));
            let read = book::read(&draft.bytes, draft.rater);
            let number = read.as_ref().err().copied().unwrap_or(0);
            assert_eq!(number, number_of(case), "{case:?}, {seed}");
            let (kind, obligors) = book::obligors(&draft.bytes, draft.rater);
            kinds.insert(kind);
            grade_counts.insert(obligors.len());
        }
        let of_kind_1 = number_of(case) != 8 && case != DefaultsBehind;
        assert_eq!(kinds.len(), 1 + usize::from(of_kind_1), "{case:?}");
        let (fewest, most) = (grade_counts.first(), grade_counts.last());
        assert!(fewest <= Some(&4), "{case:?}");
        let expected = if case == OneGrade { 1 } else { 40 };
        assert_eq!(most, Some(&expected), "{case:?}");
    }
}

/// What a case in step says of its rates.
fn is_in_step_as_said(case: Rates, draft: &Draft) -> bool {
    let (rates, obligors) = rows_of(draft);
    let neighbours = |test: fn(u64, u64) -> bool| rates.windows(2).map(move |w| test(w[0], w[1]));
    let said = match case {
        AllEqual => neighbours(|before, rate| before == rate).all(|equal| equal),
        EqualNeighbours => neighbours(|before, rate| before == rate).any(|equal| equal),
        StepsOfOne => neighbours(|before, rate| before + 1 == rate).all(|step| step),
        FromNoneToAll => rates[0] == 0 && rates.last() == Some(&MILLION),
        OneGrade => rates.len() == 1,
        EmptyInStep => {
            obligors.contains(&0) && neighbours(|before, rate| before < rate).all(|rise| rise)
        }
        OtherRaters => others(draft).all(|rates| !falls(&rates).is_empty()),
        _ => {
            let tables = [1, 2].map(|rater| book::announced(&draft.bytes, rater));
            tables[0].last() > tables[1].first() && tables.iter().all(|t| falls(t).is_empty())
        }
    };
    said && falls(&rates).is_empty()
}

/// The rates of the other raters.
fn others(draft: &Draft) -> impl Iterator<Item = Vec<u64>> + '_ {
    let raters = (1..).take(draft.raters());
    let others = raters.filter(|&rater| rater != draft.rater);
    others.map(|rater| book::announced(&draft.bytes, rater))
}

/// What a case with a fall says of its rates and of the grades there.
fn falls_as_said(case: Rates, draft: &Draft) -> bool {
    let (rates, obligors) = rows_of(draft);
    let falls = falls(&rates);
    let [row, last] = [falls[0], rates.len() - 1];
    let [high, low] = [rates[row - 1], rates[row]];
    let alone = falls.len() == 1;
    match case {
        SecondRow => alone && row == 1 && last > 1,
        MiddleRow => alone && row > 1 && row < last,
        LastRow => alone && row == last && last > 1,
        ByOne => alone && high - low == 1,
        ByWhole => alone && (high - low).is_multiple_of(65_536),
        FromAllToNone => alone && high == MILLION && low == 0,
        NotBelowFirst => alone && rates[1..].iter().all(|&rate| rate >= rates[0]),
        OneTooLow => alone && rates[row + 1] >= high,
        OneTooHigh => alone && low >= rates[row - 2],
        Swapped => rates.iter().collect::<BTreeSet<_>>().len() == rates.len(),
        UpsideDown => falls.len() == last,
        AtEmpty => alone && obligors[row] == 0 && rates[row + 1..].iter().all(|&r| r >= high),
        BehindEmpty => {
            let occupied_behind = obligors[row - 1] == 0 && obligors[row] > 0;
            alone && occupied_behind && rates[..row - 1].iter().all(|&r| r <= low)
        }
        AllEmpty => alone && obligors.iter().sum::<u64>() == 0,
        TooMany => alone && obligors.iter().sum::<u64>() > MILLION,
        _ => true,
    }
}

#[test]
fn rates_of_the_scene_are_what_they_say() {
    for case in every_rates() {
        for seed in 0..500 {
            let draft = case.book(&mut Random::of_seed(seed));
            let as_said = match (number_of(case), case) {
                (0, _) => is_in_step_as_said(case, &draft),
                // Nothing need stand behind the rate above.
                (_, AboveMost) => {
                    let (rates, _) = rows_of(&draft);
                    let most = rates.iter().position(|&rate| rate > MILLION);
                    most.is_some_and(|row| rates[row - 1] == MILLION)
                }
                _ => falls_as_said(case, &draft),
            };
            assert!(as_said, "{case:?}, {seed}: {:?}", rows_of(&draft));
        }
    }
}

/// The row of the first fall, of the first rate above, and of the first defaults above obligors.
fn first_faults(draft: &Draft) -> [Option<usize>; 3] {
    let (rates, obligors) = rows_of(draft);
    let index = draft.rater as usize - 1;
    let of_kind_0 = draft.bytes[draft.start(index) + 1] == 0;
    let defaults = |row| {
        let at = draft.column(index, row, reference::draft::Column::Defaults);
        u64::from(draft.number(at))
    };
    [
        falls(&rates).first().copied(),
        rates.iter().position(|&rate| rate > MILLION),
        (0..rates.len()).find(|&row| of_kind_0 && defaults(row) > obligors[row]),
    ]
}

#[test]
fn other_faults_stand_before_beside_and_behind_the_fall() {
    for case in every_rates() {
        for seed in 0..500 {
            let draft = case.book(&mut Random::of_seed(seed));
            let [fall, above, defaults] = first_faults(&draft);
            let as_said = match case {
                DefaultsBefore => defaults.is_some() && defaults < fall && above.is_none(),
                DefaultsBeside => defaults.is_some() && defaults == fall && above.is_none(),
                DefaultsBehind => fall.is_some() && fall < defaults && above.is_none(),
                AboveBefore | AboveTwice => above.is_some() && above < fall && defaults.is_none(),
                AboveMost => above.is_some() && defaults.is_none(),
                AboveBehind => fall.is_some() && fall < above && defaults.is_none(),
                _ => above.is_none() && defaults.is_none(),
            };
            assert!(as_said, "{case:?}, {seed}: {:?}", rows_of(&draft));
        }
    }
}

/// Every number of grades that a table can have, both with a fall and without.
#[test]
fn tables_of_1_to_40_grades_are_loaded_and_refused() {
    let mut grade_counts = [BTreeSet::new(), BTreeSet::new()];
    let random = &mut Random::of_seed(1);
    for case in every_rates().repeat(300) {
        let draft = case.book(random);
        let read = book::read(&draft.bytes, draft.rater);
        let grades = rows_of(&draft).0.len();
        match read {
            Ok(_) => grade_counts[0].insert(grades),
            Err(34) => grade_counts[1].insert(grades),
            Err(_) => false,
        };
    }
    assert!(grade_counts[0].iter().copied().eq(1..=40));
    assert!(grade_counts[1].iter().copied().eq(2..=40));
}

/// A place stays empty when its load is refused; what is loaded is asked for its Brier figure.
#[test]
fn the_scene_asks_after_every_load() {
    let mut questions = BTreeMap::new();
    let mut without_room = 0;
    for seed in 0..300 {
        let script = Script::generate(seed, 100);
        let mut desk = Desk::fresh();
        // Whether the call before was a load of the scene to an empty place, and accepted.
        let mut loaded = None;
        for (call, &scene) in script.calls.iter().zip(&script.scenes) {
            let refusal = desk.call(call).refusal();
            if let Some(accepted) = loaded {
                let expected = if accepted { None } else { Some(22) };
                assert_eq!(refusal, expected, "seed {seed}, {call}");
                *questions.entry((accepted, call.name())).or_insert(0) += 1;
            }
            let is_load = scene == "announced rates out of step" && call.name() == "load";
            let has_room = ![Some(1), Some(21)].contains(&refusal);
            without_room += usize::from(is_load && !has_room);
            loaded = (is_load && has_room).then_some(refusal.is_none());
        }
    }
    let names: Vec<_> = questions.keys().copied().collect();
    let of_empty = ["brier", "cheapest", "clear", "measures", "pool", "spread"];
    let expected: Vec<_> = of_empty.iter().map(|&name| (false, name)).collect();
    assert_eq!(names, [expected, vec![(true, "brier")]].concat());
    assert!(questions.values().all(|&times| times > 30), "{questions:?}");
    assert!(without_room > 30, "{without_room}");
}

/// Scenes whose tables are meant to load, whatever is wrong with the books of others.
#[test]
fn other_scenes_have_no_fall_by_accident() {
    let sound = [
        "all grades empty, or nearly",
        "at a band's limit",
        "at the limits",
        "far from the diagonal",
        "one table, all questions",
        "raters of different books",
        "some grades empty",
        "two raters, other obligors",
        "two raters, same obligors",
        "write and load back",
    ];
    let mut loads = BTreeMap::new();
    for seed in 0..300 {
        let script = Script::generate(seed, 100);
        let mut desk = Desk::fresh();
        for (call, &scene) in script.calls.iter().zip(&script.scenes) {
            let answer = desk.call(call);
            if call.name() == "load" && sound.contains(&scene) {
                assert_ne!(answer.refusal(), Some(34), "{scene}, seed {seed}: {call}");
                *loads.entry(scene).or_insert(0) += 1;
            }
        }
    }
    assert_eq!(loads.len(), sound.len(), "{loads:?}");
    assert!(loads.values().all(|&times| times > 30), "{loads:?}");
}

#[test]
fn random_tables_have_rates_of_every_sort() {
    let mut times = [0; 8];
    for seed in 0..2_000 {
        let table = any_table(&mut Random::of_seed(seed));
        let rates: Vec<u64> = table.grades.iter().map(|grade| grade.announced).collect();
        assert_eq!(falls(&rates), [], "{seed}");
        let [first, last] = [rates[0], rates[rates.len() - 1]];
        let rises: Vec<u64> = rates.windows(2).map(|two| two[1] - two[0]).collect();
        let several = rates.len() > 2;
        let sorts = [
            several && last == 0,
            several && first == MILLION,
            several && first == last && first > 0 && last < MILLION,
            several && first == 0 && last == MILLION,
            several && rises.iter().all(|&rise| rise == 1),
            several && rises.iter().all(|&rise| rise > 1),
            several && rises.contains(&0) && first < last,
            rates.len() == 1 && first > 0,
        ];
        for (times, is_such) in times.iter_mut().zip(sorts) {
            *times += usize::from(is_such);
        }
    }
    assert!(times.iter().all(|&times| times >= 20), "{times:?}");
}

/// As many calls as the gate has for a seed.
#[test]
fn a_run_has_every_case() {
    for seed in [1, 2, 3] {
        let tally = Tally::of_run(seed, 15_000).markdown();
        for case in every_rates() {
            let times = loads_of(&tally, case, number_of(case));
            assert!(times >= 5, "seed {seed}: {case}, {times}");
        }
    }
}

/// Where rates fall first, of tables whose load was accepted or came to a number of the rows: from
/// the books, not by what the scene says of itself.
fn first_falls(seed: u64, calls: usize) -> BTreeMap<(&'static str, &'static str), [usize; 2]> {
    let mut times = BTreeMap::new();
    let scripts = plan(seed, calls).into_iter();
    for call in scripts.flat_map(|(seed, calls)| answered_loads(seed, calls)) {
        let Call::Load { rater, book, .. } = call else {
            continue;
        };
        let rates = book::announced(&book, rater);
        let Some(&row) = falls(&rates).first() else {
            continue;
        };
        let place = match rates.len() - row {
            1 => "the last row",
            _ if row == 1 => "the second row",
            _ => "a middle row",
        };
        let obligors = book::obligors(&book, rater).1;
        let grade = match [obligors[row] > 0, obligors[row - 1] > 0] {
            [true, true] => "occupied, as the one before",
            [true, false] => "behind an empty one",
            _ => "empty",
        };
        let by_size: &mut [usize; 2] = times.entry((place, grade)).or_default();
        by_size[usize::from(rates[row - 1] != rates[row] + 1)] += 1;
    }
    times
}

/// The loads of a script that find the place empty and the layout sound.
fn answered_loads(seed: u64, calls: usize) -> Vec<Call> {
    let mut desk = Desk::fresh();
    let mut loads = Script::generate(seed, calls).calls;
    loads.retain(|call| {
        let refusal = desk.call(call).refusal().unwrap_or(0);
        call.name() == "load" && [0, 8, 9, 10, 11, 34].contains(&refusal)
    });
    loads
}

#[test]
fn a_run_has_falls_in_every_row_at_every_grade() {
    for seed in [1, 2, 3] {
        let tally = Tally::of_run(seed, 15_000).markdown();
        let found = first_falls(seed, 15_000);
        assert_eq!(found.len(), 9, "seed {seed}");
        let by_one: usize = found.values().map(|by_size| by_size[0]).sum();
        assert!(by_one >= 50, "seed {seed}: {by_one}");
        for ((row, grade), [by_one, by_more]) in found {
            let start = format!("| {row} | {grade} | ");
            let cells = cells(&tally, &start);
            let expected = [by_one.to_string(), by_more.to_string()];
            assert_eq!(cells[..2], expected, "seed {seed}: {start}");
            assert!(by_one + by_more >= 5, "seed {seed}: {start}");
            assert!(cells[2].contains("34: "), "seed {seed}: {start}");
        }
    }
}

#[test]
fn a_run_loads_rates_of_every_sort() {
    for seed in [1, 2, 3] {
        let tally = Tally::of_run(seed, 15_000).markdown();
        for sort in [
            "a single one",
            "all equal",
            "rises and equal neighbours",
            "a rise in every row",
        ] {
            let start = format!("| {sort} | ");
            let lines = tally.lines().filter_map(|line| line.strip_prefix(&start));
            let times = lines.filter_map(|line| line.trim_end_matches(" |").parse().ok());
            let times: Vec<usize> = times.collect();
            assert!(times.len() == 1 && times[0] >= 100, "seed {seed}: {sort}");
        }
    }
}
