//! The scene about R-7 of document 02 holds other programs to it: its books are what they say, and a
//! run has all of them.

use played::calls_of;
use reference::answer::Answer;
use reference::book;
use reference::compare::plan;
use reference::desk::Desk;
use reference::generate::Script;
use reference::pooling::blocks;
use reference::random::Random;
use reference::rivals::{every_rivals, Rivals};
use reference::script::Call;
use reference::shortlist::{listed, shortlist};
use reference::shortlist_scene::{every_fault, Fault, EVERY_STAGE, OF_A_RATER, OF_THE_BOOK};
use reference::table::Table;
use reference::tally::Tally;
use std::collections::{BTreeMap, BTreeSet};
use std::sync::OnceLock;
use tallied::cells;

use Fault::*;
use Rivals::*;

mod played;
mod tallied;

const SCENE: &str = "shortlist of a whole book";

fn totals(table: &Table) -> (u64, u64) {
    (table.defaults(), table.survivors())
}

/// How many raters of a book may be listed: one of several, some, all.
fn listings_of(case: Rivals) -> &'static [&'static str] {
    match case {
        Alone | AllEqual | Crossing | CrossingTwins | OneBlock | CornersCross => &["all"],
        BestFirst | BestLast | BestAnywhere | OneBest => &["one"],
        CornersBelow | CornersOnLeg => &["one"],
        TwoEqualBest | OneBehind | BeatenByOne | Followers => &["some"],
        _ => &["all", "one", "some"],
    }
}

fn listing_name(listed: usize, raters: usize) -> &'static str {
    match listed {
        _ if listed == raters => "all",
        1 => "one",
        _ => "some",
    }
}

#[test]
fn every_case_lists_what_it_says() {
    assert_eq!(every_rivals().iter().collect::<BTreeSet<_>>().len(), 27);
    for case in every_rivals() {
        let (mut listings, mut raters, mut grades) = (BTreeMap::new(), [0; 17], 0);
        for seed in 0..150 {
            let tables = case.tables(&mut Random::of_seed(seed));
            assert!(tables
                .iter()
                .all(|table| totals(table) == totals(&tables[0])));
            let listed = listed(&tables);
            let count = listed.len();
            *listings
                .entry(listing_name(count, tables.len()))
                .or_insert(0) += 1;
            assert!(
                lists_as_said(case, &listed, tables.len()),
                "{case:?}, {seed}"
            );
            assert!(
                said_of_tables(case, &tables),
                "{case:?}, {seed}: {tables:?}"
            );
            raters[tables.len()] += 1;
            let most = tables.iter().map(|table| table.grades.len()).max();
            grades = grades.max(most.unwrap_or(0));
        }
        let found: Vec<&str> = listings.keys().copied().collect();
        assert_eq!(found, listings_of(case), "{case:?}");
        match case {
            Alone => assert_eq!(raters[1], 150),
            FortyGrades => assert!(raters[2..=4].iter().all(|&times| times > 10)),
            _ => {
                let several: usize = raters[6..16].iter().sum();
                assert!(several > 10 && raters[16] > 5, "{case:?}");
            }
        }
        let two_legs = [CornersCross, CornersBelow, CornersOnLeg].contains(&case);
        assert_eq!(grades, if two_legs { 2 } else { 40 }, "{case:?}");
    }
}

fn lists_as_said(case: Rivals, listed: &[u32], raters: usize) -> bool {
    match case {
        BestFirst => listed == [1],
        BestLast => listed == [raters as u32],
        TwoEqualBest => listed.len() == 2,
        OneBehind | BeatenByOne => listed.len() == raters - 1,
        Followers => listed.len() >= 2,
        _ => true,
    }
}

fn said_of_tables(case: Rivals, tables: &[Table]) -> bool {
    let (defaults, survivors) = totals(&tables[0]);
    let all = |said: fn(&Table) -> bool| tables.iter().all(said);
    match case {
        FortyGrades => all(|table| table.grades.len() == 40),
        EmptyGrades => all(|table| {
            let occupied = table.occupied();
            occupied < table.grades.len() || occupied == 40
        }),
        MostObligors => defaults + survivors == 1_000_000,
        NearlyEqual => defaults + survivors >= 900_000,
        OneDefault => defaults == 1,
        OneSurvivor => survivors == 1,
        OneBlock => all(|table| blocks(table).len() == 1),
        CornersCross | CornersBelow | CornersOnLeg => {
            all(|table| blocks(table).len() == 2 && table.grades.len() == 2)
        }
        _ => true,
    }
}

/// Equal raters mostly look different, and a beaten one may have more grades than who beats it.
#[test]
fn raters_who_lump_have_many_looks() {
    let (mut same, mut other, mut more_grades) = (0, 0, 0);
    for seed in 0..200 {
        for two in AllEqual.tables(&mut Random::of_seed(seed)).windows(2) {
            let counts = |table: &Table| -> Vec<(u64, u64)> {
                let grades = table.grades.iter();
                grades
                    .map(|grade| (grade.obligors, grade.defaults))
                    .collect()
            };
            match counts(&two[0]) == counts(&two[1]) {
                true => same += 1,
                false => other += 1,
            }
        }
        let chain = BestFirst.tables(&mut Random::of_seed(seed));
        let longer = |two: &&[Table]| two[0].grades.len() < two[1].grades.len();
        more_grades += chain.windows(2).filter(longer).count();
    }
    assert!(same > 50 && other > 500 && more_grades > 100);
}

/// When the checks come to a number of a rater.
fn turn(number: u32) -> u32 {
    match number {
        31 | 32 | 6 | 7 => 4,
        8 | 10 | 34 | 9 | 11 => 6,
        _ => number,
    }
}

/// The number that stands first in the order of the checks: 33 behind the layout of all tables.
fn number_of(of_raters: &[(usize, u32)], of_book: Option<u32>) -> u32 {
    let of_raters = of_raters
        .iter()
        .map(|&(index, number)| (turn(number), index, number));
    let of_book = of_book.map(|number| (if number == 33 { 5 } else { number }, 0, number));
    let first = of_raters.chain(of_book).min();
    first.expect("there is a fault").2
}

fn is_where_it_says(fault: Fault, raters: usize, of_raters: &[(usize, u32)]) -> bool {
    match (fault, of_raters) {
        (InLast(number), &[(index, found)]) => index == raters - 1 && found == number,
        (BeforeLast(number), &[(index, found)]) => index < raters - 1 && found == number,
        (InTwo(..), [(earlier, _), (later, _)]) => earlier < later && *later < raters,
        (OfBook(_), []) | (OfBookAndRater(_), [_]) => true,
        _ => false,
    }
}

/// Whether the fault is there, as far as one rater's table shows it; the layout is sound.
fn is_there(book: &[u8], index: usize, number: u32) -> bool {
    let read = book::read(book, index as u32 + 1);
    match (number, read) {
        (23, Ok(table)) => table.defaults() == 0,
        (24, Ok(table)) => table.survivors() == 0,
        (25, read) => read.is_ok(),
        (_, read) => read == Err(number),
    }
}

#[test]
fn every_fault_leads_to_its_number_in_every_buffer() {
    assert_eq!(every_fault().iter().collect::<BTreeSet<_>>().len(), 79);
    for fault in every_fault() {
        let mut raters = [0; 17];
        for seed in 0..120 {
            let faulty = fault.book(&mut Random::of_seed(seed));
            let found = &faulty.of_raters;
            assert!(is_where_it_says(fault, faulty.raters, found), "{fault:?}");
            let number = number_of(found, faulty.of_book);
            for length in [0, faulty.raters - 1, faulty.raters, 16, 512] {
                let answer = shortlist(&faulty.book, &mut vec![0; length]);
                assert_eq!(answer, Err(number), "{fault:?}, {seed}");
            }
            let sound_layout = faulty.of_book.is_none() && found.iter().all(|f| turn(f.1) > 4);
            for &(index, number) in found.iter().filter(|_| sound_layout) {
                assert!(is_there(&faulty.book, index, number), "{fault:?}, {seed}");
            }
            raters[faulty.raters] += 1;
        }
        let several: usize = raters[4..16].iter().sum();
        assert!(raters[3] > 5 && several > 5 && raters[16] > 0, "{fault:?}");
    }
}

/// 25 is for D alone, for S alone and for both with the same N.
#[test]
fn other_totals_differ_in_one_or_both() {
    let mut seen = BTreeMap::new();
    for seed in 0..400 {
        let faulty = InLast(25).book(&mut Random::of_seed(seed));
        let tables = book::read_all(&faulty.book).expect("sound rows");
        let [first, last] = [&tables[0], &tables[tables.len() - 1]].map(totals);
        let same = (
            first.0 == last.0,
            first.1 == last.1,
            first.0 + first.1 == last.0 + last.1,
        );
        *seen.entry(same).or_insert(0) += 1;
    }
    for same in [
        (true, false, false),
        (false, true, false),
        (false, false, true),
    ] {
        assert!(seen.get(&same) > Some(&50), "{seen:?}");
    }
}

/// Each fit of a buffer that a book without faults meets, and both kinds of first column.
#[test]
fn the_scene_lends_buffers_of_every_length() {
    let (mut fits, mut kinds) = (BTreeMap::new(), [0; 2]);
    for (call, _, answer) in calls_of(SCENE) {
        let (Call::Shortlist { length, book }, None | Some(13)) = (&call, answer.refusal()) else {
            continue;
        };
        let tables = book::read_all(book).expect("no fault");
        let (raters, listed) = (tables.len(), listed(&tables).len());
        let fit = match *length as usize {
            512 => "longest",
            0 => "none",
            length if length > raters => "longer",
            length if length == raters => "exact",
            length if length == listed => "for those listed",
            length if length == raters - 1 => "one too short",
            _ => "shorter",
        };
        assert_eq!(answer.refusal().is_none(), *length as usize >= raters);
        *fits.entry(fit).or_insert(0) += 1;
        for rater in (1..).take(raters) {
            kinds[usize::from(book::obligors(book, rater).0)] += 1;
        }
    }
    assert_eq!(fits.len(), 7, "{fits:?}");
    assert!(fits.values().all(|&times| times > 10), "{fits:?}");
    assert!(kinds.iter().all(|&times| times > 1_000), "{kinds:?}");
}

/// On empty desks and on loaded ones, which are shown now and then.
#[test]
fn the_scene_leaves_the_desk_as_it_is() {
    let calls = calls_of(SCENE);
    let (mut places, mut shown) = ([0; 3], BTreeMap::new());
    for two in calls.windows(2) {
        let [(call, desk, _), (next, next_desk, _)] = two else {
            continue;
        };
        let is_listing = matches!(call, Call::Shortlist { .. });
        if !is_listing || desk != next_desk {
            continue;
        }
        places[[1, 2]
            .iter()
            .filter(|&&place| desk.is_loaded(place))
            .count()] += 1;
        *shown.entry(next.name()).or_insert(0) += 1;
    }
    assert!(places.iter().all(|&times| times > 30), "{places:?}");
    let names: Vec<_> = shown.keys().copied().collect();
    assert_eq!(
        names,
        ["brier", "compare", "measures", "shortlist", "write"]
    );
    assert!(shown.values().all(|&times| times > 20), "{shown:?}");
}

/// Books that are loaded, and the tables of both places, are listed too.
#[test]
fn other_scenes_ask_for_shortlists_too() {
    for (scene, least) in [
        ("two raters, same obligors", [5, 5]),
        ("two raters, other obligors", [0, 5]),
        ("some grades empty", [5, 5]),
        ("wandering calls", [5, 5]),
        ("damaged book", [0, 5]),
        ("several faults at once", [0, 5]),
        ("book cut wrong", [0, 5]),
        ("two faults of a table", [0, 5]),
    ] {
        let mut times = [0; 2];
        for (_, _, answer) in calls_of(scene) {
            if let Answer::Shortlist(answer, _) = answer {
                times[usize::from(answer.is_err())] += 1;
            }
        }
        assert!(
            times[0] >= least[0] && times[1] >= least[1],
            "{scene}: {times:?}"
        );
    }
}

fn numbers(cells: &[&str]) -> Vec<usize> {
    cells.iter().map(|cell| cell.parse().unwrap_or(0)).collect()
}

/// Seeds and tallies of runs of as many calls as the gate has for a seed.
fn runs() -> &'static [(u64, String)] {
    static RUNS: OnceLock<Vec<(u64, String)>> = OnceLock::new();
    let tally = |seed| Tally::of_run(seed, 15_000).markdown();
    RUNS.get_or_init(|| [1, 2, 3].map(|seed| (seed, tally(seed))).to_vec())
}

#[test]
fn a_run_has_every_case() {
    for (seed, tally) in runs() {
        let start = tally.find("| raters of one book | ").expect("the table");
        for case in every_rivals() {
            let times = numbers(&cells(&tally[start..], &format!("| {case} | ")));
            assert_eq!(times[0], times[1..].iter().sum(), "seed {seed}: {case}");
            let accepted: usize = times[1..4].iter().sum();
            assert!(accepted >= 3, "seed {seed}: {case}, {times:?}");
            for (name, &times) in ["one", "some", "all"].iter().zip(&times[1..]) {
                let may_be = listings_of(case).contains(name);
                assert!(times == 0 || may_be, "seed {seed}: {case}, {name}");
            }
        }
    }
}

/// The answers in a cell of the tally, and how often they were given.
fn answers_of(cell: &str) -> BTreeMap<u32, usize> {
    let answers = cell
        .split(", ")
        .filter_map(|answer| answer.split_once(": "));
    let answers =
        answers.filter_map(|(number, times)| Some((number.parse().ok()?, times.parse().ok()?)));
    answers.collect()
}

#[test]
fn a_run_has_every_fault() {
    for (seed, tally) in runs() {
        let row = |head: &str, name: String| {
            let start = tally.find(head).expect("the table");
            let cells = cells(&tally[start..], &format!("| {name} | "));
            let answers: Vec<_> = cells.iter().map(|cell| answers_of(cell)).collect();
            answers
        };
        let of_one = OF_A_RATER.map(|number| ("| fault of one rater | ", number));
        let of_book = OF_THE_BOOK.map(|number| ("| fault of the book | ", number));
        for (head, number) in of_one.into_iter().chain(of_book) {
            for answers in row(head, format!("number {number}")) {
                let numbers: Vec<u32> = answers.keys().copied().collect();
                assert_eq!(numbers, [number], "seed {seed}");
                assert!(answers[&number] >= 2, "seed {seed}: {number}");
            }
        }
        for stage in EVERY_STAGE {
            let found = row("| faults of two raters, then | ", stage.to_string());
            assert_eq!(found.len(), EVERY_STAGE.len());
            for answers in found {
                let times: usize = answers.values().sum();
                assert!(times >= 1, "seed {seed}: {stage}");
            }
        }
    }
}

/// Accepted calls by the number of raters and by how many are listed: from the books, not by what
/// the scene says of itself.
fn listings(seed: u64, calls: usize) -> BTreeMap<(usize, &'static str), usize> {
    let mut found = BTreeMap::new();
    for (seed, calls) in plan(seed, calls) {
        for call in &Script::generate(seed, calls).calls {
            let Call::Shortlist { book, .. } = call else {
                continue;
            };
            if let Answer::Shortlist(Ok(listed), _) = Desk::fresh().call(call) {
                let raters = book::read_all(book).expect("accepted").len();
                let name = listing_name(listed, raters);
                *found.entry((raters, name)).or_default() += 1;
            }
        }
    }
    found
}

#[test]
fn a_run_lists_one_some_and_all_of_1_to_16_raters() {
    for (seed, tally) in runs() {
        let start = tally.find("| book of | ").expect("the table");
        let found = listings(*seed, 15_000);
        for (name, raters, least) in [
            ("1 rater", 1..=1, [0, 0, 10]),
            ("2 raters", 2..=2, [30, 0, 30]),
            ("3 to 5 raters", 3..=5, [15, 15, 10]),
            ("6 to 15 raters", 6..=15, [10, 10, 5]),
            ("16 raters", 16..=16, [3, 3, 3]),
        ] {
            let times = numbers(&cells(&tally[start..], &format!("| {name} | ")));
            for ((kind, &times), least) in ["one", "some", "all"].iter().zip(&times[1..]).zip(least)
            {
                let alike = found
                    .iter()
                    .filter(|((count, name), _)| raters.contains(count) && name == kind);
                let expected: usize = alike.map(|(_, times)| times).sum();
                assert_eq!(times, expected, "seed {seed}: {name}, {kind}");
                assert!(times >= least, "seed {seed}: {name}, {kind}, {times}");
            }
        }
    }
}

#[test]
fn a_run_lends_buffers_of_every_fit() {
    for (seed, tally) in runs() {
        for fit in [
            "exact",
            "longer",
            "one too short",
            "just enough for the raters listed",
            "shorter still",
        ] {
            let times = numbers(&cells(tally, &format!("| shortlist | {fit} | ")));
            assert!(times[0] >= 15, "seed {seed}: {fit}, {times:?}");
        }
    }
}
