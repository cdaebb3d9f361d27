//! The scenes about R-4 of document 02 hold other programs to it: their tables are what they say,
//! and a run has all of them.

use reference::book;
use reference::compare::plan;
use reference::desk::Desk;
use reference::empty_scene::{empty_runs, every_pattern, Pattern, Stand, STANDS};
use reference::generate::Script;
use reference::nearly_empty_scene::{every_rows, Rows};
use reference::partners::mixed_outcomes;
use reference::pooling::blocks;
use reference::population::any_table;
use reference::random::Random;
use reference::script::Call;
use reference::table::Table;
use reference::tally::Tally;
use std::collections::BTreeMap;
use tallied::{cells, loads_of};

mod tallied;

const NOBODY: (u64, u64) = (0, 0);
/// The rows of table K: blocks 3/20 of two grades and 4/20.
const K: [(u64, u64); 3] = [(10, 2), (10, 1), (20, 4)];

#[test]
fn runs_of_empty_grades_are_told_apart() {
    use Stand::*;
    let runs = |table: &[(u64, u64)]| empty_runs(&Table::of_rows(table));
    let [first, second, third] = K;
    assert_eq!(runs(&K), []);
    assert_eq!(runs(&[NOBODY, first, second, third]), [(BeforeBest, 1)]);
    assert_eq!(runs(&[first, NOBODY, second, third]), [(InsideBlock, 1)]);
    assert_eq!(runs(&[first, second, NOBODY, third]), [(BetweenBlocks, 1)]);
    assert_eq!(runs(&[first, second, third, NOBODY]), [(BehindWorst, 1)]);
    let all = [
        NOBODY, NOBODY, first, NOBODY, NOBODY, NOBODY, second, NOBODY, third, NOBODY, NOBODY,
    ];
    let expected = [
        (BeforeBest, 2),
        (InsideBlock, 3),
        (BetweenBlocks, 1),
        (BehindWorst, 2),
    ];
    assert_eq!(runs(&all), expected);
    let around_one = [NOBODY, first, NOBODY];
    assert_eq!(runs(&around_one), [(BeforeBest, 1), (BehindWorst, 1)]);
}

#[test]
fn tables_of_the_scene_have_the_pattern_that_it_says() {
    let patterns = every_pattern();
    let runs = patterns
        .iter()
        .filter(|pattern| matches!(pattern, Pattern::Runs(_)));
    assert_eq!(runs.count(), 15);
    for pattern in patterns {
        let mut grade_counts = vec![];
        for seed in 0..300 {
            let table = pattern.table(&mut Random::of_seed(seed));
            let read = book::read(&book::write(&[&table]), 1);
            assert_eq!(read.as_ref(), Ok(&table), "{pattern:?}, {seed}");
            grade_counts.push(table.grades.len());
            let stands: Vec<Stand> = empty_runs(&table).iter().map(|run| run.0).collect();
            match &pattern {
                Pattern::Runs(expected) => {
                    let mut sorted = stands;
                    sorted.sort_unstable();
                    assert_eq!(&sorted, expected, "{seed}");
                }
                Pattern::EverySecond => {
                    let occupied = table.grades.iter().map(|grade| grade.obligors > 0);
                    let occupied: Vec<bool> = occupied.collect();
                    assert!(occupied.windows(2).all(|two| two[0] != two[1]), "{seed}");
                }
                Pattern::AllButOne => assert_eq!(table.occupied(), 1, "{seed}"),
            }
        }
        assert!(grade_counts.iter().any(|&count| count < 8), "{pattern:?}");
        assert!(grade_counts.contains(&40), "{pattern:?}");
    }
}

fn number_of(rows: Rows) -> u32 {
    match rows {
        Rows::Obligors | Rows::AllDefaulted | Rows::MostObligors => 0,
        Rows::Default | Rows::DefaultThenRate | Rows::ObligorsAndDefault => 8,
        Rows::Nothing => 9,
        Rows::Rate | Rows::RateThenDefault | Rows::ObligorsAndRate => 10,
        Rows::OneTooMany | Rows::Wrapped => 11,
    }
}

#[test]
fn rows_of_the_scene_lead_to_their_number() {
    for rows in every_rows() {
        let mut seen = vec![];
        for seed in 0..500 {
            let draft = rows.book(&mut Random::of_seed(seed));
            let read = book::read(&draft.bytes, draft.rater);
            let number = read.as_ref().err().copied().unwrap_or(0);
            assert_eq!(number, number_of(rows), "{rows:?}, {seed}");
            let (kind, obligors) = book::obligors(&draft.bytes, draft.rater);
            let occupied = obligors.iter().filter(|&&obligors| obligors > 0).count();
            let most = match rows {
                Rows::Nothing | Rows::Default | Rows::Rate => 0,
                Rows::DefaultThenRate | Rows::RateThenDefault => 0,
                Rows::Obligors | Rows::ObligorsAndDefault | Rows::AllDefaulted => 1,
                Rows::MostObligors | Rows::OneTooMany | Rows::Wrapped => 2,
                Rows::ObligorsAndRate => 2,
            };
            assert!(
                occupied <= most && (most == 0 || occupied > 0),
                "{rows:?}, {seed}"
            );
            seen.push((kind, obligors.len()));
        }
        let grades = |count: usize| seen.iter().any(|table| table.1 == count);
        assert!(grades(2) && grades(40), "{rows:?}");
        let kinds = [0, 1].map(|kind| seen.iter().any(|table| table.0 == kind));
        let expected = match number_of(rows) {
            8 => [true, false],
            _ if rows == Rows::RateThenDefault => [true, false],
            _ if rows == Rows::AllDefaulted => [false, true],
            _ => [true, true],
        };
        assert_eq!(kinds, expected, "{rows:?}");
    }
}

#[test]
fn random_tables_have_an_empty_grade_now_and_then() {
    let empty = |table: &Table| table.occupied() < table.grades.len();
    let mut times = [0; 2];
    for seed in 0..2_000 {
        let random = &mut Random::of_seed(seed);
        for (times, table) in times
            .iter_mut()
            .zip([any_table(random), mixed_outcomes(random)])
        {
            assert!(table.obligors() > 0);
            *times += usize::from(empty(&table));
        }
    }
    assert!(
        times.iter().all(|times| (60..600).contains(times)),
        "{times:?}"
    );
}

/// What the scene asks, of the table that it asks about and of the one over the same obligors.
#[test]
fn the_scene_asks_everything_and_loads_back() {
    let mut accepted = BTreeMap::new();
    let mut equal = 0;
    for seed in 0..200 {
        let script = Script::generate(seed, 100);
        let mut desk = Desk::fresh();
        for (call, &scene) in script.calls.iter().zip(&script.scenes) {
            let answer = desk.call(call);
            if scene == "some grades empty" && answer.refusal().is_none() {
                *accepted.entry(call.name()).or_insert(0) += 1;
                equal += usize::from(answer.line() == "compare ok equal");
            }
        }
    }
    assert_eq!(accepted.len(), 11, "{accepted:?}");
    assert!(accepted.values().all(|&times| times > 20), "{accepted:?}");
    assert!(equal > 30, "{equal}");
}

/// From the desks and books, not by what the scenes say of themselves: where empty grades stand in
/// pooled tables.
fn pooled_stands(seed: u64, calls: usize) -> Vec<(Stand, usize)> {
    let mut runs = vec![];
    for (seed, calls) in plan(seed, calls) {
        let mut desk = Desk::fresh();
        for call in &Script::generate(seed, calls).calls {
            let answer = desk.call(call);
            if let (Call::Pool { place, .. }, None) = (call, answer.refusal()) {
                let table = desk.table(*place).expect("it was pooled");
                runs.extend(runs_by_blocks(table));
            }
        }
    }
    runs
}

/// Empty grades, run by run: better and worse blocks that are there, or the one around them.
fn runs_by_blocks(table: &Table) -> Vec<(Stand, usize)> {
    let mut runs: Vec<(Stand, usize)> = vec![];
    let mut before_was_empty = false;
    for (index, grade) in table.grades.iter().enumerate() {
        let is_empty = grade.obligors == 0;
        if is_empty && before_was_empty {
            runs.last_mut().expect("it has begun").1 += 1;
        } else if is_empty {
            let blocks = blocks(table);
            let begun = blocks.iter().filter(|block| block.first < index).count();
            let ended = blocks.iter().filter(|block| block.last < index).count();
            let stand = match (begun, ended) {
                (0, _) => Stand::BeforeBest,
                (_, ended) if ended == blocks.len() => Stand::BehindWorst,
                (begun, ended) if begun == ended => Stand::BetweenBlocks,
                _ => Stand::InsideBlock,
            };
            runs.push((stand, 1));
        }
        before_was_empty = is_empty;
    }
    runs
}

/// As many calls as the gate has for a seed.
#[test]
fn a_run_pools_empty_grades_at_every_place() {
    for seed in [1, 2, 3] {
        let tally = Tally::of_run(seed, 15_000).markdown();
        let runs = pooled_stands(seed, 15_000);
        let names = [
            "before the best occupied grade",
            "inside a block",
            "between two blocks",
            "behind the worst occupied grade",
        ];
        for (stand, name) in STANDS.into_iter().zip(names) {
            for (lengths, in_a_row) in [(1..=1, "1"), (2..=5, "2 to 5"), (6..=40, "6 and more")] {
                let are = |run: &&(Stand, usize)| run.0 == stand && lengths.contains(&run.1);
                let times = runs.iter().filter(are).count();
                let row = format!("\n| {name} | {in_a_row} | {times} |\n");
                assert!(tally.contains(&row), "seed {seed}: {row}");
                assert!(times >= 5, "seed {seed}: {row}");
            }
        }
    }
}

#[test]
fn a_run_loads_every_table_of_empty_grades() {
    for seed in [1, 2, 3] {
        let tally = Tally::of_run(seed, 15_000).markdown();
        for rows in every_rows() {
            let times = loads_of(&tally, rows, number_of(rows));
            assert!(times >= 10, "seed {seed}: {rows}");
        }
    }
}

#[test]
fn a_run_comes_to_the_rows_of_full_and_empty_tables_of_both_kinds() {
    let occupied = ["ok", "8", "10", "11", "34"];
    let classes = [
        ("none empty", &occupied[..]),
        ("some empty, several occupied", &occupied),
        ("all but one empty", &occupied),
        ("all empty", &["8", "9", "10", "34"]),
    ];
    let tally = Tally::of_run(1, 15_000).markdown();
    for (class, answers) in classes {
        for column in ["obligors", "survivors"] {
            let cells = cells(&tally, &format!("| {class} | {column} | "));
            let counts = cells[1].split(", ").map(|count| count.split(": ").next());
            let found: Vec<&str> = counts.flatten().collect();
            let mut expected = answers.to_vec();
            // Of kind 1 no defaults are above the obligors.
            expected.retain(|&answer| column == "obligors" || answer != "8");
            assert_eq!(found, expected, "{class}, {column}");
        }
    }
    let short = cells(&tally, "| pool | just enough for the occupied grades | ");
    assert!(short[0].parse().unwrap_or(0) >= 50, "{short:?}");
}
