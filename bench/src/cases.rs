//! What is measured: each call on tables of several shapes, all of 40 grades. The same inputs in every run.
use reference::events::{Event, EVERY_EVENT};
use reference::lenders::times;
use reference::random::Random;
use reference::table::Table;

#[derive(Clone, Copy)]
pub enum Call {
    /// Place 1 of a fresh desk, the last rater of a full book.
    Load,
    Clear,
    /// At a grade of place 1.
    Event {
        event: Event,
        grade: u32,
    },
    Pool,
    Cheapest {
        u: u32,
        v: u32,
    },
    Compare,
    CompareShares,
    Shortlist,
    Measures,
    Brier,
    Spread,
    Write,
}

pub struct Case {
    pub name: &'static str,
    pub shape: &'static str,
    pub call: Call,
    /// What stands in the two places; for load, the table of the last rater stands first. For shortlist, the raters of its book.
    pub tables: Vec<Table>,
    /// The kind of the first column of the book that load reads.
    pub kind: u8,
}

const GRADES: u64 = 40;
const RATERS: usize = 16;
/// The grade at which events are booked, in the middle of the table.
const EVENT_GRADE: u32 = 20;

fn rows(of: &Table) -> Vec<(u64, u64)> {
    of.grades.iter().map(|grade| (grade.obligors, grade.defaults)).collect()
}

/// A table of rows (n, d), whose announced rates rise evenly.
fn table(rows: &[(u64, u64)]) -> Table {
    let mut table = Table::of_rows(rows);
    for (step, grade) in (1..).zip(&mut table.grades) {
        grade.announced = 20_000 * step;
    }
    table
}

/// 40 grades of equally many obligors: defaults rise by a part of them and one from grade to grade.
fn rising_by(part: u64, obligors: u64) -> Table {
    let next = |d: &u64| Some(d + d / part + 1);
    let defaults = std::iter::successors(Some(1), next);
    let rows: Vec<_> = defaults.take(GRADES as usize).map(|d| (obligors, d)).collect();
    table(&rows)
}

/// Every grade is a block. N is the largest, and the rates go through every band.
fn rising() -> Table {
    rising_by(4, 25_000)
}

/// The same with room for more obligors.
fn rising_with_room() -> Table {
    rising_by(4, 24_000)
}

/// Every grade is a block. N is half the largest that is compared on shares.
fn rising_half() -> Table {
    rising_by(7, 1_250)
}

/// The same scale of a book of twice the size.
fn twice(of: &Table) -> Table {
    times(of, (2, 2))
}

/// A scale that is upside down. Of a rising one all grades are one block; each joins as soon as it is reached.
fn upside_down(of: &Table) -> Table {
    let mut rows = rows(of);
    rows.reverse();
    table(&rows)
}

/// Every grade is a block until the best one is reached, which takes in all of them.
fn collapsing() -> Table {
    let mut rows = vec![(600_000, 600_000)];
    rows.extend((1..GRADES).map(|step| (10_000, 100 * step)));
    table(&rows)
}

/// Rates rise with noise: a few blocks of several grades. A grade has at most so many obligors.
fn random(seed: u64, most_obligors: u64) -> Table {
    let mut random = Random::of_seed(seed);
    let mut grade = |index: u64| {
        let obligors = random.between(100, most_obligors);
        let most = obligors * (index + 10) / (GRADES + 10);
        let defaults = random.between(0, most);
        (obligors, defaults)
    };
    table(&(0..GRADES).map(&mut grade).collect::<Vec<_>>())
}

fn mixed() -> Table {
    random(7, 24_000)
}

/// Every second grade of the rising table is empty, the best one among them.
fn half_empty() -> Table {
    let mut half = rising();
    for grade in half.grades.iter_mut().step_by(2) {
        (grade.obligors, grade.defaults) = (0, 0);
    }
    half
}

/// The same rows in another order: D and S stay.
fn shuffled(of: &Table, seed: u64) -> Table {
    let mut rows = rows(of);
    Random::of_seed(seed).shuffle(&mut rows);
    table(&rows)
}

/// A rising table with one default more in a grade and one less in the next: the two are less well told apart, D and S stay.
fn blurred(of: &Table, grade: usize) -> Table {
    let mut blurred = of.clone();
    blurred.grades[grade].defaults += 1;
    blurred.grades[grade + 1].defaults -= 1;
    blurred
}

/// The table with these counts in the grade of the events.
fn with_counts(mut table: Table, obligors: u64, defaults: u64) -> Table {
    let grade = &mut table.grades[EVENT_GRADE as usize - 1];
    (grade.obligors, grade.defaults) = (obligors, defaults);
    table
}

fn case(name: &'static str, shape: &'static str, call: Call, tables: impl Into<Vec<Table>>) -> Case {
    Case {
        name,
        shape,
        call,
        tables: tables.into(),
        kind: 0,
    }
}

/// For a call that works on one place.
fn alone(table: Table) -> [Table; 2] {
    [table.clone(), table]
}

/// Each event accepted, and each refusal.
fn events() -> Vec<Case> {
    let at = |grade, event: Event, shape, table| case(event.name(), shape, Call::Event { event, grade }, alone(table));
    let booked = |event, shape, table| at(EVENT_GRADE, event, shape, table);
    let accepted = EVERY_EVENT.into_iter().flat_map(|event| {
        [
            booked(event, "40 blocks", rising_with_room()),
            booked(event, "random", mixed()),
            booked(event, "one block", upside_down(&rising_with_room())),
        ]
    });
    let nobody = || table(&[(0, 0); GRADES as usize]);
    let all_defaulted = || with_counts(rising(), 25_000, 25_000);
    let refused = [
        at(GRADES as u32 + 1, Event::SurvivorEnters, "grade 41, refused 36", rising_with_room()),
        booked(Event::SurvivorEnters, "full table, refused 38", rising()),
        booked(Event::SurvivorLeaves, "no survivor, refused 37", all_defaulted()),
        booked(Event::SurvivorLeaves, "last obligor, refused 37", with_counts(nobody(), 1, 0)),
        booked(Event::SurvivorDefaults, "no survivor, refused 37", all_defaulted()),
        booked(Event::DefaultedRemoved, "no default, refused 37", with_counts(rising(), 25_000, 0)),
        booked(Event::DefaultedRemoved, "last obligor, refused 37", with_counts(nobody(), 1, 1)),
    ];
    accepted.chain(refused).collect()
}

/// On tables of the same D and S.
fn comparisons() -> Vec<Case> {
    let (rising, mixed) = (rising(), mixed());
    let compare = |shape, tables| case("compare", shape, Call::Compare, tables);
    vec![
        compare("equal, 40 blocks", alone(rising.clone())),
        compare("first, 40 blocks", [rising.clone(), blurred(&rising, 8)]),
        compare("crossing, 40 blocks", [blurred(&rising, 6), blurred(&rising, 8)]),
        compare("random", [mixed.clone(), shuffled(&mixed, 8)]),
        compare("equal, one block", alone(upside_down(&rising))),
    ]
}

/// On books of different sizes.
fn comparisons_on_shares() -> Vec<Case> {
    let half = rising_half();
    let whole = twice(&half);
    let compare = |shape, tables| case("compare_shares", shape, Call::CompareShares, tables);
    vec![
        compare("equal, 40 blocks", [half.clone(), whole.clone()]),
        compare("first, 40 blocks", [half.clone(), blurred(&whole, 8)]),
        compare("crossing, 40 blocks", [blurred(&half, 10), blurred(&whole, 8)]),
        compare("random", [random(7, 2_400), random(8, 1_200)]),
        compare("equal, one block", [upside_down(&half), upside_down(&whole)]),
    ]
}

/// On books of 16 raters, and on one of two.
fn shortlists() -> Vec<Case> {
    let (rising, mixed) = (rising(), mixed());
    let blurred_at = |grade| blurred(&rising, grade);
    let worse = |(table, grade): &(Table, usize)| Some((blurred(table, *grade), grade + 2));
    let chain = std::iter::successors(Some((rising.clone(), 5)), worse);
    let best_first: Vec<_> = chain.map(|(table, _)| table).take(RATERS).collect();
    let best_last: Vec<_> = best_first.iter().rev().cloned().collect();
    let shortlist = |shape, tables| case("shortlist", shape, Call::Shortlist, tables);
    vec![
        shortlist("equal, 40 blocks", vec![rising.clone(); RATERS]),
        shortlist("best first, 40 blocks", best_first),
        shortlist("best last, 40 blocks", best_last),
        shortlist("crossing, 40 blocks", (5..).map(blurred_at).take(RATERS).collect()),
        shortlist("random", (1..).map(|seed| shuffled(&mixed, seed)).take(RATERS).collect()),
        shortlist("equal, one block", vec![upside_down(&rising); RATERS]),
        shortlist("two crossing, 40 blocks", vec![blurred_at(6), blurred_at(8)]),
    ]
}

pub fn cases() -> Vec<Case> {
    let prices = Call::Cheapest { u: 1_000, v: 70 };
    let falling = || upside_down(&rising());
    let load = |shape, table| case("load", shape, Call::Load, alone(table));
    let mut cases = vec![
        load("40 blocks", rising()),
        Case {
            kind: 1,
            ..load("40 blocks, by survivors", rising())
        },
        load("random", mixed()),
        load("one block", falling()),
        load("40 blocks, then one", collapsing()),
        load("every second grade empty", half_empty()),
        case("clear", "", Call::Clear, alone(rising())),
    ];
    cases.extend(events());
    cases.extend([
        case("pool", "", Call::Pool, alone(rising())),
        case("cheapest", "40 blocks", prices, alone(rising())),
        case("cheapest", "random", prices, alone(mixed())),
    ]);
    cases.extend(comparisons());
    cases.extend(comparisons_on_shares());
    cases.extend(shortlists());
    cases.extend([
        case("measures", "40 blocks", Call::Measures, alone(rising())),
        case("measures", "random", Call::Measures, alone(mixed())),
        case("measures", "upside down", Call::Measures, alone(falling())),
        case("brier", "", Call::Brier, alone(rising())),
        case("spread", "40 blocks", Call::Spread, alone(rising())),
        case("spread", "random", Call::Spread, alone(mixed())),
        case("spread", "one block", Call::Spread, alone(falling())),
        case("write", "both places", Call::Write, [rising(), mixed()]),
    ]);
    cases
}

impl Case {
    /// The book that load reads: 16 raters of 40 grades, the last one's table being the first of the case.
    pub fn full_book(&self) -> Vec<u8> {
        let others: Vec<Table> = (1..RATERS as u64).map(|seed| random(seed, 24_000)).collect();
        let mut tables: Vec<(&Table, u8)> = others.iter().map(|table| (table, 0)).collect();
        tables.push((&self.tables[0], self.kind));
        reference::book::write_kinds(&tables)
    }

    /// The book of the case's tables, from which the two places are loaded.
    pub fn book(&self) -> Vec<u8> {
        reference::book::write(&self.tables.iter().collect::<Vec<_>>())
    }
}

#[cfg(test)]
mod tests {
    use super::*;
    use reference::cutoff::{verdict, Verdict};
    use reference::pooling::blocks;
    use reference::shares::{verdict_on_shares, MAX_OBLIGORS_ON_SHARES};
    use reference::table::Grade;

    #[test]
    fn shapes_are_as_named() {
        let counts = |table: &Table| blocks(table).len();
        assert_eq!(counts(&rising()), 40);
        assert_eq!(counts(&upside_down(&rising())), 1);
        assert_eq!(counts(&collapsing()), 1);
        assert_eq!(counts(&half_empty()), 20);
        let inner = Table {
            grades: collapsing().grades[1..].to_vec(),
        };
        assert_eq!(counts(&inner), 39);
        assert!((5..20).contains(&counts(&mixed())));
        let full = |grade: &Grade| grade.obligors == 25_000;
        assert!(rising().grades.iter().all(full));
    }

    /// Before an event and after it.
    #[test]
    fn events_are_as_named() {
        for case in events() {
            let Call::Event { event, grade } = case.call else {
                unreachable!("all are events")
            };
            let expected = match case.shape {
                "40 blocks" => 40..=40,
                "one block" => 1..=1,
                "random" => 5..=20,
                _ => continue,
            };
            let after = reference::events::after(&case.tables[0], event, grade).expect("it is accepted");
            for table in [&case.tables[0], &after] {
                assert!(expected.contains(&blocks(table).len()), "{}: {}", case.name, case.shape);
            }
        }
    }

    fn word(verdict: Verdict) -> &'static str {
        match verdict {
            Verdict::Equal => "equal",
            Verdict::First(_) => "first",
            Verdict::Second(_) => "second",
            Verdict::Crossing(..) => "crossing",
        }
    }

    #[test]
    fn comparisons_are_as_named() {
        for case in comparisons().iter().chain(&comparisons_on_shares()) {
            let (first, second) = (&case.tables[0], &case.tables[1]);
            let on_shares = matches!(case.call, Call::CompareShares);
            let verdict = if on_shares { verdict_on_shares } else { verdict };
            if let Some((named, _)) = case.shape.split_once(", ") {
                assert_eq!(word(verdict(first, second)), named);
            }
            assert_blocks_as_named(case);
            assert!(!on_shares || case.tables.iter().all(|table| table.obligors() <= MAX_OBLIGORS_ON_SHARES));
            assert_eq!(on_shares, first.obligors() != second.obligors());
        }
    }

    fn assert_blocks_as_named(case: &Case) {
        let expected = match case.shape.split_once(", ") {
            Some((_, "40 blocks")) => 40..=40,
            Some(_) => 1..=1,
            None => 2..=20,
        };
        for table in &case.tables {
            assert!(expected.contains(&blocks(table).len()), "{}: {}", case.name, case.shape);
        }
    }

    /// The verdicts on each rater and every later one.
    fn verdicts(tables: &[Table]) -> Vec<&'static str> {
        let verdicts_on = |(index, first)| tables[index + 1..].iter().map(move |second| word(verdict(first, second)));
        tables.iter().enumerate().flat_map(verdicts_on).collect()
    }

    #[test]
    fn shortlists_are_as_named() {
        for case in shortlists() {
            assert_blocks_as_named(&case);
            let found = verdicts(&case.tables);
            let expected = match case.shape.split_once(", ") {
                Some(("equal", _)) => "equal",
                Some(("best first", _)) => "first",
                Some(("best last", _)) => "second",
                Some(_) => "crossing",
                None => {
                    assert!(["first", "second", "crossing"].iter().all(|word| found.contains(word)));
                    continue;
                }
            };
            assert!(found.iter().all(|word| *word == expected), "{}: {found:?}", case.shape);
        }
    }
}
