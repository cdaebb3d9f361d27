//! Measures the proved library beside the optimised version (`plain`) and `reference/`. `run` beside this crate calls it:
//!   bench check    all versions give the same answers on all that is measured
//!   bench count    makes the calls, for callgrind to count
//!   bench time     prints the median time of each call
mod answer;
mod callgrind;
mod cases;
mod measure;
mod plain;
mod proved;
mod version;

use cases::{cases, Case};
use reference::desk::Desk as ReferenceDesk;

fn main() {
    match std::env::args().nth(1).as_deref() {
        Some("check") => check(),
        Some("count") => {
            for case in cases() {
                measure::count::<proved::Desk>(&case);
                measure::count::<plain::Desk>(&case);
                measure::count::<ReferenceDesk>(&case);
            }
        }
        Some("time") => {
            for case in cases() {
                measure::time::<proved::Desk>(&case);
                measure::time::<plain::Desk>(&case);
                measure::time::<ReferenceDesk>(&case);
            }
        }
        _ => {
            eprintln!("usage: bench check | count | time");
            std::process::exit(2);
        }
    }
}

/// Ends with status 1 where a version answers otherwise than the reference does.
fn check() {
    let wrong: Vec<String> = cases().iter().flat_map(differences).collect();
    for line in &wrong {
        eprintln!("{line}");
    }
    if !wrong.is_empty() {
        std::process::exit(1);
    }
    println!("the three versions answer alike on all {} inputs", cases().len());
}

/// What a version answers otherwise than the reference does.
fn differences(case: &Case) -> Vec<String> {
    let expected = measure::outcome::<ReferenceDesk>(case);
    let found = [
        ("proved", measure::outcome::<proved::Desk>(case)),
        ("optimised", measure::outcome::<plain::Desk>(case)),
    ];
    let wrong = found.into_iter().filter(|(_, found)| !found.agrees(&expected, case));
    let line = |(name, found)| format!("{} {}: {name} answers {found:?}, reference {expected:?}", case.name, case.shape);
    wrong.map(line).collect()
}

#[cfg(test)]
mod tests {
    use super::*;
    use answer::Answer;
    use cases::Call;
    use reference::courses::EVERY_COURSE;
    use reference::draft::Draft;
    use reference::events::{Event, EVERY_EVENT};
    use reference::lenders::every_lenders;
    use reference::partners::{one_sided, other_obligors, same_obligors};
    use reference::population::any_table;
    use reference::random::Random;
    use reference::rivals::every_rivals;
    use reference::shortlist_scene::every_fault;
    use reference::table::Table;
    use version::Version;

    /// Both comparisons on these tables.
    fn compare(tables: [Table; 2]) {
        for call in [Call::Compare, Call::CompareShares] {
            let case = Case {
                name: "compare",
                shape: "any",
                call,
                tables: tables.to_vec(),
                kind: 0,
            };
            assert_eq!(differences(&case), [""; 0], "{tables:?}");
        }
    }

    /// The measured tables show few of the ways in which scales lie to each other, and no refusal.
    #[test]
    fn comparisons_agree_on_random_tables() {
        let mut random = Random::of_seed(6);
        for _ in 0..20 {
            for lenders in every_lenders() {
                compare(lenders.tables(&mut random));
            }
            for pair in [same_obligors, other_obligors, one_sided] {
                compare(pair(&mut random).into());
            }
            compare([any_table(&mut random), any_table(&mut random)]);
        }
    }

    /// What is measured of an event is what its name says.
    #[test]
    fn cases_are_refused_as_named() {
        for case in cases() {
            let named = case.shape.split_once("refused ").map(|(_, number)| number.parse().unwrap());
            let refused = match measure::outcome::<ReferenceDesk>(&case).answer {
                Answer::Refused(number) => Some(number),
                _ => None,
            };
            assert_eq!(refused, named, "{}: {}", case.name, case.shape);
        }
    }

    fn loaded<V: Version>(book: &[u8]) -> V {
        let mut desk = V::empty();
        desk.load(1, book, 1);
        desk.load(2, book, 2);
        desk
    }

    /// What an event answers, and what can be seen of the desk then: the pooled lists, and the tables as the book that is written of them.
    fn booked<V: Version>(desk: &mut V, event: Event, place: u32, grade: u32) -> (Answer, [Vec<u32>; 2], Vec<u8>) {
        let answer = desk.event(event, place, grade).into();
        let lists = [1, 2].map(|place| {
            let mut list = vec![u32::MAX; 120];
            desk.pool(place, &mut list);
            list
        });
        let mut book = vec![u8::MAX; 1_000];
        desk.write(&mut book);
        (answer, lists, book)
    }

    /// Lists of events, at grades of the tables and next to them.
    #[test]
    fn events_agree_on_random_tables() {
        let mut random = Random::of_seed(8);
        for course in [EVERY_COURSE; 4].concat() {
            let tables = [course.table(&mut random), course.table(&mut random)];
            let book = reference::book::write(&tables.each_ref());
            let (mut proved, mut optimised) = (loaded::<proved::Desk>(&book), loaded::<plain::Desk>(&book));
            let mut reference = loaded::<ReferenceDesk>(&book);
            for _ in 0..30 {
                let (event, place) = (random.pick(&EVERY_EVENT), random.between(0, 3) as u32);
                let grade = random.between(0, tables[0].grades.len() as u64 + 1) as u32;
                let expected = booked(&mut reference, event, place, grade);
                assert_eq!(booked(&mut proved, event, place, grade), expected, "proved: {tables:?}");
                assert_eq!(booked(&mut optimised, event, place, grade), expected, "optimised: {tables:?}");
            }
        }
    }

    fn shortlisted<V: Version>(book: &[u8], room: usize) -> (Answer, Vec<u32>) {
        let mut numbers = vec![u32::MAX; room];
        (V::shortlist(book, &mut numbers).into(), numbers)
    }

    /// With buffers that are long enough for the book's raters, for all but one, and longer.
    fn list(book: &[u8], raters: usize) {
        for room in [raters, raters - 1, raters + 2] {
            let expected = shortlisted::<ReferenceDesk>(book, room);
            assert_eq!(shortlisted::<proved::Desk>(book, room), expected, "proved: {book:?}");
            assert_eq!(shortlisted::<plain::Desk>(book, room), expected, "optimised: {book:?}");
        }
    }

    #[test]
    fn shortlists_agree_on_random_books() {
        let mut random = Random::of_seed(7);
        for _ in 0..10 {
            for rivals in every_rivals() {
                let tables = rivals.tables(&mut random);
                list(&Draft::of_tables(&mut random, &tables, 1).bytes, tables.len());
            }
            for fault in every_fault() {
                let faulty = fault.book(&mut random);
                list(&faulty.book, faulty.raters);
            }
        }
    }
}
