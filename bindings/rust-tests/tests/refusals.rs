//! Every refusal number of every call, through the C boundary. At a refusal the desk and all that
//! was lent are as they were, to the last bit.

mod common;

use common::{Rows, book_of, desk_with};
use desk::{Cutoff, Desk, Fraction, Measures, Price, Spread, sys};
use reference::book;
use reference::damage::WAYS;
use reference::draft::Draft;
use reference::population::any_table;
use reference::random::Random;
use reference::table::Table;
use std::fmt::Debug;
use std::hint::black_box;

const MIXED: Rows = &[(10, 2), (10, 1), (20, 4)];
const NO_DEFAULTS: Rows = &[(3, 0)];
const NO_SURVIVORS: Rows = &[(3, 3)];
const TOP_IS_EMPTY: Rows = &[(0, 0), (10, 2), (10, 1), (0, 0), (20, 4)];
const NO_PLACES: [u32; 4] = [0, 3, 257, u32::MAX];

/// Sees a call refused with this number, and neither the desk nor what was lent changed.
fn refused<T: Clone + Debug>(
    desk: &Desk,
    lent: T,
    number: u32,
    call: impl FnOnce(&mut Desk, &mut T) -> u32,
) {
    let mut desk_after = desk.clone();
    let mut lent_after = lent.clone();
    assert_eq!(call(&mut desk_after, &mut lent_after), number);
    // Most calls borrow the desk, so the compiler need not look whether it changed.
    black_box(&mut desk_after);
    assert!(
        desk_after == *desk,
        "refused {number}, and {desk:?} changed"
    );
    // Printed, since fractions are compared by value, and these are to be as they were written.
    assert_eq!(
        format!("{lent_after:?}"),
        format!("{lent:?}"),
        "refused {number}, and what was lent changed"
    );
}

fn load_refused(desk: &Desk, place: u32, book: &[u8], rater: u32, number: u32) {
    refused(desk, book.to_vec(), number, |desk, book| {
        sys::load(desk, place, book, rater)
    });
}

fn clear_refused(desk: &Desk, place: u32, number: u32) {
    refused(desk, (), number, |desk, ()| sys::clear(desk, place));
}

/// The four events.
const EVENTS: [extern "C" fn(&mut Desk, u32, u32) -> u32; 4] = [
    sys::survivor_enters,
    sys::survivor_leaves,
    sys::survivor_defaults,
    sys::defaulted_removed,
];

fn event_refused(desk: &Desk, event: usize, place: u32, grade: u32, number: u32) {
    refused(desk, (), number, |desk, ()| {
        EVENTS[event](desk, place, grade)
    });
}

fn pool_refused(desk: &Desk, place: u32, length: usize, number: u32) {
    refused(desk, vec![0xAAAA_AAAA; length], number, |desk, numbers| {
        sys::pool(desk, place, numbers)
    });
}

fn cheapest_refused(desk: &Desk, place: u32, price: (u32, u32), number: u32) {
    let lent = Cutoff {
        cutoff: i64::MAX,
        cost: 7,
    };
    refused(desk, lent, number, |desk, answer| {
        sys::cheapest(desk, place, price.0, price.1, answer)
    });
}

const VERDICT: sys::Verdict = sys::Verdict {
    kind: 9,
    first_dearer: Price { u: 8, v: 7 },
    second_dearer: Price { u: 6, v: 5 },
};

fn compare_refused(first: Option<Rows>, second: Option<Rows>, number: u32) {
    let desk = desk_with(first, second);
    refused(&desk, VERDICT, number, |desk, answer| {
        sys::compare(desk, answer)
    });
}

fn compare_shares_refused(desk: &Desk, number: u32) {
    refused(desk, VERDICT, number, |desk, answer| {
        sys::compare_shares(desk, answer)
    });
}

const FRACTION: Fraction = Fraction::new(-3, 6).expect("a positive denominator");

fn measures_refused(desk: &Desk, place: u32, number: u32) {
    let lent = Measures {
        defaults: -1,
        survivors: -2,
        gini: FRACTION,
        roc: FRACTION,
        cap: FRACTION,
        pietra: FRACTION,
        cutoff: -5,
    };
    refused(desk, lent, number, |desk, answer| {
        sys::measures(desk, place, answer)
    });
}

fn brier_refused(desk: &Desk, place: u32, number: u32) {
    refused(desk, FRACTION, number, |desk, answer| {
        sys::brier(desk, place, answer)
    });
}

fn spread_refused(desk: &Desk, place: u32, number: u32) {
    let lent = Spread {
        total: -1.5,
        residual: -2.5,
    };
    refused(desk, lent, number, |desk, answer| {
        sys::spread(desk, place, answer)
    });
}

fn write_refused(desk: &Desk, length: usize, number: u32) {
    let lent = (vec![0xAA; length], 77);
    refused(desk, lent, number, |desk, (book, written)| {
        sys::write(desk, book, written)
    });
}

/// Behind the desk's back: no desk is lent.
fn shortlist_refused(book: &[u8], length: usize, number: u32) {
    let lent = (book.to_vec(), vec![0xAAAA_AAAA; length], 77);
    refused(
        &Desk::empty(),
        lent,
        number,
        |_, (book, numbers, listed)| sys::shortlist(book, numbers, listed),
    );
}

#[test]
fn no_such_place() {
    for desk in [desk_with(None, None), desk_with(Some(MIXED), Some(MIXED))] {
        for place in NO_PLACES {
            load_refused(&desk, place, &book_of(MIXED), 1, 1);
            load_refused(&desk, place, &[], 0, 1);
            clear_refused(&desk, place, 1);
            for event in 0..4 {
                event_refused(&desk, event, place, 1, 1);
                event_refused(&desk, event, place, 41, 1);
            }
            pool_refused(&desk, place, 120, 1);
            pool_refused(&desk, place, 0, 1);
            cheapest_refused(&desk, place, (1, u32::MAX), 1);
            measures_refused(&desk, place, 1);
            brier_refused(&desk, place, 1);
            spread_refused(&desk, place, 1);
        }
    }
}

#[test]
fn empty_place() {
    let tables = [
        (1, desk_with(None, Some(MIXED))),
        (2, desk_with(Some(MIXED), None)),
    ];
    for (empty, desk) in tables {
        clear_refused(&desk, empty, 22);
        for event in 0..4 {
            event_refused(&desk, event, empty, 1, 22);
            event_refused(&desk, event, empty, 41, 22);
        }
        pool_refused(&desk, empty, 120, 22);
        pool_refused(&desk, empty, 0, 22);
        cheapest_refused(&desk, empty, (u32::MAX, 1), 22);
        measures_refused(&desk, empty, 22);
        brier_refused(&desk, empty, 22);
        spread_refused(&desk, empty, 22);
    }
}

#[test]
fn loaded_place() {
    let desk = desk_with(Some(MIXED), Some(NO_DEFAULTS));
    for place in [1, 2] {
        load_refused(&desk, place, &book_of(MIXED), 1, 21);
        load_refused(&desk, place, &[], 0, 21);
    }
}

#[test]
fn damaged_books() {
    let mut random = Random::of_seed(11);
    let desks = [desk_with(None, Some(MIXED)), desk_with(Some(MIXED), None)];
    for _ in 0..50 {
        for (number, damage) in WAYS {
            let table = any_table(&mut random);
            let mut draft = Draft::around(&mut random, &table);
            damage(&mut random, &mut draft);
            for (place, desk) in (1..).zip(&desks) {
                load_refused(desk, place, &draft.bytes, draft.rater, number);
            }
            // 4 is of load alone.
            for length in [0, 16] {
                if number != 4 {
                    shortlist_refused(&draft.bytes, length, number);
                }
            }
        }
    }
}

/// 9 means that all grades are empty, and stands behind the rows and before 11.
#[test]
fn all_grades_empty() {
    let desk = desk_with(Some(MIXED), None);
    for grades in 1..=40 {
        let book = book_of(&vec![(0, 0); grades]);
        let [mut survivors, mut defaulted, mut high] = [(); 3].map(|()| book.clone());
        survivors[7] = 1; // kind
        let last = book.len() - 12;
        defaulted[last + 4] = 1;
        high[last + 8..].copy_from_slice(&1_000_001_u32.to_le_bytes());
        load_refused(&desk, 2, &book, 1, 9);
        load_refused(&desk, 2, &survivors, 1, 9);
        load_refused(&desk, 2, &defaulted, 1, 8);
        load_refused(&desk, 2, &high, 1, 10);
        for at in [last, 10] {
            let mut occupied = book.clone();
            occupied[at] = 1;
            assert_eq!(sys::load(&mut desk.clone(), 2, &occupied, 1), 0);
            occupied[at + 3] = 1; // 16,777,217 obligors
            load_refused(&desk, 2, &occupied, 1, 11);
        }
    }
}

/// A table whose grades announce these rates.
fn announcing(rows: Rows, rates: &[u64]) -> Table {
    let mut table = Table::of_rows(rows);
    table.announce(rates);
    table
}

/// of both kinds, in every row but the first, behind 8 and 10; equal neighbours pass.
#[test]
fn falling_rates() {
    const ONE_EACH: Rows = &[(1, 0); 40];
    const ALL_EMPTY: Rows = &[(0, 0); 40];
    const TOO_MANY: Rows = &[(1_000_000, 0); 40];
    let desk = desk_with(None, Some(MIXED));
    for (rows, kind) in [ONE_EACH, ALL_EMPTY, TOO_MANY]
        .into_iter()
        .flat_map(|rows| [(rows, 0), (rows, 1)])
    {
        for row in 1..40 {
            let mut rates = [7; 40];
            rates[row..].fill(6);
            let mut falls = book::write_kinds(&[(&announcing(rows, &rates), kind)]);
            load_refused(&desk, 1, &falls, 1, 34);
            let defaults = 10 + 12 * row + 4;
            falls[defaults + 3] = 1; // more defaults than obligors
            load_refused(&desk, 1, &falls, 1, if kind == 0 { 8 } else { 34 });
            rates[row - 1] = 1_000_001;
            let high = book::write_kinds(&[(&announcing(rows, &rates), kind)]);
            load_refused(&desk, 1, &high, 1, 10);
            rates[..row].fill(6);
            let equal = book::write_kinds(&[(&announcing(ONE_EACH, &rates), kind)]);
            assert_eq!(sys::load(&mut desk.clone(), 1, &equal, 1), 0);
        }
    }
}

/// Whatever the other raters of the book announce.
#[test]
fn falling_rates_of_others() {
    let desk = desk_with(Some(MIXED), None);
    let (rises, falls) = (announcing(MIXED, &[5, 5, 6]), announcing(MIXED, &[5, 6, 5]));
    for rising in 1..=16 {
        let table = |rater| if rater == rising { &rises } else { &falls };
        let book = book::write(&(1..=16).map(table).collect::<Vec<&Table>>());
        for rater in (1..=16).filter(|&rater| rater != rising) {
            load_refused(&desk, 2, &book, rater, 34);
        }
        assert_eq!(sys::load(&mut desk.clone(), 2, &book, rising), 0);
    }
}

/// A place whose table has empty grades is loaded, and they bring neither defaults nor survivors.
#[test]
fn empty_grades_beside_others() {
    let desk = desk_with(Some(TOP_IS_EMPTY), Some(&[(0, 0), (3, 0), (0, 0)]));
    for place in [1, 2] {
        load_refused(&desk, place, &book_of(&[(0, 0)]), 1, 21);
    }
    measures_refused(&desk, 2, 23);
    compare_refused(Some(TOP_IS_EMPTY), Some(&[(0, 0), (3, 0)]), 23);
    compare_refused(Some(TOP_IS_EMPTY), Some(&[(3, 3), (0, 0)]), 24);
    compare_refused(Some(TOP_IS_EMPTY), Some(&[(20, 2), (20, 4), (0, 0)]), 25);
    let mut verdict = sys::Verdict::default();
    let same = desk_with(Some(TOP_IS_EMPTY), Some(MIXED));
    assert_eq!(sys::compare(&same, &mut verdict), 0);
    assert_eq!(verdict, sys::Verdict::default(), "equal");
}

#[test]
fn price_too_high() {
    let desk = desk_with(Some(MIXED), Some(NO_DEFAULTS));
    for price in [(1_000_001, 0), (0, 1_000_001), (u32::MAX, u32::MAX)] {
        cheapest_refused(&desk, 1, price, 12);
        cheapest_refused(&desk, 2, price, 12);
    }
}

#[test]
fn short_buffers() {
    let desk = desk_with(Some(NO_DEFAULTS), Some(MIXED));
    for length in 0..9 {
        pool_refused(&desk, 2, length, 13);
    }
    for length in 0..3 {
        pool_refused(&desk, 1, length, 13);
    }
    // 4 + 2 * 2 for the head, 4 + 12 and 4 + 36 for the tables
    for length in 0..64 {
        write_refused(&desk, length, 13);
    }
    assert_eq!(desk.write_into(&mut [0; 64]), Ok(64));
    // an empty grade needs as much as any other
    let desk = desk_with(Some(TOP_IS_EMPTY), None);
    for length in 0..15 {
        pool_refused(&desk, 1, length, 13);
    }
    assert_eq!(sys::pool(&desk, 1, &mut [0; 15]), 0);
    for length in 0..70 {
        write_refused(&desk, length, 13);
    }
    assert_eq!(desk.write_into(&mut [0; 70]), Ok(70));
}

#[test]
fn nothing_to_write() {
    for length in [0, 1, 976] {
        write_refused(&Desk::empty(), length, 22);
    }
}

#[test]
fn measures_of_one_sort_of_obligor() {
    measures_refused(&desk_with(Some(NO_DEFAULTS), None), 1, 23);
    measures_refused(&desk_with(None, Some(NO_SURVIVORS)), 2, 24);
}

#[test]
fn compare_refuses_in_order() {
    let more_survivors: Rows = &[(10, 2), (10, 1), (21, 4)];
    let fewer_defaults: Rows = &[(10, 2), (10, 1), (20, 3), (1, 0)];
    compare_refused(None, None, 22);
    compare_refused(Some(NO_DEFAULTS), None, 22);
    compare_refused(None, Some(NO_SURVIVORS), 22);
    compare_refused(Some(NO_DEFAULTS), Some(NO_SURVIVORS), 23);
    compare_refused(Some(NO_SURVIVORS), Some(NO_DEFAULTS), 23);
    compare_refused(Some(MIXED), Some(NO_DEFAULTS), 23);
    compare_refused(Some(MIXED), Some(NO_SURVIVORS), 24);
    compare_refused(Some(NO_SURVIVORS), Some(MIXED), 24);
    compare_refused(Some(MIXED), Some(more_survivors), 25);
    compare_refused(Some(fewer_defaults), Some(MIXED), 25);
}

/// What a place may hold, and the numbers that it brings to a comparison on shares.
const HELD: [(Option<Rows>, &[u32]); 10] = [
    (None, &[22]),
    (Some(NO_DEFAULTS), &[23]),
    (Some(NO_SURVIVORS), &[24]),
    (Some(&[(100_001, 1)]), &[35]),
    (Some(&[(60_000, 1), (0, 0), (40_001, 60)]), &[35]),
    (Some(&[(1_000_000, 999_999)]), &[35]),
    (Some(&[(100_001, 0)]), &[23, 35]),
    (Some(&[(50_000, 50_000), (50_001, 50_001)]), &[24, 35]),
    (Some(&[(60_000, 1), (0, 0), (40_000, 60)]), &[]),
    (Some(MIXED), &[]),
];

/// 22, 23, 24 and 35 in this order, each for either place; D and S may differ.
#[test]
fn compare_shares_refuses_in_order() {
    let mut accepted = 0;
    for (first, brings) in HELD {
        for (second, brings_too) in HELD {
            let desk = desk_with(first, second);
            if let Some(&number) = brings.iter().chain(brings_too).min() {
                compare_shares_refused(&desk, number);
                continue;
            }
            let mut verdict = VERDICT;
            let before = desk.clone();
            assert_eq!(sys::compare_shares(&desk, &mut verdict), 0);
            assert!(verdict.kind < 4 && *black_box(&desk) == before);
            accepted += 1;
        }
    }
    assert_eq!(accepted, 4);
}

/// The two comparisons have nothing of each other: tables that are too large for shares compare by
/// counts, tables of different books compare on shares.
#[test]
fn each_comparison_has_its_own_refusal() {
    let large: Rows = &[(100_001, 1)];
    let more_survivors: Rows = &[(10, 2), (10, 1), (21, 4)];
    let same = desk_with(Some(large), Some(large));
    assert_eq!(sys::compare(&same, &mut VERDICT.clone()), 0);
    compare_shares_refused(&same, 35);
    compare_refused(Some(large), Some(MIXED), 25);
    compare_shares_refused(&desk_with(Some(large), Some(MIXED)), 35);
    compare_refused(Some(MIXED), Some(more_survivors), 25);
    let other = desk_with(Some(MIXED), Some(more_survivors));
    assert_eq!(sys::compare_shares(&other, &mut VERDICT.clone()), 0);
}

/// A book of sixteen raters, all of whom have the first table but one, who has the other.
fn book_with(table: &Table, other: &Table, rater: usize) -> Vec<u8> {
    let table_of = |each| if each == rater { other } else { table };
    book::write(&(1..=16).map(table_of).collect::<Vec<&Table>>())
}

/// 23 over all raters, then 24 over all, then 25 between any two; before 13, whoever it is.
#[test]
fn shortlist_refuses_for_any_rater() {
    let mixed = Table::of_rows(MIXED);
    let more_survivors: Rows = &[(10, 2), (10, 1), (21, 4)];
    for (rows, number) in [(NO_DEFAULTS, 23), (NO_SURVIVORS, 24), (more_survivors, 25)] {
        for rater in 1..=16 {
            let book = book_with(&mixed, &Table::of_rows(rows), rater);
            for length in [0, 15, 16, 17] {
                shortlist_refused(&book, length, number);
            }
        }
    }
    for rater in 1..=16 {
        let no_defaults = Table::of_rows(NO_DEFAULTS);
        let none_else = book_with(&Table::of_rows(NO_SURVIVORS), &no_defaults, rater);
        shortlist_refused(&none_else, 16, 23);
        let no_survivors = Table::of_rows(NO_SURVIVORS);
        let none_else = book_with(&Table::of_rows(more_survivors), &no_survivors, rater);
        shortlist_refused(&none_else, 0, 24);
    }
}

/// rows are looked at rater by rater, before any total.
#[test]
fn shortlist_refuses_rater_by_rater() {
    const HIGH: &[(u64, u64)] = &[(1_000_001, 0)];
    let faults = [
        (8, Table::of_rows(&[(1, 2)])),
        (10, announcing(&[(1_000_001, 0)], &[1_000_001])),
        (34, announcing(&[(0, 0); 2], &[7, 6])),
        (9, Table::of_rows(&[(0, 0); 3])),
        (11, Table::of_rows(HIGH)),
    ];
    let no_defaults = Table::of_rows(NO_DEFAULTS);
    for (number, fault) in &faults {
        for rater in 1..=16 {
            shortlist_refused(&book_with(&no_defaults, fault, rater), 0, *number);
        }
        for (_, later) in &faults {
            let book = book::write(&[&no_defaults, fault, later]);
            shortlist_refused(&book, 16, *number);
        }
    }
}

/// 13 goes by the number of raters, not by how many are listed.
#[test]
fn shortlist_of_short_buffers() {
    let (mixed, worse) = (Table::of_rows(MIXED), Table::of_rows(&[(40, 7)]));
    for rater in 1..=16 {
        let book = book_with(&worse, &mixed, rater);
        for length in 0..16 {
            shortlist_refused(&book, length, 13);
        }
        let (mut numbers, mut listed) = ([7; 17], 0);
        assert_eq!(sys::shortlist(&book, &mut numbers, &mut listed), 0);
        let rater = u32::try_from(rater).expect("a rater");
        assert_eq!(
            (listed, numbers[0], &numbers[1..]),
            (1, rater, &[7; 16][..])
        );
    }
}

/// 36 for a grade outside the table, before 37 and 38; of a place of 1 to 40 grades.
#[test]
fn events_outside_the_table() {
    for grades in 1..=40 {
        let mut rows = vec![(0, 0); grades];
        rows[grades - 1] = (1_000_000, 1_000_000); // neither a survivor nor room for one
        let desk = desk_with(Some(&rows), Some(MIXED));
        let behind = u32::try_from(grades + 1).expect("few grades");
        for grade in [0, behind, behind + 1, behind + 255, 1 << 31, u32::MAX] {
            for event in 0..4 {
                event_refused(&desk, event, 1, grade, 36);
            }
        }
    }
}

/// what each event is refused for at each grade of a table; 0 where it is taken. 37 and 38 go by
/// the grade and by the table.
#[test]
fn events_without_such_a_firm() {
    const SURVIVORS: [u32; 4] = [0, 0, 0, 37];
    const DEFAULTED: [u32; 4] = [0, 37, 37, 0];
    const BOTH: [u32; 4] = [0; 4];
    const NOBODY: [u32; 4] = [0, 37, 37, 37];
    let cases: [(Rows, &[[u32; 4]]); 6] = [
        (
            &[(3, 0), (0, 0), (3, 3), (3, 1)],
            &[SURVIVORS, NOBODY, DEFAULTED, BOTH],
        ),
        (&[(0, 0), (1, 0)], &[NOBODY, [0, 37, 0, 37]]),
        (&[(1, 1), (0, 0)], &[NOBODY, NOBODY]),
        (&[(1, 0), (1, 1)], &[SURVIVORS, DEFAULTED]),
        (
            &[(999_998, 9), (0, 0), (2, 2)],
            &[[38, 0, 0, 0], [38, 37, 37, 37], [38, 37, 37, 0]],
        ),
        (&[(999_997, 9), (0, 0), (2, 2)], &[BOTH, NOBODY, DEFAULTED]),
    ];
    for (rows, expected) in cases {
        let desks = [
            desk_with(Some(rows), Some(MIXED)),
            desk_with(None, Some(rows)),
        ];
        for (place, desk) in (1..).zip(&desks) {
            for (grade, numbers) in (1..).zip(expected) {
                for (event, &number) in numbers.iter().enumerate() {
                    if number > 0 {
                        event_refused(desk, event, place, grade, number);
                    } else {
                        assert_eq!(EVENTS[event](&mut desk.clone(), place, grade), 0);
                    }
                }
            }
        }
    }
}
