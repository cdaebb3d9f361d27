//! The worked tables a to k of document 01, and those of of document 02.

mod common;

use common::{Rows, desk_with, table_of};
use desk::{
    Cutoff, Desk, Fraction, GRADES, MAX_OBLIGORS, MAX_PRICE, Place, Price, Refusal, Table, Verdict,
};
use std::fs;

const E: Rows = &[(30, 2), (18, 4), (15, 10), (16, 14), (21, 20)];

fn book_k() -> Vec<u8> {
    fs::read("../../examples/k.book").expect("book K is an example")
}

fn desk_of(rows: Rows) -> Desk {
    desk_with(Some(rows), None)
}

/// Block defaults and block obligors of each grade.
fn blocks(rows: Rows) -> Vec<(u32, u32)> {
    let pooled = desk_of(rows).pool(Place::First).expect("it is loaded");
    let block = |grade: &desk::PooledGrade| (grade.defaults, grade.obligors);
    pooled.iter().map(block).collect()
}

fn verdict(first: Rows, second: Rows) -> Verdict {
    desk_with(Some(first), Some(second))
        .compare()
        .expect("the same obligors")
}

/// The cheapest costs of the two places.
fn costs(desk: &Desk, price: Price) -> (i64, i64) {
    let cost = |place| desk.cheapest(place, price).expect("lawful prices").cost;
    (cost(Place::First), cost(Place::Second))
}

#[test]
fn a_book_k() {
    let mut desk = Desk::empty();
    assert_eq!(desk.load(Place::Second, &book_k(), 1), Ok(()));
    let mut numbers = [7; 10];
    assert_eq!(desk.pool_into(Place::Second, &mut numbers), Ok(()));
    assert_eq!(numbers, [3, 20, 11, 3, 20, 11, 4, 20, 11, 7]);
    let measures = desk.measures(Place::Second).expect("mixed");
    assert_eq!(measures.gini.written(), (10, 231));
    // 2 * 0.9^2 + 8 * 0.1^2 + 0.85^2 + 9 * 0.15^2 + 4 * 0.8^2 + 16 * 0.2^2 = 5.825
    let brier = desk.brier(Place::Second).expect("it is loaded");
    assert_eq!(brier.written(), (5_825_000_000_000, 40_000_000_000_000));
    assert_eq!(Some(brier), Fraction::new(233, 1600));
    assert_eq!(desk.write(), Ok(book_k()));
}

#[test]
fn b_equal_neighbours_are_joined() {
    assert_eq!(blocks(&[(10, 2), (20, 4)]), [(6, 30); 2]);
}

#[test]
fn c_a_join_looks_back() {
    assert_eq!(blocks(&[(10, 3), (10, 4), (10, 1)]), [(8, 30); 3]);
}

#[test]
fn d_counts_are_joined_not_rates() {
    assert_eq!(blocks(&[(90, 18), (10, 1)]), [(19, 100); 2]);
}

#[test]
fn e_the_five_grade_table() {
    let desk = desk_of(E);
    let measures = desk.measures(Place::First).expect("mixed");
    assert_eq!((measures.defaults, measures.survivors), (50, 50));
    assert_eq!(measures.gini.written(), (2050, 2500));
    assert_eq!(measures.gini.to_string(), "0.820000 (2050/2500)");
    assert_eq!(measures.roc.written(), (4550, 5000));
    assert_eq!(measures.cap.written(), (7050, 10_000));
    assert_eq!(measures.pietra.written(), (1800, 2500));
    assert_eq!(measures.cutoff, 3);
    let pooled = desk.pool(Place::First).expect("it is loaded");
    let bands: Vec<u32> = pooled.iter().map(|grade| grade.band).collect();
    assert_eq!(bands, [10, 12, 13, 14, 14]);
    assert_eq!(pooled[4].rate().written(), (20, 21));
}

#[test]
fn f_a_reversed_scale() {
    let desk = desk_of(&[(2, 2), (2, 0)]);
    let measures = desk.measures(Place::First).expect("mixed");
    assert_eq!(measures.gini.written(), (-4, 4));
    assert_eq!((measures.pietra.written(), measures.cutoff), ((-4, 4), 1));
}

#[test]
fn r1_the_smaller_of_two_equally_far_cutoffs() {
    for (rows, pietra) in [
        ([(1, 1), (2, 0), (1, 1)], (2, 4)),
        ([(1, 0), (2, 2), (1, 0)], (-2, 4)),
    ] {
        let measures = desk_of(&rows).measures(Place::First).expect("mixed");
        assert_eq!((measures.pietra.written(), measures.cutoff), (pietra, 1));
    }
}

#[test]
fn g_the_finer_scale_is_first() {
    let (fine, coarse): (Rows, Rows) = (&[(2, 0), (2, 1), (2, 2)], &[(3, 1), (3, 2)]);
    let found = verdict(fine, coarse);
    let Verdict::First { second_dearer } = found else {
        panic!("{found:?}");
    };
    let (first, second) = costs(&desk_with(Some(fine), Some(coarse)), second_dearer);
    assert!(first < second);
    assert!(found.first_at_least_as_good() && !found.second_at_least_as_good());

    let found = verdict(coarse, fine);
    let Verdict::Second { first_dearer } = found else {
        panic!("{found:?}");
    };
    let (first, second) = costs(&desk_with(Some(coarse), Some(fine)), first_dearer);
    assert!(first > second);
    assert!(!found.first_at_least_as_good() && found.second_at_least_as_good());
}

#[test]
fn h_crossing_with_costs() {
    let desk = desk_with(Some(&[(5, 2), (1, 1)]), Some(&[(2, 0), (4, 3)]));
    let found = desk.compare().expect("the same obligors");
    let Verdict::Crossing {
        first_dearer,
        second_dearer,
    } = found
    else {
        panic!("{found:?}");
    };
    let (first, second) = costs(&desk, first_dearer);
    assert!(first > second);
    let (first, second) = costs(&desk, second_dearer);
    assert!(first < second);
    assert!(!found.first_at_least_as_good() && !found.second_at_least_as_good());
    assert_eq!(costs(&desk, Price { u: 1, v: 1 }), (2, 1));
    assert_eq!(costs(&desk, Price { u: 1, v: 3 }), (2, 3));
}

#[test]
fn i_a_table_equals_itself() {
    let found = verdict(E, E);
    assert_eq!(found, Verdict::Equal);
    assert!(found.first_at_least_as_good() && found.second_at_least_as_good());
}

#[test]
fn k_limits() {
    let load = |rows: Rows| Desk::empty().load_table(Place::First, &table_of(rows));
    let most = MAX_OBLIGORS;
    assert_eq!(load(&[(most, 1)]), Ok(()));
    assert_eq!(load(&[(most + 1, 1)]), Err(Refusal::Obligors));
    assert_eq!(load(&[(1, 0); desk::GRADES]), Ok(()));
    assert_eq!(load(&[(1, 0); desk::GRADES + 1]), Err(Refusal::Grades));
    assert_eq!(load(&[(1, 0)]), Ok(()));
    assert_eq!(load(&[(0, 0)]), Err(Refusal::NoObligors));
    // n 0 loads if another grade is occupied
    assert_eq!(load(&[(0, 0), (1, 0)]), Ok(()));
    assert_eq!(load(&[(1, 0), (0, 0)]), Ok(()));
    assert_eq!(load(&[(0, 0), (most, 1), (0, 0)]), Ok(()));
    assert_eq!(load(&[(0, 0); GRADES]), Err(Refusal::NoObligors));
    assert_eq!(load(&[(0, 0); GRADES + 1]), Err(Refusal::Grades));
    let cut = &book_k()[..45];
    assert_eq!(
        Desk::empty().load(Place::First, cut, 1),
        Err(Refusal::Length)
    );
}

/// K's rows with empty grades among them, and what pool writes.
const WITH_EMPTY_GRADES: [(Rows, &[[u32; 3]]); 6] = [
    (
        // the best
        &[(0, 0), (10, 2), (10, 1), (20, 4)],
        &[[3, 20, 11], [3, 20, 11], [3, 20, 11], [4, 20, 11]],
    ),
    (
        // the worst
        &[(10, 2), (10, 1), (20, 4), (0, 0)],
        &[[3, 20, 11], [3, 20, 11], [4, 20, 11], [4, 20, 11]],
    ),
    (
        // inside the first block
        &[(10, 2), (0, 0), (10, 1), (20, 4)],
        &[[3, 20, 11], [3, 20, 11], [3, 20, 11], [4, 20, 11]],
    ),
    (
        // between the blocks
        &[(10, 2), (10, 1), (0, 0), (20, 4)],
        &[[3, 20, 11], [3, 20, 11], [3, 20, 11], [4, 20, 11]],
    ),
    (
        // several at a time, everywhere
        &[
            (0, 0),
            (0, 0),
            (10, 2),
            (0, 0),
            (10, 1),
            (0, 0),
            (0, 0),
            (20, 4),
            (0, 0),
            (0, 0),
        ],
        &[
            [3, 20, 11],
            [3, 20, 11],
            [3, 20, 11],
            [3, 20, 11],
            [3, 20, 11],
            [3, 20, 11],
            [3, 20, 11],
            [4, 20, 11],
            [4, 20, 11],
            [4, 20, 11],
        ],
    ),
    (
        // one occupied grade alone
        &[(0, 0), (20, 4), (0, 0)],
        &[[4, 20, 11], [4, 20, 11], [4, 20, 11]],
    ),
];

#[test]
fn r4_an_empty_grade_repeats_an_occupied_one() {
    for (rows, pooled) in WITH_EMPTY_GRADES {
        let desk = desk_of(rows);
        let expected = pooled.concat();
        let (mut exact, mut longer) = (vec![7; expected.len()], vec![7; expected.len() + 2]);
        assert_eq!(desk.pool_into(Place::First, &mut exact), Ok(()));
        assert_eq!(exact, expected, "{rows:?}");
        assert_eq!(desk.pool_into(Place::First, &mut longer), Ok(()));
        assert_eq!(longer, [expected.clone(), vec![7; 2]].concat(), "{rows:?}");
        let mut short = vec![7; expected.len() - 1];
        let refused = desk.pool_into(Place::First, &mut short);
        assert_eq!(refused, Err(Refusal::Buffer), "{rows:?}");
        assert!(short.iter().all(|&number| number == 7), "{rows:?}");
        let grades = desk.pool(Place::First).expect("it is loaded");
        let numbers = |grade: &desk::PooledGrade| [grade.defaults, grade.obligors, grade.band];
        assert_eq!(grades.iter().map(numbers).collect::<Vec<_>>(), pooled);
    }
}

/// An empty grade has no rate of its own; the pooled one is that of the grade that is repeated for it.
#[test]
fn r4_rates_of_empty_grades() {
    let desk = desk_of(&[(0, 0), (20, 0), (0, 0), (20, 4)]);
    let rates: Vec<Option<(i64, i64)>> = desk
        .grades(Place::First)
        .map(|grade| grade.rate().map(Fraction::written))
        .collect();
    assert_eq!(rates, [None, Some((0, 20)), None, Some((4, 20))]);
    let pooled = desk.pool(Place::First).expect("it is loaded");
    let rates = pooled.iter().map(|grade| grade.rate().written());
    let expected = [(0, 20), (0, 20), (0, 20), (4, 20)];
    assert_eq!(rates.collect::<Vec<_>>(), expected);
}

#[test]
fn r4_an_empty_grade_adds_nothing() {
    let rows = [(0, 0, 5), (10, 2, 100_000), (10, 1, 150_000)];
    let worse = [(0, 0, 180_000), (20, 4, 200_000), (0, 0, 1_000_000)];
    let rows = [rows, worse].concat();
    let mut desk = Desk::empty();
    let table = Table::by_obligors().grades(rows);
    assert_eq!(desk.load_table(Place::First, &table), Ok(()));
    assert_eq!(desk.load(Place::Second, &book_k(), 1), Ok(()));
    let both = [Place::First, Place::Second];
    let [with, without] = both.map(|place| desk.measures(place).expect("mixed"));
    assert_eq!(
        (with.defaults, with.survivors),
        (without.defaults, without.survivors)
    );
    for (one, other) in [
        (with.gini, without.gini),
        (with.roc, without.roc),
        (with.cap, without.cap),
        (with.pietra, without.pietra),
    ] {
        assert_eq!(one.written(), other.written());
    }
    let [with, without] = both.map(|place| desk.brier(place).map(Fraction::written));
    assert_eq!(with, without);
    assert_eq!(desk.spread(Place::First), desk.spread(Place::Second));
    assert_eq!(desk.compare(), Ok(Verdict::Equal));
}

/// Cutoffs number all grades; among equals the smallest is meant.
#[test]
fn r4_cutoffs_number_empty_grades() {
    let price = Price { u: 1, v: 3 };
    let cases: [(Rows, i64); 4] = [
        (&[(5, 2), (1, 1)], 1),
        (&[(5, 2), (0, 0), (1, 1)], 1),
        (&[(5, 2), (1, 1), (0, 0)], 2),
        (&[(0, 0), (5, 2), (0, 0), (1, 1), (0, 0), (0, 0)], 3),
    ];
    for (rows, cutoff) in cases {
        let desk = desk_of(rows);
        let cheapest = desk.cheapest(Place::First, price);
        assert_eq!(cheapest, Ok(Cutoff { cutoff, cost: 2 }), "{rows:?}");
        let measures = desk.measures(Place::First).expect("mixed");
        assert_eq!(measures.pietra.written(), (3, 9), "{rows:?}");
        assert_eq!(measures.cutoff, cutoff, "{rows:?}");
    }
}

#[test]
fn r4_verdicts_of_scales_with_empty_grades() {
    let fine: Rows = &[(0, 0), (2, 0), (2, 1), (0, 0), (2, 2)];
    let coarse: Rows = &[(3, 1), (3, 2), (0, 0)];
    assert_eq!(verdict(fine, &[(2, 0), (2, 1), (2, 2)]), Verdict::Equal);
    assert!(matches!(verdict(fine, coarse), Verdict::First { .. }));
    assert!(matches!(verdict(coarse, fine), Verdict::Second { .. }));
    let desk = desk_with(
        Some(&[(5, 2), (0, 0), (1, 1)]),
        Some(&[(0, 0), (2, 0), (4, 3)]),
    );
    assert!(matches!(desk.compare(), Ok(Verdict::Crossing { .. })));
    assert_eq!(costs(&desk, Price { u: 1, v: 1 }), (2, 1));
    assert_eq!(costs(&desk, Price { u: 1, v: 3 }), (2, 3));
}

#[test]
fn r4_empty_grades_are_written_and_load_back() {
    for (rows, _) in WITH_EMPTY_GRADES {
        let row = |&(obligors, defaults): &(u32, u32)| (obligors - defaults, defaults, 5);
        let table = Table::by_survivors().grades(rows.iter().map(row));
        let mut desk = desk_of(rows);
        assert_eq!(desk.load_table(Place::Second, &table), Ok(()));
        let book = desk.write().expect("it is loaded");
        assert_eq!(book.len(), 4 + 2 * (2 + 4 + 12 * rows.len()));
        let mut again = Desk::empty();
        assert_eq!(again.load(Place::First, &book, 1), Ok(()));
        assert_eq!(again.load(Place::Second, &book, 2), Ok(()));
        assert_eq!(again, desk, "{rows:?}");
        for place in [Place::First, Place::Second] {
            let held = again
                .grades(place)
                .map(|grade| (grade.obligors, grade.defaults));
            assert_eq!(held.collect::<Vec<_>>(), rows);
        }
    }
}

/// K's announced rates in every order: those that fall somewhere are refused, and the desk is as it was.
#[test]
fn r5_swapped_rates() {
    let (low, middle, high) = (100_000, 150_000, 200_000);
    let rows = |rates: [u32; 3]| [(10, 2, rates[0]), (10, 1, rates[1]), (20, 4, rates[2])];
    let falling = Err(Refusal::FallingRate);
    for (rates, expected) in [
        ([low, middle, high], Ok(())),
        ([low, high, high], Ok(())),
        ([low; 3], Ok(())),
        ([middle, low, high], falling),
        ([low, high, middle], falling),
        ([high, middle, low], falling),
        ([high, low, middle], falling),
        ([middle, high, low], falling),
        ([high, low, high], falling),
    ] {
        let table = Table::by_obligors().grades(rows(rates));
        let mut desk = desk_of(E);
        let before = desk.clone();
        assert_eq!(desk.load_table(Place::Second, &table), expected);
        assert_eq!(desk == before, expected.is_err(), "{rates:?}");
    }
}

/// Of a book's raters only the one that is loaded may not have falling rates.
#[test]
fn r5_rates_of_another_rater() {
    let mut desk = Desk::empty();
    for place in [Place::First, Place::Second] {
        assert_eq!(desk.load(place, &book_k(), 1), Ok(()));
    }
    let book = desk.write().expect("it is loaded");
    for (falls, start) in [(1, 8), (2, 48)] {
        let mut book = book.clone();
        let (better, worse) = (start + 12, start + 24); // of K's rates the first two
        for byte in 0..4 {
            book.swap(better + byte, worse + byte);
        }
        for rater in [1, 2] {
            let mut desk = Desk::empty();
            let answer = desk.load(Place::First, &book, rater);
            let expected = if rater == falls {
                Err(Refusal::FallingRate)
            } else {
                Ok(())
            };
            assert_eq!(answer, expected, "{rater} of {falls}");
            assert_eq!(desk.is_loaded(Place::First), rater != falls);
        }
    }
}

#[test]
fn k_highest_price() {
    let mut desk = Desk::empty();
    desk.load(Place::First, &book_k(), 1).expect("book K");
    let cheapest = |u, v| desk.cheapest(Place::First, Price { u, v });
    let none_turned_away = Cutoff {
        cutoff: 0,
        cost: 7_000_000,
    };
    assert_eq!(cheapest(MAX_PRICE, MAX_PRICE), Ok(none_turned_away));
    assert_eq!(cheapest(MAX_PRICE + 1, 0), Err(Refusal::Price));
    assert_eq!(cheapest(0, MAX_PRICE + 1), Err(Refusal::Price));
}

#[test]
fn survivors_in_the_first_column_give_the_same_table() {
    let load = |name: &str| {
        let mut desk = Desk::empty();
        let book = fs::read(format!("../../examples/{name}.book")).expect("an example");
        desk.load(Place::First, &book, 1).expect("a valid book");
        desk
    };
    assert_eq!(load("five"), load("five_survivors"));
}
