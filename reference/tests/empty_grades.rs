//! R-4 of document 02, grades with nobody in them: tables worked out by hand, the order of load's
//! checks, and the same questions with and without empty grades.

use reference::book;
use reference::cutoff::{cheapest, cutoffs, verdict, Price, Verdict};
use reference::desk::Desk;
use reference::empty_scene::{every_pattern, with_other_empty, without_empty};
use reference::measures::{brier, measures};
use reference::pooling::{pool, pooled_scale};
use reference::print::print;
use reference::random::Random;
use reference::spread::{lawful, spread};
use reference::table::Table;

const NOBODY: (u64, u64) = (0, 0);
/// The rows of table K: blocks 3/20 of two grades and 4/20, both in band 11.
const K: [(u64, u64); 3] = [(10, 2), (10, 1), (20, 4)];

fn rows(rows: &[(u64, u64)]) -> Table {
    Table::of_rows(rows)
}

/// Table K with an empty grade before the grade of this index.
fn k_with_empty(index: usize) -> Table {
    let mut with_empty = K.to_vec();
    with_empty.insert(index, NOBODY);
    rows(&with_empty)
}

fn price(missed_default: u64, lost_survivor: u64) -> Price {
    Price {
        missed_default,
        lost_survivor,
    }
}

/// The refusal number of a load by a fresh desk, 0 if it is accepted.
fn load(book: &[u8]) -> u32 {
    Desk::fresh().load(1, 1, book).err().unwrap_or(0)
}

/// A book of one table of this kind: first column, defaults and announced rate of each grade.
fn book_of(kind: u8, grades: &[[u32; 3]]) -> Vec<u8> {
    let length = u16::try_from(10 + 12 * grades.len()).expect("a short book");
    let mut book = vec![1, 0];
    book.extend(length.to_le_bytes());
    book.extend([6, 0, grades.len() as u8, kind, 0, 0]);
    book.extend(grades.iter().flatten().flat_map(|n| n.to_le_bytes()));
    book
}

fn desk_with(table: &Table) -> Desk {
    let mut desk = Desk::fresh();
    assert_eq!(desk.load(1, 1, &book::write(&[table])), Ok(()));
    desk
}

const EMPTY: [u32; 3] = [0, 0, 0];
const ABOVE: u32 = 1_000_001;

#[test]
fn nobody_loads_if_another_grade_is_occupied() {
    for kind in [0, 1] {
        for count in [1, 2, 3, 39, 40] {
            assert_eq!(load(&book_of(kind, &vec![EMPTY; count])), 9);
            for occupied in [0, count / 2, count - 1] {
                let mut grades = vec![EMPTY; count];
                grades[occupied][0] = 1;
                assert_eq!(load(&book_of(kind, &grades)), 0, "{occupied} of {count}");
            }
        }
    }
}

#[test]
fn of_kind_1_defaults_alone_make_a_grade_occupied() {
    let grades = [EMPTY, [0, 3, 0], EMPTY];
    let read = book::read(&book_of(1, &grades), 1);
    assert_eq!(read, Ok(rows(&[NOBODY, (3, 3), NOBODY])));
    // Of kind 0 the same numbers are defaults of nobody.
    assert_eq!(load(&book_of(0, &grades)), 8);
}

#[test]
fn rows_have_8_before_10_and_come_before_9() {
    let default_of_nobody = [0, 1, 0];
    let rate_above = [0, 0, ABOVE];
    for (number, grades) in [
        (8, vec![default_of_nobody]),
        (10, vec![rate_above]),
        (8, vec![[0, 1, ABOVE]]),
        (8, vec![EMPTY, default_of_nobody]),
        (8, vec![default_of_nobody, EMPTY]),
        (10, vec![EMPTY, rate_above]),
        (10, vec![rate_above, EMPTY]),
        (8, vec![default_of_nobody, rate_above]),
        (10, vec![rate_above, default_of_nobody]),
        (8, vec![EMPTY, EMPTY, [0, 1, ABOVE]]),
        (9, vec![EMPTY, [0, 0, 1_000_000]]),
    ] {
        assert_eq!(load(&book_of(0, &grades)), number, "{grades:?}");
        // Whatever stands behind the first fault, and whoever stands before it.
        let with_others = [vec![EMPTY, [5, 2, 0], EMPTY], grades, vec![[1, 2, ABOVE]]].concat();
        let number = if number == 9 { 8 } else { number };
        assert_eq!(load(&book_of(0, &with_others)), number, "{with_others:?}");
    }
    // Of kind 1 nothing is 8.
    assert_eq!(load(&book_of(1, &[EMPTY, rate_above])), 10);
    assert_eq!(load(&book_of(1, &[EMPTY, EMPTY, [7, 0, ABOVE]])), 10);
    assert_eq!(load(&book_of(0, &[EMPTY, EMPTY, [7, 0, ABOVE]])), 10);
}

/// 9 and 11 never meet: nobody is not too many. But 2^32 are nobody as a 32-bit number.
#[test]
fn nobody_is_9_and_too_many_are_11() {
    let half = 1 << 31;
    for (number, kind, grades) in [
        (0, 0, vec![EMPTY, [1_000_000, 0, 0], EMPTY]),
        (11, 0, vec![EMPTY, [1_000_001, 0, 0], EMPTY]),
        (11, 1, vec![EMPTY, [1_000_000, 1, 0], EMPTY]),
        (0, 1, vec![[999_999, 0, 0], EMPTY, [0, 1, 0]]),
        (11, 1, vec![[999_999, 0, 0], EMPTY, [0, 2, 0]]),
        (11, 0, vec![[half, 0, 0], EMPTY, [half, 0, 0]]),
        (11, 1, vec![EMPTY, [half, half, 0]]),
        (11, 1, vec![[u32::MAX, 1, 0], EMPTY]),
        (10, 1, vec![[u32::MAX, 1, 0], [0, 0, ABOVE]]),
        (9, 1, vec![EMPTY, EMPTY]),
    ] {
        assert_eq!(load(&book_of(kind, &grades)), number, "{grades:?}");
    }
    let mut grades = vec![EMPTY; 40];
    grades[39][0] = 1_000_001;
    assert_eq!(load(&book_of(0, &grades)), 11);
}

/// Load looks at the rows of the rater loaded, and a refused load changes nothing.
#[test]
fn empty_tables_of_other_raters_do_not_matter() {
    let tables = [rows(&[NOBODY; 2]), k_with_empty(1), rows(&[NOBODY])];
    let book = book::write(&[&tables[0], &tables[1], &tables[2]]);
    let mut desk = Desk::fresh();
    assert_eq!([1, 3].map(|rater| desk.load(1, rater, &book)), [Err(9); 2]);
    assert_eq!(desk, Desk::fresh());
    assert_eq!(desk.load(1, 2, &book), Ok(()));
    assert_eq!(desk.table(1), Ok(&tables[1]));
}

#[test]
fn table_k_pools_with_one_empty_grade() {
    let (two, one) = ([3, 20, 11], [4, 20, 11]);
    // None is better than the best grade: it repeats the best occupied one.
    assert_eq!(pool(&k_with_empty(0)), [two, two, two, one].concat());
    // Inside the block, and between the blocks: the better one.
    assert_eq!(pool(&k_with_empty(1)), [two, two, two, one].concat());
    assert_eq!(pool(&k_with_empty(2)), [two, two, two, one].concat());
    assert_eq!(pool(&k_with_empty(3)), [two, two, one, one].concat());
}

#[test]
fn an_empty_grade_repeats_the_next_better_occupied_one() {
    // Three blocks that no count, no rate and no band is the same of.
    let (a, b, c) = ([1, 100, 7], [1, 10, 10], [7, 9, 13]);
    let occupied = [(100, 1), (10, 1), (9, 7)];
    let [first, second, third] = occupied;
    assert_eq!(pool(&rows(&occupied)), [a, b, c].concat());
    let between = [first, NOBODY, NOBODY, second, NOBODY, third];
    assert_eq!(pool(&rows(&between)), [a, a, a, b, b, c].concat());
    let around = [NOBODY, NOBODY, first, second, third, NOBODY, NOBODY];
    assert_eq!(pool(&rows(&around)), [a, a, a, b, c, c, c].concat());
    let everywhere = [NOBODY, first, NOBODY, second, NOBODY, third, NOBODY, NOBODY];
    let expected = [a, a, a, b, b, c, c, c].concat();
    assert_eq!(pool(&rows(&everywhere)), expected);
    for before in [0, 1, 38, 39] {
        let mut one = vec![NOBODY; 40];
        one[before] = third;
        assert_eq!(pool(&rows(&one)), [c; 40].concat(), "{before}");
    }
}

#[test]
fn grades_are_joined_across_empty_ones() {
    // As c of document 01, and as b: 8/30 and 6/30.
    let falls_late = [(10, 3), NOBODY, (10, 4), NOBODY, NOBODY, (10, 1)];
    assert_eq!(pool(&rows(&falls_late)), [[8, 30, 12]; 6].concat());
    let equal = [NOBODY, (10, 2), NOBODY, (20, 4)];
    assert_eq!(pool(&rows(&equal)), [[6, 30, 11]; 4].concat());
    // An empty grade is no block of rate 0 that would pull the ones before it down, nor a wall.
    let rises = [(10, 1), NOBODY, (10, 2)];
    let expected = [[1, 10, 10], [1, 10, 10], [2, 10, 11]].concat();
    assert_eq!(pool(&rows(&rises)), expected);
}

#[test]
fn the_printing_program_prints_every_grade() {
    let expected = [
        "1 3 20 11\n2 3 20 11\n3 3 20 11\n4 4 20 11\ngini 10 231\n",
        "1 3 20 11\n2 3 20 11\n3 3 20 11\n4 4 20 11\ngini 10 231\n",
        "1 3 20 11\n2 3 20 11\n3 3 20 11\n4 4 20 11\ngini 10 231\n",
        "1 3 20 11\n2 3 20 11\n3 4 20 11\n4 4 20 11\ngini 10 231\n",
    ];
    for (index, expected) in expected.into_iter().enumerate() {
        assert_eq!(print(&book::write(&[&k_with_empty(index)])), expected);
    }
    assert_eq!(print(&book::write(&[&rows(&[NOBODY; 3])])), "refused 9\n");
    let survivors = rows(&[NOBODY, (2, 0)]);
    let printed = print(&book::write(&[&survivors]));
    assert_eq!(printed, "1 0 2 0\n2 0 2 0\ngini refused 23\n");
}

#[test]
fn pool_needs_3_numbers_for_every_grade() {
    let desk = desk_with(&rows(&[NOBODY, (10, 1), NOBODY, NOBODY, (10, 2)]));
    let mut lent = [7; 17];
    // 6 would be enough for the occupied grades, 14 is one too short.
    for length in [0, 3, 6, 12, 14] {
        assert_eq!(desk.pool(1, &mut lent[..length]), Err(13), "{length}");
        assert_eq!(lent, [7; 17]);
    }
    let (low, high) = ([1, 10, 10], [2, 10, 11]);
    let expected = [low, low, low, low, high].concat();
    assert_eq!(desk.pool(1, &mut lent[..15]), Ok(()));
    assert_eq!(lent[..15], expected);
    lent = [7; 17];
    assert_eq!(desk.pool(1, &mut lent), Ok(()));
    assert_eq!(lent[..15], expected);
    assert_eq!(lent[15..], [7, 7]);
}

#[test]
fn cutoffs_number_all_grades() {
    // D 7, S 33. At u 5, v 1, the cutoffs of K cost 35, 31, 35, 33.
    let found = |table: &Table, u, v| cheapest(table, &price(u, v));
    assert_eq!(found(&rows(&K), 5, 1), (1, 31));
    let expected = [(1, 31), (1, 31), (1, 31), (2, 31)];
    for (index, expected) in expected.into_iter().enumerate() {
        assert_eq!(found(&k_with_empty(index), 5, 1), expected, "{index}");
    }
    // To turn away everybody is to turn away every grade but the best ones, if these are empty.
    assert_eq!(found(&rows(&K), 1, 0), (3, 0));
    for (index, g) in [3, 4, 4, 4].into_iter().enumerate() {
        assert_eq!(found(&k_with_empty(index), 1, 0), (g, 0), "{index}");
        assert_eq!(found(&k_with_empty(index), 0, 1), (0, 0), "{index}");
        assert_eq!(found(&k_with_empty(index), 0, 0), (0, 0), "{index}");
    }
    let behind = rows(&[(5, 0), NOBODY, (5, 5), NOBODY, NOBODY]);
    assert_eq!(found(&behind, 1, 1), (3, 0));
    assert_eq!(cutoffs(&behind).len(), 6);
}

#[test]
fn pietra_numbers_all_grades_and_nothing_else_changes() {
    // The heights of K: 0, 20, -10, 0.
    let of_k = measures(&rows(&K));
    assert_eq!((of_k.pietra, of_k.pietra_cutoff), ((20, 231), 1));
    for (index, g) in [1, 1, 1, 2].into_iter().enumerate() {
        let mut expected = of_k;
        expected.pietra_cutoff = g;
        assert_eq!(measures(&k_with_empty(index)), expected, "{index}");
    }
    // Upside down, as table f: all is turned away wrongly behind two empty grades.
    let upside_down = measures(&rows(&[(2, 2), NOBODY, (2, 0), NOBODY, NOBODY]));
    assert_eq!(upside_down.gini, (-4, 4));
    assert_eq!(
        (upside_down.pietra, upside_down.pietra_cutoff),
        ((-4, 4), 3)
    );
    // Noise is on the diagonal from g 0 on.
    let noise = measures(&rows(&[NOBODY, (5, 2), NOBODY]));
    assert_eq!((noise.pietra, noise.pietra_cutoff), ((0, 6), 0));
}

#[test]
fn an_announced_rate_of_nobody_adds_nothing_to_brier() {
    // From the rate of the grade before to that of the grade behind.
    let in_step = [
        [0, 1, 50_000, 100_000],
        [100_000, 100_001, 149_999, 150_000],
        [150_000, 150_001, 180_000, 200_000],
        [200_000, 200_001, 999_999, 1_000_000],
    ];
    for (index, rates_of_nobody) in in_step.into_iter().enumerate() {
        for announced in rates_of_nobody {
            let mut rates = vec![100_000, 150_000, 200_000];
            rates.insert(index, announced);
            let mut table = k_with_empty(index);
            table.announce(&rates);
            let expected = (5_825_000_000_000, 40_000_000_000_000);
            assert_eq!(desk_with(&table).brier(1), Ok(expected), "{rates:?}");
        }
    }
}

#[test]
fn the_residual_is_over_the_blocks_of_occupied_grades() {
    // 7 * 33 / 40, and 3 * 17 / 20 + 4 * 16 / 20; each occupied grade by itself would be 5.7.
    let (total, residual) = (5.775f64.to_bits(), 5.75f64.to_bits());
    for index in 0..=3 {
        let table = k_with_empty(index);
        assert!(lawful(&table, total, residual), "{index}");
        // The block of the grade that an empty one repeats, counted once more.
        for more in [2.55, 3.2] {
            assert!(!lawful(&table, total, f64::to_bits(5.75 + more)), "{index}");
        }
        let own = spread(&table);
        let (own_total, own_residual) = (own.total.to_bits(), own.residual.to_bits());
        assert!(lawful(&table, own_total, own_residual), "{index}");
    }
}

#[test]
fn the_pooled_scale_has_no_empty_grade() {
    for index in 0..=3 {
        let scale = pooled_scale(&k_with_empty(index));
        assert_eq!(scale, rows(&[(20, 3), (20, 4)]), "{index}");
    }
}

/// With an empty grade before each grade, and two behind the worst.
fn spread_out(table: &[(u64, u64)]) -> Table {
    let mut with_empty: Vec<(u64, u64)> = table.iter().flat_map(|&row| [NOBODY, row]).collect();
    with_empty.extend([NOBODY; 2]);
    rows(&with_empty)
}

#[test]
fn verdicts_are_those_without_empty_grades() {
    let (fine, coarse) = ([(2, 0), (2, 1), (2, 2)], [(3, 1), (3, 2)]);
    let (h, other) = ([(5, 2), (1, 1)], [(2, 0), (4, 3)]);
    let found = |first: &Table, second: &Table| match verdict(first, second) {
        Verdict::Equal => "equal",
        Verdict::First(_) => "first",
        Verdict::Second(_) => "second",
        Verdict::Crossing(..) => "crossing",
    };
    for (first, second, expected) in [
        (&fine[..], &coarse[..], "first"),
        (&coarse, &fine, "second"),
        (&h, &other, "crossing"),
        (&h, &h, "equal"),
        (&K, &K, "equal"),
    ] {
        for one in [rows(first), spread_out(first)] {
            for two in [rows(second), spread_out(second)] {
                assert_eq!(found(&one, &two), expected, "{one:?} {two:?}");
            }
        }
    }
}

#[test]
fn compare_counts_obligors_not_grades() {
    let mut desk = Desk::fresh();
    let book = book::write(&[&k_with_empty(0), &k_with_empty(3), &rows(&[(1, 0), NOBODY])]);
    assert_eq!(
        [1, 2].map(|place| desk.load(place, place, &book)),
        [Ok(()); 2]
    );
    assert_eq!(desk.compare(), Ok(Verdict::Equal));
    assert_eq!(desk.clear(2), Ok(()));
    assert_eq!(desk.load(2, 3, &book), Ok(()));
    assert_eq!(desk.compare(), Err(23));
    assert_eq!(desk.measures(2), Err(23));
}

#[test]
fn empty_grades_are_written_and_loaded_back() {
    let grades = [[0, 0, 5], [7, 3, 6], [0, 0, 1_000_000]];
    let of_kind_0 = book_of(0, &grades);
    // 4 survivors and 3 defaults.
    let of_kind_1 = book_of(1, &[grades[0], [4, 3, 6], grades[2]]);
    let read = book::read(&of_kind_0, 1).expect("an occupied grade");
    assert_eq!(read.obligors(), 7);
    let announced: Vec<u64> = read.grades.iter().map(|grade| grade.announced).collect();
    assert_eq!(announced, [5, 6, 1_000_000]);
    for book in [&of_kind_0, &of_kind_1] {
        let mut desk = Desk::fresh();
        assert_eq!(desk.load(2, 1, book), Ok(()));
        let mut lent = [9; 50];
        assert_eq!(desk.write(&mut lent[..45]), Err(13));
        assert_eq!(desk.write(&mut lent), Ok(46));
        assert_eq!(lent[..46], of_kind_0);
        assert_eq!(lent[46..], [9; 4]);
        assert_eq!(book::read(&lent[..46], 1).as_ref(), Ok(&read));
    }
}

/// The numbers of pool in one pass from the best grade to the worst, from those of the table
/// without its empty grades.
fn carried(table: &Table) -> Vec<u32> {
    let numbers = pool(&without_empty(table));
    let mut own = numbers.chunks(3);
    let mut last = &numbers[..3];
    let mut carried = Vec::new();
    for grade in &table.grades {
        if grade.obligors > 0 {
            last = own.next().expect("each occupied grade has its own");
        }
        carried.extend(last);
    }
    carried
}

/// A table of every pattern in turn.
fn patterned(seed: u64) -> Table {
    let patterns = every_pattern();
    let index = seed as usize % patterns.len();
    patterns[index].table(&mut Random::of_seed(seed))
}

#[test]
fn pool_carries_numbers_from_better_to_worse_grades() {
    for seed in 0..3_000 {
        let table = patterned(seed);
        assert_eq!(pool(&table), carried(&table), "{seed}");
    }
}

#[test]
fn an_empty_grade_adds_nothing_to_any_count() {
    let mut measured = 0;
    for seed in 0..2_000 {
        let table = patterned(seed);
        let without = without_empty(&table);
        assert_eq!(brier(&table), brier(&without), "{seed}");
        assert_eq!(spread(&table), spread(&without), "{seed}");
        assert_eq!(pooled_scale(&table), pooled_scale(&without), "{seed}");
        let mut random = Random::of_seed(seed);
        let other = with_other_empty(&mut random, &table);
        assert_eq!(verdict(&table, &other), Verdict::Equal, "{seed}");
        assert_eq!(verdict(&without, &table), Verdict::Equal, "{seed}");
        if table.defaults() == 0 || table.survivors() == 0 {
            continue;
        }
        measured += 1;
        let (with, without) = (measures(&table), measures(&without));
        assert_eq!(with.gini, without.gini, "{seed}");
        assert_eq!((with.roc, with.cap), (without.roc, without.cap), "{seed}");
        assert_eq!(with.pietra, without.pietra, "{seed}");
    }
    assert!(measured > 1_000, "{measured}");
}

/// The smallest g that turns away so many of the occupied grades.
fn counted_among_all(table: &Table, occupied: u32) -> u32 {
    let turned_away = |g: usize| {
        let worst = &table.grades[table.grades.len() - g..];
        worst.iter().filter(|grade| grade.obligors > 0).count()
    };
    let g = (0..=table.grades.len()).find(|&g| turned_away(g) == occupied as usize);
    g.expect("a cutoff for each number of occupied grades") as u32
}

#[test]
fn the_smallest_g_is_counted_among_all_grades() {
    for seed in 0..2_000 {
        let table = patterned(seed);
        let without = without_empty(&table);
        for (u, v) in [(0, 0), (1, 0), (0, 1), (1, 1), (5, 1), (1, 5), (1_000, 1)] {
            let (g, cost) = cheapest(&without, &price(u, v));
            let expected = (counted_among_all(&table, g), cost);
            assert_eq!(cheapest(&table, &price(u, v)), expected, "{seed}");
        }
        if table.defaults() > 0 && table.survivors() > 0 {
            let g = measures(&without).pietra_cutoff;
            let expected = counted_among_all(&table, g);
            assert_eq!(measures(&table).pietra_cutoff, expected, "{seed}");
        }
    }
}
