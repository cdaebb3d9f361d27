//! R-5 of document 02: "Load tests it from now on, for empty grades as well: equal neighbours pass,
//! a fall does not. A rate below that of the row before is 34, tested in each row after 10." Rows
//! and numbers worked out by hand, then all small tables.

use reference::book;
use reference::desk::Desk;
use reference::print::print;
use reference::table::Table;

/// First column, defaults, announced rate.
type Row = [u32; 3];

const ABOVE: u32 = 1_000_001;

/// A book with these tables, each of a kind.
fn book_of(tables: &[(u8, &[Row])]) -> Vec<u8> {
    let mut offsets = vec![];
    let mut bodies = vec![];
    for &(kind, rows) in tables {
        let start = u16::try_from(4 + 2 * tables.len() + bodies.len()).expect("a short book");
        offsets.extend(start.to_le_bytes());
        bodies.extend([rows.len() as u8, kind, 0, 0]);
        bodies.extend(rows.iter().flatten().flat_map(|n| n.to_le_bytes()));
    }
    let length = u16::try_from(4 + offsets.len() + bodies.len()).expect("a short book");
    let head = [[tables.len() as u8, 0], length.to_le_bytes()].concat();
    [head, offsets, bodies].concat()
}

/// The refusal number of a load by a fresh desk, 0 if it is accepted. A refused load leaves the
/// place empty.
fn load_rater(book: &[u8], rater: u32) -> u32 {
    let mut desk = Desk::fresh();
    let answer = desk.load(2, rater, book);
    assert_eq!(desk == Desk::fresh(), answer.is_err());
    assert_eq!(desk.brier(2).err(), answer.err().map(|_| 22));
    answer.err().unwrap_or(0)
}

fn load(kind: u8, rows: &[Row]) -> u32 {
    load_rater(&book_of(&[(kind, rows)]), 1)
}

/// The number is that of both kinds of first column.
fn both_kinds(number: u32, rows: &[Row]) {
    assert_eq!([0, 1].map(|kind| load(kind, rows)), [number; 2], "{rows:?}");
}

/// Occupied grades with these rates.
fn rated(rates: &[u32]) -> Vec<Row> {
    rates.iter().map(|&rate| [5, 1, rate]).collect()
}

#[test]
fn equal_neighbours_and_rises_pass() {
    for rates in [
        &[0][..],
        &[1_000_000],
        &[0, 0],
        &[7, 7],
        &[1_000_000, 1_000_000],
        &[0, 1],
        &[0, 1_000_000],
        &[999_999, 1_000_000],
        &[65_535, 65_536],
        &[5, 5, 6, 6, 6, 9],
        &[0, 0, 0, 1_000_000, 1_000_000],
        &[100_000, 150_000, 200_000],
        &[0; 40],
        &[1_000_000; 40],
    ] {
        both_kinds(0, &rated(rates));
    }
    let steps: Vec<u32> = (999_961..=1_000_000).collect();
    both_kinds(0, &rated(&steps));
}

#[test]
fn a_fall_in_the_second_a_middle_and_the_last_row_is_34() {
    for rates in [
        // The only row behind the first.
        &[1, 0][..],
        &[5, 4],
        &[1_000_000, 999_999],
        &[1_000_000, 0],
        // The second row.
        &[2, 1, 2],
        &[2, 1, 3, 4],
        &[1_000_000, 0, 1_000_000],
        // A middle row.
        &[0, 2, 1, 2],
        &[1, 2, 3, 2, 3, 4],
        // The last row.
        &[0, 1, 0],
        &[0, 1, 2, 1],
        &[5, 5, 5, 5, 4],
        &[0, 0, 1_000_000, 999_999],
    ] {
        both_kinds(34, &rated(rates));
    }
}

#[test]
fn a_fall_is_one_whatever_stands_around_it() {
    for rates in [
        // Back to where it was.
        &[5, 3, 5][..],
        &[5, 5, 3, 5, 5],
        // One row too high: the row behind it is not below the one before it.
        &[5, 7, 6],
        &[5, 7, 5],
        &[5, 1_000_000, 5, 6],
        // Still above the first row, and as high as it.
        &[1, 5, 3],
        &[1, 5, 3, 6],
        &[3, 5, 3],
        // Two exchanged, of the best, of the worst and of others.
        &[20, 10, 30, 40],
        &[10, 20, 40, 30],
        &[40, 20, 30, 10],
        &[10, 30, 20, 40],
        // More than one, and all.
        &[3, 2, 3, 2],
        &[4, 3, 2, 1],
    ] {
        both_kinds(34, &rated(rates));
    }
}

#[test]
fn no_fall_is_too_small_or_too_large() {
    for by in [
        1, 2, 255, 256, 32_768, 65_535, 65_536, 65_537, 131_072, 524_288, 983_040, 999_999,
    ] {
        for low in [0, 1, 1_000_000 - by] {
            both_kinds(34, &rated(&[low + by, low]));
            both_kinds(34, &rated(&[0, low + by, low, 1_000_000]));
            both_kinds(0, &rated(&[low, low + by]));
        }
    }
}

/// Each row but the first may be as high as the one before, and not 1 ppm lower.
#[test]
fn every_row_but_the_first_is_tested() {
    for count in [2, 3, 17, 39, 40] {
        for row in 0..count {
            let mut rates: Vec<u32> = (1..=count).map(|row| 10 * row as u32).collect();
            rates[row] -= 10;
            both_kinds(0, &rated(&rates));
            rates[row] = rates[row].saturating_sub(1);
            both_kinds(if row == 0 { 0 } else { 34 }, &rated(&rates));
        }
    }
}

#[test]
fn empty_grades_are_tested_and_remembered() {
    let (five, nobody) = (|rate| [5, 1, rate], |rate| [0, 0, rate]);
    for (number, rows) in [
        (0, vec![five(5), nobody(5), five(5)]),
        (0, vec![nobody(0), five(0), nobody(1)]),
        (0, vec![nobody(1), nobody(2), five(3), nobody(1_000_000)]),
        // At an empty grade, the occupied ones in step.
        (34, vec![five(5), nobody(4), five(6)]),
        (34, vec![five(5), nobody(4), five(5)]),
        (34, vec![five(5), nobody(4)]),
        (34, vec![five(5), nobody(6), nobody(5), five(7)]),
        (34, vec![nobody(1), nobody(0), five(1)]),
        // Behind an empty grade, the occupied ones in step.
        (34, vec![five(5), nobody(7), five(6)]),
        (34, vec![five(5), nobody(5), nobody(7), five(6)]),
        (34, vec![nobody(1), five(0)]),
        (34, vec![nobody(1_000_000), five(999_999), five(1_000_000)]),
        // Across one that is as high as the grade before it.
        (34, vec![five(5), nobody(5), five(4)]),
    ] {
        both_kinds(number, &rows);
    }
}

#[test]
fn in_a_row_8_is_tested_before_34() {
    let too_many_defaults = |rate| [1, 2, rate];
    let rows = [[5, 1, 10], too_many_defaults(9)];
    // Of kind 1 they are 3 obligors.
    assert_eq!([0, 1].map(|kind| load(kind, &rows)), [8, 34]);
    let of_nobody = [[5, 1, 10], [0, 1, 9], [5, 1, 10]];
    assert_eq!([0, 1].map(|kind| load(kind, &of_nobody)), [8, 34]);
    // And before a rate above.
    let above = [[5, 1, 10], too_many_defaults(ABOVE)];
    assert_eq!([0, 1].map(|kind| load(kind, &above)), [8, 10]);
}

/// A rate above 1,000,000 is a fall only behind a higher one, whose row is 10 already.
#[test]
fn in_a_row_10_is_tested_before_34() {
    both_kinds(10, &rated(&[ABOVE + 1, ABOVE]));
    both_kinds(10, &rated(&[0, u32::MAX, ABOVE]));
    both_kinds(10, &rated(&[u32::MAX, u32::MAX - 1, 0]));
    both_kinds(10, &rated(&[1_000_000, ABOVE]));
    both_kinds(10, &rated(&[1_000_000, u32::MAX]));
    both_kinds(10, &rated(&[ABOVE, ABOVE]));
    both_kinds(10, &rated(&[0, 1 << 31]));
}

#[test]
fn the_earlier_row_decides() {
    let (sound, too_many_defaults) = (|rate| [5, 1, rate], |rate| [1, 2, rate]);
    for (number, rows) in [
        // 8 in a later row, the next one and the last.
        (34, vec![sound(5), sound(4), too_many_defaults(6)]),
        (34, vec![sound(5), sound(4), sound(5), too_many_defaults(5)]),
        // 8 in an earlier row, the first one and the one before.
        (8, vec![too_many_defaults(5), sound(4)]),
        (8, vec![too_many_defaults(5), sound(5), sound(4)]),
        (8, vec![sound(5), too_many_defaults(5), sound(4)]),
    ] {
        assert_eq!(load(0, &rows), number, "{rows:?}");
        // Of kind 1 no row has too many defaults.
        assert_eq!(load(1, &rows), 34, "{rows:?}");
    }
    for (number, rates) in [
        (34, &[5, 4, ABOVE][..]),
        (34, &[5, 4, 5, u32::MAX]),
        (34, &[5, 4, ABOVE, 0]),
        (10, &[ABOVE, 0]),
        (10, &[u32::MAX, 5, 4]),
        (10, &[5, ABOVE, 4]),
        (10, &[5, 6, ABOVE, 6, 5]),
    ] {
        both_kinds(number, &rated(rates));
    }
    let all_three = [sound(5), sound(4), [1, 2, ABOVE]];
    assert_eq!([0, 1].map(|kind| load(kind, &all_three)), [34; 2]);
}

#[test]
fn a_fall_is_34_before_9_and_11() {
    let nobody = |rate| [0, 0, rate];
    both_kinds(34, &[nobody(1), nobody(0)]);
    both_kinds(34, &[nobody(0), nobody(3), nobody(2), nobody(3)]);
    both_kinds(9, &[nobody(0), nobody(3), nobody(3), nobody(1_000_000)]);
    let mut forty = [nobody(9); 40];
    both_kinds(9, &forty);
    forty[39] = nobody(8);
    both_kinds(34, &forty);
    both_kinds(34, &[[1_000_001, 0, 1], nobody(0)]);
    both_kinds(34, &[[1_000_000, 0, 6], [1, 0, 5]]);
    both_kinds(34, &[[1, 0, 6], [1_000_000, 0, 5]]);
    both_kinds(11, &[[1_000_000, 0, 5], [1, 0, 5]]);
    both_kinds(11, &[[1_000_000, 0, 5], [1, 0, 6]]);
    both_kinds(34, &[[1 << 31, 0, 6], [1 << 31, 0, 5]]);
    both_kinds(11, &[[1 << 31, 0, 5], [1 << 31, 0, 6]]);
    // Of kind 1 they are 2^32 in one row.
    assert_eq!(load(1, &[[u32::MAX, 1, 6], nobody(5)]), 34);
    assert_eq!(load(1, &[[u32::MAX, 1, 5], nobody(5)]), 11);
}

#[test]
fn the_first_row_has_no_row_before_it() {
    // Each table is in step, and starts below where the one before it ends.
    let (high, low) = (rated(&[999_999, 1_000_000]), rated(&[0, 1]));
    let book = book_of(&[(0, &high), (1, &low), (0, &high), (1, &low[..1])]);
    assert_eq!([1, 2, 3, 4].map(|rater| load_rater(&book, rater)), [0; 4]);
    // In the place beside it stands a table that ends higher.
    let mut desk = Desk::fresh();
    assert_eq!(desk.load(1, 1, &book), Ok(()));
    assert_eq!(desk.load(2, 4, &book), Ok(()));
    assert_eq!(desk.clear(1), Ok(()));
    assert_eq!(desk.load(1, 2, &book), Ok(()));
}

#[test]
fn rows_of_other_raters_are_not_tested() {
    let (falls, in_step) = (rated(&[1, 0]), rated(&[0, 1]));
    let book = book_of(&[(0, &falls), (0, &in_step), (1, &falls), (1, &in_step)]);
    let found = [1, 2, 3, 4].map(|rater| load_rater(&book, rater));
    assert_eq!(found, [34, 0, 34, 0]);
}

#[test]
fn place_state_and_layout_come_before_34() {
    let falls = rated(&[1, 0]);
    let in_step = rated(&[0, 1]);
    let book = book_of(&[(0, &falls), (0, &in_step)]);
    let mut desk = Desk::fresh();
    assert_eq!([0, 3].map(|place| desk.load(place, 1, &book)), [Err(1); 2]);
    assert_eq!(desk.load(1, 2, &book), Ok(()));
    assert_eq!(desk.load(1, 1, &book), Err(21));
    assert_eq!(desk.load(2, 1, &book), Err(34));
    assert_eq!(desk.load(2, 0, &book), Err(4));
    assert_eq!(desk.load(2, 3, &book), Err(4));
    assert_eq!(desk.load(2, 1, &book[..63]), Err(2));
    // The tables stand at 8 to 36 and 36 to 64.
    let changed = |at: usize, byte: u8| {
        let mut book = book.clone();
        book[at] = byte;
        load_rater(&book, 1)
    };
    assert_eq!(changed(6, 37), 31);
    assert_eq!(changed(36, 3), 32);
    assert_eq!(changed(36, 41), 6);
    assert_eq!(changed(37, 2), 7);
    assert_eq!(changed(36, 1), 33);
}

#[test]
fn a_fall_leaves_both_places_as_they_were() {
    let book = book_of(&[(0, &rated(&[1, 0])), (0, &rated(&[0, 1]))]);
    for (loaded, empty) in [(1, 2), (2, 1)] {
        let mut desk = Desk::fresh();
        assert_eq!(desk.load(loaded, 2, &book), Ok(()));
        let before = desk.clone();
        assert_eq!(desk.load(empty, 1, &book), Err(34));
        assert_eq!(desk.load(loaded, 1, &book), Err(21));
        assert_eq!(desk, before);
        assert_eq!(desk.load(empty, 2, &book), Ok(()));
    }
}

/// "Analysts swapped two announced rates and trusted the Brier figure for a quarter."
#[test]
fn swapped_rates_of_table_k_have_no_brier_figure() {
    let with = |rates: [u64; 3]| {
        let mut table = Table::of_rows(&[(10, 2), (10, 1), (20, 4)]);
        table.announce(&rates);
        book::write(&[&table])
    };
    let mut desk = Desk::fresh();
    for swapped in [
        [150_000, 100_000, 200_000],
        [100_000, 200_000, 150_000],
        [200_000, 150_000, 100_000],
    ] {
        assert_eq!(desk.load(1, 1, &with(swapped)), Err(34));
        assert_eq!(desk.brier(1), Err(22));
        assert_eq!(print(&with(swapped)), "refused 34\n");
    }
    let right = with([100_000, 150_000, 200_000]);
    assert_eq!(desk.load(1, 1, &right), Ok(()));
    assert_eq!(desk.brier(1), Ok((5_825_000_000_000, 40_000_000_000_000)));
    let mut written = [0; 46];
    assert_eq!(desk.write(&mut written), Ok(46));
    assert_eq!(written[..], right);
}

/// All lists of so many numbers, each below `choices`.
fn lists(length: u32, choices: usize) -> Vec<Vec<usize>> {
    let digits = |list: usize| {
        let digit = |place| list / choices.pow(place) % choices;
        (0..length).map(digit).collect()
    };
    (0..choices.pow(length)).map(digits).collect()
}

/// Rates never fall if sorting them changes nothing.
#[test]
fn all_lists_of_three_rates_with_and_without_empty_grades() {
    let mut answers = [0; 3];
    for length in 1..=5 {
        for choice in lists(length, 6) {
            let rates: Vec<usize> = choice.iter().map(|choice| choice % 3).collect();
            let row = |choice: &usize| [(choice / 3) as u32, 0, (choice % 3) as u32];
            let rows: Vec<Row> = choice.iter().map(row).collect();
            let mut sorted = rates.clone();
            sorted.sort_unstable();
            let all_empty = choice.iter().all(|choice| choice / 3 == 0);
            let (index, number) = match (sorted == rates, all_empty) {
                (false, _) => (0, 34),
                (_, true) => (1, 9),
                _ => (2, 0),
            };
            both_kinds(number, &rows);
            answers[index] += 1;
        }
    }
    assert!(answers.iter().all(|&times| times > 30), "{answers:?}");
}

/// All faults of all rows, by row and then by their order in a row: the first one decides.
#[test]
fn all_faults_of_three_rows_in_every_order() {
    let counts = [[0, 0], [1, 1], [0, 1], [1_000_001, 0]];
    let rates = [0, 1, 1_000_000, ABOVE, ABOVE + 1];
    for choice in lists(3, counts.len() * rates.len()) {
        let row = |&choice: &usize| {
            let [first, defaults] = counts[choice / rates.len()];
            [first, defaults, rates[choice % rates.len()]]
        };
        let rows: Vec<Row> = choice.iter().map(row).collect();
        let mut faults = vec![];
        for (index, [obligors, defaults, rate]) in rows.iter().enumerate() {
            let falls = index > 0 && *rate < rows[index - 1][2];
            let tests = [(defaults > obligors, 8), (*rate >= ABOVE, 10), (falls, 34)];
            faults.extend(tests.into_iter().filter(|test| test.0).map(|test| test.1));
        }
        let obligors: u32 = rows.iter().map(|row| row[0]).sum();
        let tests = [(obligors == 0, 9), (obligors > 1_000_000, 11)];
        faults.extend(tests.into_iter().filter(|test| test.0).map(|test| test.1));
        let number = faults.first().copied().unwrap_or(0);
        assert_eq!(load(0, &rows), number, "{rows:?}");
    }
}
