//! Tables made in memory against the plain version's writer and reader of books.

use desk::{Desk, GRADES, Place, Refusal, Table};
use reference::book;
use reference::population::any_table;
use reference::random::Random;
use reference::table::{self, Grade};

type Row = (u32, u32, u32);

/// The kinds of a book's tables, and how a table is begun here.
const KINDS: [(u8, fn() -> Table); 2] = [(0, Table::by_obligors), (1, Table::by_survivors)];

fn narrow(number: u64) -> u32 {
    number.try_into().expect("it has 32 bits")
}

/// The rows of the plain version's table, with its survivors or its obligors first.
fn rows(table: &table::Table, kind: u8) -> Vec<Row> {
    let row = |grade: &Grade| {
        let first = if kind == 0 {
            grade.obligors
        } else {
            grade.survivors()
        };
        (
            narrow(first),
            narrow(grade.defaults),
            narrow(grade.announced),
        )
    };
    table.grades.iter().map(row).collect()
}

#[test]
fn books_of_valid_tables_are_the_same() {
    let mut random = Random::of_seed(14);
    for _ in 0..2_000 {
        let count = random.between(1, 16);
        let plain: Vec<(table::Table, u8)> = (0..count)
            .map(|_| (any_table(&mut random), random.pick(&[0, 1])))
            .collect();
        let tables: Vec<Table> = plain
            .iter()
            .map(|(table, kind)| KINDS[usize::from(*kind)].1().grades(rows(table, *kind)))
            .collect();
        let plain: Vec<(&table::Table, u8)> =
            plain.iter().map(|(table, kind)| (table, *kind)).collect();
        assert_eq!(Table::book(&tables), Ok(book::write_kinds(&plain)));
    }
}

#[test]
fn a_table_is_loaded_as_the_plain_version_reads_it() {
    let mut random = Random::of_seed(15);
    for _ in 0..2_000 {
        let plain = any_table(&mut random);
        let (kind, begun) = random.pick(&KINDS);
        let mut desk = Desk::empty();
        assert_eq!(
            desk.load_table(Place::Second, &begun().grades(rows(&plain, kind))),
            Ok(())
        );
        let held: Vec<Row> = desk
            .grades(Place::Second)
            .map(|grade| (grade.obligors, grade.defaults, grade.announced))
            .collect();
        assert_eq!(held, rows(&plain, 0));
    }
}

/// A row that is often wrong in one way or several; of so many in a hundred the grade is empty.
fn any_row(random: &mut Random, empty: u64) -> Row {
    let is_empty = random.chance(empty);
    let mut number = |usual: u64| {
        let number = random.between(0, usual);
        random.weighted(&[
            (60, number),
            (2, 0),
            (2, 1_000_000),
            (1, 1_000_001),
            (1, u64::from(u32::MAX)),
        ])
    };
    let [first, defaults, announced] = [50_000, 20, 1_000_000].map(|usual| narrow(number(usual)));
    if is_empty {
        return (0, 0, announced);
    }
    (first, defaults, announced)
}

/// Puts the announced rates in order; of some tables all but two neighbours, of some none.
fn order_rates(random: &mut Random, rows: &mut [Row]) {
    let mut rates: Vec<u32> = rows.iter().map(|row| row.2).collect();
    if random.chance(90) {
        rates.sort_unstable();
    }
    if rates.len() > 1 && random.chance(10) {
        let better = random.index(rates.len() - 1);
        rates.swap(better, better + 1);
    }
    for (row, rate) in rows.iter_mut().zip(rates) {
        row.2 = rate;
    }
}

/// The book that these rows would be, however many and wrong they are, laid out here once more.
fn bytes(kind: u8, rows: &[Row]) -> Vec<u8> {
    let held = if (1..=GRADES).contains(&rows.len()) {
        rows
    } else {
        &[]
    };
    let length = u16::try_from(10 + 12 * held.len()).expect("a short book");
    let grades = u8::try_from(rows.len()).expect("few grades");
    let mut book = vec![1, 0];
    book.extend(length.to_le_bytes());
    book.extend([6, 0, grades, kind, 0, 0]);
    for (first, defaults, announced) in held {
        book.extend(
            [first, defaults, announced]
                .map(|number| number.to_le_bytes())
                .concat(),
        );
    }
    book
}

#[test]
fn any_rows_are_refused_as_the_plain_version_refuses_them() {
    let mut random = Random::of_seed(16);
    let mut seen = [0; 35];
    let mut with_empty_grades = 0;
    for _ in 0..40_000 {
        let count = random.weighted(&[(20, 2), (60, 5), (5, 0), (10, 40), (5, 41), (1, 200)]);
        let empty = random.pick(&[0, 0, 20, 80, 100]);
        let mut rows: Vec<Row> = (0..random.between(0, count))
            .map(|_| any_row(&mut random, empty))
            .collect();
        order_rates(&mut random, &mut rows);
        let has_empty_grade = rows.iter().any(|row| (row.0, row.1) == (0, 0));
        let (kind, begun) = random.pick(&KINDS);
        let expected = book::read(&bytes(kind, &rows), 1).map(|_| ());
        let table = begun().grades(rows);
        let answer = Desk::empty()
            .load_table(Place::First, &table)
            .map_err(Refusal::number);
        assert_eq!(answer, expected, "{table:?}");
        assert_eq!(
            Table::book(&[table]).map(|_| ()).map_err(Refusal::number),
            expected
        );
        seen[expected.err().unwrap_or(0) as usize] += 1;
        with_empty_grades += u32::from(expected.is_ok() && has_empty_grade);
    }
    for number in [0, 6, 8, 9, 10, 11, 34] {
        assert!(
            seen[number] > 50,
            "refusal {number} was met {} times",
            seen[number]
        );
    }
    assert!(with_empty_grades > 1_000, "{with_empty_grades}");
}
