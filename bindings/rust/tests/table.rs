//! Tables made in memory: the refusals of load, in its order.

use desk::{Desk, GRADES, Place, RATERS, Refusal, Table};

/// What loading a table into an empty place answers, which is also what making a book of it does.
fn load(table: &Table) -> Result<(), Refusal> {
    let answer = Desk::empty().load_table(Place::Second, table);
    let book = Table::book(std::slice::from_ref(table));
    assert_eq!(book.map(|_| ()), answer, "{table:?}");
    answer
}

fn grades(table: Table, count: usize) -> Table {
    table.grades(std::iter::repeat_n((1, 0, 0), count))
}

#[test]
fn the_first_number_counts_what_the_table_was_begun_with() {
    let obligors = |table: &Table| {
        let mut desk = Desk::empty();
        desk.load_table(Place::First, table).expect("a valid table");
        let obligors = desk
            .grades(Place::First)
            .map(|grade| (grade.obligors, grade.defaults));
        obligors.collect::<Vec<(u32, u32)>>()
    };
    let rows = [(5, 2, 400_000), (7, 1, 1_000_000)];
    assert_eq!(
        obligors(&Table::by_obligors().grades(rows)),
        [(5, 2), (7, 1)]
    );
    assert_eq!(
        obligors(&Table::by_survivors().grades(rows)),
        [(7, 2), (8, 1)]
    );
}

#[test]
fn every_number_of_grades() {
    for begun in [Table::by_obligors(), Table::by_survivors()] {
        for count in (0..=GRADES + 5).chain([254, 255, 256, 257, 296, 512, 65_536 + 1]) {
            let expected = match count {
                1..=GRADES => Ok(()),
                _ => Err(Refusal::Grades),
            };
            assert_eq!(load(&grades(begun.clone(), count)), expected, "{count}");
        }
    }
}

#[test]
fn every_number_of_raters() {
    let table = Table::by_survivors().grade(1, 1, 0);
    for count in (0..=RATERS + 3).chain([256, 257, 65_535, 65_536, 65_537]) {
        let book = Table::book(&vec![table.clone(); count]);
        match count {
            1..=RATERS => assert_eq!(book.map(|book| book.len()), Ok(4 + count * (2 + 4 + 12))),
            _ => assert_eq!(book, Err(Refusal::Raters), "{count}"),
        }
    }
}

#[test]
fn row_by_row_and_then_the_total() {
    let (obligors, survivors) = (Table::by_obligors, Table::by_survivors);
    let max = u32::MAX;
    // each of two faults comes before the next
    assert_eq!(load(&obligors().grade(2, 3, max)), Err(Refusal::Defaults));
    assert_eq!(load(&obligors().grade(0, 1, 0)), Err(Refusal::Defaults));
    assert_eq!(load(&obligors().grade(0, 0, max)), Err(Refusal::Announced));
    assert_eq!(load(&survivors().grade(0, 0, max)), Err(Refusal::Announced));
    assert_eq!(
        load(&obligors().grade(max, 0, 1_000_001)),
        Err(Refusal::Announced)
    );
    assert_eq!(
        load(&survivors().grade(max, max, 1_000_001)),
        Err(Refusal::Announced)
    );
    assert_eq!(
        load(&obligors().grade(1_000_000, 0, 0).grade(1, 0, 0)),
        Err(Refusal::Obligors)
    );
    assert_eq!(
        load(&survivors().grade(max, max, 0)),
        Err(Refusal::Obligors)
    );
    // the first row's fault comes before the second's
    assert_eq!(
        load(&obligors().grade(1, 0, max).grade(0, 0, 0)),
        Err(Refusal::Announced)
    );
    assert_eq!(
        load(&obligors().grade(2, 3, 0).grade(1, 0, max)),
        Err(Refusal::Defaults)
    );
    // by survivors no count of defaults is too high
    assert_eq!(load(&survivors().grade(0, 3, 0)), Ok(()));
    assert_eq!(load(&survivors().grade(0, 1_000_000, 1_000_000)), Ok(()));
}

/// 9 stands behind the rows and before 11, and an empty grade beside an occupied one is accepted.
#[test]
fn empty_grades() {
    for begun in [Table::by_obligors, Table::by_survivors] {
        let empty = |count| begun().grades(std::iter::repeat_n((0, 0, 1_000_000), count));
        for count in 1..=GRADES {
            assert_eq!(load(&empty(count)), Err(Refusal::NoObligors), "{count}");
            // every row is looked at before
            let high = empty(count - 1).grade(0, 0, 1_000_001);
            assert_eq!(load(&high), Err(Refusal::Announced), "{count}");
        }
        for better in 0..GRADES {
            let worse = std::iter::repeat_n((0, 0, 1_000_000), GRADES - 1 - better);
            let occupied = |count, defaults| {
                let row = (count, defaults, 1_000_000);
                empty(better).grades([row]).grades(worse.clone())
            };
            assert_eq!(load(&occupied(1, 0)), Ok(()), "{better}");
            assert_eq!(load(&occupied(1, 1)), Ok(()), "{better}");
            let many = occupied(1_000_001, 0);
            assert_eq!(load(&many), Err(Refusal::Obligors), "{better}");
        }
    }
    // by obligors nobody cannot default; by survivors a default is somebody
    let defaulted = |begun: Table| begun.grade(0, 0, 0).grade(0, 1, 0);
    assert_eq!(
        load(&defaulted(Table::by_obligors())),
        Err(Refusal::Defaults)
    );
    assert_eq!(load(&defaulted(Table::by_survivors())), Ok(()));
}

/// They stay in the table, where they were.
#[test]
fn empty_grades_are_held() {
    let rows = [(0, 0, 5), (3, 2, 6), (0, 0, 7), (0, 1, 8), (0, 0, 400_000)];
    let table = Table::by_survivors().grades(rows);
    let mut desk = Desk::empty();
    assert_eq!(desk.load_table(Place::Second, &table), Ok(()));
    let held: Table = desk.grades(Place::Second).collect();
    let rows = [(0, 0, 5), (5, 2, 6), (0, 0, 7), (1, 1, 8), (0, 0, 400_000)];
    assert_eq!(held, Table::by_obligors().grades(rows));
    assert_eq!(Table::book(&[held]), desk.write());
}

/// Grades that announce these rates, the first, second or third of every three empty (0, 1, 2) or none (3).
fn announcing(begun: fn() -> Table, rates: &[u32], empty: usize) -> Table {
    let row = |(grade, &rate)| (u32::from(grade % 3 != empty), 0, rate);
    begun().grades(rates.iter().enumerate().map(row))
}

/// the rate of a row is held to that of the row just before, of empty grades as well.
#[test]
fn falling_rates() {
    let falling = Err(Refusal::FallingRate);
    for begun in [Table::by_obligors, Table::by_survivors] {
        for (row, empty) in (1..GRADES).flat_map(|row| (0..=3).map(move |empty| (row, empty))) {
            for (below, expected) in [(0, Ok(())), (1, falling)] {
                let mut rates: Vec<u32> = (100..).step_by(2).take(GRADES).collect();
                rates[row] = rates[row - 1] - below;
                for rates in [&rates[..], &rates[..=row]] {
                    let answer = load(&announcing(begun, rates, empty));
                    assert_eq!(answer, expected, "{empty}: {rates:?}");
                }
            }
        }
        for rates in [[1, 0], [1_000_000, 999_999], [1_000_000, 0]] {
            assert_eq!(load(&announcing(begun, &rates, 3)), falling, "{rates:?}");
        }
    }
}

/// 34 stands behind 8 and 10 of its row, and before whatever comes later.
#[test]
fn a_falling_rate_and_another_fault() {
    let falls = |begun: fn() -> Table| begun().grade(1, 0, 9).grade(1, 0, 8);
    for begun in [Table::by_obligors, Table::by_survivors] {
        let falling = Err(Refusal::FallingRate);
        assert_eq!(load(&falls(begun).grade(1, 0, 1_000_001)), falling);
        assert_eq!(load(&begun().grade(0, 0, 9).grade(0, 0, 8)), falling);
        let many = [(1_000_001, 0, 9), (u32::MAX, 0, 8)];
        assert_eq!(load(&begun().grades(many)), falling);
        // a rate that is too high is told before the fall behind it
        let high = begun().grade(1, 0, 1_000_001).grade(1, 0, 1_000_000);
        assert_eq!(load(&high), Err(Refusal::Announced));
    }
    let (obligors, survivors) = (Table::by_obligors, Table::by_survivors);
    let in_the_row = |begun: fn() -> Table| begun().grade(1, 0, 9).grade(1, 2, 8);
    assert_eq!(load(&in_the_row(obligors)), Err(Refusal::Defaults));
    assert_eq!(load(&in_the_row(survivors)), Err(Refusal::FallingRate));
    let earlier = obligors().grade(1, 2, 9).grade(1, 0, 8);
    assert_eq!(load(&earlier), Err(Refusal::Defaults));
    let later = falls(obligors).grade(1, 2, 9);
    assert_eq!(load(&later), Err(Refusal::FallingRate));
}

#[test]
fn a_loaded_place_comes_first() {
    let mut desk = Desk::empty();
    let good = Table::by_obligors().grade(2, 1, 0);
    assert_eq!(desk.load_table(Place::First, &good), Ok(()));
    let falls = Table::by_obligors().grade(2, 1, 9).grade(2, 1, 8);
    let bad = [
        Table::by_obligors(),
        Table::by_obligors().grade(2, 3, 0),
        falls.clone(),
        good.clone(),
    ];
    for table in &bad {
        assert_eq!(desk.load_table(Place::First, table), Err(Refusal::Loaded));
    }
    let before = desk.clone();
    assert_eq!(
        desk.load_table(Place::Second, &bad[0]),
        Err(Refusal::Grades)
    );
    assert_eq!(
        desk.load_table(Place::Second, &falls),
        Err(Refusal::FallingRate)
    );
    assert_eq!(desk, before);
    assert_eq!(desk.load_table(Place::Second, &good), Ok(()));
}

#[test]
fn every_rater_of_a_book_is_tried() {
    let good = Table::by_survivors().grade(2, 1, 0);
    let empty = Table::by_survivors().grade(0, 0, 0);
    let upside_down = Table::by_obligors().grade(2, 3, 0);
    let falls = Table::by_survivors().grade(2, 1, 9).grade(2, 1, 8);
    let mut tables = vec![good.clone(); RATERS];
    for rater in 0..RATERS {
        tables[rater] = empty.clone();
        assert_eq!(Table::book(&tables), Err(Refusal::NoObligors), "{rater}");
        tables[rater] = falls.clone();
        assert_eq!(Table::book(&tables), Err(Refusal::FallingRate), "{rater}");
        tables[rater] = good.clone();
    }
    // rater by rater; but the layout, which the count of grades is a part of, before any rows
    let book = |tables: &[&Table]| {
        let tables: Vec<Table> = tables.iter().map(|&table| table.clone()).collect();
        Table::book(&tables).map(|_| ())
    };
    assert_eq!(
        book(&[&good, &empty, &upside_down]),
        Err(Refusal::NoObligors)
    );
    assert_eq!(book(&[&good, &upside_down, &empty]), Err(Refusal::Defaults));
    assert_eq!(
        book(&[&good, &falls, &upside_down]),
        Err(Refusal::FallingRate)
    );
    assert_eq!(book(&[&empty, &falls]), Err(Refusal::NoObligors));
    assert_eq!(
        book(&[&upside_down, &good, &Table::by_obligors()]),
        Err(Refusal::Grades)
    );
    // and the number of raters before all of it
    assert_eq!(book(&[&upside_down; 17]), Err(Refusal::Raters));
}

#[test]
fn book_k_byte_by_byte() {
    let rows = [(10, 2, 100_000), (10, 1, 150_000), (20, 4, 200_000)];
    let shipped = std::fs::read("../../examples/k.book").expect("book K is an example");
    assert_eq!(
        Table::book(&[Table::by_obligors().grades(rows)]),
        Ok(shipped)
    );
}

#[test]
fn the_ways_to_add_grades_are_one() {
    let rows = [(5, 2, 400_000), (1, 1, 1_000_000)];
    let one_by_one = Table::by_survivors()
        .grade(5, 2, 400_000)
        .grade(1, 1, 1_000_000);
    assert_eq!(Table::by_survivors().grades(rows), one_by_one);
    assert_ne!(Table::by_obligors().grades(rows), one_by_one);
    let mut extended = Table::by_survivors();
    extended.extend(rows);
    assert_eq!(extended, one_by_one);
    assert_eq!(
        Table::by_survivors()
            .grades(rows[..1].to_vec())
            .grades(rows[1..].to_vec()),
        one_by_one
    );
}

#[test]
fn loaded_grades_are_a_table_by_obligors() {
    let mut desk = Desk::empty();
    let table = Table::by_survivors()
        .grade(3, 2, 400_000)
        .grade(0, 1, 1_000_000);
    desk.load_table(Place::First, &table)
        .expect("a valid table");
    let held: Table = desk.grades(Place::First).collect();
    assert_eq!(
        held,
        Table::by_obligors()
            .grade(5, 2, 400_000)
            .grade(1, 1, 1_000_000)
    );
    assert_eq!(Table::book(&[held]), desk.write());
}
