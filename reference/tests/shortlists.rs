//! R-7 of document 02: "List the raters for which no other rater of the book is better, in book
//! order". Worked out by hand, then by plainer means on random tables.

use desks::desk_with;
use reference::book;
use reference::cutoff::{cheapest_cost, verdict, Verdict};
use reference::desk::{Desk, LENT_NUMBER};
use reference::draft::Draft;
use reference::partners::same_obligors;
use reference::pooling::pooled_scale;
use reference::population::announce;
use reference::random::Random;
use reference::rivals::every_rivals;
use reference::script::{decode, Call};
use reference::shortlist::{is_better, listed, shortlist};
use reference::table::Table;
use small::{small_prices, small_table};
use std::collections::BTreeMap;

mod desks;
mod small;

/// D 3, S 3, as all up to `NOISE`. Cutoffs (x, y) are (0, 2) and (1, 3) besides none and all.
const BEST: &[(u64, u64)] = &[(2, 0), (2, 1), (2, 2)];
/// (1, 2)
const MIDDLE: &[(u64, u64)] = &[(3, 1), (3, 2)];
/// (0, 1): crosses `MIDDLE` and `STRICT`.
const MILD: &[(u64, u64)] = &[(5, 2), (1, 1)];
/// (1, 3): better than `MIDDLE`.
const STRICT: &[(u64, u64)] = &[(2, 0), (4, 3)];
const NOISE: &[(u64, u64)] = &[(6, 3)];
/// As good as `NOISE`: (2, 1) and (3, 2) are below the diagonal.
const UPSIDE_DOWN: &[(u64, u64)] = &[(1, 1), (2, 1), (3, 1)];

fn tables(rows: &[&[(u64, u64)]]) -> Vec<Table> {
    rows.iter().map(|rows| Table::of_rows(rows)).collect()
}

fn book_of(tables: &[Table]) -> Vec<u8> {
    book::write(&tables.iter().collect::<Vec<_>>())
}

/// The raters listed, by the function and by the call, which keeps what it does not write.
fn listing(tables: &[Table]) -> Vec<u32> {
    let book = book_of(tables);
    let mut numbers = vec![7; tables.len() + 2];
    let count = shortlist(&book, &mut numbers).expect("accepted");
    assert!(numbers[count..].iter().all(|&number| number == 7));
    numbers.truncate(count);
    assert_eq!(numbers, listed(tables));
    let length = tables.len() as u32;
    let line = Desk::fresh().call(&Call::Shortlist { length, book }).line();
    let words = numbers.iter().map(|number| format!(" {number}"));
    let kept = (count..tables.len()).map(|_| format!(" {LENT_NUMBER}"));
    let words: String = words.chain(kept).collect();
    assert_eq!(line, format!("shortlist ok {count}{words}"));
    numbers
}

#[test]
fn worked_shortlists() {
    for (book, expected) in [
        (&[NOISE][..], &[1][..]),
        (&[BEST, MIDDLE, MILD, STRICT, NOISE], &[1]),
        (&[NOISE, STRICT, MILD, MIDDLE, BEST], &[5]),
        (&[MIDDLE, MILD, STRICT, NOISE], &[2, 3]),
        (&[MILD, STRICT], &[1, 2]),
        (&[MIDDLE, STRICT], &[2]),
        (&[STRICT, MIDDLE], &[1]),
        (&[MIDDLE, NOISE, MILD], &[1, 3]),
        (&[NOISE, NOISE], &[1, 2]),
        (&[NOISE, UPSIDE_DOWN], &[1, 2]),
        (&[UPSIDE_DOWN, MIDDLE, NOISE], &[2]),
        (&[MIDDLE, NOISE, MIDDLE], &[1, 3]),
        (&[NOISE, BEST, MILD, BEST, STRICT], &[2, 4]),
        (&[STRICT, MILD, STRICT, MILD, MIDDLE], &[1, 2, 3, 4]),
        (&[NOISE, BEST, MIDDLE], &[2]),
    ] {
        assert_eq!(listing(&tables(book)), expected, "{book:?}");
    }
}

#[test]
fn better_is_at_least_as_good_and_not_the_reverse() {
    for (one, other, either) in [
        (BEST, MIDDLE, (true, false)),
        (STRICT, MIDDLE, (true, false)),
        (MIDDLE, NOISE, (true, false)),
        (MILD, STRICT, (false, false)),
        (MILD, MIDDLE, (false, false)),
        (NOISE, UPSIDE_DOWN, (false, false)),
        (BEST, BEST, (false, false)),
    ] {
        let [one, other] = [one, other].map(Table::of_rows);
        let found = (is_better(&one, &other), is_better(&other, &one));
        assert_eq!(found, either, "{one:?} {other:?}");
    }
}

/// D and S are at most 5, and with them the break-even prices: each rater against each other at all
/// prices up to 12.
#[test]
fn listings_agree_with_trying_all_small_prices() {
    let mut seen = BTreeMap::new();
    for seed in 0..2_000 {
        let random = &mut Random::of_seed(seed);
        let (defaults, survivors) = (random.between(1, 5), random.between(1, 5));
        let raters = 1 + random.index(6);
        let tables: Vec<Table> = (0..raters)
            .map(|_| small_table(random, defaults, survivors))
            .collect();
        let never_dearer = |one: &Table, other: &Table| {
            small_prices(12).all(|price| cheapest_cost(one, &price) <= cheapest_cost(other, &price))
        };
        let mut expected = vec![];
        for (number, table) in (1..).zip(&tables) {
            let beats = |other: &Table| never_dearer(other, table) && !never_dearer(table, other);
            if !tables.iter().any(beats) {
                expected.push(number);
            }
        }
        *seen.entry((raters, expected.len())).or_insert(0) += 1;
        assert_eq!(listing(&tables), expected, "{tables:?}");
    }
    for raters in 1..=6 {
        for listed in 1..=raters.min(3) {
            assert!(seen.get(&(raters, listed)) > Some(&5), "{seen:?}");
        }
    }
}

/// Books of every sort, with what made them.
fn books() -> impl Iterator<Item = (Vec<Table>, Random)> {
    (0..12).flat_map(|seed| {
        every_rivals().into_iter().map(move |rivals| {
            let mut random = Random::of_seed(seed);
            (rivals.tables(&mut random), random)
        })
    })
}

/// "Of raters that are equal, all are listed or none. Every unlisted rater is beaten by a listed
/// one."
#[test]
fn equal_ones_stand_together_and_unlisted_ones_are_beaten_by_listed_ones() {
    let (mut equal, mut unlisted) = ([0; 2], 0);
    for (tables, _) in books() {
        let listed = listed(&tables);
        assert!(!listed.is_empty());
        assert!(listed.windows(2).all(|two| two[0] < two[1]), "{listed:?}");
        let is_listed = |index: usize| listed.contains(&(index as u32 + 1));
        for (index, table) in tables.iter().enumerate() {
            for (later, other) in tables.iter().enumerate().skip(index + 1) {
                if verdict(table, other) == Verdict::Equal {
                    assert_eq!(is_listed(index), is_listed(later));
                    equal[usize::from(is_listed(index))] += 1;
                }
            }
            if !is_listed(index) {
                let beats = |&number: &u32| is_better(&tables[number as usize - 1], table);
                assert!(listed.iter().any(beats), "{tables:?}");
                unlisted += 1;
            }
        }
    }
    assert!(equal.iter().all(|&times| times > 100) && unlisted > 500);
}

/// Who is listed stays so in any order, without those who are not, and beside itself.
#[test]
fn order_unlisted_ones_and_equal_ones_play_no_part() {
    for (tables, mut random) in books() {
        let numbers = listed(&tables);
        let is_listed = |index: usize| numbers.contains(&(index as u32 + 1));
        let mut order: Vec<usize> = (0..tables.len()).collect();
        random.shuffle(&mut order);
        let shuffled: Vec<Table> = order.iter().map(|&index| tables[index].clone()).collect();
        let expected = (1..).zip(&order).filter(|(_, &index)| is_listed(index));
        let expected: Vec<u32> = expected.map(|(number, _)| number).collect();
        assert_eq!(listed(&shuffled), expected);
        let mut only: Vec<Table> = numbers
            .iter()
            .map(|&number| tables[number as usize - 1].clone())
            .collect();
        only.push(only[0].clone());
        let everyone: Vec<u32> = (1..).take(only.len()).collect();
        assert_eq!(listed(&only), everyone);
    }
}

/// The kind of first column, announced rates and the grades within a block play no part either.
#[test]
fn looks_play_no_part() {
    for (tables, mut random) in books() {
        let mut others = tables.clone();
        for table in &mut others {
            announce(&mut random, table);
        }
        let book = Draft::of_tables(&mut random, &others, 1).bytes;
        let mut numbers = [0; 16];
        let count = shortlist(&book, &mut numbers).expect("accepted");
        let pooled: Vec<Table> = tables.iter().map(pooled_scale).collect();
        assert_eq!(listing(&pooled), numbers[..count]);
    }
}

/// Of two raters the first comparison says the same.
#[test]
fn two_raters_are_listed_by_their_verdict() {
    let mut seen = BTreeMap::new();
    for seed in 0..1_500 {
        let (first, second) = same_obligors(&mut Random::of_seed(seed));
        let desk = desk_with([Some(&first), Some(&second)]);
        let expected: &[u32] = match desk.compare().expect("accepted") {
            Verdict::First(_) => &[1],
            Verdict::Second(_) => &[2],
            Verdict::Equal | Verdict::Crossing(..) => &[1, 2],
        };
        assert_eq!(listing(&[first, second]), expected);
        *seen.entry(expected).or_insert(0) += 1;
    }
    assert!(seen.len() == 3 && seen.values().all(|&times| times > 200));
}

/// 16 raters of 40 grades and 1,000,000 obligors: overflow would stop the test.
#[test]
fn the_largest_book() {
    // Rates rise from 2.5 to 97.5 percent.
    let rows: Vec<(u64, u64)> = (0..40).map(|grade| (25_000, 625 + 609 * grade)).collect();
    let steps = Table::of_rows(&rows);
    assert_eq!(steps.obligors(), 1_000_000);
    let exchanged = |grade: usize| {
        let mut table = steps.clone();
        table.grades.swap(grade, grade + 1);
        table
    };
    let mut tables: Vec<Table> = (0..16).map(exchanged).collect();
    assert_eq!(listing(&tables), (1..=16).collect::<Vec<u32>>());
    tables[15] = steps.clone();
    assert_eq!(listing(&tables), [16]);
    // One default of 500,000 for one survivor.
    tables = vec![steps.clone(); 16];
    tables[7].grades[0].defaults -= 1;
    tables[7].grades[39].defaults += 1;
    assert_eq!(listing(&tables), [8]);
    assert_eq!(book_of(&tables).len(), 36 + 16 * 484);
}

const LONG: [usize; 4] = [3, 4, 16, 512];

/// The number, whatever the buffer's length; nothing is written.
fn refusal(book: &[u8], lengths: &[usize]) -> Option<u32> {
    let answers = lengths.iter().map(|&length| {
        let mut numbers = vec![LENT_NUMBER; length];
        let answer = shortlist(book, &mut numbers);
        assert!(answer.is_ok() || numbers == vec![LENT_NUMBER; length]);
        answer.err()
    });
    let answers: Vec<Option<u32>> = answers.collect();
    assert!(answers.iter().all(|answer| *answer == answers[0]));
    answers[0]
}

/// "then 13 for a buffer shorter than R", also where fewer are listed.
#[test]
fn a_buffer_has_a_number_for_every_rater() {
    for raters in 1..=16 {
        for best in [0, raters / 2, raters - 1] {
            let mut book = vec![NOISE; raters];
            book[best] = BEST;
            let bytes = book_of(&tables(&book));
            let short: Vec<usize> = (0..raters).collect();
            assert_eq!(refusal(&bytes, &short), Some(13));
            assert_eq!(refusal(&bytes, &[raters, raters + 1, 512]), None);
        }
    }
}

/// Three raters whose tables start at 10, 50 and 90, each with rows at 4, 16 and 28.
fn three() -> Vec<u8> {
    let table = Table::of_rows(&[(10, 2), (10, 1), (20, 4)]);
    book_of(&vec![table; 3])
}

const FAULTS: [u32; 12] = [31, 32, 6, 7, 8, 10, 34, 9, 11, 23, 24, 25];

fn put(book: &mut [u8], at: usize, number: u32) {
    book[at..at + 4].copy_from_slice(&number.to_le_bytes());
}

/// Puts one fault into the table of this index.
fn damage(book: &mut [u8], index: usize, number: u32) {
    let start = 10 + 40 * index;
    let rows = [4, 16, 28].map(|row| start + row);
    match number {
        31 => book[4 + 2 * index] += 1,
        32 => book[start] = 40,
        6 => book[start] = 41,
        7 => book[start + 3] = 1,
        8 => put(book, rows[1] + 4, 11),
        10 => put(book, rows[2] + 8, 1_000_001),
        34 => put(book, rows[0] + 8, 1),
        9 => book[rows[0]..rows[2] + 12].fill(0),
        11 => put(book, rows[0], 999_971),
        23 => rows.iter().for_each(|row| put(book, row + 4, 0)),
        24 => {
            let whole = rows.iter().zip([10, 10, 20]);
            whole.for_each(|(row, obligors)| put(book, row + 4, obligors));
        }
        _ => put(book, rows[1] + 4, 2),
    }
}

/// When the checks come to a number: the layout table by table, then the rows, 9 and 11 rater by
/// rater, then 23, 24, 25.
fn turn(number: u32) -> u32 {
    match number {
        31 | 32 | 6 | 7 => 0,
        8 | 10 | 34 | 9 | 11 => 1,
        _ => number,
    }
}

#[test]
fn every_rater_is_tested() {
    assert_eq!(refusal(&three(), &LONG), None);
    for number in FAULTS {
        for index in 0..3 {
            let mut book = three();
            damage(&mut book, index, number);
            let lengths = [0, 1, 2, 3, 512];
            assert_eq!(
                refusal(&book, &lengths),
                Some(number),
                "rater {}",
                index + 1
            );
        }
    }
}

/// Every two faults in every two raters: of those that come in the same turn, the earlier rater's.
#[test]
fn refusals_stand_in_order() {
    for (earlier, later) in [(0, 1), (0, 2), (1, 2)] {
        for (one, other) in FAULTS
            .iter()
            .flat_map(|one| FAULTS.map(|other| (*one, other)))
        {
            let mut book = three();
            damage(&mut book, earlier, one);
            damage(&mut book, later, other);
            let expected = if turn(other) < turn(one) { other } else { one };
            assert_eq!(
                refusal(&book, &[0, 2, 3, 512]),
                Some(expected),
                "{one}, {other}"
            );
        }
    }
}

/// 2 and 3 come before the tables, 33 behind them and before the rows.
#[test]
fn faults_of_the_book_stand_around_the_layout_of_its_tables() {
    let faults = FAULTS
        .iter()
        .flat_map(|number| [0, 1, 2].map(|index| (*number, index)));
    for (number, index) in faults {
        let mut faulty = three();
        damage(&mut faulty, index, number);
        let refusal = |change: fn(&mut Vec<u8>)| {
            let mut book = faulty.clone();
            change(&mut book);
            refusal(&book, &[0, 2, 3, 512])
        };
        assert_eq!(refusal(|book| book[2] += 1), Some(2));
        assert_eq!(refusal(|book| book.truncate(3)), Some(2));
        assert_eq!(refusal(Vec::clear), Some(2));
        assert_eq!(refusal(|book| book.push(0)), Some(2));
        assert_eq!(refusal(|book| book[0] = 0), Some(3));
        assert_eq!(refusal(|book| book[0] = 17), Some(3));
        assert_eq!(refusal(|book| book[1] = 1), Some(3));
        let both = |book: &mut Vec<u8>| (book[0], book[2]) = (17, book[2] + 1);
        assert_eq!(refusal(both), Some(2));
        let ends_within_offsets = |book: &mut Vec<u8>| {
            book.truncate(9);
            book[2] = 9;
        };
        assert_eq!(refusal(ends_within_offsets), Some(3));
        let expected = if turn(number) == 0 { number } else { 33 };
        let bytes_follow = |book: &mut Vec<u8>| {
            book[2] += 1;
            book.push(0);
        };
        assert_eq!(refusal(bytes_follow), Some(expected), "{number}");
    }
}

/// A single rater is tested as several are, and by whole numbers.
#[test]
fn a_single_rater_needs_defaults_and_survivors() {
    for (obligors, defaults, number) in [
        (9, 0, Some(23)),
        (9, 9, Some(24)),
        (65_536, 0, Some(23)),
        (65_536, 65_536, Some(24)),
        (65_537, 65_536, None),
        (65_537, 1, None),
        (131_072, 65_536, None),
        (1_000_000, 999_999, None),
    ] {
        let book = book_of(&tables(&[&[(obligors, defaults)]]));
        assert_eq!(refusal(&book, &[1, 16]), number, "{obligors}, {defaults}");
        assert_eq!(refusal(&book, &[0]), number.or(Some(13)));
    }
}

/// D or S alone, or both with the same N.
#[test]
fn totals_differ_between_any_two() {
    let base: &[(u64, u64)] = &[(3, 1), (3, 2)];
    for other in [
        &[(3, 1), (4, 3)][..],
        &[(3, 1), (4, 2)],
        &[(3, 1), (3, 1)],
        &[(3, 3), (3, 1)],
    ] {
        for place in 0..4 {
            let mut book = vec![base; 4];
            book[place] = other;
            assert_eq!(refusal(&book_of(&tables(&book)), &[0, 3, 4, 512]), Some(25));
            book[(place + 1) % 4] = other;
            assert_eq!(refusal(&book_of(&tables(&book)), &[4]), Some(25));
        }
        let both = tables(&[other, other]);
        assert_eq!(refusal(&book_of(&both), &[2]), None);
        assert_eq!(refusal(&book_of(&both), &[0, 1]), Some(13));
    }
    // D and S exchanged, and alike in their last 16 bits.
    let exchanged = tables(&[&[(7, 3)], &[(7, 4)]]);
    assert_eq!(refusal(&book_of(&exchanged), &[2]), Some(25));
    let alike = tables(&[&[(70_000, 1)], &[(70_000 + 65_536, 1)]]);
    assert_eq!(refusal(&book_of(&alike), &[2]), Some(25));
    // A single rater has nobody to differ from.
    assert_eq!(listing(&tables(&[&[(70_000, 1)]])), [1]);
}

/// Numbers of load that have no use here: 1, 21 and 4. The desk is not looked at, nor changed.
#[test]
fn the_desk_plays_no_part() {
    let [one, other] = [MIDDLE, NOISE].map(Table::of_rows);
    let good = Table::of_rows(&[(3, 0)]);
    let desks = [
        Desk::fresh(),
        desk_with([Some(&one), None]),
        desk_with([None, Some(&good)]),
        desk_with([Some(&other), Some(&good)]),
    ];
    let book = book_of(&tables(&[NOISE, MILD, STRICT]));
    let mut faulty = three();
    damage(&mut faulty, 2, 23);
    for desk in desks {
        for (length, book, line) in [
            (4, &book, "shortlist ok 2 2 3 2863311530 2863311530"),
            (2, &book, "shortlist refused 13 2863311530 2863311530"),
            (0, &book, "shortlist refused 13"),
            (1, &faulty, "shortlist refused 23 2863311530"),
        ] {
            let mut asked = desk.clone();
            let book = book.clone();
            let answer = asked.call(&Call::Shortlist { length, book });
            assert_eq!(answer.line(), line);
            assert_eq!(answer.refusal().is_some(), line.contains("refused"));
            assert_eq!(asked, desk);
        }
    }
}

fn bytes_of(numbers: &[u32]) -> Vec<u8> {
    let bytes = numbers.iter().flat_map(|number| number.to_le_bytes());
    bytes.collect()
}

#[test]
fn operation_11_has_a_buffer_and_a_book() {
    let call = |length, book: &[u8]| Call::Shortlist {
        length,
        book: book.to_vec(),
    };
    let bytes = call(3, &[1, 2, 3]).encode();
    assert_eq!(bytes, [&bytes_of(&[11, 3, 3])[..], &[1, 2, 3]].concat());
    for (length, book) in [(0, 0), (512, 1), (1, 65_535)] {
        let call = call(length, &vec![9; book]);
        let script = [call.encode(), bytes_of(&[5])].concat();
        assert_eq!(decode(&script), (vec![call.clone(), Call::Compare], false));
        assert_eq!(decode(&script[4..]).0.len(), 0);
        // An operand or the book cut short.
        let whole = call.encode();
        for left in [3, 4, 7, 8, 11, whole.len() - 1] {
            assert_eq!(decode(&whole[..left]), (vec![], true), "{left}");
        }
    }
    // A buffer or a book above its limit, all of it there.
    for (length, book) in [(513, 46), (u32::MAX, 0), (1, 65_536)] {
        let script = [bytes_of(&[11, length, book]), vec![0; 70_000]].concat();
        assert_eq!(decode(&script), (vec![], true));
    }
}

#[test]
fn a_call_is_shown_with_what_its_book_reads_as() {
    let [best, noise] = [BEST, NOISE].map(Table::of_rows);
    let book = book::write(&[&best, &noise]);
    let shown = Call::Shortlist { length: 2, book }.to_string();
    let start = "shortlist 2 64\n  book 020040000800";
    assert!(shown.starts_with(start), "{shown}");
    let read = format!("\n  read {:?}", Ok::<_, u32>(vec![best, noise]));
    assert!(shown.ends_with(&read), "{shown}");
}
