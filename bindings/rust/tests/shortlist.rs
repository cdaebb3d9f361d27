//! Document 02, R-7: the shortlist of a whole book, held to the comparison of any two of its raters.

mod common;

use common::{Rows, desk_with, table_of};
use desk::{GRADES, RATERS, Refusal, Table, Verdict, shortlist, shortlist_into};
use std::fs;

/// Six obligors, three of whom defaulted. Each of the first four is better than those behind it; the
/// next two cross, and the last is equal to the fine one.
const PERFECT: Rows = &[(3, 0), (3, 3)];
const FINE: Rows = &[(2, 0), (2, 1), (2, 2)];
const COARSE: Rows = &[(3, 1), (3, 2)];
const NO_SCALE: Rows = &[(6, 3)];
const WORST_APART: Rows = &[(5, 2), (1, 1)];
const BEST_APART: Rows = &[(2, 0), (4, 3)];
const FINE_TOO: Rows = &[(2, 0), (0, 0), (1, 1), (1, 0), (2, 2)];
const KEPT: u32 = 0xA5A5_A5A5;

fn book_of(scales: &[Rows]) -> Vec<u8> {
    let tables: Vec<Table> = scales.iter().map(|rows| table_of(rows)).collect();
    Table::book(&tables).expect("valid tables")
}

fn is_better(one: Rows, other: Rows) -> bool {
    let verdict = desk_with(Some(one), Some(other)).compare();
    matches!(verdict.expect("the same obligors"), Verdict::First { .. })
}

/// The raters for which no other one is better.
fn by_definition(scales: &[Rows]) -> Vec<u32> {
    let beaten = |rater: Rows| scales.iter().any(|other| is_better(other, rater));
    let raters = (1..).zip(scales);
    let unbeaten = raters.filter(|(_, rows)| !beaten(rows));
    unbeaten.map(|(rater, _)| rater).collect()
}

/// The shortlist: by definition, in a `Vec`, and in buffers that are just long enough and longer,
/// whose further numbers are kept. A shorter one is refused and kept whole.
fn list_of(scales: &[Rows]) -> Vec<u32> {
    let (book, raters) = (book_of(scales), scales.len());
    let expected = by_definition(scales);
    assert_eq!(shortlist(&book), Ok(expected.clone()));
    for length in [raters, raters + 1, RATERS, 3 * RATERS] {
        let mut numbers = vec![KEPT; length];
        assert_eq!(shortlist_into(&book, &mut numbers), Ok(expected.len()));
        let (written, kept) = numbers.split_at(expected.len());
        assert_eq!(written, expected);
        assert!(kept.iter().all(|&number| number == KEPT));
    }
    for length in 0..raters {
        assert_eq!(refusal(&book, length), Some(Refusal::Buffer), "{length}");
    }
    expected
}

#[test]
fn worked_lists() {
    assert_eq!(list_of(&[NO_SCALE]), [1]);
    assert_eq!(list_of(&[FINE, FINE_TOO, FINE]), [1, 2, 3], "all equal");
    assert_eq!(list_of(&[COARSE, PERFECT, NO_SCALE, FINE]), [2], "a chain");
    assert_eq!(list_of(&[WORST_APART, BEST_APART]), [1, 2], "crossing");
    let two_best = [COARSE, FINE_TOO, WORST_APART, FINE, BEST_APART];
    assert_eq!(list_of(&two_best), [2, 4]);
    assert_eq!(list_of(&[FINE, PERFECT, FINE_TOO]), [2], "equal and beaten");
    let beaten_by_one = [WORST_APART, NO_SCALE, BEST_APART, COARSE];
    assert_eq!(list_of(&beaten_by_one), [1, 3]);
}

#[test]
fn the_example_of_a_committee() {
    let book = fs::read("../../examples/committee.book").expect("it is an example");
    assert_eq!(shortlist(&book), Ok(vec![2, 4, 5]));
}

/// A scale of two grades over as many defaults as survivors, whose cutoff 1 misses so many defaults
/// and turns away so many survivors.
fn corner(total: u32, missed: u32, away: u32) -> Vec<(u32, u32)> {
    let best = (total - away + missed, missed);
    vec![best, (2 * total - best.0, total - missed)]
}

fn list_of_sixteen(scale: impl Fn(u32) -> Vec<(u32, u32)>) -> Vec<u32> {
    let scales: Vec<Vec<(u32, u32)>> = (1..=16).map(scale).collect();
    list_of(&scales.iter().map(Vec::as_slice).collect::<Vec<Rows>>())
}

#[test]
fn sixteen_raters() {
    let all: Vec<u32> = (1..=16).collect();
    let each_better = list_of_sixteen(|rater| corner(40, 17 - rater, 17 - rater));
    assert_eq!(each_better, [16]);
    // Corners on one curve, so that each crosses all others.
    let crossing = list_of_sixteen(|rater| corner(17 * 17, rater * rater, (17 - rater).pow(2)));
    assert_eq!(crossing, all);
    let grades = u32::try_from(GRADES).expect("few grades");
    let longest = |_| (0..grades).map(|grade| (25_000, grade)).collect();
    assert_eq!(list_of_sixteen(longest), all);
}

/// Whatever the order of the raters, the same ones are listed.
#[test]
fn the_order_of_raters_plays_no_part() {
    let scales = [COARSE, FINE_TOO, WORST_APART, FINE, BEST_APART, NO_SCALE];
    for turn in 0..scales.len() {
        let mut turned = scales;
        turned.rotate_left(turn);
        let listed = list_of(&turned);
        assert_eq!(listed.len(), 2, "{turned:?}");
        for (rater, rows) in (1..).zip(turned) {
            let best = [FINE, FINE_TOO].contains(&rows);
            assert_eq!(listed.contains(&rater), best, "{turned:?}");
        }
    }
}

/// Both ways of asking refuse the same, and what is lent is kept.
fn refusal(book: &[u8], length: usize) -> Option<Refusal> {
    let mut numbers = vec![KEPT; length];
    let refused = shortlist_into(book, &mut numbers).err();
    assert!(refused.is_none() || numbers.iter().all(|&number| number == KEPT));
    assert!(length < RATERS || shortlist(book).err() == refused);
    refused
}

/// 23 over all raters, then 24 over all, then 25 between any two, then 13 for a buffer that is
/// shorter than there are raters.
#[test]
fn totals_are_looked_at_in_their_order() {
    let (no_defaults, no_survivors): (Rows, Rows) = (&[(6, 0)], &[(3, 3)]);
    let (more_defaults, more_survivors): (Rows, Rows) = (&[(3, 1), (4, 3)], &[(7, 3)]);
    for (scales, number) in [
        ([FINE, COARSE, no_defaults], 23),
        ([no_survivors, more_defaults, no_defaults], 23),
        ([no_defaults, no_survivors, FINE], 23),
        ([FINE, COARSE, no_survivors], 24),
        ([no_survivors, more_survivors, FINE], 24),
        ([FINE, more_defaults, no_survivors], 24),
        ([FINE, COARSE, more_defaults], 25),
        ([more_survivors, COARSE, FINE], 25),
        ([FINE, more_survivors, more_survivors], 25),
    ] {
        let book = book_of(&scales);
        for length in [0, 2, 3, RATERS, 40] {
            let found = refusal(&book, length).map(Refusal::number);
            assert_eq!(found, Some(number), "{scales:?}");
        }
    }
}

/// A book of three raters with four bytes of a row put to another number: of table 1 at byte 10, of
/// table 2 at byte 38, of table 3 at byte 78.
fn with(changes: &[(usize, u32)]) -> Vec<u8> {
    let mut book = book_of(&[COARSE, FINE, COARSE]);
    for &(byte, number) in changes {
        book[byte..byte + 4].copy_from_slice(&number.to_le_bytes());
    }
    book
}

/// Rater by rater, and before what is looked at over all of them.
#[test]
fn rows_are_looked_at_rater_by_rater() {
    const HIGH: u32 = 1_000_001;
    let faults: [(Refusal, [(usize, u32); 2]); 4] = [
        (Refusal::Defaults, [(4, 4), (8, HIGH)]),
        (Refusal::Announced, [(8, HIGH), (0, HIGH)]),
        (Refusal::FallingRate, [(8, 7), (0, HIGH)]),
        (Refusal::Obligors, [(0, HIGH), (4, 0)]),
    ];
    let rows = [14, 42, 82];
    for (at, row) in rows.into_iter().enumerate() {
        for (number, [one, other]) in faults {
            let fault = [(row + one.0, one.1), (row + other.0, other.1)];
            assert_eq!(refusal(&with(&fault), RATERS), Some(number), "{row}");
            for later in &rows[at + 1..] {
                for (_, [third, _]) in faults {
                    let all = [fault[0], fault[1], (later + third.0, third.1)];
                    assert_eq!(refusal(&with(&all), 0), Some(number), "{row} {later}");
                }
            }
        }
        let obligors_and_defaults = |row: usize| [(row, 0), (row + 4, 0)];
        let nobody = [row, row + 12, row + 24]
            .map(obligors_and_defaults)
            .concat();
        let grades = if row == 42 { 3 } else { 2 };
        let nobody = with(&nobody[..2 * grades]);
        assert_eq!(refusal(&nobody, RATERS), Some(Refusal::NoObligors));
    }
}

/// The layout of the whole book before any row.
#[test]
fn the_layout_comes_first() {
    let sound = with(&[(18, 9)]);
    assert_eq!(refusal(&sound, 0), Some(Refusal::Defaults));
    for (byte, put, number) in [
        (2, 9, Refusal::Length),
        (0, 0, Refusal::Raters),
        (0, 17, Refusal::Raters),
        (8, 77, Refusal::TableStart),
        (78, 0, Refusal::Grades),
        (79, 2, Refusal::Kind),
        (81, 1, Refusal::Kind),
        (78, 3, Refusal::TableEnd),
        (78, 1, Refusal::Leftover),
    ] {
        let mut book = sound.clone();
        book[byte] = put;
        for length in [0, 3, RATERS] {
            assert_eq!(refusal(&book, length), Some(number), "byte {byte}");
        }
    }
    assert_eq!(refusal(&[], 0), Some(Refusal::Length));
}
