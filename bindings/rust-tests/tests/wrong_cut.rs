//! Where the plain version's damaged books are cut wrong: just where the library says that they are.

use desk::{Desk, WrongCut, sys};
use reference::damage::WAYS;
use reference::draft::Draft;
use reference::population::any_table;
use reference::random::Random;

const BOOKS: usize = 10_000;

/// What the library answers for a rater of the book, in an empty place.
fn loaded(book: &[u8], rater: u32) -> u32 {
    sys::load(&mut Desk::empty(), 2, book, rater)
}

fn is_cut(number: u32) -> bool {
    (31..=33).contains(&number)
}

/// The number of the cut that is found, or 0.
fn found(book: &[u8]) -> u32 {
    WrongCut::find(book).map_or(0, |cut| cut.refusal().number())
}

/// A book with this many faults, or a few less where one hides another.
fn damaged(random: &mut Random, faults: usize) -> Draft {
    let table = any_table(random);
    let mut draft = Draft::around(random, &table);
    for _ in 0..faults {
        let (_, damage) = random.pick(&WAYS);
        damage(random, &mut draft);
    }
    draft
}

#[test]
fn damaged_books() {
    let mut random = Random::of_seed(17);
    let mut seen = [0; 35];
    for book in 0..BOOKS {
        let Draft { bytes, rater, .. } = damaged(&mut random, book % 4);
        let number = loaded(&bytes, rater);
        let found = found(&bytes);
        match number {
            4 => assert!(found == 0 || is_cut(found)), // no rater of the book was asked for
            _ if is_cut(number) => assert_eq!(found, number),
            _ => assert_eq!(found, 0, "refused {number}"),
        }
        seen[number as usize] += 1;
    }
    for number in [0, 2, 3, 4, 6, 7, 8, 9, 10, 11, 31, 32, 33, 34] {
        assert!(seen[number] > 50, "{number}: {}", seen[number]);
    }
}

/// Which of its raters is asked for makes no difference.
#[test]
fn every_rater_of_a_book() {
    let mut random = Random::of_seed(18);
    for book in 0..BOOKS / 10 {
        let draft = damaged(&mut random, book % 4);
        let found = found(&draft.bytes);
        let numbers = (1..=16).map(|rater| loaded(&draft.bytes, rater));
        for number in numbers.filter(|&number| number != 4) {
            assert_eq!(if is_cut(number) { number } else { 0 }, found);
        }
    }
}
