//! Document 02, R-8: firms that come and go. The counts are booked here by definition as well, and
//! after each call the desk is the one that a fresh desk becomes which loads them.

mod common;

use common::{Rows, desk_with};
use desk::{Desk, GRADES, Grade, MAX_OBLIGORS, Place, PooledGrade, Refusal, Table, Verdict, sys};
use std::hint::black_box;

const PLACES: [Place; 2] = [Place::First, Place::Second];
const MIXED: Rows = &[(10, 2), (10, 1), (0, 0), (20, 4)];

#[derive(Clone, Copy, Debug, PartialEq)]
enum Event {
    Enters,
    Leaves,
    Defaults,
    Removed,
}
use Event::{Defaults, Enters, Leaves, Removed};

const EVENTS: [Event; 4] = [Enters, Leaves, Defaults, Removed];

impl Event {
    fn call(self, desk: &mut Desk, place: Place, grade: u32) -> Result<(), Refusal> {
        match self {
            Enters => desk.survivor_enters(place, grade),
            Leaves => desk.survivor_leaves(place, grade),
            Defaults => desk.survivor_defaults(place, grade),
            Removed => desk.defaulted_removed(place, grade),
        }
    }

    /// The counts of a grade after it; none where there is no such firm.
    fn book(self, grade: Grade) -> Option<Grade> {
        let Grade {
            obligors, defaults, ..
        } = grade;
        let (obligors, defaults) = match self {
            Enters => (obligors + 1, defaults),
            Leaves if obligors > defaults => (obligors - 1, defaults),
            Defaults if obligors > defaults => (obligors, defaults + 1),
            Removed if defaults > 0 => (obligors - 1, defaults - 1),
            _ => return None,
        };
        Some(Grade {
            obligors,
            defaults,
            ..grade
        })
    }

    /// The table after it, or the refusal of it.
    fn after(self, table: &[Grade], grade: u32) -> Result<Vec<Grade>, Refusal> {
        if table.is_empty() {
            return Err(Refusal::Empty);
        }
        let index = (grade as usize).wrapping_sub(1);
        let before = *table.get(index).ok_or(Refusal::NoGrade)?;
        let mut after = table.to_vec();
        after[index] = self.book(before).ok_or(Refusal::NoFirm)?;
        match after.iter().map(|grade| grade.obligors).sum() {
            0 => Err(Refusal::NoFirm),
            obligors if obligors > MAX_OBLIGORS => Err(Refusal::FullTable),
            _ => Ok(after),
        }
    }
}

fn held(desk: &Desk, place: Place) -> Vec<Grade> {
    desk.grades(place).collect()
}

/// A desk that has loaded these tables; of an empty place there are no grades.
fn loaded(tables: [&[Grade]; 2]) -> Desk {
    let mut desk = Desk::empty();
    for (place, grades) in PLACES.into_iter().zip(tables) {
        if !grades.is_empty() {
            let table: Table = grades.iter().copied().collect();
            desk.load_table(place, &table).expect("a valid table");
        }
    }
    desk
}

/// Makes the call and sees what it answers and leaves.
fn happens(desk: &mut Desk, event: Event, place: Place, grade: u32) -> Result<(), Refusal> {
    let before = desk.clone();
    let tables = PLACES.map(|place| held(&before, place));
    let expected = event.after(&tables[place as usize - 1], grade);
    let answer = event.call(desk, place, grade);
    assert_eq!(answer, expected.clone().map(drop), "{event:?} {grade}");
    let table = expected.as_ref().unwrap_or(&tables[place as usize - 1]);
    let fresh = match place {
        Place::First => loaded([table, &tables[1]]),
        Place::Second => loaded([&tables[0], table]),
    };
    assert!(*black_box(&*desk) == fresh, "{event:?} {grade}: {desk:?}");
    assert!(answer.is_ok() || *desk == before);
    for place in PLACES {
        assert_eq!(desk.pool(place), fresh.pool(place));
    }
    answer
}

fn counts(desk: &Desk, place: Place) -> Vec<(u32, u32)> {
    let counts = |grade: Grade| (grade.obligors, grade.defaults);
    desk.grades(place).map(counts).collect()
}

fn blocks(desk: &Desk, place: Place) -> Vec<(u32, u32, u32)> {
    let pooled = desk.pool(place).expect("a loaded place").into_iter();
    let numbers = |grade: PooledGrade| (grade.defaults, grade.obligors, grade.band);
    pooled.map(numbers).collect()
}

#[test]
fn each_event_changes_its_counts() {
    for (event, first) in [
        (Enters, (11, 2)),
        (Leaves, (9, 2)),
        (Defaults, (10, 3)),
        (Removed, (9, 1)),
    ] {
        for place in PLACES {
            let mut desk = desk_with(Some(MIXED), Some(MIXED));
            assert_eq!(happens(&mut desk, event, place, 1), Ok(()));
            let other = PLACES[2 - place as usize];
            assert_eq!(counts(&desk, other), MIXED, "{event:?}");
            assert_eq!(counts(&desk, place)[0], first, "{event:?}");
            assert_eq!(counts(&desk, place)[1..], MIXED[1..], "{event:?}");
        }
    }
}

#[test]
fn the_blocks_follow() {
    let mut desk = desk_with(Some(MIXED), None);
    let joined = (3, 20, 11);
    assert_eq!(
        blocks(&desk, Place::First),
        [joined, joined, joined, (4, 20, 11)]
    );
    assert_eq!(happens(&mut desk, Enters, Place::First, 4), Ok(()));
    assert_eq!(blocks(&desk, Place::First)[3], (4, 21, 11));
    assert_eq!(happens(&mut desk, Defaults, Place::First, 2), Ok(()));
    assert_eq!(blocks(&desk, Place::First), [(8, 41, 11); 4]);
    assert_eq!(happens(&mut desk, Removed, Place::First, 1), Ok(()));
    assert_eq!(happens(&mut desk, Removed, Place::First, 1), Ok(()));
    assert_eq!(blocks(&desk, Place::First)[0], (0, 8, 0));
}

/// A verdict before events and after them, with nothing loaded anew.
#[test]
fn comparisons_follow() {
    let fine: Rows = &[(2, 0), (2, 1), (2, 2)];
    let coarse: Rows = &[(3, 1), (3, 2)];
    let mut desk = desk_with(Some(fine), Some(coarse));
    assert!(matches!(desk.compare(), Ok(Verdict::First { .. })));
    assert_eq!(happens(&mut desk, Removed, Place::Second, 1), Ok(()));
    assert_eq!(desk.compare(), Err(Refusal::Unlike));
    assert_eq!(happens(&mut desk, Enters, Place::Second, 2), Ok(()));
    assert_eq!(happens(&mut desk, Defaults, Place::Second, 2), Ok(()));
    // (2, 0), (4, 3) against (2, 0), (2, 1), (2, 2)
    assert!(matches!(desk.compare(), Ok(Verdict::First { .. })));
    assert_eq!(happens(&mut desk, Leaves, Place::Second, 2), Ok(()));
    assert_eq!(happens(&mut desk, Enters, Place::Second, 1), Ok(()));
    // now (3, 0), (3, 3): no scale is better
    assert!(matches!(desk.compare(), Ok(Verdict::Second { .. })));
    assert!(matches!(desk.compare_shares(), Ok(Verdict::Second { .. })));
}

#[test]
fn a_grade_empties_and_fills_again() {
    let mut desk = desk_with(None, Some(&[(2, 1), (3, 1)]));
    for grade in [1, 2, 1] {
        let before = desk.clone();
        while happens(&mut desk, Leaves, Place::Second, grade).is_ok() {}
        while happens(&mut desk, Removed, Place::Second, grade).is_ok() {}
        let other = blocks(&desk, Place::Second)[2 - grade as usize];
        assert_eq!(blocks(&desk, Place::Second), [other; 2], "repeated");
        let firms = counts(&before, Place::Second)[grade as usize - 1];
        for _ in 0..firms.0 {
            assert_eq!(happens(&mut desk, Enters, Place::Second, grade), Ok(()));
        }
        for _ in 0..firms.1 {
            assert_eq!(happens(&mut desk, Defaults, Place::Second, grade), Ok(()));
        }
        assert_eq!(desk, before);
    }
}

/// It may default, but neither leave nor be removed.
#[test]
fn the_last_obligor_of_the_table() {
    let mut desk = desk_with(Some(&[(0, 0), (1, 0)]), Some(MIXED));
    let place = Place::First;
    assert_eq!(happens(&mut desk, Leaves, place, 2), Err(Refusal::NoFirm));
    assert_eq!(happens(&mut desk, Defaults, place, 2), Ok(()));
    for event in [Leaves, Defaults, Removed] {
        assert_eq!(happens(&mut desk, event, place, 2), Err(Refusal::NoFirm));
    }
    assert_eq!(happens(&mut desk, Enters, place, 1), Ok(()));
    assert_eq!(happens(&mut desk, Removed, place, 2), Ok(()));
    assert_eq!(happens(&mut desk, Leaves, place, 1), Err(Refusal::NoFirm));
}

/// 38 goes by the table, in whatever grade its obligors are.
#[test]
fn a_full_table() {
    let mut desk = desk_with(Some(&[(600_000, 0), (0, 0), (400_000, 400_000)]), None);
    let place = Place::First;
    for grade in 1..=3 {
        let refused = happens(&mut desk, Enters, place, grade);
        assert_eq!(refused, Err(Refusal::FullTable));
    }
    assert_eq!(happens(&mut desk, Defaults, place, 1), Ok(()));
    for (makes_room, grade) in [(Removed, 3), (Leaves, 1)] {
        assert_eq!(happens(&mut desk, makes_room, place, grade), Ok(()));
        assert_eq!(happens(&mut desk, Enters, place, 2), Ok(()));
        let refused = happens(&mut desk, Enters, place, 2);
        assert_eq!(refused, Err(Refusal::FullTable));
    }
}

/// 22 before 36 before 37 and 38, where one call fails several.
#[test]
fn the_first_refusal_is_told() {
    let full: Rows = &[(MAX_OBLIGORS, MAX_OBLIGORS)];
    let mut desk = desk_with(None, Some(full));
    for event in EVENTS {
        for grade in [0, 2, 41, 257, u32::MAX] {
            let empty = happens(&mut desk, event, Place::First, grade);
            assert_eq!(empty, Err(Refusal::Empty));
            let outside = happens(&mut desk, event, Place::Second, grade);
            assert_eq!(outside, Err(Refusal::NoGrade));
        }
    }
}

#[test]
fn clear_and_load_begin_anew() {
    let mut desk = desk_with(Some(MIXED), Some(MIXED));
    for event in EVENTS {
        assert_eq!(happens(&mut desk, event, Place::First, 4), Ok(()));
    }
    assert_eq!(desk.clear(Place::First), Ok(()));
    assert_eq!(desk, desk_with(None, Some(MIXED)));
    let refused = happens(&mut desk, Enters, Place::First, 1);
    assert_eq!(refused, Err(Refusal::Empty));
}

/// Numbers below 2^32, always the same ones.
struct Numbers(u64);

impl Numbers {
    fn below(&mut self, limit: u32) -> u32 {
        self.0 ^= self.0 << 13;
        self.0 ^= self.0 >> 7;
        self.0 ^= self.0 << 17;
        u32::try_from((self.0 >> 16) % u64::from(limit)).expect("below a number of 32 bits")
    }
}

#[test]
fn thousands_of_events_on_one_table() {
    for grades in [1, 3, GRADES] {
        let rows = vec![(3, 1); grades];
        let mut desk = desk_with(Some(&rows), Some(&rows));
        let mut numbers = Numbers(88_172_645_463_325_252);
        let mut refused = 0;
        for _ in 0..4_000 {
            let event = EVENTS[numbers.below(4) as usize];
            let place = PLACES[numbers.below(2) as usize];
            let grade = numbers.below(u32::try_from(grades).expect("few") + 2);
            refused += u32::from(happens(&mut desk, event, place, grade).is_err());
            let written = desk.write().expect("it stays loaded");
            let mut again = Desk::empty();
            for (place, rater) in PLACES.into_iter().zip(1..) {
                assert_eq!(again.load(place, &written, rater), Ok(()));
            }
            assert!(again == desk, "{desk:?}");
        }
        assert!((100..3_900).contains(&refused), "{refused}");
    }
}

/// With the numbers of the header, 1 among them.
#[test]
fn no_such_place() {
    let calls = [
        sys::survivor_enters,
        sys::survivor_leaves,
        sys::survivor_defaults,
        sys::defaulted_removed,
    ];
    for call in calls {
        for place in [0, 3, 257, u32::MAX] {
            for desk in [Desk::empty(), desk_with(Some(MIXED), Some(MIXED))] {
                let mut after = desk.clone();
                assert_eq!(call(&mut after, place, 1), 1);
                assert_eq!(call(&mut after, place, 99), 1);
                assert!(after == desk);
            }
        }
    }
}
