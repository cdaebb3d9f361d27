//! What an event meets, request R-8 of document 02: told from the desk before it, so that a run can
//! be seen to have every check, every two checks that meet, and every limit from both sides.

use crate::desk::Desk;
use crate::events::{Event, EVERY_EVENT};
use crate::table::{Grade, Table, MAX_GRADES, MAX_OBLIGORS};
use std::fmt;

#[derive(Clone, Copy, Debug, PartialEq, Eq, PartialOrd, Ord)]
pub enum Spot {
    NoPlace,
    /// The grade is none of any table.
    NoPlaceNoGrade,
    EmptyPlace,
    EmptyPlaceNoGrade,
    GradeZero,
    JustOutside,
    FarOutside,
    OutsideOfOne,
    OutsideOfFull,
    /// Such a firm means a survivor, for an entry too, or a defaulted one for a removal.
    LastObligor,
    NoFirmOfOne,
    FullAtEmpty,
    FullAtSmall,
    FullAtLarge,
    NearlyFull,
    EmptyGrade,
    NoFirm,
    OnlyInGrade,
    OnlyOfKind,
    Several,
}

use Spot::*;

pub const EVERY_SPOT: [Spot; 20] = [
    NoPlace,
    NoPlaceNoGrade,
    EmptyPlace,
    EmptyPlaceNoGrade,
    GradeZero,
    JustOutside,
    FarOutside,
    OutsideOfOne,
    OutsideOfFull,
    LastObligor,
    NoFirmOfOne,
    FullAtEmpty,
    FullAtSmall,
    FullAtLarge,
    NearlyFull,
    EmptyGrade,
    NoFirm,
    OnlyInGrade,
    OnlyOfKind,
    Several,
];

/// What any table can be tried with: each of these with each event.
pub(crate) fn trials() -> Vec<(Spot, Event)> {
    let spots = [
        NoPlace,
        NoPlaceNoGrade,
        EmptyPlace,
        EmptyPlaceNoGrade,
        GradeZero,
        JustOutside,
        FarOutside,
    ];
    let spots = spots.into_iter();
    let with_events = spots.flat_map(|spot| EVERY_EVENT.map(|event| (spot, event)));
    with_events.collect()
}

/// A grade of a full table is small up to here.
const SMALL: u64 = 100;
const NEARLY_FULL: u64 = MAX_OBLIGORS - 1;

impl fmt::Display for Spot {
    fn fmt(&self, out: &mut fmt::Formatter) -> fmt::Result {
        out.write_str(match self {
            NoPlace => "no place",
            NoPlaceNoGrade => "no place, no grade of any table",
            EmptyPlace => "an empty place",
            EmptyPlaceNoGrade => "an empty place, no grade of any table",
            GradeZero => "grade 0",
            JustOutside => "a grade just outside",
            FarOutside => "a grade far outside",
            OutsideOfOne => "a grade outside, one obligor in all",
            OutsideOfFull => "a grade outside, 1000000 obligors",
            LastObligor => "the last obligor",
            NoFirmOfOne => "no such firm, one obligor in all",
            FullAtEmpty => "1000000 obligors, an empty grade",
            FullAtSmall => "1000000 obligors, a small grade",
            FullAtLarge => "1000000 obligors, a large grade",
            NearlyFull => "999999 obligors",
            EmptyGrade => "an empty grade",
            NoFirm => "no such firm in an occupied grade",
            OnlyInGrade => "the only obligor of a grade",
            OnlyOfKind => "the only such firm of a grade",
            Several => "one of several such firms",
        })
    }
}

impl Spot {
    pub fn of(desk: &Desk, event: Event, place: u32, grade: u32) -> Spot {
        let of_no_table = grade < 1 || grade as usize > MAX_GRADES;
        match (desk.table(place), of_no_table) {
            (Ok(table), _) => Spot::in_table(table, event, grade),
            (Err(1), false) => NoPlace,
            (Err(1), true) => NoPlaceNoGrade,
            (Err(_), false) => EmptyPlace,
            (Err(_), true) => EmptyPlaceNoGrade,
        }
    }

    fn in_table(table: &Table, event: Event, grade: u32) -> Spot {
        let grades = table.grades.len() as u32;
        let at = table.grades.get((grade as usize).wrapping_sub(1));
        match (at, table.obligors()) {
            (Some(at), obligors) => Spot::at_grade(at, event, obligors),
            (None, 1) => OutsideOfOne,
            (None, MAX_OBLIGORS) => OutsideOfFull,
            (None, _) if grade == 0 => GradeZero,
            (None, _) if grade == grades + 1 => JustOutside,
            (None, _) => FarOutside,
        }
    }

    fn at_grade(grade: &Grade, event: Event, obligors: u64) -> Spot {
        let such = match event {
            Event::DefaultedRemoved => grade.defaults,
            _ => grade.survivors(),
        };
        // A full table refuses an entry whether or not there is a survivor in the grade.
        let has_part = such > 0 || event == Event::SurvivorEnters;
        match (obligors, grade.obligors, such) {
            (1, _, 1) => LastObligor,
            (1, _, _) => NoFirmOfOne,
            (MAX_OBLIGORS, 0, _) => FullAtEmpty,
            (MAX_OBLIGORS, ..=SMALL, _) if has_part => FullAtSmall,
            (MAX_OBLIGORS, _, _) if has_part => FullAtLarge,
            (NEARLY_FULL, _, _) if has_part => NearlyFull,
            (_, 0, _) => EmptyGrade,
            (_, _, 0) => NoFirm,
            (_, 1, _) => OnlyInGrade,
            (_, _, 1) => OnlyOfKind,
            _ => Several,
        }
    }
}
