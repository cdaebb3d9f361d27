//! The proved library, through the C interface of `bindings/rust`, with refusal numbers for errors.

use desk::sys;
pub use desk::sys::{Desk, Verdict};
pub use desk::{Cutoff, Fraction, Measures, Spread};
use reference::events::Event;

/// Makes a call that fills an answer.
#[inline(always)]
fn answered<T: Default>(call: impl FnOnce(&mut T) -> u32) -> Result<T, u32> {
    let mut answer = T::default();
    accepted(call(&mut answer)).map(|()| answer)
}

#[inline(always)]
fn accepted(number: u32) -> Result<(), u32> {
    match number {
        0 => Ok(()),
        _ => Err(number),
    }
}

#[inline(always)]
pub fn load(desk: &mut Desk, place: u32, book: &[u8], rater: u32) -> Result<(), u32> {
    accepted(sys::load(desk, place, book, rater))
}

#[inline(always)]
pub fn clear(desk: &mut Desk, place: u32) -> Result<(), u32> {
    accepted(sys::clear(desk, place))
}

#[inline(always)]
pub fn event(desk: &mut Desk, event: Event, place: u32, grade: u32) -> Result<(), u32> {
    accepted(match event {
        Event::SurvivorEnters => sys::survivor_enters(desk, place, grade),
        Event::SurvivorLeaves => sys::survivor_leaves(desk, place, grade),
        Event::SurvivorDefaults => sys::survivor_defaults(desk, place, grade),
        Event::DefaultedRemoved => sys::defaulted_removed(desk, place, grade),
    })
}

#[inline(always)]
pub fn pool(desk: &Desk, place: u32, numbers: &mut [u32]) -> Result<(), u32> {
    accepted(sys::pool(desk, place, numbers))
}

#[inline(always)]
pub fn cheapest(desk: &Desk, place: u32, u: u32, v: u32) -> Result<Cutoff, u32> {
    answered(|answer| sys::cheapest(desk, place, u, v, answer))
}

#[inline(always)]
pub fn compare(desk: &Desk) -> Result<Verdict, u32> {
    answered(|answer| sys::compare(desk, answer))
}

#[inline(always)]
pub fn compare_shares(desk: &Desk) -> Result<Verdict, u32> {
    answered(|answer| sys::compare_shares(desk, answer))
}

#[inline(always)]
pub fn shortlist(book: &[u8], numbers: &mut [u32]) -> Result<usize, u32> {
    answered(|listed| sys::shortlist(book, numbers, listed))
}

#[inline(always)]
pub fn measures(desk: &Desk, place: u32) -> Result<Measures, u32> {
    answered(|answer| sys::measures(desk, place, answer))
}

#[inline(always)]
pub fn brier(desk: &Desk, place: u32) -> Result<Fraction, u32> {
    answered(|answer| sys::brier(desk, place, answer))
}

#[inline(always)]
pub fn spread(desk: &Desk, place: u32) -> Result<Spread, u32> {
    answered(|answer| sys::spread(desk, place, answer))
}

#[inline(always)]
pub fn write(desk: &Desk, book: &mut [u8]) -> Result<usize, u32> {
    answered(|written| sys::write(desk, book, written))
}
