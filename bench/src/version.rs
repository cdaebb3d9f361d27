//! The three versions behind one face. What is counted are the functions `desk_*`, `plain_*` and `reference_*`, which nothing inlines.
use crate::answer::Answer;
use crate::{plain, proved};
use reference::desk::Desk as ReferenceDesk;
use reference::events::Event;

/// A desk of one of the versions. The answers are of its own types, so that making them uniform costs nothing where it is measured.
pub trait Version: Clone {
    const NAME: &'static str;
    fn empty() -> Self;
    fn load(&mut self, place: u32, book: &[u8], rater: u32) -> impl Into<Answer>;
    fn clear(&mut self, place: u32) -> impl Into<Answer>;
    fn event(&mut self, event: Event, place: u32, grade: u32) -> impl Into<Answer>;
    fn pool(&self, place: u32, numbers: &mut [u32]) -> impl Into<Answer>;
    fn cheapest(&self, place: u32, u: u32, v: u32) -> impl Into<Answer>;
    fn compare(&self) -> impl Into<Answer>;
    fn compare_shares(&self) -> impl Into<Answer>;
    fn shortlist(book: &[u8], numbers: &mut [u32]) -> impl Into<Answer>;
    fn measures(&self, place: u32) -> impl Into<Answer>;
    fn brier(&self, place: u32) -> impl Into<Answer>;
    fn spread(&self, place: u32) -> impl Into<Answer>;
    fn write(&self, book: &mut [u8]) -> impl Into<Answer>;
}

/// Functions under a name that callgrind finds, one for each call.
macro_rules! entry_points {
    ($($name:ident: $($call:ident)::+($($argument:ident: $type:ty),*) -> $answer:ty;)*) => {$(
        #[no_mangle]
        #[inline(never)]
        fn $name($($argument: $type),*) -> $answer {
            $($call)::+($($argument),*)
        }
    )*};
}

entry_points! {
    plain_load: plain::Desk::load(desk: &mut plain::Desk, place: u32, book: &[u8], rater: u32) -> Result<(), u32>;
    plain_clear: plain::Desk::clear(desk: &mut plain::Desk, place: u32) -> Result<(), u32>;
    plain_survivor_enters: plain::Desk::survivor_enters(desk: &mut plain::Desk, place: u32, grade: u32) -> Result<(), u32>;
    plain_survivor_leaves: plain::Desk::survivor_leaves(desk: &mut plain::Desk, place: u32, grade: u32) -> Result<(), u32>;
    plain_survivor_defaults: plain::Desk::survivor_defaults(desk: &mut plain::Desk, place: u32, grade: u32) -> Result<(), u32>;
    plain_defaulted_removed: plain::Desk::defaulted_removed(desk: &mut plain::Desk, place: u32, grade: u32) -> Result<(), u32>;
    plain_pool: plain::Desk::pool(desk: &plain::Desk, place: u32, numbers: &mut [u32]) -> Result<(), u32>;
    plain_cheapest: plain::Desk::cheapest(desk: &plain::Desk, place: u32, u: u32, v: u32) -> Result<plain::Cheapest, u32>;
    plain_compare: plain::Desk::compare(desk: &plain::Desk) -> Result<plain::Verdict, u32>;
    plain_compare_shares: plain::Desk::compare_shares(desk: &plain::Desk) -> Result<plain::Verdict, u32>;
    plain_shortlist: plain::shortlist(book: &[u8], numbers: &mut [u32]) -> Result<usize, u32>;
    plain_measures: plain::Desk::measures(desk: &plain::Desk, place: u32) -> Result<plain::Measures, u32>;
    plain_brier: plain::Desk::brier(desk: &plain::Desk, place: u32) -> Result<plain::Fraction, u32>;
    plain_spread: plain::Desk::spread(desk: &plain::Desk, place: u32) -> Result<plain::Spread, u32>;
    plain_write: plain::Desk::write(desk: &plain::Desk, book: &mut [u8]) -> Result<usize, u32>;
    reference_load: ReferenceDesk::load(desk: &mut ReferenceDesk, place: u32, rater: u32, book: &[u8]) -> Result<(), u32>;
    reference_clear: ReferenceDesk::clear(desk: &mut ReferenceDesk, place: u32) -> Result<(), u32>;
    reference_event: ReferenceDesk::event(desk: &mut ReferenceDesk, event: Event, place: u32, grade: u32) -> Result<(), u32>;
    reference_pool: ReferenceDesk::pool(desk: &ReferenceDesk, place: u32, numbers: &mut [u32]) -> Result<(), u32>;
    reference_cheapest: ReferenceDesk::cheapest(desk: &ReferenceDesk, place: u32, u: u32, v: u32) -> Result<(u32, u64), u32>;
    reference_compare: ReferenceDesk::compare(desk: &ReferenceDesk) -> Result<reference::cutoff::Verdict, u32>;
    reference_compare_shares: ReferenceDesk::compare_shares(desk: &ReferenceDesk) -> Result<reference::cutoff::Verdict, u32>;
    reference_shortlist: reference::shortlist::shortlist(book: &[u8], numbers: &mut [u32]) -> Result<usize, u32>;
    reference_measures: ReferenceDesk::measures(desk: &ReferenceDesk, place: u32) -> Result<reference::measures::Measures, u32>;
    reference_brier: ReferenceDesk::brier(desk: &ReferenceDesk, place: u32) -> Result<(u64, u64), u32>;
    reference_spread: ReferenceDesk::spread(desk: &ReferenceDesk, place: u32) -> Result<reference::spread::Spread, u32>;
    reference_write: ReferenceDesk::write(desk: &ReferenceDesk, book: &mut [u8]) -> Result<usize, u32>;
}

/// As in C, each event has a function of its own.
#[inline(always)]
fn of_event(event: Event) -> fn(&mut plain::Desk, u32, u32) -> Result<(), u32> {
    match event {
        Event::SurvivorEnters => plain_survivor_enters,
        Event::SurvivorLeaves => plain_survivor_leaves,
        Event::SurvivorDefaults => plain_survivor_defaults,
        Event::DefaultedRemoved => plain_defaulted_removed,
    }
}

/// The face of a version, from the function that makes an empty desk and those that make the calls.
macro_rules! version {
    ($name:literal, $desk:ty, $empty:path, $load:expr, $clear:path, $event:expr, $pool:path, $cheapest:path, $compare:path,
     $compare_shares:path, $shortlist:path, $measures:path, $brier:path, $spread:path, $write:path) => {
        impl Version for $desk {
            const NAME: &'static str = $name;
            fn empty() -> Self {
                $empty()
            }
            #[inline(always)]
            fn load(&mut self, place: u32, book: &[u8], rater: u32) -> impl Into<Answer> {
                $load(self, place, book, rater)
            }
            #[inline(always)]
            fn clear(&mut self, place: u32) -> impl Into<Answer> {
                $clear(self, place)
            }
            #[inline(always)]
            fn event(&mut self, event: Event, place: u32, grade: u32) -> impl Into<Answer> {
                $event(self, event, place, grade)
            }
            #[inline(always)]
            fn pool(&self, place: u32, numbers: &mut [u32]) -> impl Into<Answer> {
                $pool(self, place, numbers)
            }
            #[inline(always)]
            fn cheapest(&self, place: u32, u: u32, v: u32) -> impl Into<Answer> {
                $cheapest(self, place, u, v)
            }
            #[inline(always)]
            fn compare(&self) -> impl Into<Answer> {
                $compare(self)
            }
            #[inline(always)]
            fn compare_shares(&self) -> impl Into<Answer> {
                $compare_shares(self)
            }
            #[inline(always)]
            fn shortlist(book: &[u8], numbers: &mut [u32]) -> impl Into<Answer> {
                $shortlist(book, numbers)
            }
            #[inline(always)]
            fn measures(&self, place: u32) -> impl Into<Answer> {
                $measures(self, place)
            }
            #[inline(always)]
            fn brier(&self, place: u32) -> impl Into<Answer> {
                $brier(self, place)
            }
            #[inline(always)]
            fn spread(&self, place: u32) -> impl Into<Answer> {
                $spread(self, place)
            }
            #[inline(always)]
            fn write(&self, book: &mut [u8]) -> impl Into<Answer> {
                $write(self, book)
            }
        }
    };
}

version!(
    "proved",
    proved::Desk,
    proved::Desk::empty,
    proved::load,
    proved::clear,
    proved::event,
    proved::pool,
    proved::cheapest,
    proved::compare,
    proved::compare_shares,
    proved::shortlist,
    proved::measures,
    proved::brier,
    proved::spread,
    proved::write
);
version!(
    "optimised",
    plain::Desk,
    plain::Desk::empty,
    plain_load,
    plain_clear,
    |desk, event, place, grade| of_event(event)(desk, place, grade),
    plain_pool,
    plain_cheapest,
    plain_compare,
    plain_compare_shares,
    plain_shortlist,
    plain_measures,
    plain_brier,
    plain_spread,
    plain_write
);
version!(
    "reference",
    ReferenceDesk,
    ReferenceDesk::fresh,
    |desk, place, book, rater| reference_load(desk, place, rater, book),
    reference_clear,
    reference_event,
    reference_pool,
    reference_cheapest,
    reference_compare,
    reference_compare_shares,
    reference_shortlist,
    reference_measures,
    reference_brier,
    reference_spread,
    reference_write
);
