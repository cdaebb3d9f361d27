//! Random scripts of calls through the C boundary, held against the plain version in `reference/`:
//! its judgement of the answers, and here the desk and all that is lent, word for word.

use desk::{Cutoff, Desk, Fraction, Grade, Measures, Place, Price, Refusal, Spread, Table, sys};
use reference::answer::{Answer, verdict_prices};
use reference::compare::{judge, plan};
use reference::desk::{LENT_BYTE, LENT_NUMBER};
use reference::events::{EVERY_EVENT, Event};
use reference::generate::Script;
use reference::script::Call;
use reference::{cutoff, measures, spread};
use std::collections::BTreeMap;
use std::fmt::Debug;
use std::hint::black_box;
use std::time::{SystemTime, UNIX_EPOCH};

const CALLS: usize = 20_000;

/// What a call answers in memory that held something else before, and still does at a refusal. What
/// stands beside it is kept.
fn answered<T: Copy + Debug>(before: T, call: impl FnOnce(&mut T) -> u32) -> Result<T, u32> {
    let mut memory = [before; 3];
    let number = call(&mut memory[1]);
    // Printed, since fractions are compared by value, and these are to be as they were written.
    let [below, written, above] = memory.map(|memory| format!("{memory:?}"));
    let before = format!("{before:?}");
    assert_eq!([&below, &above], [&before; 2]);
    if number == 0 {
        return Ok(memory[1]);
    }
    assert_eq!(written, before, "refused {number}, and wrote an answer");
    Err(number)
}

fn done(number: u32) -> Result<(), u32> {
    match number {
        0 => Ok(()),
        _ => Err(number),
    }
}

/// Lends this many items, each set to the same value, and sees those beside them kept. The plain
/// version's answer holds what becomes of the lent ones.
fn lend<T: Copy + PartialEq, R>(
    value: T,
    length: u32,
    call: impl FnOnce(&mut [T]) -> R,
) -> (R, Vec<T>) {
    let length = length as usize;
    let mut memory = vec![value; length + 2];
    let result = call(&mut memory[1..=length]);
    assert!(memory[0] == value && memory[length + 1] == value);
    (result, memory[1..=length].to_vec())
}

fn pool(desk: &Desk, place: u32, length: u32) -> Answer {
    let (number, numbers) = lend(LENT_NUMBER, length, |numbers| {
        sys::pool(desk, place, numbers)
    });
    Answer::Pool(done(number), numbers)
}

fn cheapest(desk: &Desk, place: u32, u: u32, v: u32) -> Result<(u32, u64), u32> {
    let before = Cutoff {
        cutoff: 1 << 40,
        cost: 1 << 50,
    };
    let cheapest = answered(before, |answer| sys::cheapest(desk, place, u, v, answer))?;
    let cost = cheapest.cost.try_into().expect("it is not negative");
    Ok((narrow(cheapest.cutoff), cost))
}

/// What one of the two comparisons answers.
fn compare(call: impl FnOnce(&mut sys::Verdict) -> u32) -> Result<cutoff::Verdict, u32> {
    let before = sys::Verdict {
        kind: 99,
        first_dearer: Price { u: 98, v: 97 },
        second_dearer: Price { u: 96, v: 95 },
    };
    let verdict = answered(before, call)?;
    let carried = |price: Price| cutoff::Price {
        missed_default: price.u.into(),
        lost_survivor: price.v.into(),
    };
    let none = Price { u: 0, v: 0 };
    let (first, second) = (verdict.first_dearer, verdict.second_dearer);
    Ok(match verdict.kind {
        0 if first == none && second == none => cutoff::Verdict::Equal,
        1 if first == none => cutoff::Verdict::First(carried(second)),
        2 if second == none => cutoff::Verdict::Second(carried(first)),
        3 => cutoff::Verdict::Crossing(carried(first), carried(second)),
        _ => panic!("no verdict: {verdict:?}"),
    })
}

const FRACTION: Fraction = Fraction::new(-94, 188).expect("a positive denominator");

fn measures(desk: &Desk, place: u32) -> Result<measures::Measures, u32> {
    let before = Measures {
        defaults: -92,
        survivors: -91,
        gini: FRACTION,
        roc: FRACTION,
        cap: FRACTION,
        pietra: FRACTION,
        cutoff: -90,
    };
    let found = answered(before, |answer| sys::measures(desk, place, answer))?;
    Ok(measures::Measures {
        defaults: narrow(found.defaults).into(),
        survivors: narrow(found.survivors).into(),
        gini: found.gini.written(),
        roc: found.roc.written(),
        cap: found.cap.written(),
        pietra: found.pietra.written(),
        pietra_cutoff: narrow(found.cutoff),
    })
}

fn brier(desk: &Desk, place: u32) -> Result<(u64, u64), u32> {
    let brier = answered(FRACTION, |answer| sys::brier(desk, place, answer))?;
    let part = |number: i64| number.try_into().expect("it is not negative");
    Ok((part(brier.numerator()), part(brier.denominator())))
}

fn spread(desk: &Desk, place: u32) -> Result<spread::Spread, u32> {
    let before = Spread {
        total: -1.5,
        residual: -2.5,
    };
    let Spread { total, residual } = answered(before, |answer| sys::spread(desk, place, answer))?;
    Ok(spread::Spread { total, residual })
}

fn write(desk: &Desk, length: u32) -> Answer {
    let (written, book) = lend(LENT_BYTE, length, |book| {
        answered(89, |answer| sys::write(desk, book, answer))
    });
    Answer::Write(written, book)
}

fn shortlist(length: u32, book: &[u8]) -> Answer {
    let (listed, numbers) = lend(LENT_NUMBER, length, |numbers| {
        answered(88, |answer| sys::shortlist(book, numbers, answer))
    });
    Answer::Shortlist(listed, numbers)
}

fn book(desk: &mut Desk, event: Event, place: u32, grade: u32) -> Answer {
    let call = match event {
        Event::SurvivorEnters => sys::survivor_enters,
        Event::SurvivorLeaves => sys::survivor_leaves,
        Event::SurvivorDefaults => sys::survivor_defaults,
        Event::DefaultedRemoved => sys::defaulted_removed,
    };
    Answer::Event(event, done(call(desk, place, grade)))
}

fn narrow(number: impl TryInto<u32>) -> u32 {
    number.try_into().ok().expect("it has 32 bits")
}

fn answer(desk: &mut Desk, call: &Call) -> Answer {
    match *call {
        Call::Load {
            place,
            rater,
            ref book,
        } => Answer::Load(done(sys::load(desk, place, book, rater))),
        Call::Clear { place } => Answer::Clear(done(sys::clear(desk, place))),
        Call::Pool { place, length } => pool(desk, place, length),
        Call::Cheapest { place, u, v } => Answer::Cheapest(cheapest(desk, place, u, v)),
        Call::Compare => Answer::Compare(compare(|answer| sys::compare(desk, answer))),
        Call::CompareShares => {
            Answer::CompareShares(compare(|answer| sys::compare_shares(desk, answer)))
        }
        Call::Measures { place } => Answer::Measures(measures(desk, place)),
        Call::Brier { place } => Answer::Brier(brier(desk, place)),
        Call::Spread { place } => Answer::Spread(spread(desk, place)),
        Call::Write { length } => write(desk, length),
        Call::Shortlist { length, ref book } => shortlist(length, book),
        Call::Event {
            event,
            place,
            grade,
        } => book(desk, event, place, grade),
    }
}

/// Whether the desk may be another one after this answer.
fn changes_desk(answer: &Answer) -> bool {
    matches!(
        answer,
        Answer::Load(Ok(())) | Answer::Clear(Ok(())) | Answer::Event(_, Ok(()))
    )
}

/// Whether both places hold what the plain version's do.
fn holds_the_same(desk: &Desk, plain: &reference::desk::Desk) -> bool {
    let grade = |grade: &reference::table::Grade| Grade {
        obligors: narrow(grade.obligors),
        defaults: narrow(grade.defaults),
        announced: narrow(grade.announced),
    };
    [Place::First, Place::Second].into_iter().all(|place| {
        let table = plain.table(place as u32).ok();
        let grades = table.map_or(&[][..], |table| &table.grades);
        desk.is_loaded(place) == table.is_some() && desk.grades(place).eq(grades.iter().map(grade))
    })
}

/// Whether the desk is the one that a fresh desk becomes which loads its tables: nothing of it, the
/// pooled lists among it, depends on the way to them.
fn follows_from_its_tables(desk: &Desk) -> bool {
    let mut fresh = Desk::empty();
    for place in [Place::First, Place::Second] {
        let table: Table = desk.grades(place).collect();
        if desk.is_loaded(place) && fresh.load_table(place, &table).is_err() {
            return false;
        }
    }
    *desk == fresh
}

fn has_empty_grade(desk: &Desk, place: u32) -> bool {
    let place = Place::try_from(place).expect("a place that is pooled");
    desk.grades(place).any(|grade| grade.obligors == 0)
}

/// Whether a price is negative where 32 bits are taken for a signed number.
fn has_high_price(verdict: &cutoff::Verdict) -> bool {
    let prices = verdict_prices(verdict).into_iter();
    let mut numbers = prices.flat_map(|price| [price.missed_default, price.lost_survivor]);
    numbers.any(|number| number >= 1 << 31)
}

/// How often scripts met what is rarer than the rest.
#[derive(Default)]
struct Met {
    poolings_with_empty_grades: u32,
    falling_rates: u32,
    large_tables: u32,
    other_totals: u32,
    prices_above_i32: u32,
    lists_of_all: u32,
    lists_of_several: u32,
    lists_of_one: u32,
    events: BTreeMap<(Event, Result<(), u32>), u32>,
}

impl Met {
    /// `desk` is the one that answered.
    fn count(&mut self, desk: &Desk, call: &Call, answer: &Answer) {
        match (call, answer) {
            (&Call::Pool { place, .. }, Answer::Pool(Ok(()), _)) => {
                self.poolings_with_empty_grades += u32::from(has_empty_grade(desk, place));
            }
            (_, Answer::Load(Err(34))) => self.falling_rates += 1,
            (_, &Answer::Event(event, answer)) => {
                *self.events.entry((event, answer)).or_default() += 1;
            }
            (_, Answer::CompareShares(Err(35))) => self.large_tables += 1,
            (_, Answer::CompareShares(Ok(verdict))) => {
                self.other_totals += u32::from(desk.compare() == Err(Refusal::Unlike));
                self.prices_above_i32 += u32::from(has_high_price(verdict));
            }
            (Call::Shortlist { book, .. }, &Answer::Shortlist(Ok(listed), _)) => {
                match (listed, book[0].into()) {
                    (_, raters) if listed == raters => self.lists_of_all += 1,
                    (1, _) => self.lists_of_one += 1,
                    _ => self.lists_of_several += 1,
                }
            }
            _ => (),
        }
    }
}

/// The lines that the C boundary answers to a script.
fn answers(script: &Script, met: &mut Met) -> String {
    let mut desk = Desk::empty();
    let mut plain = reference::desk::Desk::fresh();
    let mut lines = String::new();
    for call in &script.calls {
        let before = desk.clone();
        let answer = answer(&mut desk, call);
        // Most calls borrow the desk, so the compiler need not look whether it changed.
        black_box(&mut desk);
        assert!(changes_desk(&answer) || desk == before, "{call}");
        plain.call(call);
        assert!(holds_the_same(&desk, &plain), "{call}\n{desk:?}");
        assert!(follows_from_its_tables(&desk), "{call}\n{desk:?}");
        met.count(&desk, call, &answer);
        lines += &answer.line();
        lines.push('\n');
    }
    if !script.tail.is_empty() {
        lines += "end\n";
    }
    lines
}

fn agrees(seed: u64) {
    println!("{CALLS} calls, seed {seed} (DESK_SEED={seed} repeats it)");
    let mut met = Met::default();
    for (seed, calls) in plan(seed, CALLS) {
        let script = Script::generate(seed, calls);
        let lines = answers(&script, &mut met);
        if let Err(difference) = judge(&script, &lines) {
            panic!("{difference:#?}");
        }
    }
    for (times, least, what) in [
        (met.poolings_with_empty_grades, 20, "with empty grades"),
        (met.falling_rates, 20, "falling rates"),
        (met.large_tables, 20, "too large for shares"),
        (met.other_totals, 20, "of different books"),
        (met.prices_above_i32, 5, "with a price of 2^31 or more"),
        (met.lists_of_all, 20, "lists of all raters"),
        (met.lists_of_several, 20, "lists of some raters"),
        (met.lists_of_one, 20, "lists of one rater of several"),
    ] {
        assert!(times >= least, "{times} {what}");
    }
    for event in EVERY_EVENT {
        let full_or_no_firm = if event == Event::SurvivorEnters {
            38
        } else {
            37
        };
        for number in [1, 22, 36, full_or_no_firm] {
            let times = met.events.remove(&(event, Err(number))).unwrap_or(0);
            assert!(times >= 5, "{times} {event:?} refused {number}");
        }
        let times = met.events.remove(&(event, Ok(()))).unwrap_or(0);
        assert!(times >= 100, "{times} {event:?}");
    }
    assert!(met.events.is_empty(), "other numbers: {:?}", met.events);
}

#[test]
fn a_fixed_seed_agrees() {
    agrees(2);
}

/// The seed is that in `DESK_SEED`, or taken from the clock.
#[test]
fn a_fresh_seed_agrees() {
    let clock = || SystemTime::now().duration_since(UNIX_EPOCH);
    agrees(match std::env::var("DESK_SEED") {
        Ok(seed) => seed.parse().expect("DESK_SEED is a number"),
        Err(_) => clock().expect("after 1970").subsec_nanos().into(),
    });
}
