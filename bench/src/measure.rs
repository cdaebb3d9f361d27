//! Makes the calls of a case on a version: once to see what is answered, or often to measure.
use crate::answer::Answer;
use crate::callgrind;
use crate::cases::{Call, Case};
use crate::version::Version;
use std::ffi::CString;
use std::hint::black_box;
use std::time::{Duration, Instant};

/// Looks at the clock, of which the median counts: so many, or fewer where they would take longer than a tenth of a second.
const LOOKS: usize = 1_001;
const LONGEST: Duration = Duration::from_millis(100);

/// Calls between two looks at the counter or the clock: a shortlist by definition is up to 240 comparisons.
fn calls_a_look(call: Call) -> usize {
    match call {
        Call::Shortlist => 1,
        _ => 16,
    }
}

/// A desk as the case's call finds it, and what the call is lent.
struct Scene<V> {
    desk: V,
    book: Vec<u8>,
    numbers: Vec<u32>,
    bytes: Vec<u8>,
}

impl<V: Version> Scene<V> {
    fn of(case: &Case) -> Scene<V> {
        let mut desk = V::empty();
        let mut book = case.full_book();
        if !matches!(case.call, Call::Load) {
            book = case.book();
            desk.load(1, &book, 1);
            desk.load(2, &book, 2);
        }
        Scene {
            desk,
            book,
            numbers: vec![u32::MAX; 121],
            bytes: vec![u8::MAX; 1_000],
        }
    }

    /// Makes the call once on each desk, or as often on the scene's own where it leaves the desk as it was.
    fn calls(&mut self, call: Call, desks: &mut [V]) {
        let desk = black_box(&self.desk);
        let times = 0..desks.len();
        match call {
            Call::Load => {
                let rater = black_box(16);
                for desk in desks {
                    black_box(desk.load(black_box(1), &self.book, rater));
                }
            }
            Call::Clear => {
                for desk in desks {
                    black_box(desk.clear(black_box(1)));
                }
            }
            Call::Event { event, grade } => {
                for desk in desks {
                    black_box(desk.event(event, black_box(1), black_box(grade)));
                }
            }
            Call::Pool => times.for_each(|_| drop(black_box(desk.pool(black_box(1), black_box(&mut self.numbers))))),
            Call::Cheapest { u, v } => times.for_each(|_| drop(black_box(desk.cheapest(black_box(1), black_box(u), black_box(v))))),
            Call::Compare => times.for_each(|_| drop(black_box(black_box(desk).compare()))),
            Call::CompareShares => times.for_each(|_| drop(black_box(black_box(desk).compare_shares()))),
            Call::Shortlist => times.for_each(|_| drop(black_box(V::shortlist(black_box(&self.book), black_box(&mut self.numbers))))),
            Call::Measures => times.for_each(|_| drop(black_box(desk.measures(black_box(1))))),
            Call::Brier => times.for_each(|_| drop(black_box(desk.brier(black_box(1))))),
            Call::Spread => times.for_each(|_| drop(black_box(desk.spread(black_box(1))))),
            Call::Write => times.for_each(|_| drop(black_box(desk.write(black_box(&mut self.bytes))))),
        }
    }
}

/// Has callgrind count the calls of a case. What its setting up counted is written down apart.
pub fn count<V: Version>(case: &Case) {
    let mut scene = Scene::<V>::of(case);
    let calls = calls_a_look(case.call);
    let mut desks = vec![scene.desk.clone(); calls];
    callgrind::dump(c"setup");
    scene.calls(case.call, &mut desks);
    let label = format!("{} {calls} {}:{}", V::NAME, case.name, case.shape);
    callgrind::dump(&CString::new(label).expect("no label has a zero byte"));
}

/// Prints the median time of a call in nanoseconds.
pub fn time<V: Version>(case: &Case) {
    let mut scene = Scene::<V>::of(case);
    let calls = calls_a_look(case.call);
    let mut times = Vec::new();
    let first = Instant::now();
    while times.len() < LOOKS && (times.is_empty() || first.elapsed() < LONGEST) {
        let mut desks = black_box(vec![scene.desk.clone(); calls]);
        let start = Instant::now();
        scene.calls(case.call, &mut desks);
        times.push(start.elapsed().as_nanos() as f64 / calls as f64);
    }
    times.sort_by(f64::total_cmp);
    println!("{} {:.1} {}:{}", V::NAME, times[times.len() / 2], case.name, case.shape);
}

/// All that a call leaves: its answer, what it was lent, and the desk, as the book that is written of it.
#[derive(Debug)]
pub struct Outcome {
    pub answer: Answer,
    numbers: Vec<u32>,
    bytes: Vec<u8>,
    desk: (Answer, Vec<u8>),
}

impl Outcome {
    pub fn agrees(&self, other: &Outcome, case: &Case) -> bool {
        self.answer.agrees(&other.answer, case) && self.numbers == other.numbers && self.bytes == other.bytes && self.desk == other.desk
    }
}

pub fn outcome<V: Version>(case: &Case) -> Outcome {
    let mut scene = Scene::<V>::of(case);
    let Scene {
        desk,
        book,
        numbers,
        bytes,
    } = &mut scene;
    let answer = match case.call {
        Call::Load => desk.load(1, book, 16).into(),
        Call::Clear => desk.clear(1).into(),
        Call::Event { event, grade } => desk.event(event, 1, grade).into(),
        Call::Pool => desk.pool(1, numbers).into(),
        Call::Cheapest { u, v } => desk.cheapest(1, u, v).into(),
        Call::Compare => desk.compare().into(),
        Call::CompareShares => desk.compare_shares().into(),
        Call::Shortlist => V::shortlist(book, numbers).into(),
        Call::Measures => desk.measures(1).into(),
        Call::Brier => desk.brier(1).into(),
        Call::Spread => desk.spread(1).into(),
        Call::Write => desk.write(bytes).into(),
    };
    let mut written = vec![0; 1_000];
    let length = desk.write(&mut written).into();
    Outcome {
        answer,
        numbers: scene.numbers,
        bytes: scene.bytes,
        desk: (length, written),
    }
}
