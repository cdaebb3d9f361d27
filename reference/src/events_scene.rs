//! The scenes of scripts about events, for request R-8 of document 02: "firms that come and go",
//! where tables take courses by events and questions between them show what has become of the desk;
//! a long list of events on one table; wandering calls with events among them.

use crate::answer::verdict_name;
use crate::book;
use crate::courses::{grade_where, small_grades, Course, ON_ANY_TABLE};
use crate::cutoff::verdict;
use crate::draft::Draft;
use crate::events::{after, Event, EVERY_EVENT};
use crate::generate::Generator;
use crate::partners::partner;
use crate::pooling::blocks;
use crate::population::announce;
use crate::random::Random;
use crate::scenes::Scene;
use crate::script::Call;
use crate::spots::Spot;
use crate::table::{Grade, Table, MAX_GRADES, MAX_OBLIGORS};

use Course::*;
use Event::*;

/// The scene that a script about events begins with.
pub const LONG_LIST: &str = "a long list of events";

/// How often each scene of such a script is taken, in proportion.
pub(crate) const SCENES_OF_EVENTS: [(u64, Scene); 2] = [
    (9, ("firms that come and go", Generator::come_and_go)),
    (1, ("wandering among events", Generator::wander)),
];

/// An event at a grade.
type At = (Event, u32);

impl Generator {
    /// A course of a table of its own, and now and then another one of what it left.
    fn come_and_go(&mut self) {
        let course = self.next_course();
        let place = self.random.pick(&[1, 2]);
        self.empty(place);
        if self.random.chance(15) {
            self.empty(3 - place);
            self.events_nowhere();
        }
        let table = course.table(&mut self.random);
        let draft = Draft::around(&mut self.random, &table);
        self.load(place, draft.clone());
        self.take_course(course, place);
        if course == LoadedAnew {
            self.load_anew(place, draft);
        }
        if self.random.chance(15) {
            let course = self.random.pick(&ON_ANY_TABLE);
            self.take_course(course, place);
        }
    }

    /// Any calls with any operands, many of them events.
    fn wander(&mut self) {
        for _ in 0..self.random.between(5, 40) {
            let place = self.any_place();
            match self.random.between(0, 9) {
                0 => self.any_load(),
                1 if self.random.chance(50) => self.emit(Call::Clear { place }),
                2..=6 => self.any_event(place),
                _ => self.question(),
            }
        }
    }

    /// Loads the table that a long list of events is about; answers its place.
    pub(crate) fn begin_list(&mut self) -> u32 {
        let place = self.random.pick(&[1, 2]);
        let grade_count = self.random.pick(&[3, 8, 20, 40]);
        let mut table = small_grades(&mut self.random, grade_count);
        announce(&mut self.random, &mut table);
        let draft = Draft::around(&mut self.random, &table);
        self.load(place, draft);
        place
    }

    pub(crate) fn lengthen_list(&mut self, place: u32) {
        let course = self.random.pick(&ON_ANY_TABLE);
        self.take_course(course, place);
        self.drift(place);
    }

    fn take_course(&mut self, course: Course, place: u32) {
        self.mark_course(course);
        match course {
            AnyGrades | OneGrade | FortyGrades => self.any_events(place, 8),
            Refilled => self.refill(place),
            IntoEmpty => self.enter_empty(place),
            NoSurvivors => self.exhaust_grades(SurvivorDefaults, place),
            NoDefaults => self.exhaust_grades(DefaultedRemoved, place),
            DownToOne => self.down_to_one(place),
            Full => self.fill_up(place),
            Blocks => self.change_blocks(place),
            Verdicts => self.turn_verdict(place),
            BothPlaces => self.both_places(place),
            LoadedAnew => self.any_events(place, 4),
            LoadedBack => self.load_back(place),
        }
        for _ in 0..2 {
            self.refused_event(place);
        }
        self.ask(place);
    }

    fn table_in(&self, place: u32) -> Table {
        self.desk.table(place).cloned().expect("it is loaded")
    }

    fn grade_in(&self, place: u32, grade: u32) -> Grade {
        self.table_in(place).grades[grade as usize - 1]
    }

    fn event(&mut self, (event, grade): At, place: u32) {
        self.emit(Call::Event {
            event,
            place,
            grade,
        });
    }

    fn any_events(&mut self, place: u32, times: usize) {
        for _ in 0..times {
            self.any_event(place);
            if self.random.chance(30) {
                self.ask(place);
            }
        }
    }

    /// Mostly one that is accepted.
    fn any_event(&mut self, place: u32) {
        let Ok(table) = self.desk.table(place).cloned() else {
            let grade = self.random.pick(&[0, 1, 1, 2, 40, 41, u32::MAX]);
            let event = self.random.pick(&EVERY_EVENT);
            return self.event((event, grade), place);
        };
        let at = match self.random.chance(15) {
            true => any_refused(&mut self.random, &table),
            false => mostly_accepted(&mut self.random, &table),
        };
        self.event(at, place);
    }

    /// Events on an empty desk: at a place that there is not, then at one of the two.
    fn events_nowhere(&mut self) {
        let no_place = self.random.pick(&[0, 3, u32::MAX]);
        for place in [no_place, self.random.pick(&[1, 2])] {
            self.any_event(place);
        }
    }

    /// The next of the events that every table refuses, or that are of no table.
    fn refused_event(&mut self, place: u32) {
        let (spot, event) = self.next_trial();
        let wrong = self.random.pick(&[0, 3, 257, 65_538, u32::MAX]);
        let table = self.table_in(place);
        let inside = self.random.between(1, table.grades.len() as u64) as u32;
        let of_no_table = self.random.pick(&[0, 41, 256 + 1, u32::MAX]);
        let other = 3 - place;
        if [Spot::EmptyPlace, Spot::EmptyPlaceNoGrade].contains(&spot) {
            self.empty(other);
        }
        let (place, grade) = match spot {
            Spot::NoPlace => (wrong, inside),
            Spot::NoPlaceNoGrade => (wrong, of_no_table),
            Spot::EmptyPlace => (other, inside),
            Spot::EmptyPlaceNoGrade => (other, of_no_table),
            Spot::GradeZero => (place, 0),
            Spot::JustOutside => (place, table.grades.len() as u32 + 1),
            _ => (place, far_outside(&mut self.random, &table)),
        };
        self.event((event, grade), place);
    }

    /// Events of every sort at a grade outside the table.
    fn events_outside(&mut self, place: u32, times: usize) {
        let table = self.table_in(place);
        let mut events = EVERY_EVENT;
        self.random.shuffle(&mut events);
        for &event in &events[..times] {
            let grades = table.grades.len() as u32;
            let far = far_outside(&mut self.random, &table);
            let grade = self.random.pick(&[0, grades + 1, far]);
            self.event((event, grade), place);
        }
    }

    /// A question about what the events have made.
    fn ask(&mut self, place: u32) {
        let other_is_loaded = self.desk.is_loaded(3 - place);
        let length = 3 * self.table_in(place).grades.len() as u32;
        let (u, v) = self.prices(place);
        let pool = Call::Pool { place, length };
        let compared = match other_is_loaded {
            true => Call::CompareShares,
            false => pool.clone(),
        };
        let questions = [
            pool.clone(),
            pool,
            compared,
            self.write_call(),
            Call::Spread { place },
            Call::Measures { place },
            Call::Brier { place },
            Call::Cheapest { place, u, v },
        ];
        let question = self.random.index(questions.len());
        self.emit(questions[question].clone());
    }

    fn ask_pool(&mut self, place: u32) {
        let length = 3 * self.table_in(place).grades.len() as u32;
        self.emit(Call::Pool { place, length });
    }

    /// Into a buffer that is just long enough.
    fn write_call(&mut self) -> Call {
        let length = self.desk.book_length().unwrap_or(46) as u32;
        Call::Write { length }
    }

    /// A small grade empties, refuses what needs a firm, and fills again.
    fn refill(&mut self, place: u32) {
        let table = self.table_in(place);
        let is_small = |grade: &Grade| grade.is_occupied() && grade.obligors <= 6;
        let small = grade_where(&mut self.random, &table, is_small);
        let (Some(grade), true) = (small, table.grades.len() > 1) else {
            return self.any_events(place, 3);
        };
        if table.obligors() == self.grade_in(place, grade).obligors {
            let another = 1 + grade % table.grades.len() as u32;
            self.event((SurvivorEnters, another), place);
        }
        while self.grade_in(place, grade).is_occupied() {
            let survives = self.grade_in(place, grade).survivors() > 0;
            let defaulted = self.grade_in(place, grade).defaults > 0;
            let event = match self.random.chance(50) {
                _ if survives && self.random.chance(15) => SurvivorDefaults,
                first if survives && (first || !defaulted) => SurvivorLeaves,
                _ => DefaultedRemoved,
            };
            self.event((event, grade), place);
        }
        self.ask_pool(place);
        let event = self.random.pick(&EVERY_EVENT[1..]);
        self.event((event, grade), place);
        self.ask(place);
        for _ in 0..self.random.between(1, 3) {
            self.event((SurvivorEnters, grade), place);
        }
        self.event((SurvivorDefaults, grade), place);
        self.ask_pool(place);
    }

    fn enter_empty(&mut self, place: u32) {
        for _ in 0..self.random.between(1, 3) {
            let table = self.table_in(place);
            let is_empty = |grade: &Grade| !grade.is_occupied();
            let Some(grade) = grade_where(&mut self.random, &table, is_empty) else {
                return self.any_events(place, 2);
            };
            self.event((SurvivorEnters, grade), place);
            self.ask_pool(place);
            if self.random.chance(50) {
                self.event((SurvivorDefaults, grade), place);
                self.ask(place);
            }
        }
    }

    /// Such events until a grade, or the whole table if it is small, has no firm for one more.
    fn exhaust_grades(&mut self, event: Event, place: u32) {
        let table = self.table_in(place);
        let grades = 1..=table.grades.len() as u32;
        let is_small = table.obligors() <= 12 && self.random.chance(70);
        let takes_event = |grade: &u32| after(&table, event, *grade).is_ok();
        let mut grades: Vec<u32> = grades.filter(takes_event).collect();
        self.random.shuffle(&mut grades);
        if !is_small {
            grades.truncate(1);
        }
        for grade in grades {
            self.exhaust((event, grade), place);
            self.ask(place);
        }
        self.emit(Call::Measures { place });
        self.emit(Call::Spread { place });
    }

    fn exhaust(&mut self, at: At, place: u32) {
        for _ in 0..12 {
            let is_refused = after(&self.table_in(place), at.0, at.1).is_err();
            self.event(at, place);
            if is_refused {
                break;
            }
        }
    }

    fn down_to_one(&mut self, place: u32) {
        for _ in 0..12 {
            let table = self.table_in(place);
            if table.obligors() == 1 {
                break;
            }
            let occupied = grade_where(&mut self.random, &table, Grade::is_occupied);
            let grade = occupied.expect("somebody is there");
            let survives = self.grade_in(place, grade).survivors() > 0;
            let event = if survives {
                SurvivorLeaves
            } else {
                DefaultedRemoved
            };
            self.event((event, grade), place);
        }
        if self.table_in(place).obligors() == 1 {
            self.last_obligor(place);
        }
    }

    /// It may neither leave nor be removed, but it may default; and it may go once there is another.
    fn last_obligor(&mut self, place: u32) {
        let table = self.table_in(place);
        let grades = table.grades.len() as u64;
        let occupied = grade_where(&mut self.random, &table, Grade::is_occupied);
        let last = occupied.expect("somebody is there");
        let mut events = [SurvivorLeaves, DefaultedRemoved];
        self.random.shuffle(&mut events);
        for event in events {
            self.event((event, last), place);
        }
        self.events_outside(place, 2);
        self.ask(place);
        self.event((SurvivorDefaults, last), place);
        self.event((DefaultedRemoved, last), place);
        let again = self.random.pick(&[SurvivorLeaves, SurvivorDefaults]);
        self.event((again, last), place);
        self.ask_pool(place);
        let another = self.random.between(1, grades) as u32;
        self.event((SurvivorEnters, another), place);
        self.event((DefaultedRemoved, last), place);
        self.event((SurvivorLeaves, another), place);
        self.ask(place);
        let event = self.random.pick(&[SurvivorDefaults, SurvivorEnters]);
        self.event((event, another), place);
    }

    /// Up to 1,000,000 obligors: no more may enter, whatever the grade, until one has gone.
    fn fill_up(&mut self, place: u32) {
        self.enter_until_full(place);
        self.enter_full(place);
        self.events_outside(place, 2);
        let table = self.table_in(place);
        let is_empty = |grade: &Grade| !grade.is_occupied();
        if let Some(grade) = grade_where(&mut self.random, &table, is_empty) {
            let event = self.random.pick(&EVERY_EVENT[1..]);
            self.event((event, grade), place);
        }
        self.accepted_event(&[SurvivorDefaults], place);
        self.enter_full(place);
        self.accepted_event(&[SurvivorLeaves, DefaultedRemoved], place);
        self.accepted_event(&EVERY_EVENT[1..], place);
        self.ask(place);
        self.enter_until_full(place);
        self.accepted_event(&EVERY_EVENT[..1], place);
        self.ask_pool(place);
    }

    fn enter_until_full(&mut self, place: u32) {
        let grades = self.table_in(place).grades.len() as u64;
        while self.table_in(place).obligors() < MAX_OBLIGORS {
            let grade = self.random.between(1, grades) as u32;
            self.event((SurvivorEnters, grade), place);
        }
    }

    /// One of these events at a grade that takes it, small ones as often as large ones; if none
    /// does, where it is refused.
    fn accepted_event(&mut self, events: &[Event], place: u32) {
        let table = self.table_in(place);
        let event = self.random.pick(events);
        let grades = 1..=table.grades.len() as u32;
        let taking: Vec<u32> = grades
            .filter(|&grade| after(&table, event, grade).is_ok())
            .collect();
        let grade = match taking.is_empty() {
            true => 1,
            false => self.random.pick(&taking),
        };
        self.event((event, grade), place);
    }

    /// At an empty grade, a small one and a large one.
    fn enter_full(&mut self, place: u32) {
        let table = self.table_in(place);
        let sizes: [fn(&Grade) -> bool; 3] = [
            |grade| !grade.is_occupied(),
            |grade| grade.is_occupied() && grade.obligors <= 100,
            |grade| grade.obligors > 100,
        ];
        for is_such in sizes {
            if let Some(grade) = grade_where(&mut self.random, &table, is_such) {
                self.event((SurvivorEnters, grade), place);
            }
        }
    }

    /// Events after which the table has more blocks or fewer, if such are found.
    fn change_blocks(&mut self, place: u32) {
        for _ in 0..4 {
            let table = self.table_in(place);
            let now = blocks(&table).len();
            let mut at = any_inside(&mut self.random, &table);
            for _ in 0..10 {
                match after(&table, at.0, at.1) {
                    Ok(after) if blocks(&after).len() != now => break,
                    _ => at = any_inside(&mut self.random, &table),
                }
            }
            self.event(at, place);
            self.ask_pool(place);
        }
    }

    /// Against a table over the same obligors in the other place, before and after firms of one
    /// of them change their grades; in the middle of a change the totals differ.
    fn turn_verdict(&mut self, place: u32) {
        let table = self.table_in(place);
        let other = partner(&mut self.random, &table);
        self.empty(3 - place);
        let draft = Draft::around(&mut self.random, &other);
        self.load(3 - place, draft);
        self.emit(Call::Compare);
        for _ in 0..self.random.between(3, 6) {
            self.change_grade(place);
            if self.random.chance(15) {
                self.emit(Call::CompareShares);
            }
        }
    }

    /// A firm changes its grade and the verdict with it, if one is found that does.
    fn change_grade(&mut self, place: u32) {
        let steps = self.turning_steps(place);
        let halfway = self.random.chance(20);
        for (index, &at) in steps.iter().enumerate() {
            if index == 1 && halfway {
                self.emit(Call::Compare);
            }
            self.event(at, place);
        }
        self.emit(Call::Compare);
    }

    fn turning_steps(&mut self, place: u32) -> Vec<At> {
        let table = self.table_in(place);
        let other = self.table_in(3 - place);
        let now = verdict_name(&verdict(&table, &other));
        let mut steps = vec![];
        for _ in 0..if table.occupied() <= 8 { 40 } else { 10 } {
            let tried = change_of_grade(&mut self.random, &table);
            if let Some(after) = booked(&table, &tried) {
                steps = tried;
                if verdict_name(&verdict(&after, &other)) != now {
                    break;
                }
            }
        }
        steps
    }

    /// The same events in one place and in the other.
    fn both_places(&mut self, place: u32) {
        let other = 3 - place;
        if !self.desk.is_loaded(other) {
            let table = BothPlaces.table(&mut self.random);
            let draft = Draft::around(&mut self.random, &table);
            self.load(other, draft);
        }
        for _ in 0..self.random.between(3, 5) {
            let table = self.table_in(place);
            let at = any_inside(&mut self.random, &table);
            self.event(at, place);
            if self.random.chance(40) {
                self.ask(other);
            }
            self.event(at, other);
            let write = self.write_call();
            self.emit(write);
        }
    }

    /// The desk's own book, read into the other place: the same table, until a firm changes its grade.
    fn load_back(&mut self, place: u32) {
        self.any_events(place, 2);
        let write = self.write_call();
        self.emit(write);
        let tables: Vec<Table> = [1, 2]
            .iter()
            .filter_map(|&place| self.desk.table(place).ok().cloned())
            .collect();
        let rater = if place == 1 { 1 } else { tables.len() as u32 };
        let book = book::write(&tables.iter().collect::<Vec<_>>());
        let other = 3 - place;
        self.empty(other);
        self.emit(Call::Load {
            place: other,
            rater,
            book,
        });
        self.emit(Call::Compare);
        self.change_grade(place);
        self.ask_pool(other);
    }

    /// Clear drops what the events have made; the same book has the table that they began with.
    fn load_anew(&mut self, place: u32, draft: Draft) {
        self.emit(Call::Clear { place });
        let event = self.random.pick(&EVERY_EVENT);
        let grade = self.random.pick(&[0, 1, 1, 41]);
        self.event((event, grade), place);
        self.load(place, draft);
        self.ask_pool(place);
        self.any_events(place, 2);
        let write = self.write_call();
        self.emit(write);
    }

    /// Events of which most are of one sort and at one of a few grades.
    fn drift(&mut self, place: u32) {
        let table = self.table_in(place);
        let grades = [(); 3].map(|_| any_inside(&mut self.random, &table).1);
        let leaning = self.random.pick(&[
            SurvivorEnters,
            SurvivorEnters,
            SurvivorLeaves,
            SurvivorDefaults,
            DefaultedRemoved,
        ]);
        for _ in 0..self.random.between(40, 120) {
            let table = self.table_in(place);
            let at = match self.random.chance(40) {
                true => (leaning, self.random.pick(&grades)),
                false => mostly_accepted(&mut self.random, &table),
            };
            self.event(at, place);
            if self.random.chance(10) {
                self.ask(place);
            }
        }
    }
}

/// Any event at a grade of the table, the best and the worst one more often than others.
fn any_inside(random: &mut Random, table: &Table) -> At {
    let grades = table.grades.len() as u32;
    let any = random.between(1, grades.into()) as u32;
    let grade = random.weighted(&[(1, 1), (1, grades), (8, any)]);
    (random.pick(&EVERY_EVENT), grade)
}

/// Any event at a grade of the table, and another one if it is refused, and so on.
fn mostly_accepted(random: &mut Random, table: &Table) -> At {
    let mut at = any_inside(random, table);
    for _ in 0..4 {
        if after(table, at.0, at.1).is_err() {
            at = any_inside(random, table);
        }
    }
    at
}

/// Behind the grades of any table, or as one of the table's own in its last bits.
fn far_outside(random: &mut Random, table: &Table) -> u32 {
    let behind = MAX_GRADES.max(table.grades.len() + 1) as u32;
    random.pick(&[
        behind,
        41.max(behind),
        256 + 1,
        65_536 + 1,
        (1 << 31) + 1,
        u32::MAX,
    ])
}

/// An event at a grade of the table that is refused there; any, if none is.
fn any_refused(random: &mut Random, table: &Table) -> At {
    let refused: Vec<At> = (1..=table.grades.len() as u32)
        .flat_map(|grade| EVERY_EVENT.map(|event| (event, grade)))
        .filter(|&(event, grade)| after(table, event, grade).is_err())
        .collect();
    match refused.is_empty() {
        true => any_inside(random, table),
        false => random.pick(&refused),
    }
}

/// The table after these events; none if one is refused.
fn booked(table: &Table, steps: &[At]) -> Option<Table> {
    steps
        .iter()
        .try_fold(table.clone(), |table, &(event, grade)| {
            after(&table, event, grade).ok()
        })
}

/// A firm goes at one grade and comes at another, in this order or the other: the totals are as
/// before.
fn change_of_grade(random: &mut Random, table: &Table) -> Vec<At> {
    let grades = table.grades.len() as u64;
    let [from, to] = [(); 2].map(|_| random.between(1, grades) as u32);
    let (goes, comes) = match random.chance(50) {
        true => (SurvivorLeaves, &[SurvivorEnters][..]),
        false => (DefaultedRemoved, &[SurvivorEnters, SurvivorDefaults][..]),
    };
    let mut steps: Vec<At> = comes.iter().map(|&event| (event, to)).collect();
    let first = if random.chance(50) { 0 } else { steps.len() };
    steps.insert(first, (goes, from));
    steps
}
