//! The generator of scripts: scenes of a few calls each, one after the other on the same desk.
//! The same seed and number of calls, the same script.

use crate::announced_scene::{rates_in_turn, Rates};
use crate::band_scene::{edges_in_turn, Edge};
use crate::courses::{courses_in_turn, Course};
use crate::cut_scene::{every_cut, Cut};
use crate::desk::Desk;
use crate::draft::Draft;
use crate::empty_scene::{every_pattern, Pattern};
use crate::events::Event;
use crate::events_scene::{LONG_LIST, SCENES_OF_EVENTS};
use crate::lenders::{lenders_in_turn, Lenders};
use crate::nearly_empty_scene::{every_rows, Rows};
use crate::pair_scene::{every_pair, FaultPair};
use crate::random::Random;
use crate::rivals::{every_rivals, Rivals};
use crate::scenes::{Scene, SCENES};
use crate::script::{decode, Call};
use crate::shares_scene::{faults_in_turn, Holds};
use crate::shortlist_scene::{every_fault, Fault};
use crate::spots::{trials, Spot};
use crate::table::Table;
use crate::tail::broken_tail;
use std::collections::BTreeMap;

/// A script of more calls is about events.
pub const MOST_OF_ALL_SCENES: usize = 3_000;

/// A script, with the name of the scene that each call belongs to.
pub struct Script {
    pub calls: Vec<Call>,
    pub scenes: Vec<&'static str>,
    /// Bytes behind the last call that no program can carry out; none if the script just ends.
    pub tail: Vec<u8>,
}

/// What scenes have done to books, by the index of the call that loads or lists them, and to the
/// tables on the desk, by the index of the call that compares them or begins to change them.
#[derive(Default)]
pub(crate) struct Marks {
    pub cuts: BTreeMap<usize, Cut>,
    pub pairs: BTreeMap<usize, FaultPair>,
    pub rows: BTreeMap<usize, Rows>,
    pub rates: BTreeMap<usize, Rates>,
    pub lenders: BTreeMap<usize, Lenders>,
    pub rivals: BTreeMap<usize, Rivals>,
    pub faults: BTreeMap<usize, Fault>,
    pub courses: BTreeMap<usize, Course>,
}

impl Script {
    pub fn generate(seed: u64, calls: usize) -> Script {
        Script::with_marks(seed, calls).0
    }

    /// The script, and what its scenes have done.
    pub(crate) fn with_marks(seed: u64, calls: usize) -> (Script, Marks) {
        let mut generator = Generator::of_seed(seed);
        if calls > MOST_OF_ALL_SCENES {
            generator.long_list(calls / 2);
        }
        while generator.calls.len() < calls {
            match calls > MOST_OF_ALL_SCENES {
                true => generator.scene_of_events(),
                false => generator.scene(),
            }
        }
        generator.calls.truncate(calls);
        generator.scenes.truncate(calls);
        let tail = match generator.random.chance(60) {
            true => broken_tail(&mut generator.random),
            false => vec![],
        };
        let script = Script {
            calls: generator.calls,
            scenes: generator.scenes,
            tail,
        };
        (script, generator.marks)
    }

    /// The script that these bytes are.
    pub fn decoded(bytes: &[u8]) -> Script {
        let (calls, _) = decode(bytes);
        let carried_out: usize = calls.iter().map(|call| call.encode().len()).sum();
        Script {
            scenes: vec![""; calls.len()],
            calls,
            tail: bytes[carried_out..].to_vec(),
        }
    }

    pub fn encode(&self) -> Vec<u8> {
        let mut bytes: Vec<u8> = self.calls.iter().flat_map(Call::encode).collect();
        bytes.extend(&self.tail);
        bytes
    }
}

/// A script in the making.
pub struct Generator {
    pub random: Random,
    /// The desk as the calls so far leave it.
    pub desk: Desk,
    calls: Vec<Call>,
    scenes: Vec<&'static str>,
    marks: Marks,
    cuts_to_come: Vec<Cut>,
    pairs_to_come: Vec<FaultPair>,
    edges_to_come: Vec<Edge>,
    patterns_to_come: Vec<Pattern>,
    rows_to_come: Vec<Rows>,
    rates_to_come: Vec<Rates>,
    lenders_to_come: Vec<Lenders>,
    faults_to_come: Vec<[Holds; 2]>,
    rivals_to_come: Vec<Rivals>,
    faults_of_books_to_come: Vec<Fault>,
    courses_to_come: Vec<Course>,
    trials_to_come: Vec<(Spot, Event)>,
    name: &'static str,
}

impl Generator {
    fn of_seed(seed: u64) -> Generator {
        Generator {
            random: Random::of_seed(seed),
            desk: Desk::fresh(),
            calls: vec![],
            scenes: vec![],
            marks: Marks::default(),
            cuts_to_come: vec![],
            pairs_to_come: vec![],
            edges_to_come: vec![],
            patterns_to_come: vec![],
            rows_to_come: vec![],
            rates_to_come: vec![],
            lenders_to_come: vec![],
            faults_to_come: vec![],
            rivals_to_come: vec![],
            faults_of_books_to_come: vec![],
            courses_to_come: vec![],
            trials_to_come: vec![],
            name: "",
        }
    }

    fn scene(&mut self) {
        let (name, scene) = self.random.weighted(&SCENES);
        self.play((name, scene));
    }

    /// Now and then another scene, for the tables that events have left.
    fn scene_of_events(&mut self) {
        match self.random.chance(20) {
            true => self.scene(),
            false => {
                let scene = self.random.weighted(&SCENES_OF_EVENTS);
                self.play(scene);
            }
        }
    }

    fn play(&mut self, (name, scene): Scene) {
        self.name = name;
        scene(self);
    }

    /// Events on one table, until the script has so many calls.
    fn long_list(&mut self, calls: usize) {
        self.name = LONG_LIST;
        let place = self.begin_list();
        while self.calls.len() < calls {
            self.lengthen_list(place);
        }
    }

    pub fn emit(&mut self, call: Call) {
        self.desk.call(&call);
        self.calls.push(call);
        self.scenes.push(self.name);
    }

    /// Clears a place if it is loaded.
    pub fn empty(&mut self, place: u32) {
        if self.desk.is_loaded(place) {
            self.emit(Call::Clear { place });
        }
    }

    pub fn load(&mut self, place: u32, draft: Draft) {
        let (rater, book) = (draft.rater, draft.bytes);
        self.emit(Call::Load { place, rater, book });
    }

    pub(crate) fn next_cut(&mut self) -> Cut {
        self.random.deal(&mut self.cuts_to_come, every_cut)
    }

    pub(crate) fn next_pair(&mut self) -> FaultPair {
        self.random.deal(&mut self.pairs_to_come, every_pair)
    }

    pub(crate) fn next_edge(&mut self) -> Edge {
        self.random.deal(&mut self.edges_to_come, edges_in_turn)
    }

    pub(crate) fn next_pattern(&mut self) -> Pattern {
        self.random.deal(&mut self.patterns_to_come, every_pattern)
    }

    pub(crate) fn next_rows(&mut self) -> Rows {
        self.random.deal(&mut self.rows_to_come, every_rows)
    }

    pub(crate) fn next_rates(&mut self) -> Rates {
        self.random.deal(&mut self.rates_to_come, rates_in_turn)
    }

    pub(crate) fn next_lenders(&mut self) -> Lenders {
        self.random.deal(&mut self.lenders_to_come, lenders_in_turn)
    }

    pub(crate) fn next_fault(&mut self) -> [Holds; 2] {
        self.random.deal(&mut self.faults_to_come, faults_in_turn)
    }

    pub(crate) fn next_rivals(&mut self) -> Rivals {
        self.random.deal(&mut self.rivals_to_come, every_rivals)
    }

    pub(crate) fn next_fault_of_book(&mut self) -> Fault {
        self.random
            .deal(&mut self.faults_of_books_to_come, every_fault)
    }

    pub(crate) fn next_course(&mut self) -> Course {
        self.random.deal(&mut self.courses_to_come, courses_in_turn)
    }

    pub(crate) fn next_trial(&mut self) -> (Spot, Event) {
        self.random.deal(&mut self.trials_to_come, trials)
    }

    /// A load of a book that is cut wrong in this manner.
    pub(crate) fn load_cut(&mut self, place: u32, draft: Draft, cut: Cut) {
        self.marks.cuts.insert(self.calls.len(), cut);
        self.load(place, draft);
    }

    /// A load of a book that has these two faults.
    pub(crate) fn load_faulty(&mut self, place: u32, draft: Draft, pair: FaultPair) {
        self.marks.pairs.insert(self.calls.len(), pair);
        self.load(place, draft);
    }

    /// A load of such a table of empty grades.
    pub(crate) fn load_rows(&mut self, place: u32, draft: Draft, rows: Rows) {
        self.marks.rows.insert(self.calls.len(), rows);
        self.load(place, draft);
    }

    /// A load of a table with such announced rates.
    pub(crate) fn load_rates(&mut self, place: u32, draft: Draft, rates: Rates) {
        self.marks.rates.insert(self.calls.len(), rates);
        self.load(place, draft);
    }

    /// The second comparison of such tables.
    pub(crate) fn compare_lenders(&mut self, lenders: Lenders) {
        self.marks.lenders.insert(self.calls.len(), lenders);
        self.emit(Call::CompareShares);
    }

    /// The shortlist of such raters.
    pub(crate) fn list_rivals(&mut self, length: u32, book: Vec<u8>, rivals: Rivals) {
        self.marks.rivals.insert(self.calls.len(), rivals);
        self.emit(Call::Shortlist { length, book });
    }

    /// The shortlist of a book with such faults.
    pub(crate) fn list_faulty(&mut self, length: u32, book: Vec<u8>, fault: Fault) {
        self.marks.faults.insert(self.calls.len(), fault);
        self.emit(Call::Shortlist { length, book });
    }

    /// The next call is the first of such a course.
    pub(crate) fn mark_course(&mut self, course: Course) {
        self.marks.courses.insert(self.calls.len(), course);
    }

    pub fn load_pair(&mut self, (first, second): (Table, Table)) {
        self.empty(1);
        self.empty(2);
        if self.random.chance(50) {
            let mut draft = Draft::of_tables(&mut self.random, &[first, second], 1);
            self.load(1, draft.clone());
            draft.rater = 2;
            self.load(2, draft);
        } else {
            let draft = Draft::around(&mut self.random, &first);
            self.load(1, draft);
            let draft = Draft::around(&mut self.random, &second);
            self.load(2, draft);
        }
    }
}
