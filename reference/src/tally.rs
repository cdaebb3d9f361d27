//! How often one run exercises which operations, verdicts, kinds of Pietra, rates at the limits of
//! bands, empty grades, announced rates, tables of two lenders, raters of whole books, events,
//! refusal numbers, books cut wrong, pairs of faults, buffers and scenes.

use crate::announced_tally::AnnouncedTally;
use crate::answer::{verdict_name, Answer};
use crate::band_scene::{every_edge, Edge, SIDES};
use crate::book::MAX_RATERS;
use crate::compare::plan;
use crate::cut_scene::Cut;
use crate::desk::Desk;
use crate::empty_tally::EmptyTally;
use crate::events_tally::EventsTally;
use crate::generate::{Marks, Script};
use crate::measures::{heights, Measures};
use crate::pair_scene::{every_pair, FaultPair, Where};
use crate::pooling::{band, blocks, Rate};
use crate::script::Call;
use crate::shares_tally::SharesTally;
use crate::shortlist::shortlist;
use crate::shortlist_tally::ShortlistTally;
use crate::table::{Refusal, Table};
use std::cmp::Ordering;
use std::collections::BTreeMap;

#[derive(Default)]
pub struct Tally {
    scripts: usize,
    broken_scripts: usize,
    /// Accepted and refused calls of each operation.
    operations: BTreeMap<&'static str, (usize, usize)>,
    verdicts: BTreeMap<&'static str, usize>,
    /// On which side the curve is farthest from the diagonal, and where else it is as far.
    pietras: BTreeMap<(&'static str, &'static str), usize>,
    /// Blocks of accepted pools whose rate is at most 1 ppm from a limit.
    edges: BTreeMap<Edge, usize>,
    /// The other blocks of accepted pools.
    far_rates: BTreeMap<&'static str, usize>,
    empty: EmptyTally,
    announced: AnnouncedTally,
    shares: SharesTally,
    shortlist: ShortlistTally,
    events: EventsTally,
    /// For each refusal number, the calls of each operation.
    refusals: BTreeMap<Refusal, BTreeMap<&'static str, usize>>,
    cuts: BTreeMap<Cut, CutLoads>,
    pairs: BTreeMap<FaultPair, usize>,
    /// Lent buffers against what the call needs.
    buffers: BTreeMap<(&'static str, &'static str), usize>,
    scenes: BTreeMap<&'static str, usize>,
}

/// Loads of books that are cut wrong in one manner.
#[derive(Default)]
struct CutLoads {
    /// Of the first rater, of one between, of the last.
    by_rater: [usize; 3],
    answers: Answers,
}

/// Fits of buffers that are too short.
const FOR_OCCUPIED: &str = "just enough for the occupied grades";
const FOR_LISTED: &str = "just enough for the raters listed";

/// The columns of a table of verdicts.
pub(crate) const VERDICTS: [&str; 4] = ["equal", "first", "second", "crossing"];

/// How often each refusal number was the answer, or none.
pub(crate) type Answers = BTreeMap<Option<Refusal>, usize>;

impl Tally {
    /// The tally of all scripts of one run.
    pub fn of_run(seed: u64, calls: usize) -> Tally {
        let mut tally = Tally::default();
        for (seed, calls) in plan(seed, calls) {
            let (script, marks) = Script::with_marks(seed, calls);
            tally.add_script(&script, &marks);
        }
        tally
    }

    fn add_script(&mut self, script: &Script, marks: &Marks) {
        self.scripts += 1;
        self.broken_scripts += usize::from(!script.tail.is_empty());
        self.events.begin_script();
        let mut desk = Desk::fresh();
        for (index, (call, scene)) in script.calls.iter().zip(&script.scenes).enumerate() {
            *self.scenes.entry(scene).or_default() += 1;
            self.add_buffer(&desk, call);
            self.add_pietra(&desk, call);
            let before = desk.clone();
            let answer = desk.call(call);
            self.add_answer(call.name(), &answer);
            let course = marks.courses.get(&index).copied();
            self.events.add(&before, call, &answer, course);
            self.add_blocks(&desk, call, &answer);
            let rows = marks.rows.get(&index).copied();
            self.empty.add(&desk, call, &answer, rows);
            let rates = marks.rates.get(&index).copied();
            self.announced.add(call, &answer, rates);
            let lenders = marks.lenders.get(&index).copied();
            self.shares.add(&desk, &answer, lenders);
            let rivals = marks.rivals.get(&index).copied();
            let fault = marks.faults.get(&index).copied();
            self.shortlist.add(call, &answer, rivals, fault);
            if let Some(&cut) = marks.cuts.get(&index) {
                self.add_cut(cut, call, &answer);
            }
            if let Some(&pair) = marks.pairs.get(&index) {
                *self.pairs.entry(pair).or_default() += 1;
            }
        }
    }

    fn add_cut(&mut self, cut: Cut, call: &Call, answer: &Answer) {
        let Call::Load { rater, book, .. } = call else {
            return;
        };
        let loads = self.cuts.entry(cut).or_default();
        let position = match *rater {
            1 => 0,
            rater if rater < book[0].into() => 1,
            _ => 2,
        };
        loads.by_rater[position] += 1;
        *loads.answers.entry(answer.refusal()).or_default() += 1;
    }

    fn add_answer(&mut self, operation: &'static str, answer: &Answer) {
        let counts = self.operations.entry(operation).or_default();
        match answer.refusal() {
            None => counts.0 += 1,
            Some(number) => {
                counts.1 += 1;
                let by_operation = self.refusals.entry(number).or_default();
                *by_operation.entry(operation).or_default() += 1;
            }
        }
        if let Answer::Compare(Ok(verdict)) = answer {
            *self.verdicts.entry(verdict_name(verdict)).or_default() += 1;
        }
    }

    fn add_buffer(&mut self, desk: &Desk, call: &Call) {
        let mut of_fewer = None;
        let (needed, lent) = match *call {
            Call::Pool { place, length } => {
                let table = desk.table(place).ok();
                of_fewer = table.map(|table| (3 * table.occupied(), FOR_OCCUPIED));
                (table.map(|table| 3 * table.grades.len()), length)
            }
            Call::Write { length } => (desk.book_length(), length),
            Call::Shortlist { length, ref book } => {
                let listed = shortlist(book, &mut [0; MAX_RATERS]).ok();
                of_fewer = listed.map(|listed| (listed, FOR_LISTED));
                (listed.map(|_| book[0].into()), length)
            }
            _ => return,
        };
        let Some(needed) = needed else { return };
        let lent = lent as usize;
        let fit = match of_fewer {
            _ if lent == needed => "exact",
            _ if lent > needed => "longer",
            Some((fewer, fit)) if lent == fewer => fit,
            _ if lent + 1 == needed => "one too short",
            _ => "shorter still",
        };
        *self.buffers.entry((call.name(), fit)).or_default() += 1;
    }

    fn add_pietra(&mut self, desk: &Desk, call: &Call) {
        let Call::Measures { place } = *call else {
            return;
        };
        if let (Ok(table), Ok(measures)) = (desk.table(place), desk.measures(place)) {
            let kind = pietra_kind(table, &measures);
            *self.pietras.entry(kind).or_default() += 1;
        }
    }

    /// Pool leaves the desk as it was.
    fn add_blocks(&mut self, desk: &Desk, call: &Call, answer: &Answer) {
        let (Call::Pool { place, .. }, None) = (call, answer.refusal()) else {
            return;
        };
        for block in desk.table(*place).iter().flat_map(|table| blocks(table)) {
            let times = match Edge::of(&block.rate) {
                Some(edge) => self.edges.entry(edge).or_default(),
                None => self.far_rates.entry(far_kind(&block.rate)).or_default(),
            };
            *times += 1;
        }
    }

    /// The tables, as Markdown.
    pub fn markdown(&self) -> String {
        [
            self.operation_table(),
            two_columns("| verdict | times |", &self.verdicts),
            self.pietra_table(),
            self.edge_table(),
            two_columns("| blocks near no limit | times |", &self.far_rates),
            self.empty.run_table(),
            self.empty.row_table(),
            self.empty.load_table(),
            self.announced.case_table(),
            self.announced.fall_table(),
            two_columns(
                "| announced rates of loaded tables | times |",
                &self.announced.loaded,
            ),
            self.shares.case_table(),
            self.shares.total_table(),
            two_columns(
                "| highest break-even price on shares | times |",
                &self.shares.prices,
            ),
            self.shares.place_table(),
            self.shortlist.case_table(),
            self.shortlist.rater_table(),
            self.shortlist.single_table(),
            self.shortlist.pair_table(),
            self.shortlist.book_table(),
            self.events.course_table(),
            self.events.spot_table(),
            two_columns("| after an event | times |", &self.events.blocks),
            self.events.turn_table(),
            self.events.question_table(),
            self.refusal_table(),
            self.cut_table(),
            self.pair_table(),
            self.buffer_table(),
            two_columns("| scene | calls |", &self.scenes),
        ]
        .join("\n")
    }

    fn operation_table(&self) -> String {
        let mut text =
            "| operation | calls | accepted | refused |\n| --- | --- | --- | --- |\n".to_string();
        let mut calls = 0;
        for (operation, (accepted, refused)) in &self.operations {
            let sum = accepted + refused;
            text += &format!("| {operation} | {sum} | {accepted} | {refused} |\n");
            calls += sum;
        }
        let (scripts, broken) = (self.scripts, self.broken_scripts);
        text + &format!(
            "\n{calls} calls in {scripts} scripts, {broken} of which break off (`end`).\n"
        )
    }

    fn pietra_table(&self) -> String {
        let mut text =
            "| Pietra | as far from the diagonal | times |\n| --- | --- | --- |\n".to_string();
        for ((side, as_far), times) in &self.pietras {
            text += &format!("| {side} | {as_far} | {times} |\n");
        }
        text
    }

    fn edge_table(&self) -> String {
        let mut text = "\
            | limit | of band | blocks 1 ppm below it | below by less | at it \
            | above by less | 1 ppm above |\n\
            | --- | --- | --- | --- | --- | --- | --- |\n"
            .to_string();
        for edges in every_edge().chunks(SIDES.len()) {
            let times = |edge| self.edges.get(edge).copied().unwrap_or(0).to_string();
            let cells: Vec<String> = edges.iter().map(times).collect();
            let (limit, band, cells) = (edges[0].limit(), edges[0].band, cells.join(" | "));
            text += &format!("| {limit} ppm | {band} | {cells} |\n");
        }
        text
    }

    fn refusal_table(&self) -> String {
        let mut text = "| refusal | times | by operation |\n| --- | --- | --- |\n".to_string();
        for (number, by_operation) in &self.refusals {
            let times: usize = by_operation.values().sum();
            let parts: Vec<String> = by_operation
                .iter()
                .map(|(operation, times)| format!("{operation} {times}"))
                .collect();
            text += &format!("| {number} | {times} | {} |\n", parts.join(", "));
        }
        text
    }

    fn cut_table(&self) -> String {
        let mut text = "\
            | cut wrong | table | then | first, middle, last rater | answers |\n\
            | --- | --- | --- | --- | --- |\n"
            .to_string();
        for (cut, CutLoads { by_rater, answers }) in &self.cuts {
            let [first, middle, last] = by_rater;
            let answers = answer_counts(answers);
            text += &format!("| {cut} | {first}, {middle}, {last} | {answers} |\n");
        }
        text
    }

    /// One row for where the two faults stand.
    fn pair_table(&self) -> String {
        let mut times: BTreeMap<Where, Vec<usize>> = BTreeMap::new();
        for pair in every_pair() {
            let loads = self.pairs.get(&pair).copied().unwrap_or(0);
            times.entry(pair.stand).or_default().push(loads);
        }
        let mut lines = vec![
            "| two faults | pairs | loads | fewest of a pair |".to_string(),
            "| --- | --- | --- | --- |".to_string(),
        ];
        for (stand, times) in times {
            let (pairs, loads) = (times.len(), times.iter().sum::<usize>());
            let fewest = times.into_iter().min().unwrap_or(0);
            lines.push(format!("| {stand} | {pairs} | {loads} | {fewest} |"));
        }
        lines.join("\n") + "\n"
    }

    fn buffer_table(&self) -> String {
        let mut text = "| lent buffer | fit | times |\n| --- | --- | --- |\n".to_string();
        for ((operation, fit), times) in &self.buffers {
            text += &format!("| {operation} | {fit} | {times} |\n");
        }
        text
    }
}

fn two_columns(head: &str, times: &BTreeMap<&'static str, usize>) -> String {
    let mut text = format!("{head}\n| --- | --- |\n");
    for (kind, times) in times {
        text += &format!("| {kind} | {times} |\n");
    }
    text
}

/// Whether a load with this answer has found the layout sound.
pub(crate) fn comes_to_rows(refusal: Option<Refusal>) -> bool {
    refusal.is_none_or(|number| (8..=11).contains(&number) || number == 34)
}

pub(crate) fn loads_and_answers(answers: Option<&Answers>) -> (usize, String) {
    answers.map_or((0, String::new()), |answers| {
        (answers.values().sum(), answer_counts(answers))
    })
}

/// How often each refusal number was the answer, or none.
pub(crate) fn answer_counts(answers: &Answers) -> String {
    let counts: Vec<String> = answers
        .iter()
        .map(|(answer, times)| match answer {
            Some(number) => format!("{number}: {times}"),
            None => format!("ok: {times}"),
        })
        .collect();
    counts.join(", ")
}

/// What kind of rate this is that no limit is near to.
fn far_kind(rate: &Rate) -> &'static str {
    match (rate.defaults, rate.survivors(), band(rate)) {
        (0, ..) => "rate 0",
        (_, 0, _) => "rate 1",
        (_, _, 14) => "above the highest limit",
        _ => "between 0 and the highest limit",
    }
}

/// The side of the diagonal that Pietra is on, and what else is as far from it.
fn pietra_kind(table: &Table, measures: &Measures) -> (&'static str, &'static str) {
    let height = measures.pietra.0;
    let side = match height.cmp(&0) {
        Ordering::Greater => "above the diagonal",
        Ordering::Less => "below the diagonal",
        Ordering::Equal => return ("on the diagonal", "all cutoffs"),
    };
    let heights = heights(table);
    let later = &heights[measures.pietra_cutoff as usize + 1..];
    let as_far = match height.signum() - height {
        _ if later.contains(&-height) => "a later cutoff on the other side",
        _ if later.contains(&height) => "a later cutoff on the same side",
        one_less if one_less != 0 && heights.contains(&one_less) => {
            "none, but 1 less on the other side"
        }
        _ => "none",
    };
    (side, as_far)
}
